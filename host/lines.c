#include "lines.h"

#include <errno.h>
#include <poll.h>
#include <stdarg.h>
#include <stdbool.h>
#include <stdint.h>
#include <stdio.h>
#include <string.h>
#include <unistd.h>

/* A longer line ends in dots; an octet is shown as four at most. */
enum { MOST_WORDS = 1 << 16, SHOWN_AS = 4, PATIENCE = 10000 };

static char words[MOST_WORDS];
static bool foreign[MOST_WORDS]; /* octets that are shown escaped, though they are plain */
static size_t length;
static const char *fault;

/* The octets of the UTF-8 sequence at the text, and its character; 0 where there is none. */
static size_t sequence_at(const unsigned char *text, uint32_t *character)
{
    size_t count = text[0] < 0x80 ? 1 : text[0] < 0xE0 ? 2 : text[0] < 0xF0 ? 3 : 4;
    static const uint32_t least[] = {0, 0, 0x80, 0x800, 0x10000};
    if ((text[0] >= 0x80 && text[0] < 0xC2) || text[0] > 0xF4) {
        return 0;
    }
    *character = count == 1 ? text[0] : text[0] & (0x7Fu >> count);
    for (size_t k = 1; k < count; k++) {
        if ((text[k] & 0xC0) != 0x80) {
            return 0;
        }
        *character = *character << 6 | (text[k] & 0x3F);
    }
    bool known = *character >= least[count] && *character <= 0x10FFFF &&
                 (*character < 0xD800 || *character > 0xDFFF);
    return known ? count : 0;
}

/* Controls, marks that end a line or turn its direction, and what is not seen at all (Unicode's
 * Default_Ignorable_Code_Point): first and last of each range. */
static const uint32_t not_plain[][2] = {
    {0, 0x1F},        {'\\', '\\'},     {0x7F, 0x9F},       {0xAD, 0xAD},       {0x34F, 0x34F},
    {0x61C, 0x61C},   {0x115F, 0x1160}, {0x17B4, 0x17B5},   {0x180B, 0x180F},   {0x200B, 0x200F},
    {0x2028, 0x202E}, {0x2060, 0x206F}, {0x3164, 0x3164},   {0xFE00, 0xFE0F},   {0xFEFF, 0xFEFF},
    {0xFFA0, 0xFFA0}, {0xFFF0, 0xFFFB}, {0x1BCA0, 0x1BCA3}, {0x1D173, 0x1D17A}, {0xE0000, 0xE0FFF}};

static bool is_plain(uint32_t c)
{
    for (size_t k = 0; k < sizeof not_plain / sizeof *not_plain; k++) {
        if (c >= not_plain[k][0] && c <= not_plain[k][1]) {
            return false;
        }
    }
    return true;
}

/* The words escaped, and a newline; answers how many octets. */
static size_t escape(char *shown)
{
    const unsigned char *first = (const unsigned char *)words, *at = first;
    char *to = shown;
    while (*at != 0) {
        uint32_t character = 0;
        size_t count = sequence_at(at, &character);
        if (count > 0 && is_plain(character) && !foreign[at - first]) {
            memcpy(to, at, count);
            to += count;
        } else if (*at == '\n' || *at == '\t' || *at == '\\') {
            count = 1;
            *to++ = '\\';
            *to++ = *at == '\n' ? 'n' : *at == '\t' ? 't' : '\\';
        } else {
            count = 1;
            to += sprintf(to, "\\x%02X", *at);
        }
        at += count;
    }
    *to++ = '\n';
    return (size_t)(to - shown);
}

static bool write_all(int number, const char *octets, size_t count)
{
    while (count > 0) {
        ssize_t written = write(number, octets, count);
        struct pollfd room = {number, POLLOUT, 0};
        if (written > 0) {
            octets += written;
            count -= (size_t)written;
        } else if (written == 0 ||
                   (errno != EINTR && (errno != EAGAIN || poll(&room, 1, PATIENCE) <= 0))) {
            return false;
        }
    }
    return true;
}

static void append(const char *form, va_list values)
{
    int more = vsnprintf(words + length, sizeof words - length, form, values);
    length += more < 0 ? 0 : (size_t)more;
    if (length >= sizeof words) {
        length = sizeof words - 1;
        memcpy(words + length - 3, "...", 3);
    }
}

/* Once a line could not be written to standard output, none is tried there again: lines stay in
 * their order. */
static void end_line(bool output)
{
    static char shown[SHOWN_AS * MOST_WORDS + 1];
    size_t count = escape(shown);
    memset(foreign, 0, sizeof foreign);
    length = 0;
    words[0] = 0;
    errno = 0;
    if (output && fault == NULL && !write_all(STDOUT_FILENO, shown, count)) {
        fault = strerror(errno);
    }
    if (!output || fault != NULL) {
        write_all(STDERR_FILENO, shown, count);
    }
}

void add_words(const char *form, ...)
{
    va_list values;
    va_start(values, form);
    append(form, values);
    va_end(values);
}

void add_name(const char *name)
{
    size_t first = length;
    add_words("%s", name);
    for (size_t k = first; k < length; k++) {
        foreign[k] = words[k] == ';';
    }
}

void say_line(const char *form, ...)
{
    va_list values;
    va_start(values, form);
    append(form, values);
    va_end(values);
    end_line(true);
}

void say_lines(const char *text)
{
    for (size_t count; *text != 0; text += count + 1) {
        count = strcspn(text, "\n");
        say_line("%.*s", (int)count, text);
    }
}

void complain(const char *form, ...)
{
    va_list values;
    va_start(values, form);
    length = 0;
    memset(foreign, 0, sizeof foreign);
    append(form, values);
    va_end(values);
    end_line(false);
}

const char *output_fault(void)
{
    return fault;
}
