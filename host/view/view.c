/* The viewer: a page into a picture, each pixel in its true colour or drawn as unseen.
 * docs/VIEWER.md is the manual. */
#include <errno.h>
#include <inttypes.h>
#include <stdlib.h>
#include <string.h>
#include <unistd.h>

#include "book.h"
#include "choices.h"
#include "clock.h"
#include "colour_notes.h"
#include "compose.h"
#include "layers.h"
#include "lines.h"
#include "new_file.h"
#include "picture.h"
#include "screen.h"

enum { LOOK_EACH = 16 }; /* lines between two looks at the time */

/* A run over the stripes that are shown, from the upper edge of the first. */
typedef struct {
    const options *asked;
    const book *opened;
    size_t from, to; /* stripes */
    uint32_t width, height;
    double began, told;
    double used; /* seconds of the processor by then: a program that became this one took some */
    seconds decoders_left;
    bool late;                                      /* no time is left */
    double decoding, composing, colouring, writing; /* seconds spent so far */
    uint64_t unseen;
    uint32_t y, composed; /* rows done, and those of them that were composed in time */
    picture *picture;     /* null where none is asked for */
    screen *colours;
    composer composer;
    uint8_t *row; /* that is shown */
    size_t line_unseen;
} run;

static bool set_up(run *r, const options *asked, const book *opened)
{
    *r = (run){
        .asked = asked,
        .opened = opened,
        .to = opened->stripes,
        .began = seconds_now(),
        .used = processor_seconds(),
        .decoders_left = {all_decoders * asked->seconds, all_decoders * asked->clock_seconds}};
    if (asked->one_stripe) {
        r->from = asked->stripe;
        r->to = r->from + 1;
    }
    r->width = spirerook_record_width(mask_of_stripe(opened, r->from));
    for (size_t stripe = r->from; stripe < r->to; stripe++) {
        r->height += spirerook_record_height(mask_of_stripe(opened, stripe));
    }
    r->colours = calloc(1, sizeof *r->colours);
    r->row = malloc((size_t)r->width * 3);
    if (asked->plain_unseen && r->colours != NULL) {
        draw_plain(r->colours, asked->unseen);
    }
    bool has_lines = begin_composer(&r->composer, asked, opened, r->width);
    return has_lines && r->colours != NULL && r->row != NULL;
}

static void clear_away(run *r)
{
    if (r->picture != NULL) {
        drop_picture(r->picture);
    }
    end_composer(&r->composer);
    free(r->colours);
    free(r->row);
}

/* On a terminal, and where it takes long. */
static void tell_progress(run *r)
{
    double now = seconds_now();
    if (now - r->began > 1 && now - r->told > 0.2 && isatty(STDERR_FILENO)) {
        fprintf(stderr, "\rline %u of %u ", (unsigned)r->y, (unsigned)r->height);
        r->told = now;
    }
}

static void end_progress(run *r)
{
    if (r->told > 0) {
        fprintf(stderr, "\r%40s\r", "");
        r->told = 0;
    }
}

/* A line like the one before it makes the same row, but for the squares of unseen pixels, which
 * change with the rows. */
static void colour_line(run *r)
{
    const composer *c = &r->composer;
    bool like = c->before != NULL && memcmp(c->line, c->before, c->line_octets) == 0;
    if (!like || (r->line_unseen > 0 && r->y % SQUARE == 0)) {
        r->line_unseen = row_of_line(r->colours, c->line, r->width, r->y, r->row);
    }
    r->unseen += r->line_unseen;
}

/* False, and said, where the library refused a line, or all lines of a stripe at once. */
static bool is_composed(run *r, spirerook_answer done)
{
    const composer *c = &r->composer;
    char line[32] = "";
    if (done.number != SPIREROOK_DONE) {
        if (c->band == NULL) {
            snprintf(line, sizeof line, ", line %u", (unsigned)c->next);
        }
        end_progress(r);
        complain("%s: stripe %zu%s: refused: %s (%u) at %u", r->asked->page, c->stripe, line,
                 spirerook_name(done.number), (unsigned)done.number, (unsigned)done.place);
    }
    return done.number == SPIREROOK_DONE;
}

/* Until no more lines are composed. */
static seconds seconds_left(const run *r)
{
    return (seconds){all_lines * r->asked->seconds - (processor_seconds() - r->used),
                     all_lines * r->asked->clock_seconds - (seconds_now() - r->began)};
}

/* The system is asked now and then: a line takes a millisecond at most. */
static bool is_time_left(run *r)
{
    if (r->y % LOOK_EACH == 0) {
        seconds left = seconds_left(r);
        r->late = left.processor <= 0 || left.clock <= 0;
    }
    return !r->late;
}

/* A row of the picture: the line composed and coloured or, when time is up, all unseen. */
static bool show_line(run *r)
{
    double began = seconds_now(), composed = began;
    if (r->composed == r->y && is_time_left(r)) {
        if (!is_composed(r, next_line(&r->composer))) {
            return false;
        }
        composed = seconds_now();
        colour_line(r);
        r->composed++;
    } else {
        if (r->y == r->composed || r->y % SQUARE == 0) {
            unseen_row(r->colours, r->width, r->y, r->row);
        }
        r->unseen += r->width;
    }
    double coloured = seconds_now();
    bool good = r->picture == NULL || put_row(r->picture, r->row);
    r->y++;
    r->composing += composed - began;
    r->colouring += coloured - composed;
    r->writing += seconds_now() - coloured;
    return good;
}

static void read_stripe(run *r, size_t stripe, stripe_layers *read)
{
    double began = seconds_now();
    seconds left = seconds_left(r);
    if (left.processor < r->decoders_left.processor) {
        r->decoders_left.processor = left.processor;
    }
    if (left.clock < r->decoders_left.clock) {
        r->decoders_left.clock = left.clock;
    }
    read_layers(r->asked, r->opened, stripe, &r->decoders_left, read);
    r->decoding += seconds_now() - began;
}

static bool show_stripe(run *r, size_t stripe)
{
    stripe_layers read;
    uint32_t height = spirerook_record_height(mask_of_stripe(r->opened, stripe));
    read_stripe(r, stripe, &read);
    end_progress(r);
    tell_layers(r->asked, r->opened, stripe, &read);
    tell_progress(r);
    double began = seconds_now();
    bool good = is_composed(r, begin_lines(&r->composer, stripe, &read, seconds_left(r)));
    r->composing += seconds_now() - began;
    for (uint32_t line = 0; good && line < height; line++) {
        good = show_line(r);
        if (line % LOOK_EACH == 0) {
            tell_progress(r);
        }
    }
    began = seconds_now();
    end_lines(&r->composer);
    r->composing += seconds_now() - began;
    free_layers(&read);
    return good;
}

static void tell_uncomposed(const run *r)
{
    if (r->composed < r->y) {
        say_line("%s: lines %u to %u were not composed within %g seconds of the processor, or %g "
                 "by the clock; unseen is shown",
                 r->asked->page, (unsigned)r->composed, (unsigned)(r->y - 1),
                 all_lines * r->asked->seconds, all_lines * r->asked->clock_seconds);
    }
}

/* The first words of the last line. */
static void tell_sides(const options *asked, uint32_t width, uint32_t height)
{
    add_name(asked->page);
    if (asked->one_stripe) {
        add_words(": stripe %u alone (--stripe)", (unsigned)asked->stripe);
    }
    add_words(": %u by %u pixels, ", (unsigned)width, (unsigned)height);
}

/* As they are drawn, which may be off what was asked for. */
static void tell_drawn(const screen *colours)
{
    if (colours->plain) {
        add_words(", drawn as #%02X%02X%02X (--unseen)", colours->unseen[0], colours->unseen[1],
                  colours->unseen[2]);
    } else {
        add_words(", drawn as green squares on magenta");
    }
}

/* The last line of all: what was shown, with which pencil. */
static void tell_page(const run *r)
{
    uint64_t pixels = (uint64_t)r->width * r->height;
    tell_sides(r->asked, r->width, r->height);
    if (r->unseen == 0) {
        add_words("all seen");
    } else {
        add_words("%" PRIu64 " of %" PRIu64 " unseen", r->unseen, pixels);
        if (r->asked->out != NULL) {
            tell_drawn(r->colours);
        }
    }
    tell_pencil(&r->opened->source);
}

static void tell_times(const run *r, double began)
{
    double all = seconds_now() - began;
    say_line("%.3f s: decoding %.3f, composing %.3f, colour %.3f, PNG %.3f, all else %.3f", all,
             r->decoding, r->composing, r->colouring, r->writing,
             all - r->decoding - r->composing - r->colouring - r->writing);
    say_line("composed as bands: %zu of %zu stripes", r->composer.bands, r->to - r->from);
}

static int cannot_write(const char *name, const char *why)
{
    complain("%s: cannot be written: %s", name, why);
    return STATUS_REFUSED;
}

/* All stripes, into the picture if one is asked for; false where it could not be finished. */
static bool show_stripes(run *r, FILE *file)
{
    if (file != NULL) {
        r->picture = begin_picture(file, r->width, r->height,
                                   spirerook_record_resolution(mask_of_stripe(r->opened, r->from)));
        if (r->picture == NULL) {
            return false;
        }
    }
    bool good = true;
    for (size_t stripe = r->from; good && stripe < r->to; stripe++) {
        good = show_stripe(r, stripe);
    }
    end_progress(r);
    if (good && r->picture != NULL) {
        good = end_picture(r->picture, r->unseen, r->colours->plain ? r->colours->unseen : NULL);
        r->picture = NULL;
    }
    return good;
}

static int show_into_file(run *r)
{
    new_file out;
    const char *why = open_beside(r->asked->out, &out);
    if (why != NULL) {
        return cannot_write(r->asked->out, why);
    }
    errno = 0;
    if (!show_stripes(r, out.file)) {
        why = errno == 0 ? "the picture could not be made" : strerror(errno);
        drop_file(&out);
        return cannot_write(r->asked->out, why);
    }
    why = keep_file(&out);
    return why == NULL ? STATUS_WHOLE : cannot_write(r->asked->out, why);
}

static int show(const options *asked, const book *opened, double began)
{
    run r;
    int status = STATUS_REFUSED;
    if (!set_up(&r, asked, opened)) {
        complain("%s: there is not enough memory", asked->page);
    } else if (asked->out != NULL) {
        status = show_into_file(&r);
    } else {
        status = show_stripes(&r, NULL) ? STATUS_WHOLE : STATUS_REFUSED;
    }
    if (status == STATUS_WHOLE) {
        tell_uncomposed(&r);
        if (asked->no_sandbox) {
            say_line("%s: decoded without a sandbox (--no-sandbox)", asked->page);
        }
        if (asked->times) {
            tell_times(&r, began);
        }
        if (asked->out == NULL) {
            say_line("no picture was asked for (-o OUT.png)");
        } else {
            say_line("%s: written", asked->out);
        }
        tell_page(&r);
        status = r.unseen == 0 ? STATUS_WHOLE : STATUS_UNSEEN;
    }
    clear_away(&r);
    return status;
}

static void list(const options *asked, const book *opened)
{
    uint32_t height = 0;
    for (size_t stripe = 0; stripe < opened->stripes; stripe++) {
        if (!asked->one_stripe || stripe == asked->stripe) {
            tell_layers(asked, opened, stripe, NULL);
            height += spirerook_record_height(mask_of_stripe(opened, stripe));
        }
    }
    tell_sides(asked, spirerook_record_width(mask_of_stripe(opened, 0)), height);
    add_words("not decoded (--list)");
    tell_pencil(&opened->source);
}

static int view(const options *asked, book *opened)
{
    double began = seconds_now();
    int status = open_book(asked, opened);
    if (status == STATUS_WHOLE) {
        status = check_choices(asked, opened);
    }
    if (status == STATUS_WHOLE) {
        note_colours(asked->page, &opened->page);
    }
    if (status == STATUS_WHOLE && asked->list) {
        list(asked, opened);
    } else if (status == STATUS_WHOLE) {
        status = show(asked, opened, began);
    }
    close_book(opened);
    return status;
}

int main(int count, char **words)
{
    static options asked;
    static book opened;
    hold_standard_files();
    options_answer answer = read_options(count, words, &asked);
    int status = answer == OPTIONS_GOOD  ? view(&asked, &opened)
                 : answer == OPTIONS_BAD ? STATUS_BAD_OPTION
                                         : STATUS_WHOLE;
    if (output_fault() != NULL) {
        complain("spirerook-view: standard output: %s; what was meant for it stands here",
                 output_fault());
        return STATUS_REFUSED;
    }
    return status;
}
