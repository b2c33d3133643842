#include "pencil.h"

#include <errno.h>
#include <limits.h>
#include <stdlib.h>
#include <string.h>
#include <sys/stat.h>
#include <unistd.h>

#include "lines.h"
#include "names.h"

static const char ending[] = ".sheet";

/* Three lines of names as long as any are. */
enum { MOST_SIDE_OCTETS = 1 << 16 };

const char *way_out(const pencil_source *source)
{
    return source->found ? "; --no-pencil shows the page without it" : "";
}

/* Anything of this name counts, and so does what cannot be looked at: also where only its folders
 * make the name too long. */
static bool stands(const char *name)
{
    struct stat there;
    return lstat(name, &there) == 0 ||
           (errno == ENAMETOOLONG ? strlen(last_part(name)) <= NAME_MAX
                                  : errno != ENOENT && errno != ENOTDIR);
}

/* Of one folder, by whichever way it is named. */
static bool same_entry(const char *one, const char *other)
{
    struct stat first, second;
    return strcmp(last_part(one), last_part(other)) == 0 && lstat(one, &first) == 0 &&
           lstat(other, &second) == 0 && first.st_dev == second.st_dev &&
           first.st_ino == second.st_ino;
}

/* Takes the name over.  False where there is not enough memory. */
static bool add_beside(const char *page, char *name, pencil_source *source)
{
    bool counts = name != NULL && strcmp(name, page) != 0 && stands(name);
    for (size_t k = 0; counts && k < source->beside_count; k++) {
        counts = !same_entry(source->beside[k], name);
    }
    if (counts) {
        source->beside[source->beside_count++] = name;
    } else {
        free(name);
    }
    return name != NULL;
}

/* show.page has show.page.sheet and show.sheet. */
static bool look_beside(const char *page, pencil_source *source)
{
    const char *last = last_part(page), *dot = strrchr(last, '.');
    return add_beside(page, with_ending(page, strlen(page), ending), source) &&
           (dot == NULL || dot == last ||
            add_beside(page, with_ending(page, (size_t)(dot - page), ending), source));
}

static bool is_link(const char *name)
{
    struct stat there;
    return lstat(name, &there) == 0 && S_ISLNK(there.st_mode);
}

/* What a link names, as it is seen from here; the caller's to free.  NULL where there is not enough
 * memory.  Of a file whose name is gone the system tells which it was, with a word behind it. */
static char *linked_name(const char *link)
{
    static const char gone[] = " (deleted)";
    char to[PATH_MAX + sizeof gone] = "";
    struct stat there;
    ssize_t count = readlink(link, to, sizeof to - 1);
    size_t cut = strlen(to) > strlen(gone) ? strlen(to) - strlen(gone) : 0;
    char *name = beside(link, count < 0 ? last_part(link) : to);
    if (name != NULL && cut > 0 && strcmp(to + cut, gone) == 0 && lstat(name, &there) != 0) {
        name[strlen(name) - strlen(gone)] = 0;
    }
    char *real = name == NULL || is_link(name) ? NULL : realpath(name, NULL);
    if (real != NULL) {
        free(name);
    }
    return real != NULL ? real : name;
}

/* Where the page's name is a link, its sheet may stand beside what that names, which may be a link
 * again, down to the page itself. */
static bool find_beside(const char *page, pencil_source *source)
{
    char *name = strdup(page);
    bool done = name != NULL && look_beside(name, source);
    for (int links = 0; done && links < MOST_LINKS && is_link(name); links++) {
        char *next = linked_name(name);
        done = next != NULL && look_beside(next, source);
        free(name);
        name = next;
    }
    free(name);
    return done;
}

const char *read_part(const pencil_source *source, const char *name, size_t most, whole_file *file)
{
    return source->found ? read_plain_file(name, most, file) : read_file(name, most, file);
}

static int no_side(const options *asked, const pencil_source *source)
{
    if (source->found) {
        complain("%s: refused: no %s tells that it belongs to %s, and where its pencil file is%s",
                 source->sheet, source->side, asked->page, way_out(source));
    } else {
        complain(
            "%s: refused: no %s tells that it belongs to %s (--no-digests takes it all the same)",
            source->file, source->side, asked->page);
    }
    return STATUS_REFUSED;
}

static int read_side_file(const options *asked, pencil_source *source)
{
    whole_file side;
    unsigned line = 1;
    if (!stands(source->side)) {
        return no_side(asked, source);
    }
    const char *why = read_plain_file(source->side, MOST_SIDE_OCTETS + 1, &side);
    if (why != NULL) {
        complain("%s: cannot be read: %s%s", source->side, why, way_out(source));
        return STATUS_REFUSED;
    }
    why = side.length > MOST_SIDE_OCTETS
              ? "it is too long"
              : read_side(side.octets, side.length, &source->told, &line);
    free(side.octets);
    if (why != NULL) {
        complain("%s: refused at line %u: %s%s", source->side, line, why, way_out(source));
    }
    return why == NULL ? STATUS_WHOLE : STATUS_REFUSED;
}

static int out_of_memory(const options *asked)
{
    complain("%s: there is not enough memory", asked->page);
    return STATUS_REFUSED;
}

int find_pencil(const options *asked, pencil_source *source)
{
    const char *sheet = asked->pencil_sheet;
    memset(source, 0, sizeof *source);
    if (sheet == NULL && !find_beside(asked->page, source)) {
        return out_of_memory(asked);
    }
    if (sheet == NULL && source->beside_count > 1 && !asked->no_pencil) {
        complain(
            "%s: refused: both %s and %s stand beside it; --pencil SHEET FILE tells which, --no-pencil shows the page without them",
            asked->page, source->beside[0], source->beside[1]);
        return STATUS_REFUSED;
    }
    if (sheet == NULL && source->beside_count == 1 && !asked->no_pencil) {
        source->found = true;
        sheet = source->beside[0];
    }
    if (sheet == NULL) {
        return STATUS_WHOLE;
    }
    source->sheet = strdup(sheet);
    source->side = side_name(sheet);
    source->file = source->found ? NULL : strdup(asked->pencil_file);
    return source->sheet != NULL && source->side != NULL && (source->found || source->file != NULL)
               ? STATUS_WHOLE
               : out_of_memory(asked);
}

/* A sheet that was found has its pencil file named in its side file only. */
int read_digests(const options *asked, pencil_source *source)
{
    source->checked = !asked->no_digests;
    int status = source->checked || source->found ? read_side_file(asked, source) : STATUS_WHOLE;
    if (status == STATUS_WHOLE && source->found) {
        source->file = beside(source->side, source->told.names[OF_PENCIL]);
        status = source->file == NULL ? out_of_memory(asked) : STATUS_WHOLE;
    }
    return status;
}

int check_digest(const options *asked, const pencil_source *source, side_line which,
                 const whole_file *read)
{
    static const char *const kinds[] = {"page", "sheet", "pencil file"};
    if (!source->checked || strcmp(digest_of(read->octets, read->length).letters,
                                   source->told.digests[which].letters) == 0) {
        return STATUS_WHOLE;
    }
    complain("%s: refused: it is not the %s of %s: %s has the digest of another %s%s",
             which == OF_SHEET ? source->sheet : source->file,
             which == OF_SHEET ? "sheet" : "pencil", asked->page, source->side, kinds[which],
             way_out(source));
    return STATUS_REFUSED;
}

void tell_pencil(const pencil_source *source)
{
    if (source->sheet != NULL) {
        add_words("; pencil: ");
        add_name(source->sheet);
        add_words(", ");
        add_name(source->file);
        say_line("%s", source->checked ? "" : ", not checked (--no-digests)");
    } else if (source->beside_count == 0) {
        say_line("; no pencil given");
    } else {
        add_words("; pencil left out (--no-pencil):");
        for (size_t k = 0; k < source->beside_count; k++) {
            add_words("%s ", k == 0 ? "" : ",");
            add_name(source->beside[k]);
        }
        say_line("%s", "");
    }
}

void forget_pencil(pencil_source *source)
{
    for (size_t k = 0; k < source->beside_count; k++) {
        free(source->beside[k]);
    }
    free(source->sheet);
    free(source->side);
    free(source->file);
    forget_side(&source->told);
}
