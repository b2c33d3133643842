/* spirerook-make: a page from pictures, as a plan says. */
#include <spirerook.h>
#include <stdlib.h>
#include <string.h>

#include "file.h"
#include "layers.h"
#include "lines.h"
#include "notes.h"
#include "outputs.h"
#include "picture_in.h"
#include "plan.h"
#include "sheets.h"
#include "side.h"
#include "trouble.h"

static const char program[] = "spirerook-make";

static const char help[] =
    "use: spirerook-make PLAN -o PAGE [--pencil SHEET FILE] [--no-sandbox]\n"
    "     spirerook-make --help | --version\n"
    "\n"
    "Makes a mixed raster page (ITU-T T.44, Mode 1) from pictures in PNG and PNM, and with --pencil the FILE of the layers above 3, the SHEET of\n"
    "all layers and SHEET.sha256, the digests of page, sheet and file, without which the viewer does not take them.\n"
    "The plan is a text, a line for each thing; # begins a comment, and names with blanks stand in double quotes:\n"
    "\n"
    "  resolution 400       of the page: 100, 200, 300, 400, 600 or 1200\n"
    "  coder mmr            of the page's masks: mh, mr, mmr (the default) or t85\n"
    "  width 2336           of the page, needed where no stripe has a mask\n"
    "  stripe               begins a stripe; the lines of its layers follow, in any order\n"
    "  height 700           of the stripe, needed where it has no mask\n"
    "  background FILE|none [resolution R] [at X Y] [base RRGGBB | lab L A B] [quality Q] [progressive] [half] [grey | coloured]\n"
    "  mask FILE|none\n"
    "  foreground FILE|none [as background]\n"
    "  pencil-mask FILE|none [coder C] [resolution R] [at X Y]\n"
    "  pencil-image FILE|none [as background]      behind its pencil-mask; up to six pairs a stripe\n"
    "\n"
    "PNG files are read in a sandbox; where the system has none, --no-sandbox reads them without.\n"
    "An image of a picture that holds no colours is coded as lightness alone; grey and coloured say otherwise.\n"
    "Dark samples of a mask are 1.  Where a layer is none its base colour counts, and nothing else.  File names are seen from the plan's folder.\n"
    "Exit status: 0 done; 1 refused, or a file cannot be read or written; 2 a bad option.\n";

typedef struct {
    const char *plan, *page, *sheet, *pencil; /* null where not given */
    char *side;                               /* the sheet's side file, null with it */
} options;

static bool bad_option(trouble *what, const char *form, const char *word)
{
    tell(what, form, word);
    what->status = STATUS_BAD_OPTION;
    return false;
}

/* An option with the word or words behind it; null words end them all. */
static bool take_option(char ***words, options *given, trouble *what)
{
    const char *word = **words;
    bool page = strcmp(word, "-o") == 0;
    if (strcmp(word, "--no-sandbox") == 0) {
        do_without_sandbox();
        return true;
    }
    if (!page && strcmp(word, "--pencil") != 0) {
        return bad_option(what, "unknown option '%s'; --help tells of all", word);
    }
    if ((page ? given->page : given->sheet) != NULL) {
        return bad_option(what, "'%s' is given twice", word);
    }
    if ((*words)[1] == NULL || (!page && (*words)[2] == NULL)) {
        return bad_option(what,
                          page ? "'%s' needs the name of the page"
                               : "'%s' needs the names of the sheet and of the file",
                          word);
    }
    *(page ? &given->page : &given->sheet) = *++*words;
    if (!page) {
        given->pencil = *++*words;
    }
    return (*(page ? given->page : given->sheet) != 0 && (page || *given->pencil != 0)) ||
           bad_option(what, "'%s' has an empty name", word);
}

static bool take_options(char **words, options *given, trouble *what)
{
    bool plain = false; /* behind "--" all words are names */
    for (; *words != NULL; words++) {
        if (!plain && strcmp(*words, "--") == 0) {
            plain = true;
        } else if (!plain && **words == '-') {
            if (!take_option(&words, given, what)) {
                return false;
            }
        } else if (**words == 0) {
            return bad_option(what, "%s", "the plan has an empty name");
        } else if (given->plan != NULL) {
            return bad_option(what, "'%s' is a second plan", *words);
        } else {
            given->plan = *words;
        }
    }
    if (given->plan == NULL) {
        return bad_option(what, "%s", "no plan is named; --help tells how");
    }
    return given->page != NULL || bad_option(what, "%s", "no page is named: -o PAGE");
}

static bool name_side(options *given, trouble *what)
{
    given->side = given->sheet == NULL ? NULL : side_name(given->sheet);
    return given->sheet == NULL || given->side != NULL || tell_no_memory(what);
}

static bool is_input(const plan *from, const char *name)
{
    bool found = same_file(from->file, name);
    for (unsigned k = 0; !found && k < from->stripe_count * SPIREROOK_LAYERS; k++) {
        const char *path = from->stripes[k / SPIREROOK_LAYERS].layers[k % SPIREROOK_LAYERS].path;
        found = path != NULL && same_file(path, name);
    }
    return found;
}

/* Whether the file may be written over: it is neither read nor told to. */
static bool is_free(const plan *from, const char *name, trouble *what)
{
    const char *standard = standard_file(name);
    if (is_input(from, name)) {
        return bad_option(what, "%s is read from, and would be written over", name);
    }
    if (standard != NULL) {
        tell(what, "%s would take the place of %s", name, standard);
        what->status = STATUS_BAD_OPTION;
    }
    return standard == NULL;
}

/* Whether the options fit each other and the plan. */
static bool fits(const options *given, const plan *from, trouble *what)
{
    const char *names[] = {given->page, given->sheet, given->pencil, given->side};
    unsigned count = given->sheet == NULL ? 1 : 4;
    if (has_pencil(from) != (given->sheet != NULL)) {
        return bad_option(what,
                          given->sheet == NULL
                              ? "%s has pencil layers: --pencil SHEET FILE must name files for them"
                              : "%s has no pencil layers: --pencil has nothing to write",
                          from->file);
    }
    for (unsigned k = 0; k < count; k++) {
        if (!is_free(from, names[k], what)) {
            return false;
        }
        for (unsigned before = 0; before < k; before++) {
            if (same_place(names[before], names[k])) {
                return bad_option(what, "%s would be written twice", names[k]);
            }
        }
    }
    return true;
}

static void list_layer(const plan_layer *layer, const spirerook_record *record)
{
    add_words("stripe %u, layer %u: ", (unsigned)record->stripe, (unsigned)record->layer);
    if (record->length == 0) {
        say_line("not coded");
        return;
    }
    say_line("%s, %s, %u by %u at %u%s, %u octets", layer->name, coder_name(record),
             (unsigned)record->width, (unsigned)record->height, (unsigned)record->resolution,
             record->grey == 1 ? ", grey" : "", (unsigned)record->length);
}

static void list_layers(const plan *from, const coded_layers *layers)
{
    for (unsigned s = 0; s < from->stripe_count; s++) {
        for (unsigned k = 0; k < from->stripes[s].layer_count; k++) {
            list_layer(&from->stripes[s].layers[k], &layers->records[s][k]);
        }
    }
}

static void list_files(const output *outputs, unsigned count)
{
    add_words("written:");
    for (unsigned k = 0; k < count; k++) {
        add_words("%s %s, %zu octets", k == 0 ? "" : ";", outputs[k].name, outputs[k].length);
    }
    say_line("%s", "");
}

/* Notes and the list of layers are printed when the files are whole but not yet in their places.  Where lines
 * cannot go to standard output, the files are none the worse: they are kept, and the status tells. */
static bool write_outputs(output *outputs, unsigned count, const plan *from,
                          const coded_layers *layers, trouble *what)
{
    if (!begin_outputs(outputs, count, what)) {
        return false;
    }
    say_notes(from, layers);
    list_layers(from, layers);
    if (!keep_outputs(outputs, count, what)) {
        return false;
    }
    list_files(outputs, count);
    return output_fault() == NULL ||
           tell(what, "standard output: %s; what was meant for it stands here", output_fault());
}

/* The side file stands behind the three that it tells of, which are in the order of its lines. */
static bool write_all(const options *given, const plan *from, const coded_layers *layers,
                      const made_page *page, const octet_list *sheet, trouble *what)
{
    char *side = NULL;
    output outputs[] = {
        {.name = given->page, .octets = page->page.octets, .length = page->page.length},
        {.name = given->sheet, .octets = sheet->octets, .length = sheet->length},
        {.name = given->pencil,
         .octets = layers->pencil_data.octets,
         .length = layers->pencil_data.length},
        {.name = given->side}};
    bool done = true;
    if (given->side != NULL && (done = make_side(outputs, &side, what))) {
        outputs[SIDE_LINES].octets = (const uint8_t *)side;
        outputs[SIDE_LINES].length = strlen(side);
    }
    done = done &&
           write_outputs(outputs, given->side == NULL ? 1 : SIDE_LINES + 1, from, layers, what);
    free(side);
    return done;
}

static bool make(const options *given, trouble *what)
{
    plan *from = NULL;
    coded_layers *layers = NULL;
    made_page page = {.page = {NULL, 0, 0}};
    octet_list sheet = {NULL, 0, 0};
    bool done = read_plan(given->plan, &from, what) && fits(given, from, what) &&
                code_layers(from, &layers, what) && make_page(from, layers, &page, what) &&
                (given->sheet == NULL || make_pencil_sheet(from, layers, &page, &sheet, what)) &&
                write_all(given, from, layers, &page, &sheet, what);
    free_octets(&sheet);
    free_octets(&page.page);
    free_layers(layers);
    free_plan(from);
    return done;
}

int main(int count, char **words)
{
    options given = {NULL, NULL, NULL, NULL, NULL};
    trouble what;
    hold_standard_files();
    if (count == 2 && strcmp(words[1], "--help") == 0) {
        say_lines(help);
        return output_fault() != NULL;
    }
    if (count == 2 && strcmp(words[1], "--version") == 0) {
        say_line("%s %s", program, SPIREROOK_VERSION);
        return output_fault() != NULL;
    }
    bool done = take_options(words + (count > 0), &given, &what) && name_side(&given, &what) &&
                make(&given, &what);
    free(given.side);
    if (!done) {
        say(program, &what);
    }
    return done ? 0 : what.status;
}
