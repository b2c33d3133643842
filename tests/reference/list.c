/* The listing program of the paper ("A listing"), over the reference.  Given
 * any argument, it also names on standard error the rule that was broken. */
#include "console.h"
#include "sheet.h"

#include <stdio.h>
#include <stdlib.h>

int main(int arguments, char **words)
{
    (void)words;
    size_t octets;
    uint8_t *sheet = read_standard_input(&octets);
    if (sheet == NULL) {
        return EXIT_FAILURE;
    }
    struct verdict answer = sheet_judge(sheet, octets);
    if (answer.number == DONE) {
        for (size_t i = 0; i < answer.records; i++) {
            print_record(sheet_record(sheet, i));
        }
    } else {
        /* "or `refused 14 ` and the record's number from 0" */
        printf("refused %u %zu\n", answer.number, answer.place);
        if (arguments > 1) {
            fprintf(stderr, "%s\n", answer.rule);
        }
    }
    free(sheet);
    return EXIT_SUCCESS;
}
