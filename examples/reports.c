/*
 * From files to their reports in one call each: prints for every FILE what the program link_survey prints for it.
 *
 *     reports FILE...
 *
 * Exit status: 0, or 2 where a file could not be read.
 */
#include <stdint.h>
#include <stdio.h>
#include "link_survey.h"

/* One byte more than a report takes, so that a file that is too long is refused and not cut short. */
static uint8_t file[65535 + 1];
static uint8_t report[LINK_SURVEY_MAX_REPORT_BYTES];

int main(int argc, char **argv)
{
    for (int i = 1; i < argc; i++) {
        FILE *in = fopen(argv[i], "rb");
        size_t length;
        int failed;

        if (in == NULL) {
            fprintf(stderr, "%s cannot be opened\n", argv[i]);
            return 2;
        }
        length = fread(file, 1, sizeof file, in);
        failed = ferror(in);
        fclose(in);
        if (failed) {
            fprintf(stderr, "%s cannot be read\n", argv[i]);
            return 2;
        }
        fwrite(report, 1, link_survey_report(file, length, report, sizeof report), stdout);
    }
    return fflush(stdout) == 0 ? 0 : 2;
}
