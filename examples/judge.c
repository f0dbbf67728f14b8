/* Judges sheets: prints for each file whether its plan runs, where it is short first, or why its sheet is refused.
 * Exit status: 0 every plan runs, 1 some plan is short or some sheet refused, 2 wrong use, a file that can't be read or an output
 * that can't be written.
 * It is C (since C99) and C++ (since C++98) alike. */
#include "sheet_file.h"

/* Prints what is said of the sheet. Returns whether its plan runs. */
static int judge(const char *name, const uint8_t *sheet, size_t length)
{
    uint32_t answer = reedanchor_judge(sheet, length);
    if (answer == REEDANCHOR_RUNS) {
        printf("%s: %u: runs\n", name, (unsigned)answer);
        return 1;
    }
    if (answer >= REEDANCHOR_SHORT)
        printf("%s: %u: short, first at place %u\n", name, (unsigned)answer, (unsigned)(answer - REEDANCHOR_SHORT));
    else
        printf("%s: %u: refused, %s\n", name, (unsigned)answer, fault_words(answer));
    return 0;
}

int main(int argc, char **argv)
{
    static uint8_t sheet[REEDANCHOR_ENOUGH_BYTES];
    int status = 0;
    if (argc < 2) {
        fprintf(stderr, "usage: judge SHEET...    SHEET is a file that holds one sheet\n");
        return 2;
    }
    for (int i = 1; i < argc && !ferror(stdout); i++) {
        size_t length;
        if (!read_sheet("judge", argv[i], sheet, &length))
            status = 2;
        else if (!judge(argv[i], sheet, length) && status == 0)
            status = 1;
    }
    return finish("judge", status);
}
