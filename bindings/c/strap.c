/* Cleans the sheet on standard input at the level of the first argument (1 if there is none), with the sweep. */
#include "drifthurdle.h"
#include <stdio.h>
#include <stdlib.h>

int main(int argc, char **argv)
{
    static uint8_t sheet[65537], out[1 << 17];
    uint32_t level = argc > 1 ? (uint32_t)strtoul(argv[1], NULL, 10) : DRIFTHURDLE_LOCAL;
    size_t n = fread(sheet, 1, sizeof sheet, stdin);
    int64_t r = drifthurdle_clean(sheet, n, level, 1, out, sizeof out);
    if (r < 0) {
        fprintf(stderr, "refusal %d", (int)drifthurdle_number(r));
        if (drifthurdle_row(r) > 0)
            fprintf(stderr, " at row %d", (int)drifthurdle_row(r));
        fprintf(stderr, "\n");
        return 1;
    }
    fwrite(out, 1, (size_t)r, stdout);
    return 0;
}
