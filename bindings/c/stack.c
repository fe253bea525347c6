/* How many bytes of stack the call needs: runs it on a painted stack for each sheet named, at every level and flag, and prints the most that was touched. */
#include "drifthurdle.h"
#include <stdio.h>
#include <stdlib.h>
#include <string.h>
#include <ucontext.h>

enum { ROOM = 1 << 20, PAINT = 0xA5, MOST = 65536 };

static uint8_t sheet[MOST + 1], out[MOST], stack[ROOM];
static size_t length;
static uint32_t level, sweep;
static ucontext_t caller, callee;

static void call(void) { drifthurdle_clean(sheet, length, level, sweep, out, sizeof out); }

static size_t touched(void)
{
    memset(stack, PAINT, sizeof stack);
    getcontext(&callee);
    callee.uc_stack.ss_sp = stack;
    callee.uc_stack.ss_size = sizeof stack;
    callee.uc_link = &caller;
    makecontext(&callee, call, 0);
    swapcontext(&caller, &callee);
    size_t untouched = 0;
    while (untouched < sizeof stack && stack[untouched] == PAINT)
        untouched++;
    return sizeof stack - untouched;
}

int main(int argc, char **argv)
{
    size_t most = 0;
    for (int i = 1; i < argc; i++) {
        FILE *f = fopen(argv[i], "rb");
        if (!f)
            return 2;
        length = fread(sheet, 1, sizeof sheet, f);
        fclose(f);
        for (level = 0; level <= 3; level++)
            for (sweep = 0; sweep <= 1; sweep++) {
                size_t n = touched();
                most = n > most ? n : most;
            }
    }
    printf("%zu bytes of stack\n", most);
    return 0;
}
