/* Drifthurdle: a verified clean-up stage for compilers.
 *
 * Link with target/staticlib/libdrifthurdle.a, made by `bindings/archive`.
 */
#ifndef DRIFTHURDLE_H
#define DRIFTHURDLE_H

#include <stddef.h>
#include <stdint.h>

#ifdef __cplusplus
extern "C" {
#endif

/* A sheet: the rows of a function after register allocation, to be printed in this order. bindings/c/function.c prints one from arrays.
 *
 * Every row ends in CR LF ("\r\n"), the last one too. Numbers are decimal without sign or leading zero and count from 0. In the formats
 * below, `..` is ",%u" for each member of a list, none twice. A PLACE is "r%u" for a register or "s%u" for a slot.
 * In parentheses stands how many there may be.
 *
 *   "slots,%u"              once: how many slots there are (64)
 *   "reg,%u,%u" ..          each register, by number (128): 1 if it lies in memory, else 0; its units, at least one, none over 127.
 *                           Registers that share a unit overlap
 *   "class,%u,%u" ..        each class, by number (16): 1 if it has the slots, else 0; its registers. The class of a group operand lists
 *                           the first register of each group
 *   "group,%u,%u" ..        each register group, by number (32): its class; its registers, at least one. No two of a class begin alike
 *   "value,%u,%u"           each value, by number (256): its home slot, or "value,%u,-" if it has none
 *   "vgroup,%u" ..          each value group, by number (32): its values, at least one
 *   "block,%u,%u,%u,%u"     each block, by number (64): how many instructions it has (512 in all, numbered through the blocks in turn);
 *                           its immediate dominator, or `-` in its place; 1 if it is an entry, else 0
 *   "succ,%u" ..            for each block that has successors, rising: the successors
 *   "pred,%u" ..            for each block that has predecessors, rising: the predecessors
 *   "param,%u,%u,PLACE"     for each block parameter, by block: the block, the value, where it is as the block begins
 *   "op,%u,KIND,CONSTRAINT,PLACE"
 *                           for each operand (2,048), by instruction: the instruction, what it does, where it may be, where it is.
 *     KIND                  "def,%u" "use,%u" "early,%u" with a value (early: defined before the uses are read),
 *                           "defg,%u" "useg,%u" "earlyg,%u" with a value group, "fixed,-" for a register that is not given out
 *     CONSTRAINT            "c%u" a class, "f%u" this register, "u%u" where this operand of the same instruction is (0 the first)
 *   "clob,%u" ..            for each instruction that spoils units, rising: the units
 *   "edit,%u,EDIT"          for each edit (1,024), by instruction: the instruction that it stands before, and
 *     EDIT                  "move,PLACE,PLACE,%u" to, from, value
 *                           "remat,PLACE,-,%u" to, value: made anew
 *                           "espill,s%u,r%u,-" and "ereload,r%u,s%u,-": a register saved to a slot and given back
 *                           "none,-,-,-"
 *
 * An answer: rows in this order, each ending in CR LF.
 *
 *   "fold,%u,%u,r%u"        for each operand that is at another place now: the instruction, which of its operands (0 the first), the register
 *   "edit,%u,EDIT"          for each edit of the sheet, in the sheet's order: as it was, or moved from a register ("move,PLACE,r%u,%u"), or
 *                           "none,-,-,-" if it was removed
 *   "count,%u,%u,%u,%u,%u,%u,%u,%u,%u"
 *                           once: how often each rule fired, by the names of the Rust's statistics: blocks_preprocessed_for_optimizer,
 *                           optimized_redundant_reload, optimized_redundant_move, optimized_redundant_remat, optimized_redundant_spill,
 *                           optimized_reload_to_move, optimized_stack_use, eliminated_dead_spill, eliminated_dead_remat
 */

/* No sheet that is accepted is longer, and no answer. */
enum { DRIFTHURDLE_SHEET_MOST = 65536, DRIFTHURDLE_ANSWER_MOST = 131072 };

/* Levels: what the optimiser may know as a block begins. */
enum drifthurdle_level {
    DRIFTHURDLE_OFF = 0,     /* touches nothing */
    DRIFTHURDLE_LOCAL = 1,   /* each block starts with nothing known */
    DRIFTHURDLE_FORWARD = 2, /* blocks hand on along forward edges */
    DRIFTHURDLE_GLOBAL = 3   /* a preparing walk finds what holds on every way in */
};

/* Refusals: the call returns minus (100 times the row plus one of these) and writes nothing. The row is that of the `block` row of the lowest
 * block concerned, the sheet's first row being 1; it is 0 for no entry and for every refusal but 4, 9, 10, 11 and 12. */
enum drifthurdle_refusal {
    DRIFTHURDLE_ROWS = 1,         /* sheet over 65,536 bytes, or broken rows */
    DRIFTHURDLE_LIMITS = 2,       /* a limit is passed */
    DRIFTHURDLE_NAMES = 3,        /* a row names something absent, or one thing twice in a list */
    DRIFTHURDLE_EMPTY = 4,        /* no entry (row 0), or an empty block */
    DRIFTHURDLE_OPERANDS = 5,     /* operand rules broken */
    DRIFTHURDLE_EDITS = 6,        /* edit rules broken */
    DRIFTHURDLE_CALL = 7,         /* level over 3 or sweep flag over 1 */
    DRIFTHURDLE_ROOM = 8,         /* output buffer shorter than the answer */
    DRIFTHURDLE_DISAGREE = 9,     /* a block names a neighbour that does not name it back */
    DRIFTHURDLE_EDGES = 10,       /* an entry with a predecessor, or several successors meeting several predecessors */
    DRIFTHURDLE_NOT_SMALLER = 11, /* sole predecessor or idom not smaller than its block */
    DRIFTHURDLE_NOT_REACHED = 12  /* a block that no entry reaches */
};

/* The refusal and the row of what the call returned, where that is negative. */
static inline enum drifthurdle_refusal drifthurdle_number(int64_t returned) { return (enum drifthurdle_refusal)(-returned % 100); }

static inline int64_t drifthurdle_row(int64_t returned) { return -returned / 100; }

/* Optimises the sheet's edits at a level, then sweeps dead spills if `sweep` is 1.
 *
 * Returns how many bytes it wrote to `out`; later bytes stay as they were. Or returns minus a refusal's sum, and then `out` is untouched.
 * Every input is fine: nothing has to be checked beforehand. The two ranges must be readable and writable as declared and must not overlap;
 * a pointer may be dangling, but not null, where its length is 0. The call needs some stack (docs/PERFORMANCE.md says how much), allocates
 * nothing, keeps nothing and may run on several threads at once.
 */
int64_t drifthurdle_clean(const uint8_t *sheet, size_t sheet_len, uint32_t level, uint32_t sweep, uint8_t *out, size_t out_len);

#ifdef __cplusplus
}
#endif

#endif
