/* A toy compiler's function, cleaned: prints its sheet from arrays, calls at level 2 with the sweep, changes the arrays as the answer says,
 * and prints the function before and after.
 *
 * The function reads a person's name and job title, corrects the title if it is misspelt, prints both and signs with the name. Its registers
 * were given out by hand. */
#include "drifthurdle.h"
#include <stdarg.h>
#include <stdio.h>
#include <stdlib.h>
#include <string.h>

#define LENGTH(array) (sizeof(array) / sizeof((array)[0]))

enum { REGS = 3, SLOTS = 2, NONE = -1 };
enum { NAME, TITLE, CORRECTED };

struct place { char kind; unsigned number; };                                   /* 'r' or 's' */
struct variable { const char *name; int home; };                                /* a slot, or NONE */
struct operand { const char *kind; unsigned variable; struct place at; };       /* "def" or "use" */
struct inst { const char *verb; unsigned operands; struct operand operand[2]; int is_call; };
struct block { const char *name; unsigned insts; int idom; int next[2]; };      /* next: blocks, or NONE */
struct copy { unsigned inst; struct place to, from; unsigned variable; int removed; };

struct function {
    struct variable variable[3];
    struct block block[4];
    struct inst inst[8];
    struct copy copy[4];
};

#define R(number) { 'r', number }
#define S(number) { 's', number }

/* The function as the allocator left it. */
static const struct function allocated = {
    { { "name", 0 }, { "title", 1 }, { "corrected", NONE } },
    { { "start", 3, NONE, { 1, 2 } }, { "correct", 2, 0, { 3, NONE } }, { "keep", 1, 0, { 3, NONE } }, { "end", 2, 0, { NONE, NONE } } },
    {
        { "read_name", 1, { { "def", NAME, R(0) } }, 0 },
        { "read_title", 1, { { "def", TITLE, R(1) } }, 0 },
        { "branch_if_misspelt", 1, { { "use", TITLE, R(1) } }, 0 },
        { "correct", 2, { { "def", CORRECTED, R(1) }, { "use", TITLE, S(1) } }, 0 },
        { "print", 2, { { "use", NAME, R(2) }, { "use", CORRECTED, R(1) } }, 1 },
        { "print", 2, { { "use", NAME, R(0) }, { "use", TITLE, R(1) } }, 1 },
        { "sign", 1, { { "use", NAME, S(0) } }, 0 },
        { "return", 0, { { "use", 0, R(0) } }, 0 },
    },
    {
        { 1, S(0), R(0), NAME, 0 },
        { 2, S(1), R(1), TITLE, 0 },
        { 4, R(2), S(0), NAME, 0 },
        { 5, R(1), S(1), TITLE, 0 },
    },
};

/* Text that grows in a fixed room; what does not fit is noticed by the length. */
struct text { char bytes[DRIFTHURDLE_SHEET_MOST + 1]; size_t length; };

static void put(struct text *text, const char *format, ...)
{
    size_t room = text->length < sizeof text->bytes ? sizeof text->bytes - text->length : 0;
    va_list fields;
    va_start(fields, format);
    int n = vsnprintf(room ? text->bytes + text->length : NULL, room, format, fields);
    va_end(fields);
    text->length += n > 0 ? (size_t)n : 0;
}

static void put_machine(struct text *sheet)
{
    put(sheet, "slots,%u\r\n", SLOTS);
    for (unsigned r = 0; r < REGS; r++)
        put(sheet, "reg,%u,0,%u\r\n", r, r);
    put(sheet, "class,0,1");
    for (unsigned r = 0; r < REGS; r++)
        put(sheet, ",%u", r);
    put(sheet, "\r\n");
}

static void put_number_or_dash(struct text *sheet, int number)
{
    if (number == NONE)
        put(sheet, "-");
    else
        put(sheet, "%d", number);
}

static void put_values_and_blocks(struct text *sheet, const struct function *f)
{
    for (unsigned v = 0; v < LENGTH(f->variable); v++) {
        put(sheet, "value,%u,", v);
        put_number_or_dash(sheet, f->variable[v].home);
        put(sheet, "\r\n");
    }
    for (unsigned b = 0; b < LENGTH(f->block); b++) {
        put(sheet, "block,%u,%u,", b, f->block[b].insts);
        put_number_or_dash(sheet, f->block[b].idom);
        put(sheet, ",%d\r\n", b == 0);
    }
}

static int leads_to(const struct block *block, unsigned to)
{
    return block->next[0] == (int)to || block->next[1] == (int)to;
}

/* The rows of kind "succ" if `forward`, else "pred". */
static void put_edges(struct text *sheet, const struct function *f, int forward)
{
    for (unsigned b = 0; b < LENGTH(f->block); b++) {
        int members = 0;
        for (unsigned n = 0; n < LENGTH(f->block); n++)
            if (forward ? leads_to(&f->block[b], n) : leads_to(&f->block[n], b)) {
                if (members++ == 0)
                    put(sheet, "%s,%u", forward ? "succ" : "pred", b);
                put(sheet, ",%u", n);
            }
        if (members > 0)
            put(sheet, "\r\n");
    }
}

static void put_contents(struct text *sheet, const struct function *f)
{
    for (unsigned i = 0; i < LENGTH(f->inst); i++)
        for (unsigned k = 0; k < f->inst[i].operands; k++) {
            const struct operand *op = &f->inst[i].operand[k];
            put(sheet, "op,%u,%s,%u,c0,%c%u\r\n", i, op->kind, op->variable, op->at.kind, op->at.number);
        }
    for (unsigned i = 0; i < LENGTH(f->inst); i++)
        if (f->inst[i].is_call)
            put(sheet, "clob,%u,0,1,2\r\n", i);
    for (unsigned e = 0; e < LENGTH(f->copy); e++) {
        const struct copy *c = &f->copy[e];
        put(sheet, "edit,%u,move,%c%u,%c%u,%u\r\n", c->inst, c->to.kind, c->to.number, c->from.kind, c->from.number, c->variable);
    }
}

/* Changes the function as the answer's rows say; the k-th `edit` row is the k-th copy. Returns the last row, that of the counts. */
static const char *apply(struct function *f, const char *answer)
{
    unsigned inst, operand, reg, e = 0;
    const char *row = answer;
    for (; *row != '\0' && strncmp(row, "count,", 6) != 0; row = strstr(row, "\r\n") + 2) {
        if (sscanf(row, "fold,%u,%u,r%u", &inst, &operand, &reg) == 3) {
            f->inst[inst].operand[operand].at = (struct place)R(reg);
        } else if (e < LENGTH(f->copy)) {
            struct copy *c = &f->copy[e++];
            c->removed = sscanf(row, "edit,%*u,move,%*c%*u,%c%u", &c->from.kind, &c->from.number) != 2;
        }
    }
    return row;
}

struct listing { char line[32][64]; unsigned lines; };

static void list_inst(char *line, size_t room, const struct function *f, const struct inst *inst)
{
    char before[32] = "", after[48] = "";
    for (unsigned k = 0; k < inst->operands; k++) {
        const struct operand *op = &inst->operand[k];
        const char *name = f->variable[op->variable].name;
        if (strcmp(op->kind, "def") == 0)
            snprintf(before, sizeof before, "%s@%c%u = ", name, op->at.kind, op->at.number);
        else
            snprintf(after + strlen(after), sizeof after - strlen(after), " %s@%c%u", name, op->at.kind, op->at.number);
    }
    snprintf(line, room, "  %s%s%s", before, inst->verb, after);
}

/* The copies before an instruction; the line of a removed one is blank. */
static void list_copies(struct listing *list, const struct function *f, unsigned inst)
{
    for (unsigned e = 0; e < LENGTH(f->copy); e++) {
        const struct copy *c = &f->copy[e];
        if (c->inst != inst)
            continue;
        char *line = list->line[list->lines++];
        if (c->removed)
            line[0] = '\0';
        else
            snprintf(line, sizeof list->line[0], "  %c%u <- %c%u (%s)", c->to.kind, c->to.number, c->from.kind, c->from.number,
                     f->variable[c->variable].name);
    }
}

static void list_function(struct listing *list, const struct function *f)
{
    unsigned inst = 0;
    list->lines = 0;
    for (unsigned b = 0; b < LENGTH(f->block); b++) {
        snprintf(list->line[list->lines++], sizeof list->line[0], "%s:", f->block[b].name);
        for (unsigned k = 0; k < f->block[b].insts; k++, inst++) {
            list_copies(list, f, inst);
            list_inst(list->line[list->lines++], sizeof list->line[0], f, &f->inst[inst]);
        }
    }
}

static void print_counts(const char *row)
{
    static const char *const names[] = {
        "blocks_preprocessed_for_optimizer", "optimized_redundant_reload", "optimized_redundant_move",
        "optimized_redundant_remat",         "optimized_redundant_spill",  "optimized_reload_to_move",
        "optimized_stack_use",               "eliminated_dead_spill",      "eliminated_dead_remat",
    };
    for (size_t k = 0; k < LENGTH(names) && (row = strchr(row, ',')) != NULL; k++) {
        unsigned long count = strtoul(++row, NULL, 10);
        if (count > 0)
            printf("%lu %s\n", count, names[k]);
    }
}

int main(void)
{
    static struct text sheet;
    static uint8_t answer[DRIFTHURDLE_ANSWER_MOST + 1];
    static struct listing left, right;
    struct function cleaned = allocated;

    put_machine(&sheet);
    put_values_and_blocks(&sheet, &allocated);
    put_edges(&sheet, &allocated, 1);
    put_edges(&sheet, &allocated, 0);
    put_contents(&sheet, &allocated);
    if (sheet.length >= sizeof sheet.bytes)
        return 2;
    int64_t r = drifthurdle_clean((const uint8_t *)sheet.bytes, sheet.length, DRIFTHURDLE_FORWARD, 1, answer, DRIFTHURDLE_ANSWER_MOST);
    if (r < 0) {
        fprintf(stderr, "refusal %d at row %d\n", (int)drifthurdle_number(r), (int)drifthurdle_row(r));
        return 1;
    }
    answer[r] = '\0';
    const char *counts = apply(&cleaned, (const char *)answer);

    list_function(&left, &allocated);
    list_function(&right, &cleaned);
    for (unsigned n = 0; n < left.lines; n++)
        printf("%-34s|%s%s\n", left.line[n], right.line[n][0] ? " " : "", right.line[n]);
    printf("\n");
    print_counts(counts);
    return 0;
}
