/* Examines the lists of kinds that a partner sends, and prints for each whether it shows that no document breaks the
 * contract, or what is wrong with it. */
#include <stdio.h>

#include "goosedawn.h"

/* The transformation copies its input, which is made of one sort of element; every output is allowed. */
static const uint16_t counts[] = {0}, input_rows[] = {0, 0, 0, 0, 0, 1, 0, 0}, input_marks[] = {1};
static const uint16_t output_table[] = {0, 1, 1, 1, 1}, output_marks[] = {1, 1};
static const uint16_t nodes[] = {1, 0, 0, 0, 0, 2, 0, 1, 0, 0, 2, 0, 2, 0, 0, 1, 1, 0, 1, 2};
static const uint16_t rules[] = {0, 0, 0, 0, 1, 3};

/* A kind is five words. Word 0 has 1 for input state 0 and one of these marks, or none if there are several roots; word 1
 * has 1 for an output of state 0, which is nothing, and 2 for one of state 1. */
#define ONE_ROOT 0x100000000
#define EMPTY 0x200000000

/* one root, several roots, nothing */
static const uint64_t whole[] = {ONE_ROOT | 1, 2, 0, 0, 0, 1, 2, 0, 0, 0, EMPTY | 1, 1, 0, 0, 0};
/* nothing, one root */
static const uint64_t cut[] = {EMPTY | 1, 1, 0, 0, 0, ONE_ROOT | 1, 2, 0, 0, 0};

/* Prints what is said of a list. The place of refusal 72 tells a symbol and two kinds. */
static void print_examined(const char *name, const uint64_t *words, size_t length) {
    goosedawn_refusal why = goosedawn_examine(2, 1, 2, counts, 1, input_rows, 8, input_marks, 1, output_table, 5,
                                              output_marks, 2, nodes, 20, rules, 6, words, length);
    if (why.number == 0)
        printf("%s: accepted, no document breaks the contract\n", name);
    else if (why.number == 72)
        printf("%s: no kind of symbol %zu over kinds %zu and %zu\n", name, why.place / 16777216,
               why.place / 4096 % 4096, why.place % 4096);
    else
        printf("%s: refused %zu %zu\n", name, why.number, why.place);
}

int main(void) {
    print_examined("whole", whole, 15);
    print_examined("cut", cut, 10);
    print_examined("torn", whole, 12);
    return 0;
}
