/* Checks a contract under growing limits, and prints how far each check came. */
#include <stdio.h>

#include "goosedawn.h"

/* The transformation copies its input; every output is allowed. */
static const uint16_t counts[] = {0}, input_rows[] = {0, 0, 0, 0, 0, 1, 0, 0}, input_marks[] = {1};
static const uint16_t output_table[] = {0, 1, 1, 1, 1}, output_marks[] = {1, 1};
static const uint16_t nodes[] = {1, 0, 0, 0, 0, 2, 0, 1, 0, 0, 2, 0, 2, 0, 0, 1, 1, 0, 1, 2};
static const uint16_t rules[] = {0, 0, 0, 0, 1, 3};

int main(void) {
    static uint16_t rows[3 * 512];
    static uint64_t words[5 * 512];
    for (size_t limit = 1; limit <= 512; limit *= 2) {
        goosedawn_reply reply = goosedawn_check(2, 1, 2, counts, 1, input_rows, 8, input_marks, 1, output_table, 5,
                                                output_marks, 2, nodes, 20, rules, 6, limit, rows, 3 * limit, words,
                                                5 * limit);
        if (reply.answer == GOOSEDAWN_PASS) return printf("limit %zu: no document breaks the contract\n", limit), 0;
        if (reply.answer == GOOSEDAWN_TREE) return printf("limit %zu: the tree of row %zu breaks the contract\n", limit, reply.first), 0;
        if (reply.first != 10) return printf("refused %zu %zu\n", reply.first, reply.second), 1;
        printf("limit %zu: no document of height %zu or less breaks the contract\n", reply.second, reply.third);
    }
    return 0;
}
