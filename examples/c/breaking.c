/* Checks a contract that some document breaks, and writes out one of least height: as every one shown, it has one root. */
#include <stdio.h>

#include "goosedawn.h"

/* The transformation copies its input; only the empty forest is allowed as output. */
static const uint16_t counts[] = {0}, input_rows[] = {0, 0, 0, 0, 0, 1, 0, 0}, input_marks[] = {1};
static const uint16_t output_table[] = {0, 1, 1, 1, 1}, output_marks[] = {1, 0};
static const uint16_t nodes[] = {1, 0, 0, 0, 0, 2, 0, 1, 0, 0, 2, 0, 2, 0, 0, 1, 1, 0, 1, 2};
static const uint16_t rules[] = {0, 0, 0, 0, 1, 3};

int main(void) {
    static uint16_t rows[3 * 512], document[1023];
    static uint64_t words[5 * 512];
    goosedawn_reply reply = goosedawn_check(2, 1, 2, counts, 1, input_rows, 8, input_marks, 1, output_table, 5,
                                            output_marks, 2, nodes, 20, rules, 6, 512, rows, 1536, words, 2560);
    if (reply.answer == GOOSEDAWN_TREE) reply = goosedawn_write_out(rows, 1536, reply.first, document, 1023);
    if (reply.answer != GOOSEDAWN_WRITTEN) return printf("%zu: %zu %zu\n", reply.answer, reply.first, reply.second), 1;
    for (size_t i = 0; i < reply.first; i++) printf("%u%c", document[i], i + 1 < reply.first ? ' ' : '\n');
    return 0;
}
