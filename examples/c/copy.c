/* Admits a contract whose transformation copies its input, runs it on a forest of two roots (a run takes
 * any), and writes out the tree it gives. */
#include <stdio.h>

#include "goosedawn.h"

static const uint16_t counts[] = {0}, input_rows[] = {0, 0, 0, 0, 0, 1, 0, 0}, input_marks[] = {1};
static const uint16_t output_table[] = {0, 1, 1, 1, 1}, output_marks[] = {1, 1};
static const uint16_t nodes[] = {1, 0, 0, 0, 0, 2, 0, 1, 0, 0, 2, 0, 2, 0, 0, 1, 1, 0, 1, 2};
static const uint16_t rules[] = {0, 0, 0, 0, 1, 3}, document[] = {1, 0, 1, 0, 0};
#define CONTRACT \
    2, 1, 2, counts, 1, input_rows, 8, input_marks, 1, output_table, 5, output_marks, 2, nodes, 20, rules, 6

int main(void) {
    uint16_t rows[36], tree[16];
    goosedawn_reply reply = goosedawn_admit(CONTRACT);
    if (reply.answer == GOOSEDAWN_ADMITTED) reply = goosedawn_run(CONTRACT, document, 5, rows, 36);
    if (reply.answer == GOOSEDAWN_RAN) reply = goosedawn_write_out(rows, 36, reply.first, tree, 16);
    if (reply.answer != GOOSEDAWN_WRITTEN) return printf("refused %zu %zu\n", reply.first, reply.second), 1;
    for (size_t i = 0; i < reply.first; i++) printf("%u%c", tree[i], i + 1 < reply.first ? ' ' : '\n');
    return 0;
}
