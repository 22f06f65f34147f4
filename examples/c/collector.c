/* Judges the documents of a collector's buffer, which stand one behind another, each from where the last one ended. */
#include <stdio.h>

#include "goosedawn.h"

/* An element may hold one other at most. The transformation copies; in its output no element may hold another. */
static const uint16_t counts[] = {0}, input_rows[] = {0, 0, 0, 0, 1, 0, 0, 0, 1, 1, 1, 0}, input_marks[] = {0, 1};
static const uint16_t output_table[] = {0, 1, 1, 2, 2, 2, 2, 2, 2, 2}, output_marks[] = {1, 1, 0};
static const uint16_t nodes[] = {1, 0, 0, 0, 0, 2, 0, 1, 0, 0, 2, 0, 2, 0, 0, 1, 1, 0, 1, 2};
static const uint16_t rules[] = {0, 0, 0, 0, 1, 3};
#define CONTRACT \
    2, 2, 3, counts, 1, input_rows, 12, input_marks, 2, output_table, 10, output_marks, 3, nodes, 20, rules, 6

/* <a/>, then <a><a/></a>, then <a><a/><a/></a>, then nothing, which reaches the accepted state too but has no root */
static const uint16_t buffer[] = {1, 0, 0, 1, 1, 0, 0, 0, 1, 1, 0, 1, 0, 0, 0, 0};
static const size_t length = sizeof buffer / sizeof *buffer;

static const char *const judgements[] = {"not of the input type, or not with one root", "keeps the contract",
                                         "breaks the contract"};

int main(void) {
    uint64_t kind[5];
    for (size_t place = 0; place < length;) {
        goosedawn_reply reply = goosedawn_judge(CONTRACT, buffer + place, length - place, kind, 5);
        if (reply.answer != GOOSEDAWN_JUDGED)
            return printf("place %zu: refused %zu %zu\n", place, reply.first, reply.second), 1;
        printf("place %zu, length %zu: %s\n", place, reply.second, judgements[reply.first]);
        place += reply.second;
    }
    return 0;
}
