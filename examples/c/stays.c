/* Runs contracts with stay rules on a thread that has the stack which the header names: a small one, and the one with the
 * deepest run that there is. Link with -pthread. */
#define _POSIX_C_SOURCE 200112L
#include <pthread.h>
#include <stdio.h>

#include "goosedawn.h"

/* Every forest of one sort of element is of the input type, and every output is allowed. */
static const uint16_t counts[] = {0, 0}, input_rows[] = {0, 0, 0, 0, 0, 1, 0, 0}, input_marks[] = {1};
static const uint16_t output_table[] = {0, 1, 1, 1, 1}, output_marks[] = {1, 1};
static const uint16_t document[] = {1, 0, 0};

/* Procedure 1 copies; procedure 0 has one rule, a stay rule, with symbol 2: an element around what 1 makes at the same
 * node. */
static const uint16_t nodes[] = {1, 0, 0, 0, 0, 2, 1, 1, 0, 0, 2, 1, 2, 0, 0, 1, 1, 0, 1, 2, 2, 1, 0, 0, 0, 1, 1, 0, 4, 0};
static const uint16_t rules[] = {1, 0, 0, 1, 1, 3, 0, 2, 5};

/* Procedure 0 calls itself at the same node, within 255 elements: 4096 calls within each other, each with 256
 * evaluations. */
static uint16_t deep_nodes[5 * 256] = {2, 0, 0, 0, 0};
static const uint16_t deep_rules[] = {0, 2, 255};

struct run {
    const uint16_t *nodes, *rules;
    size_t nodes_length, rules_length;
    uint16_t rows[3 * 4096];
    goosedawn_reply reply;
};

static void *on_thread(void *given) {
    struct run *run = (struct run *)given;
    run->reply = goosedawn_run(2, 1, 2, counts, 2, input_rows, 8, input_marks, 1, output_table, 5, output_marks, 2,
                               run->nodes, run->nodes_length, run->rules, run->rules_length, document, 3, run->rows,
                               3 * 4096);
    return NULL;
}

/* 0 if there was a thread. */
static int with_stack(struct run *run, size_t bytes) {
    pthread_attr_t attributes;
    pthread_t thread;
    int failed = pthread_attr_init(&attributes);
    if (failed) return failed;
    failed = pthread_attr_setstacksize(&attributes, bytes);
    if (!failed) failed = pthread_create(&thread, &attributes, on_thread, run);
    if (!failed) failed = pthread_join(thread, NULL);
    pthread_attr_destroy(&attributes);
    return failed;
}

int main(void) {
    static struct run run;
    uint16_t tree[16];
    run.nodes = nodes, run.nodes_length = 30, run.rules = rules, run.rules_length = 9;
    if (with_stack(&run, GOOSEDAWN_STAY_RUN_STACK)) return printf("no thread with so much stack\n"), 1;
    if (run.reply.answer != GOOSEDAWN_RAN) return printf("refused %zu %zu\n", run.reply.first, run.reply.second), 1;
    goosedawn_reply reply = goosedawn_write_out(run.rows, 3 * 4096, run.reply.first, tree, 16);
    if (reply.answer != GOOSEDAWN_WRITTEN) return printf("refused %zu %zu\n", reply.first, reply.second), 1;
    for (size_t i = 0; i < reply.first; i++) printf("%u%c", tree[i], i + 1 < reply.first ? ' ' : '\n');

    for (uint16_t node = 1; node < 256; node++) {
        uint16_t *fields = deep_nodes + 5 * node;
        fields[0] = 1, fields[1] = 1, fields[3] = node - 1;
    }
    run.nodes = deep_nodes, run.nodes_length = 5 * 256, run.rules = deep_rules, run.rules_length = 3;
    if (with_stack(&run, GOOSEDAWN_STAY_RUN_STACK)) return printf("no thread with so much stack\n"), 1;
    return printf("the deepest run: refused %zu %zu\n", run.reply.first, run.reply.second), 0;
}
