/* Merges the output types of two makers' devices, and checks once whether both take whatever a transformation makes. */
#include <stdio.h>

#include "goosedawn.h"

/* A configuration (1) holds VLANs (2), ports (3) and comments (4). The transformation copies it without the comments. */
static const uint16_t counts[] = {0}, rules[] = {0, 0, 0, 0, 1, 3, 0, 2, 4, 0, 3, 5, 0, 4, 2};
static const uint16_t nodes[] = {1, 0, 0, 0, 0, 2, 0, 1, 0, 0, 2, 0, 2, 0, 0,
                                 1, 1, 0, 1, 2, 1, 2, 0, 1, 2, 1, 3, 0, 1, 2};

/* The first maker's device turns down comments, the second's a port outside a VLAN. State 1 has one of these. */
static const uint16_t first_table[] = {0, 0, 1, 1, 1, 0, 1, 1, 1, 0, 1, 1, 1, 1, 1, 1, 1}, first_marks[] = {1, 0};
static const uint16_t second_table[] = {0, 0, 1, 1, 1, 0, 1, 0, 1, 1, 1, 1, 1, 0, 1, 1, 1}, second_marks[] = {1, 0};

/* Any configuration: state 0 whatever it may hold, 1 the configuration. The rows let the same stand behind it, but only
 * documents with one root count. */
static const uint16_t any_rows[] = {0, 0, 0, 0, 0, 2, 0, 0, 0, 3, 0, 0, 0, 4, 0, 0, 1, 1, 0, 0}, any_marks[] = {0, 1};
/* Those whose ports stand in VLANs: state 0 outside a VLAN, 1 inside one or inside a comment, 2 the configuration. */
static const uint16_t placed_rows[] = {0, 0, 0, 0, 0, 2, 1, 0, 0, 4, 1, 0, 1, 0, 0, 0,
                                       1, 2, 1, 1, 1, 3, 1, 1, 1, 4, 1, 1, 2, 1, 0, 0};
static const uint16_t placed_marks[] = {0, 0, 1};

/* Checks the merged contract with an input type, and prints what that says of both devices. */
static void print_check(const char *name, size_t input_states, const uint16_t *input_rows, size_t input_rows_length,
                        const uint16_t *input_marks, size_t states, const uint16_t *table, const uint16_t *marks) {
    static uint16_t rows[3 * 512], document[1023];
    static uint64_t words[5 * 512];
    goosedawn_reply reply = goosedawn_check(5, input_states, states, counts, 1, input_rows, input_rows_length,
                                            input_marks, input_states, table, 1 + 4 * states * states, marks, states,
                                            nodes, 30, rules, 15, 512, rows, 1536, words, 2560);
    if (reply.answer == GOOSEDAWN_PASS) {
        printf("%s: both devices take every output\n", name);
        return;
    }
    if (reply.answer == GOOSEDAWN_TREE) reply = goosedawn_write_out(rows, 1536, reply.first, document, 1023);
    if (reply.answer != GOOSEDAWN_WRITTEN) {
        printf("%s: refused %zu %zu\n", name, reply.first, reply.second);
        return;
    }
    printf("%s: a device turns down the output of", name);
    for (size_t i = 0; i < reply.first; i++) printf(" %u", document[i]);
    printf("\n");
}

int main(void) {
    uint16_t table[1 + 4 * 4 * 4], marks[4];
    goosedawn_merging merged = goosedawn_merge(5, 2, first_table, 17, first_marks, 2, 5, 2, second_table, 17,
                                               second_marks, 2, table, 65, marks, 4);
    if (merged.number != 0) return printf("refused %zu %zu\n", merged.number, merged.place), 1;
    printf("merged: %zu states\n", merged.states);
    print_check("any configuration", 2, any_rows, 20, any_marks, merged.states, table, marks);
    print_check("ports in VLANs", 3, placed_rows, 32, placed_marks, merged.states, table, marks);
    return 0;
}
