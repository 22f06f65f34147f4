/* Checks an old and a new contract, and prints the shorter of the documents that they show, from where it stands. */
#include <stdio.h>

#include "goosedawn.h"

/* The transformation copies its input. The old output type allows no element inside another, the new one no element. */
static const uint16_t counts[] = {0}, input_rows[] = {0, 0, 0, 0, 0, 1, 0, 0}, input_marks[] = {1};
static const uint16_t nodes[] = {1, 0, 0, 0, 0, 2, 0, 1, 0, 0, 2, 0, 2, 0, 0, 1, 1, 0, 1, 2};
static const uint16_t rules[] = {0, 0, 0, 0, 1, 3};
static const uint16_t old_table[] = {0, 1, 1, 2, 2, 2, 2, 2, 2, 2}, old_marks[] = {1, 1, 0};
static const uint16_t new_table[] = {0, 1, 1, 1, 1}, new_marks[] = {1, 0};

/* Writes out the document that the contract with this output type shows: how many numbers it has, or 0 if the contract
 * shows none or it does not fit. */
static size_t write_shown(size_t states, const uint16_t *table, size_t table_length, const uint16_t *marks,
                          uint16_t *document, size_t document_length) {
    static uint16_t rows[3 * 512];
    static uint64_t words[5 * 512];
    goosedawn_reply reply = goosedawn_check(2, 1, states, counts, 1, input_rows, 8, input_marks, 1, table, table_length,
                                            marks, states, nodes, 20, rules, 6, 512, rows, 1536, words, 2560);
    if (reply.answer == GOOSEDAWN_TREE)
        reply = goosedawn_write_out(rows, 1536, reply.first, document, document_length);
    return reply.answer == GOOSEDAWN_WRITTEN ? reply.first : 0;
}

/* Prints whose document is shorter, which the stretch tells by where it starts, and its numbers; or why there is none. */
static void print_shorter(const uint16_t *old_document, size_t old_length, const uint16_t *new_document,
                          size_t new_length) {
    goosedawn_stretch shorter = goosedawn_shorter(2, old_document, old_length, new_document, new_length);
    if (shorter.count == 0) {
        goosedawn_refusal why = goosedawn_shorter_refusal(2, old_document, old_length, new_document, new_length);
        printf("refused %zu %zu\n", why.number, why.place);
        return;
    }
    const char *whose = shorter.numbers == old_document ? "old" : shorter.numbers == new_document ? "new" : "neither";
    printf("%s, %zu numbers:", whose, shorter.count);
    for (size_t i = 0; i < shorter.count; i++) printf(" %u", shorter.numbers[i]);
    printf("\n");
}

int main(void) {
    static uint16_t old_document[1023], new_document[1023];
    size_t old_length = write_shown(3, old_table, 10, old_marks, old_document, 1023);
    size_t new_length = write_shown(2, new_table, 5, new_marks, new_document, 1023);
    if (old_length == 0 || new_length == 0) return printf("a contract shows no document, or a longer one\n"), 1;
    print_shorter(old_document, old_length, new_document, new_length);
    /* the same without the last number of the new document */
    print_shorter(old_document, old_length, new_document, new_length - 1);
    return 0;
}
