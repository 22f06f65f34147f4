/* Goosedawn for C: contracts admitted and checked, documents judged, transformed and compared, trees written out,
 * output types merged, lists of kinds examined.
 *
 * Link with crates/goosedawn_c/out/libgoosedawn_c.a, which `rt lib` in crates/goosedawn_c proves and writes (x86-64).
 *
 * Any numbers and any lengths may be handed in: what is wrong is refused. Each table is a pointer, then how many 16-bit
 * numbers it has; the pointer is of live memory of that length and never null, also where the length is 0. What is
 * written, a buffer or a stretch, overlaps no other memory handed in; what is only read may overlap or be the same. No
 * function allocates, keeps a pointer, or touches anything else.
 *
 * Tables hold tuples one after another:
 *   counts        how many parameters each procedure has, 0 to 2; procedure 0 is the start and has none
 *   input_rows    (state, symbol, left state, right state); for symbol 0 both child states are 0
 *   input_marks   for each input state 1 if it is accepted, otherwise 0
 *   output_table  the state of symbol 0; then for each symbol from 1, each left state, each right state, a state
 *   output_marks  for each output state 1 if it is accepted, otherwise 0
 *   nodes         (tag, name, child, first, second): tag 0 a parameter, 1 an output symbol, 2 a call on child 1 or 2, or
 *                 with child 0 at the node itself
 *   rules         (procedure, symbol, node): for a node of that symbol; with the number of symbols for its symbol a stay
 *                 rule, which is for a node of any symbol, 0 too
 * Sizes: symbols 1 to 16, input states 1 to 32, output states 1 to 4, procedures 1 to 16, at most 512 input rows, 256
 * nodes and 256 rules.
 *
 * The calls of a stay rule all have child 0, those of any other rule child 1 or 2, arguments included. The outputs of a
 * procedure on a tree are those of its rules for the root's symbol and of all its stay rules, and there are no others: a
 * procedure that only calls itself at the same node has none. A run takes a stay rule only if the procedure has no rule for
 * the symbol.
 *
 * A document is its symbols in preorder, 1 to 1023 numbers: symbol 0 stands alone, any other has two trees after it.
 * It has one root if it does not begin with symbol 0 and its root's right tree is symbol 0: nothing follows the root.
 * XML has no other documents, so only those with one root count when a contract is checked or a document is judged. All
 * may be handed in, also an empty one or one of several roots: judging answers 0, running and comparing take them as they
 * are.
 *
 * Judging, running and comparing take the document that the numbers begin with. What stands behind it is not looked at
 * and may be anything, such as the next document. Judging and running tell how many numbers it took. To go on there,
 * hand in the pointer moved on by the numbers taken and a length that is less by as many, as examples/c/collector.c
 * does. A refusal tells no numbers taken: its second value is the place. */
#ifndef GOOSEDAWN_H
#define GOOSEDAWN_H

#include <stddef.h>
#include <stdint.h>

#ifdef __cplusplus
extern "C" {
#endif

/* Which answer a reply is. What its three values hold stands beside it; a value that is not named is 0. */
enum {
    GOOSEDAWN_REFUSED = 0,  /* first: the refusal's number; second: its place; third: of refusal 10 the height */
    GOOSEDAWN_ADMITTED = 1,
    GOOSEDAWN_JUDGED = 2,   /* first: the result; second: how many numbers the document took */
    GOOSEDAWN_PASS = 3,     /* first: how many kinds there are */
    GOOSEDAWN_TREE = 4,     /* first: the row of a tree that breaks the contract; it has one root */
    GOOSEDAWN_RAN = 5,      /* first: the root row; second: the rows used; third: how many numbers the document took */
    GOOSEDAWN_WRITTEN = 6   /* first: how many numbers are written */
};

typedef struct {
    size_t answer;
    size_t first;
    size_t second;
    size_t third;
} goosedawn_reply;

/* The parameters of a contract, in the order in which each function takes them. */
#define GOOSEDAWN_CONTRACT \
    size_t symbols, size_t input_states, size_t output_states, \
    const uint16_t *counts, size_t counts_length, \
    const uint16_t *input_rows, size_t input_rows_length, \
    const uint16_t *input_marks, size_t input_marks_length, \
    const uint16_t *output_table, size_t output_table_length, \
    const uint16_t *output_marks, size_t output_marks_length, \
    const uint16_t *nodes, size_t nodes_length, \
    const uint16_t *rules, size_t rules_length

/* Admits a contract. Answers ADMITTED, or the first of these refusals that applies, in this order, with its lowest place:
 *   1  a size is out of range: 0 symbols, 1 input states, 2 output states, 3 procedures
 *   2  a table's length: 0 input rows, 1 input marks, 2 output table, 3 output marks, 4 nodes, 5 rules
 *   3  a bad input row: the row
 *   4  a mark above 1 or an output entry that is no state: the index through input marks, output table and output
 *      marks laid end to end
 *   5  a parameter count above 2, or procedure 0 with parameters: the procedure
 *   30 to 34  what is wrong with the lowest bad node, the lowest number that applies: the node (examples, and how to mend
 *      them, in docs/REFUSALS.md)
 *      30  its tag is not 0, 1 or 2
 *      31  its name is, by its tag, no parameter (1 or 2), no symbol or no procedure
 *      32  it is a call, and its child is above 2
 *      33  the number of a node that it refers to is not smaller than its own
 *      34  a field that it does not use is not 0
 *   7  a bad rule: the rule. Its procedure, symbol or node is out of range (symbols go up to that of stay rules), its node
 *      uses, itself or below, a parameter that the procedure has not, it is for symbol 0 and has a call, for another symbol
 *      and has a call with child 0, or a stay rule and has a call with child 1 or 2. A node that no rule uses may have calls
 *      of both sorts
 *   8  over 256 facts: how many there are */
goosedawn_reply goosedawn_admit(GOOSEDAWN_CONTRACT);

/* Judges by a contract the document that the numbers begin with. The refusals of goosedawn_admit, then
 *   9   the kind buffer is not five words: 0
 *   11  the first 1023 numbers are symbols, the tree does not end in them, and more follow: how many there are in all
 *   12  the first number before the end of the tree that is no symbol, or the length if the numbers end first
 * which write nothing. Otherwise JUDGED, and the kind of the document is written: in word 0 bit s is set for each input
 * state s that it reaches (below 32), bit 32 if it has one root, bit 33 if it is empty; words 1 to 4 have a bit for each
 * fact. The result is 0, not of the input type, or not with one root; 1, of the input type and with one root, with no
 * output outside the output type; 2, the same with such an output. */
goosedawn_reply goosedawn_judge(GOOSEDAWN_CONTRACT, const uint16_t *numbers, size_t numbers_length, uint64_t *kind,
                                size_t kind_length);

/* Checks a contract for all documents with one root at once, listing at most `limit` kinds of trees; the list has the
 * kinds of all trees, whatever their roots. The refusals of goosedawn_admit, then
 *   9   the limit is not 1 to 512, the row buffer not 3 x limit numbers, the word buffer not 5 x limit words: 0, 1, 2
 * which write nothing. Otherwise
 *   PASS  no document of the input type with one root has an output outside the output type: rows and words of all
 *         kinds stand
 *   TREE  the tree of the row has one root and breaks the contract, and none of less height does: rows and words up to it
 *         stand; goosedawn_write_out gives the document
 *   refusal 10, the limit: there are more kinds than the limit and none of those listed breaks; both buffers are all 0.
 *         The reply's third value is the greatest height such that every tree of that height or less has its kind among
 *         those listed: no document of that height or less breaks the contract. A larger limit that stops too gives no
 *         smaller one
 * A row is (symbol, left row, right row), a kind five words as in judging; the rest of both buffers is 0. */
goosedawn_reply goosedawn_check(GOOSEDAWN_CONTRACT, size_t limit, uint16_t *rows, size_t rows_length, uint64_t *words,
                                size_t words_length);

/* Bytes of stack that are enough for any run: of a contract without stay rules, and of one with them. A thread with so
 * much only reserves it; what no run reaches takes no memory. */
#define GOOSEDAWN_RUN_STACK ((size_t)32 << 20)
#define GOOSEDAWN_STAY_RUN_STACK ((size_t)128 << 20)

/* Runs a contract's transformation on the document that the numbers begin with, taking for each call the first rule
 * listed of the procedure for the symbol, and if there is none its first stay rule. The refusals of goosedawn_admit, then
 *   9   the row buffer's length is no multiple of three or above 12288: 0
 *   11, 12  as in judging
 * which write nothing; then, whichever comes first in the order of work, with the row buffer all 0,
 *   13  a procedure has no rule where it is called, and no stay rule: the procedure
 *   14  a row is due and none is free: how many rows there are
 *   15  a call past 65536: 65536; of a contract that has a stay rule, taken or not, a call past 4096: 4096
 * Otherwise RAN: the buffer holds rows (symbol, left row, right row), each after its children, and unused rows are 0.
 * The tree of the root row is one of the transformation's outputs on the document.
 *
 * A run nests as deep as its calls and expressions do, and an evaluation takes 112 bytes of stack. The deepest run of a
 * contract without stay rules needs about 14 MiB (14667776 bytes were measured); of one with them, whose calls may stay at
 * a node, about 112 MiB (117456896 bytes: 4096 calls within each other, each with 256 evaluations). So call this on a
 * thread that has as many bytes of stack as stand above, unless your contracts are small; examples/c/stays.c does so. */
goosedawn_reply goosedawn_run(GOOSEDAWN_CONTRACT, const uint16_t *numbers, size_t numbers_length, uint16_t *rows,
                              size_t rows_length);

/* Writes out the tree of a row in preorder: its symbol, then the trees of its two smaller rows; symbol 0 stands alone.
 *   16  the rows' length is no multiple of three or above 12288: 0
 *   17  the first row with a symbol above 15, a symbol 0 with non-zero children, or another symbol with a child that is
 *       not below its own row: that row
 *   18  there is no row of this number: that number
 *   19  the tree has more numbers than the buffer: the buffer's length
 * Refusals write nothing. Otherwise WRITTEN, and what follows the tree in the buffer is kept. */
goosedawn_reply goosedawn_write_out(const uint16_t *rows, size_t rows_length, size_t row, uint16_t *buffer,
                                    size_t buffer_length);

/* A stretch of numbers: where it starts, and how many there are. */
typedef struct {
    const uint16_t *numbers;
    size_t count;
} goosedawn_stretch;

/* Why something is refused: a number and a place. Both are 0 where nothing is. */
typedef struct {
    size_t number;
    size_t place;
} goosedawn_refusal;

/* Finds, of two buffers that each begin with a document, the one whose document has fewer numbers; on a tie the first.
 * Writes through `into` the very stretch of that document, which starts where its buffer does. No number is copied: the
 * stretch lives as long as the two buffers. A refusal writes the empty stretch at the first buffer's start, and
 * goosedawn_shorter_refusal tells it; a document has a number at least, so that the count is 0 for a refusal alone. (The
 * tree that a check shows may have more than 1023 numbers; written out, it is refused here by 11 or 54.)
 * Before the call too, `into` holds a stretch of live memory, such as { first, 0 }; it is not looked at. */
void goosedawn_shorter_into(size_t symbols, const uint16_t *first, size_t first_length, const uint16_t *second,
                            size_t second_length, goosedawn_stretch *into);

/* The same, with the stretch handed back: the function to call from C, as examples/c/shorter.c does. */
static inline goosedawn_stretch goosedawn_shorter(size_t symbols, const uint16_t *first, size_t first_length,
                                                  const uint16_t *second, size_t second_length) {
    goosedawn_stretch stretch = {first, 0};
    goosedawn_shorter_into(symbols, first, first_length, second, second_length, &stretch);
    return stretch;
}

/* Tells why goosedawn_shorter hands back the empty stretch, or 0 and 0 where it hands back a document. The first that
 * applies; the second buffer is only looked at if the first is good:
 *   1   the symbols are not 1 to 16: 0
 *   11, 12  of the first buffer, as in judging
 *   54, 55  the same of the second buffer: 54 as 11, 55 as 12 */
goosedawn_refusal goosedawn_shorter_refusal(size_t symbols, const uint16_t *first, size_t first_length,
                                            const uint16_t *second, size_t second_length);

/* What merging answers. */
typedef struct {
    size_t states; /* of the merged type; 0 where something is refused */
    size_t number; /* of the refusal; 0 where nothing is refused */
    size_t place;  /* of the refusal; 0 where nothing is refused */
} goosedawn_merging;

/* Merges two output types into one that allows a tree exactly if both do: one contract for two receivers, as in
 * examples/c/receivers.c. A type is its symbols and states, then a table and marks like output_table and output_marks
 * above. A tree that has state m in the first type and n in the second has in the merged one the state
 * m x second_states + n, which is accepted if m and n both are. Of a merged type with p states, 1 + (symbols - 1) x p x
 * p numbers are written at the start of the merged table, and p at the start of the merged marks: 241 and 4 at most.
 * What follows them in a longer buffer is kept.
 *
 * The first refusal that applies, in this order, with its lowest place:
 *   51  a fault in the first type: 0 symbols, 1 states, 2 the table's length, 3 the marks' length, otherwise 4 plus the
 *       index, through table and marks laid end to end, of an entry that is no state or a mark above 1
 *   52  the same in the second type, told only if the first is good
 *   50  the types' symbols differ: the second's
 *   53  there would be more than 4 states: how many
 *   56  a buffer is shorter than what is to be written: 0 the merged table, 1 the merged marks
 * which write nothing.
 *
 * Of contracts that differ in their output type alone, the one with the merged type passes exactly if the one with the
 * first type and the one with the second both pass, provided that none of the three checks is refused. It may have more
 * facts and more kinds than the other two, so that it may be refused by 8 or 10 where they are not.
 *
 * A merged type may be merged again, as long as there are at most 4 states in all. Neither order nor grouping, nor
 * merging a type in more than once, changes which trees are allowed in the end. */
goosedawn_merging goosedawn_merge(size_t symbols, size_t states, const uint16_t *table, size_t table_length,
                                  const uint16_t *marks, size_t marks_length, size_t second_symbols,
                                  size_t second_states, const uint16_t *second_table, size_t second_table_length,
                                  const uint16_t *second_marks, size_t second_marks_length, uint16_t *merged_table,
                                  size_t merged_table_length, uint16_t *merged_marks, size_t merged_marks_length);

/* Examines a list of kinds for a contract, whoever made it: at most 4096 kinds, five words each, as judging writes one.
 * It is accepted exactly if it holds the kind of the empty forest, holds the kind of every symbol from 1 on over every two
 * of its kinds, and holds none that breaks the contract (one that has bit 32, an accepted input state, and a fact of
 * procedure 0 with an output state that is not accepted). Then no document breaks the contract. The kinds that a check
 * lists when it passes are accepted.
 *
 * The kinds may stand in any order and be repeated, and there may be kinds that no tree has. words_length counts words,
 * five for each kind. Bits that stand for nothing are ignored: in word 0 all but those of the input states, 32 and 33;
 * in words 1 to 4 those of no fact.
 *
 * Number and place are 0 if it is accepted. Otherwise the refusals of goosedawn_admit, then
 *   70  the length is no multiple of five or above 20480: the length
 *   71  the kind of the empty forest is missing: 0
 *   72  the kind of a symbol over two kinds of the list is missing: (symbol x 4096 + left) x 4096 + right, the lowest. So
 *       symbol is place / 16777216, left is place / 4096 % 4096, right is place % 4096; see examples/c/examine.c
 *   73  a kind breaks the contract: the lowest number of one
 * Left, right and the number of a kind count the kinds of the list as it is handed in, from 0. */
goosedawn_refusal goosedawn_examine(GOOSEDAWN_CONTRACT, const uint64_t *words, size_t words_length);

#ifdef __cplusplus
}
#endif
#endif
