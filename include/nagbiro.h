/*
 * Nagbiro: which spawns of a task table may share a stack, and how large every stack is.
 * What a table holds, what sizes and verdicts are and what each refusal means is in docs/TABLES.md.
 *
 * A buffer is a pointer and, right after it, its length in elements: bytes, 32-bit or 64-bit
 * numbers, as the pointer's type says. Of the caller is asked that
 *   - no pointer is null, and each is aligned for its type;
 *   - a pointer is valid for as many elements as its length says, and a pointer without a
 *     length for one;
 *   - what a call writes overlaps nothing else that the call is lent.
 * A length of 0 is fine with any such pointer, and nothing is read or written there. Nothing is
 * asked of what a table, a choice, a name list, a report or a buffer holds.
 *
 * Every function returns 0, or the number of a refusal, and then what it gives of the place is
 * the place of that refusal. A refusal writes nothing but the place. No function allocates
 * memory, keeps a pointer or has state of its own, so calls may run at the same time. They work on
 * the stack: a thread that has as many bytes of it as a function needs can call that function,
 * whatever the table, if nothing else takes much of it.
 */
#ifndef NAGBIRO_H
#define NAGBIRO_H

#include <stddef.h>
#include <stdint.h>

#ifdef __cplusplus
extern "C" {
#endif

/* The most functions, nodes and edges that an accepted table has. */
#define NAGBIRO_FUNCTIONS 64
#define NAGBIRO_NODES 512
#define NAGBIRO_EDGES 1024

/* A buffer of this many bytes is long enough for every table. */
#define NAGBIRO_TABLE (8 * (NAGBIRO_FUNCTIONS + NAGBIRO_NODES + NAGBIRO_EDGES))

/* A sizes buffer of this many numbers is long enough for one choice of every table. */
#define NAGBIRO_SIZES (4 * (NAGBIRO_FUNCTIONS + NAGBIRO_NODES))

/* The most choices that one call takes. Their sizes are at most so many times NAGBIRO_SIZES numbers. */
#define NAGBIRO_CHOICES 16

/* How many words a synchronising set has. */
#define NAGBIRO_WORDS 8

/*
 * How an unbounded size is written. A frame counts as its bytes rounded up to a multiple of 16, and
 * from 65,521 on it is unbounded; the table keeps its bytes.
 */
#define NAGBIRO_UNBOUNDED 65536

/* The bytes of a choice: no spawn, and the three verdicts on a spawn. */
#define NAGBIRO_NO_SPAWN 0
#define NAGBIRO_UNMERGED 1
#define NAGBIRO_GUARDED 2
#define NAGBIRO_UNGUARDED 3

/*
 * Every call but nagbiro_ordered asks of a table that its edges ascend by the node that they lead
 * from and then by the node that they lead to, each once, and refuses it under 15 if they do not.
 * The place is the record of the first edge that is not above the one before it. 15 is given after 1
 * to 8, and before 9 to 14.
 */

/*
 * Checks a table.
 * Reads: table.
 * Returns 0 for an accepted table, and writes its numbers of functions, nodes and edges to a, b
 * and c. Else returns the refusal, 1 to 8 or 15, and writes its place to a; b and c are kept.
 * Needs: NAGBIRO_CHECK_STACK bytes of stack.
 */
#define NAGBIRO_CHECK_STACK (16 * 1024)
uint32_t nagbiro_check(const uint8_t *table, size_t table_length, size_t *a, size_t *b, size_t *c);

/*
 * Puts the edges of a table in order: writes its functions and nodes as they are, and behind them
 * its edges, ascending by the node that they lead from and then by the node that they lead to, each
 * once. The edges of table may stand in any order, and repeat. What is written is accepted, and has
 * the same sizes for every choice; a table that is in order already is written as it is.
 * Reads: table.
 * Returns 0, and writes the ordered table to the front of out, and its length to written: 8 bytes for
 * each function, each node and each different edge. Bytes of out past it, and place, are kept. The
 * ordered table is never longer than table.
 * Else returns the refusal, 1 to 8 or 11, and writes its place to place; out and written are kept. The
 * place of 11 is the length that is needed.
 * Needs: NAGBIRO_ORDERED_STACK bytes of stack.
 */
#define NAGBIRO_ORDERED_STACK (48 * 1024)
uint32_t nagbiro_ordered(const uint8_t *table, size_t table_length,
                         uint8_t *out, size_t out_length, size_t *written, size_t *place);

/*
 * Writes the byte counts of a compiler's stack-usage report into the frames of a table.
 * Reads: table; names, one line for each function in number order, its name and nothing else;
 * report, in each line a place that ends in a colon, the name of a function, a tab, a count in
 * decimal, a tab and the word static, as GCC writes it with -fstack-usage. A name has 1 to 64 bytes,
 * and no tab, colon or line feed among them. A place has no tab, and may be the colon alone. A count
 * is up to 65,535, and may have zeros before it. Every line of both ends in a line feed. Lines of the
 * report whose name is not listed are passed over, but have to be of this form too.
 * Returns 0, and writes the count of each function to its frame, two bytes of table. No other byte
 * of table is written; place is kept.
 * Else returns the refusal, 1 to 8 or 13 to 15, and writes its place to place; table is kept. 13 is
 * given for a line that is not of its form, a count above 65,535, and a line too many or too few in
 * names. Its place is the first such line, names before report, counted from 0: the number of
 * functions for a line too many, how many lines there are for one that is missing, and for a line of
 * the report its own number and the number of functions. Then 14 is given for a function with no line
 * in the report or more than one, and its place is the first such function.
 * Needs: NAGBIRO_FRAMES_STACK bytes of stack.
 */
#define NAGBIRO_FRAMES_STACK (16 * 1024)
uint32_t nagbiro_frames(uint8_t *table, size_t table_length,
                        const uint8_t *names, size_t names_length,
                        const uint8_t *report, size_t report_length, size_t *place);

/*
 * Finds the synchronising nodes of a table: node n is bit n % 64, lowest first, of word n / 64.
 * Reads: table.
 * Returns 0, and writes the set's eight words to words: as many as there is room for, and never
 * more than eight. Words past them and place are kept. Else returns the refusal, 1 to 8 or 15, and
 * writes its place to place; words is kept.
 * Needs: NAGBIRO_SYNCHRONISING_STACK bytes of stack.
 */
#define NAGBIRO_SYNCHRONISING_STACK (48 * 1024)
uint32_t nagbiro_synchronising(const uint8_t *table, size_t table_length,
                               uint64_t *words, size_t words_length, size_t *place);

/*
 * Gives the call order of the functions of a table: at each place stands the lowest-numbered
 * function left each of whose call targets stands earlier or reaches it back by calls, by one call
 * or more. So a called function comes before its callers, where no recursion joins the two. A call
 * in any node of a function counts, a spawn in none, and an entry is a function like any other.
 * Each function stands in the order once.
 * Reads: table.
 * Returns 0, and writes the numbers of the functions in that order to order, one byte for each: as
 * many as there is room for, and never more than there are functions. Bytes past them and place
 * are kept. Else returns the refusal, 1 to 8 or 15, and writes its place to place; order is kept.
 * Needs: NAGBIRO_CALL_ORDER_STACK bytes of stack.
 */
#define NAGBIRO_CALL_ORDER_STACK (16 * 1024)
uint32_t nagbiro_call_order(const uint8_t *table, size_t table_length,
                            uint8_t *order, size_t order_length, size_t *place);

/*
 * Says whether a choice is safe, and gives its sizes: for each function and then for each node
 * Total, Post, Pre and Through.
 * Reads: table; choice, one byte for each node.
 * Returns 0, writes 1 to safe for a safe choice and 0 for an unsafe one, and in both cases the
 * sizes to sizes. Numbers past the 4 * (functions + nodes) that are needed, and place, are kept.
 * Else returns the refusal, 1 to 9, 11 or 15, and writes its place to place; sizes and safe are kept.
 * Needs: NAGBIRO_ONE_CHOICE_STACK bytes of stack.
 */
#define NAGBIRO_ONE_CHOICE_STACK (176 * 1024)
uint32_t nagbiro_one_choice(const uint8_t *table, size_t table_length,
                            const uint8_t *choice, size_t choice_length,
                            uint32_t *sizes, size_t sizes_length, uint32_t *safe, size_t *place);

/*
 * Judges up to NAGBIRO_CHOICES choices of one table: says of each whether it is safe, and gives its
 * sizes, just as the call for one choice does. The table is read and checked once.
 * Reads: table; choices, as many as count says, one after another, each one byte for each node.
 * Returns 0, and writes a number to safe: bit i of it, bit 0 the lowest, is 1 for a safe choice i
 * and 0 for an unsafe one, and the bits from count on are 0. In both cases it writes the sizes of
 * choice i to sizes, from 4 * (functions + nodes) * i on. Numbers past the last set of sizes, and
 * place, are kept.
 * Else returns the refusal, 1 to 9, 11, 12 or 15, and writes its place to place; sizes and safe are
 * kept. 12 is looked at before 9 and 11, and its place is count.
 * Needs: NAGBIRO_WHAT_IF_STACK bytes of stack.
 */
#define NAGBIRO_WHAT_IF_STACK (304 * 1024)
uint32_t nagbiro_what_if(const uint8_t *table, size_t table_length,
                         size_t count, const uint8_t *choices, size_t choices_length,
                         uint32_t *sizes, size_t sizes_length, uint16_t *safe, size_t *place);

/*
 * Finds the best choice of a table, and gives its sizes.
 * Reads: table.
 * Returns 0, and writes the choice to verdicts, one byte for each node, and its sizes to sizes,
 * as for one choice. What stands in either past them, and place, is kept.
 * Else returns the refusal, 1 to 8, 10, 11 or 15, and writes its place to place; verdicts and sizes
 * are kept. The place of 10 and 11 is the length that is needed.
 * Needs: NAGBIRO_BEST_CHOICE_STACK bytes of stack.
 */
#define NAGBIRO_BEST_CHOICE_STACK (352 * 1024)
uint32_t nagbiro_best_choice(const uint8_t *table, size_t table_length,
                             uint8_t *verdicts, size_t verdicts_length,
                             uint32_t *sizes, size_t sizes_length, size_t *place);

#ifdef __cplusplus
}
#endif

#endif
