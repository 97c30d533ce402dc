/*
 * A worked example of the C interface: case A of document 01. Function 0, an entry with frame 40,
 * is plain 0, spawn 1 of function 1, sync 2, spawn 3 of function 2, plain 4, in a line. Functions
 * 1 and 2 have one plain node each, and frames 24 and 100. The three frames count as 48, 32 and 112.
 */
#include <inttypes.h>
#include <stdio.h>
#include <string.h>

#include "nagbiro.h"

static const uint8_t table[] = {
    1, 1, 0, 0, 4, 0, 40, 0,
    1, 0, 5, 0, 5, 0, 24, 0,
    1, 0, 6, 0, 6, 0, 100, 0,
    2, 0, 0, 0, 0, 0, 0, 0,
    2, 2, 0, 0, 1, 0, 0, 0,
    2, 3, 0, 0, 0, 0, 0, 0,
    2, 2, 0, 0, 2, 0, 0, 0,
    2, 0, 0, 0, 0, 0, 0, 0,
    2, 0, 1, 0, 0, 0, 0, 0,
    2, 0, 2, 0, 0, 0, 0, 0,
    3, 0, 0, 0, 1, 0, 0, 0,
    3, 0, 1, 0, 2, 0, 0, 0,
    3, 0, 2, 0, 3, 0, 0, 0,
    3, 0, 3, 0, 4, 0, 0, 0,
};

/* So many of its bytes come before the edges. Here those are as a tool may write them that knows of no order. */
#define BEFORE_EDGES (8 * (3 + 7))

static const uint8_t other_edges[] = {
    3, 0, 3, 0, 4, 0, 0, 0,
    3, 0, 2, 0, 3, 0, 0, 0,
    3, 0, 1, 0, 2, 0, 0, 0,
    3, 0, 0, 0, 1, 0, 0, 0,
    3, 0, 2, 0, 3, 0, 0, 0,
};

static const uint8_t guarded[] = {0, 2, 0, 2, 0, 0, 0};

/* Both unmerged, both guarded, and the first one unguarded alone. */
static const uint8_t choices[] = {
    0, 1, 0, 1, 0, 0, 0,
    0, 2, 0, 2, 0, 0, 0,
    0, 3, 0, 1, 0, 0, 0,
};

/* The names of the functions, in number order, and what a compiler says of these and of another one. */
static const char names[] = "main\nfan\ntray\n";
static const char report[] =
    "src/fan.c:12:6:fan\t48\tstatic\n"
    "src/main.c:31:5:main\t64\tstatic\n"
    "src/main.c:9:13:wait\t16\tstatic\n"
    "src/tray.c:7:6:tray\t144\tstatic\n";

/* Nothing of tray; and a frame whose size the compiler does not know. */
static const char without_tray[] =
    "src/fan.c:12:6:fan\t48\tstatic\n"
    "src/main.c:31:5:main\t64\tstatic\n";
static const char dynamic_fan[] =
    "src/fan.c:12:6:fan\t48\tdynamic\n"
    "src/main.c:31:5:main\t64\tstatic\n"
    "src/tray.c:7:6:tray\t144\tstatic\n";

static uint8_t unordered[BEFORE_EDGES + sizeof other_edges];
static uint8_t in_order[NAGBIRO_TABLE];
static uint64_t words[NAGBIRO_WORDS];
static uint8_t order[NAGBIRO_FUNCTIONS];
static uint8_t verdicts[NAGBIRO_NODES];
static uint32_t sizes[3 * NAGBIRO_SIZES];

static void print_function(size_t f, const uint32_t *of)
{
    printf("F %zu %" PRIu32 " %" PRIu32 " %" PRIu32 " %" PRIu32 "\n", f, of[0], of[1], of[2], of[3]);
}

static void print_functions(size_t functions)
{
    for (size_t f = 0; f < functions; f++)
        print_function(f, sizes + 4 * f);
}

static int refused(uint32_t number, size_t place)
{
    printf("refused %" PRIu32 " at %zu\n", number, place);
    return 1;
}

/* Gives a copy of the table the frames that a report says. */
static void print_frames(const char *text)
{
    uint8_t copy[sizeof table];
    size_t place = 0;
    uint32_t number;

    memcpy(copy, table, sizeof table);
    number = nagbiro_frames(copy, sizeof copy, (const uint8_t *)names, strlen(names),
                            (const uint8_t *)text, strlen(text), &place);
    if (number != 0) {
        refused(number, place);
        return;
    }
    printf("frames:");
    for (size_t f = 0; f < 3; f++)
        printf(" %d", copy[8 * f + 6] + 256 * copy[8 * f + 7]);
    printf("\n");
}

/* Puts these edges in order, with a buffer of so many bytes for the table. */
static void print_ordered(size_t room)
{
    size_t written = 0, place = 0;
    uint32_t number = nagbiro_ordered(unordered, sizeof unordered, in_order, room, &written, &place);

    if (number != 0) {
        refused(number, place);
        return;
    }
    printf("ordered: %zu bytes of %zu, edges", written, sizeof unordered);
    for (size_t at = BEFORE_EDGES; at < written; at += 8)
        printf(" %d-%d", in_order[at + 2], in_order[at + 4]);
    printf(", %s\n", written == sizeof table && memcmp(in_order, table, written) == 0 ? "case A" : "another table");
}

int main(void)
{
    size_t functions = 0, nodes = 0, edges = 0, place = 0;
    uint32_t safe = 0, number;
    uint16_t bits = 0;

    number = nagbiro_check(table, sizeof table, &functions, &nodes, &edges);
    if (number != 0)
        return refused(number, functions);
    printf("%zu functions, %zu nodes, %zu edges\n", functions, nodes, edges);

    number = nagbiro_synchronising(table, sizeof table, words, NAGBIRO_WORDS, &place);
    if (number != 0)
        return refused(number, place);
    printf("synchronising: %" PRIx64 "\n", words[0]);

    /* Functions 1 and 2 are spawned and not called, so nothing comes before its turn. */
    number = nagbiro_call_order(table, sizeof table, order, NAGBIRO_FUNCTIONS, &place);
    if (number != 0)
        return refused(number, place);
    printf("call order:");
    for (size_t i = 0; i < functions; i++)
        printf(" %d", order[i]);
    printf("\n");

    number = nagbiro_one_choice(table, sizeof table, guarded, sizeof guarded, sizes, NAGBIRO_SIZES, &safe, &place);
    if (number != 0)
        return refused(number, place);
    printf("both guarded: %s\n", safe ? "safe" : "unsafe");
    print_functions(functions);

    /* Each set has four sizes for each function and then for each node. */
    number = nagbiro_what_if(table, sizeof table, 3, choices, sizeof choices, sizes, 3 * NAGBIRO_SIZES, &bits, &place);
    if (number != 0)
        return refused(number, place);
    printf("safe of three: %x\n", (unsigned)bits);
    for (size_t i = 0; i < 3; i++)
        print_function(0, sizes + 4 * (functions + nodes) * i);

    number = nagbiro_best_choice(table, sizeof table, verdicts, NAGBIRO_NODES, sizes, NAGBIRO_SIZES, &place);
    if (number != 0)
        return refused(number, place);
    printf("best:");
    for (size_t n = 0; n < nodes; n++)
        printf(" %d", verdicts[n]);
    printf("\n");
    print_functions(functions);

    /* Too short by one: the place is the length that is needed. */
    number = nagbiro_best_choice(table, sizeof table, verdicts, nodes - 1, sizes, NAGBIRO_SIZES, &place);
    refused(number, place);

    /* A list one byte short: the place is the length that it has to have. Then one choice more than a call takes. */
    number = nagbiro_what_if(table, sizeof table, 3, choices, sizeof choices - 1,
                             sizes, 3 * NAGBIRO_SIZES, &bits, &place);
    refused(number, place);
    number = nagbiro_what_if(table, sizeof table, NAGBIRO_CHOICES + 1, choices, sizeof choices,
                             sizes, 3 * NAGBIRO_SIZES, &bits, &place);
    refused(number, place);

    print_frames(report);
    /* Function 2 has no line; and then the first line of the report, line 3 with those of the names before it. */
    print_frames(without_tray);
    print_frames(dynamic_fan);

    /* Every other call refuses these edges, for the first one that is not above the one before it. */
    memcpy(unordered, table, BEFORE_EDGES);
    memcpy(unordered + BEFORE_EDGES, other_edges, sizeof other_edges);
    number = nagbiro_check(unordered, sizeof unordered, &place, &nodes, &edges);
    refused(number, place);
    print_ordered(sizeof in_order);
    print_ordered(111);
    return 0;
}
