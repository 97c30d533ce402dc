/*
 * Holds every function of the C interface to the stack that nagbiro.h states for it: it is called on
 * a thread whose stack has just so many bytes, with case A of document 01 and with a table of full
 * size. Prints the stack that is stated, and the smallest one that was enough.
 *
 * Each call has a process of its own. What goes past the stack meets a guard that no frame is wide
 * enough to step over, and ends the process by a signal.
 */
#define _XOPEN_SOURCE 700
#include <limits.h>
#include <pthread.h>
#include <stdio.h>
#include <stdlib.h>
#include <string.h>
#include <sys/resource.h>
#include <sys/wait.h>
#include <unistd.h>

#include "nagbiro.h"

#define GUARD ((size_t)1 << 20)
#define PAGE ((size_t)4096)

enum { FUNCTION = 1, NODE, EDGE };
enum { PLAIN, CALL, SPAWN, SYNC };

struct table {
    const char *name;
    uint8_t bytes[NAGBIRO_TABLE];
    size_t length;
    /* The choice that merges every spawn and guards none. */
    uint8_t choice[NAGBIRO_NODES];
    size_t nodes;
    /* A name list and a report for it, with names as long as they may be. */
    char names[NAGBIRO_FUNCTIONS * 65 + 1];
    char report[NAGBIRO_FUNCTIONS * 80 + 1];
    size_t functions, names_length, report_length;
};

static struct table case_a = {.name = "case A"}, full_size = {.name = "full size"};

static uint64_t words[NAGBIRO_WORDS];
static uint8_t order[NAGBIRO_FUNCTIONS];
static uint8_t altered[NAGBIRO_TABLE], in_order[NAGBIRO_TABLE];
static uint8_t verdicts[NAGBIRO_NODES];
static uint8_t choices[NAGBIRO_CHOICES * NAGBIRO_NODES];
static uint32_t sizes[NAGBIRO_CHOICES * NAGBIRO_SIZES];

static void put(struct table *table, int kind, int sort, int a, int b, int c)
{
    const uint8_t record[8] = {kind, sort, a & 255, a >> 8, b & 255, b >> 8, c & 255, c >> 8};

    memcpy(table->bytes + table->length, record, sizeof record);
    table->length += sizeof record;
    if (kind == NODE)
        table->choice[table->nodes++] = sort == SPAWN ? NAGBIRO_UNGUARDED : NAGBIRO_NO_SPAWN;
    if (kind == FUNCTION)
        table->functions++;
}

static void make_files(struct table *table)
{
    char *names = table->names, *report = table->report;

    for (size_t f = 0; f < table->functions; f++) {
        names += sprintf(names, "%064zu\n", f);
        report += sprintf(report, ":%064zu\t%zu\tstatic\n", f, 65535 - f);
    }
    table->names_length = names - table->names;
    table->report_length = report - table->report;
}

static void make_case_a(struct table *table)
{
    const int sorts[] = {PLAIN, SPAWN, SYNC, SPAWN, PLAIN}, targets[] = {0, 1, 0, 2, 0};

    put(table, FUNCTION, 1, 0, 4, 40);
    put(table, FUNCTION, 0, 5, 5, 24);
    put(table, FUNCTION, 0, 6, 6, 100);
    for (int i = 0; i < 5; i++)
        put(table, NODE, sorts[i], 0, targets[i], 0);
    put(table, NODE, PLAIN, 1, 0, 0);
    put(table, NODE, PLAIN, 2, 0, 0);
    for (int i = 0; i < 4; i++)
        put(table, EDGE, 0, i, i + 1, 0);
}

/*
 * Functions of eight nodes in a line, with four spawns, a call and loops. They call and spawn each
 * other. The exit is reached by the sync before it alone, so that some spawns are merged.
 */
static void make_full_size(struct table *table)
{
    const int sorts[] = {PLAIN, SPAWN, SPAWN, CALL, SPAWN, SPAWN, SYNC, PLAIN};

    for (int f = 0; f < 64; f++)
        put(table, FUNCTION, f == 0, 8 * f, 8 * f + 7, 16 + f);
    for (int f = 0; f < 64; f++)
        for (int i = 0; i < 8; i++) {
            int has_target = sorts[i] == CALL || sorts[i] == SPAWN;
            put(table, NODE, sorts[i], f, has_target ? (5 * f + 11 * i) % 64 : 0, 0);
        }
    for (int f = 0; f < 64; f++)
        for (int i = 0; i < 8; i++) {
            int to = i < 7 ? i + 1 : 6;
            put(table, EDGE, 0, 8 * f + i, 8 * f + (3 * i + f) % to, 0);
            put(table, EDGE, 0, 8 * f + i, 8 * f + to, 0);
        }
}

static uint32_t check(const struct table *table)
{
    size_t a = 0, b = 0, c = 0;

    return nagbiro_check(table->bytes, table->length, &a, &b, &c);
}

/* With the edges the other way round, so that there is something to put in order. */
static uint32_t ordered(const struct table *table)
{
    size_t written = 0, place = 0, front = 8 * (table->functions + table->nodes);

    memcpy(altered, table->bytes, front);
    for (size_t at = front; at < table->length; at += 8)
        memcpy(altered + at, table->bytes + front + table->length - 8 - at, 8);
    return nagbiro_ordered(altered, table->length, in_order, sizeof in_order, &written, &place);
}

static uint32_t frames(const struct table *table)
{
    size_t place = 0;

    memcpy(altered, table->bytes, table->length);
    return nagbiro_frames(altered, table->length, (const uint8_t *)table->names, table->names_length,
                          (const uint8_t *)table->report, table->report_length, &place);
}

static uint32_t synchronising(const struct table *table)
{
    size_t place = 0;

    return nagbiro_synchronising(table->bytes, table->length, words, NAGBIRO_WORDS, &place);
}

static uint32_t call_order(const struct table *table)
{
    size_t place = 0;

    return nagbiro_call_order(table->bytes, table->length, order, NAGBIRO_FUNCTIONS, &place);
}

static uint32_t one_choice(const struct table *table)
{
    size_t place = 0;
    uint32_t safe = 0;

    return nagbiro_one_choice(table->bytes, table->length, table->choice, table->nodes,
                              sizes, NAGBIRO_SIZES, &safe, &place);
}

/* As many choices as a call takes. */
static uint32_t what_if(const struct table *table)
{
    size_t place = 0;
    uint16_t safe = 0;

    for (size_t i = 0; i < NAGBIRO_CHOICES; i++)
        memcpy(choices + table->nodes * i, table->choice, table->nodes);
    return nagbiro_what_if(table->bytes, table->length, NAGBIRO_CHOICES, choices, table->nodes * NAGBIRO_CHOICES,
                           sizes, NAGBIRO_CHOICES * NAGBIRO_SIZES, &safe, &place);
}

static uint32_t best_choice(const struct table *table)
{
    size_t place = 0;

    return nagbiro_best_choice(table->bytes, table->length, verdicts, NAGBIRO_NODES,
                               sizes, NAGBIRO_SIZES, &place);
}

struct call {
    const char *name;
    size_t stack;
    uint32_t (*make)(const struct table *table);
};

static const struct call calls[] = {
    {"nagbiro_check", NAGBIRO_CHECK_STACK, check},
    {"nagbiro_ordered", NAGBIRO_ORDERED_STACK, ordered},
    {"nagbiro_frames", NAGBIRO_FRAMES_STACK, frames},
    {"nagbiro_synchronising", NAGBIRO_SYNCHRONISING_STACK, synchronising},
    {"nagbiro_call_order", NAGBIRO_CALL_ORDER_STACK, call_order},
    {"nagbiro_one_choice", NAGBIRO_ONE_CHOICE_STACK, one_choice},
    {"nagbiro_what_if", NAGBIRO_WHAT_IF_STACK, what_if},
    {"nagbiro_best_choice", NAGBIRO_BEST_CHOICE_STACK, best_choice},
};

struct job {
    const struct call *call;
    const struct table *table;
    uint32_t number;
};

static void *do_job(void *lent)
{
    struct job *job = lent;

    job->number = job->call->make(job->table);
    return NULL;
}

/* Makes a call on a thread with so many bytes of stack. Says whether there was one and the table was accepted. */
static int made(const struct call *call, const struct table *table, size_t stack)
{
    struct job job = {call, table, 1};
    pthread_attr_t attributes;
    pthread_t thread;

    return pthread_attr_init(&attributes) == 0 &&
           pthread_attr_setguardsize(&attributes, GUARD) == 0 &&
           pthread_attr_setstacksize(&attributes, stack) == 0 &&
           pthread_create(&thread, &attributes, do_job, &job) == 0 &&
           pthread_join(thread, NULL) == 0 && job.number == 0;
}

/* Says whether so many bytes of stack are enough for a call. */
static int is_enough(const struct call *call, const struct table *table, size_t stack)
{
    int status = 0;
    pid_t child = fork();

    if (child == 0)
        _exit(made(call, table, stack) ? 0 : 1);
    if (child == -1 || waitpid(child, &status, 0) != child) {
        perror("a process for a call");
        exit(2);
    }
    if (WIFEXITED(status) && WEXITSTATUS(status) != 0) {
        printf("%s, %s: no thread with %zu bytes of stack, or refused\n", call->name, table->name, stack);
        exit(1);
    }
    return WIFEXITED(status);
}

/* The smallest stack that is enough, in whole pages, if the largest is; no thread has less than PTHREAD_STACK_MIN. */
static size_t need(const struct call *call, const struct table *table)
{
    size_t less = PTHREAD_STACK_MIN - PAGE, enough = call->stack;

    while (enough - less > PAGE) {
        size_t middle = less + (enough - less) / PAGE / 2 * PAGE;
        if (is_enough(call, table, middle))
            enough = middle;
        else
            less = middle;
    }
    return enough;
}

static int hold(const struct call *call, const struct table *table)
{
    if (!is_enough(call, table, call->stack)) {
        printf("%s, %s: %zu bytes of stack are too few\n", call->name, table->name, call->stack);
        return 0;
    }
    printf("%s, %s: %zu bytes of stack stated, %zu enough\n", call->name, table->name, call->stack, need(call, table));
    return 1;
}

/* Says whether the larger table is as large as a table can be. */
static int is_full(const struct table *table)
{
    size_t a = 0, b = 0, c = 0;

    return nagbiro_check(table->bytes, table->length, &a, &b, &c) == 0 &&
           a == NAGBIRO_FUNCTIONS && b == NAGBIRO_NODES && c == NAGBIRO_EDGES;
}

int main(void)
{
    const struct rlimit no_core = {0, 0};
    size_t count = sizeof calls / sizeof *calls;

    setrlimit(RLIMIT_CORE, &no_core);
    setvbuf(stdout, NULL, _IONBF, 0);
    make_case_a(&case_a);
    make_full_size(&full_size);
    make_files(&case_a);
    make_files(&full_size);
    if (!is_full(&full_size)) {
        printf("the larger table is not of full size\n");
        return 1;
    }
    /* A stack that is too small has to be seen. */
    if (is_enough(&calls[count - 1], &full_size, PTHREAD_STACK_MIN)) {
        printf("a call that goes past its stack is not seen\n");
        return 1;
    }
    for (size_t i = 0; i < count; i++)
        if (!hold(&calls[i], &case_a) || !hold(&calls[i], &full_size))
            return 1;
    return 0;
}
