/*
 * Times qorshudan_successor beside the one C function for it that we know of, online_nsec_next of
 * Knot DNS's module for online signing, on the benchmark's questions with a limit of 255, which it
 * reads from standard input:
 *
 *     cargo run --release --offline -p bench --bin questions >target/questions
 *     bench/peers/build && target/peers-successor <target/questions
 *
 * Knot's function takes a name in lower case that lies at or under the apex, checks nothing, and
 * answers in memory of its own. Its answers that differ from ours are counted. With a class and `ours`
 * or `Knot` it makes the calls of one alone, for counting instructions (see compare.c).
 */
#define _POSIX_C_SOURCE 199309L
#include "qorshudan.h"

#include <libknot/dname.h>
#include <stdio.h>
#include <stdlib.h>
#include <string.h>
#include <time.h>

/* Of Knot's knot/modules/onlinesign/nsec_next.h, which no package has. */
knot_dname_t *online_nsec_next(const knot_dname_t *dname, const knot_dname_t *apex);

enum { MOST = 2000, ROUNDS = 35 };

static struct question {
    uint8_t apex[QORSHUDAN_NAME_MAX], name[QORSHUDAN_NAME_MAX];
    size_t apex_length, length;
} questions[MOST];
static size_t count;

static void fail(const char *what)
{
    fprintf(stderr, "peers-successor: %s\n", what);
    exit(1);
}

static uint8_t digit(char character)
{
    static const char digits[] = "0123456789abcdef";
    const char *const found = memchr(digits, character, 16);
    if (found == NULL)
        fail("a name that is not in hex");
    return (uint8_t)(found - digits);
}

static size_t read_name(uint8_t *name, const char *hex)
{
    const size_t length = strlen(hex) / 2;
    if (length > QORSHUDAN_NAME_MAX)
        fail("a name that is too long");
    for (size_t i = 0; i < length; i++)
        name[i] = (uint8_t)(16 * digit(hex[2 * i]) + digit(hex[2 * i + 1]));
    return length;
}

static uint64_t ask(const struct question *q, uint8_t *space)
{
    return qorshudan_successor(q->apex, q->apex_length, QORSHUDAN_NAME_MAX, q->name, q->length,
                               space, QORSHUDAN_NAME_MAX);
}

static void add(const char *apex, const char *name)
{
    struct question *const q = &questions[count];
    uint8_t space[QORSHUDAN_NAME_MAX];
    if (count == MOST)
        return;
    q->apex_length = read_name(q->apex, apex);
    q->length = read_name(q->name, name);
    count += qorshudan_number(ask(q, space)) == QORSHUDAN_ANSWERED;
}

static volatile uint64_t used;

static void ours(const struct question *q)
{
    uint8_t space[QORSHUDAN_NAME_MAX];
    used += ask(q, space) + space[0];
}

static void by_knot(const struct question *q)
{
    knot_dname_t *const next = online_nsec_next(q->name, q->apex);
    used += next[0];
    free(next);
}

/* All that is counted: one call for each question. */
__attribute__((noinline)) void measured(void (*way)(const struct question *));
void measured(void (*way)(const struct question *))
{
    for (size_t i = 0; i < count; i++)
        way(&questions[i]);
}

static double now(void)
{
    struct timespec time;
    clock_gettime(CLOCK_MONOTONIC, &time);
    return (double)time.tv_sec * 1e9 + (double)time.tv_nsec;
}

/* The names that have no 2 octets to spare, and Knot's answers that come after ours, or before. */
static struct counts {
    size_t full, later, earlier;
} counts;

static void compare_answers(void)
{
    counts = (struct counts){ 0, 0, 0 };
    for (size_t i = 0; i < count; i++) {
        const struct question *const q = &questions[i];
        uint8_t space[QORSHUDAN_NAME_MAX];
        const size_t length = (size_t)qorshudan_value(ask(q, space));
        knot_dname_t *const next = online_nsec_next(q->name, q->apex);
        const int order = qorshudan_comparison(
            qorshudan_compare(next, knot_dname_size(next), space, length));
        /* The apex comes after all names. */
        const int is_apex = length == q->apex_length;
        const int next_is_apex = knot_dname_size(next) == q->apex_length;
        counts.full += q->length + 2 > QORSHUDAN_NAME_MAX;
        counts.later += order != 0 && !is_apex && (next_is_apex || order > 0);
        counts.earlier += order != 0 && (is_apex || (!next_is_apex && order < 0));
        free(next);
    }
}

static void print_times(const char *class)
{
    void (*const ways[])(const struct question *) = { ours, by_knot };
    double best[2];
    compare_answers();
    for (int round = 0; round < ROUNDS; round++)
        for (int way = 0; way < 2; way++) {
            measured(ways[way]);
            const double start = now();
            measured(ways[way]);
            const double time = (now() - start) / (double)count;
            if (round == 0 || time < best[way])
                best[way] = time;
        }
    printf("| %-11s | %.0f | %.0f | %zu | %zu | %zu | %zu |\n", class, best[0], best[1], count,
           counts.full, counts.later, counts.earlier);
}

static void finish(const char *class, const char *wanted, const char *way)
{
    if (count > 0 && wanted == NULL) {
        print_times(class);
    } else if (count > 0 && strcmp(class, wanted) == 0) {
        measured(strcmp(way, "ours") == 0 ? ours : by_knot);
        printf("%zu calls\n", count);
    }
    count = 0;
}

int main(int words, char **word)
{
    char class[32] = "", next[32], apex[1024], name[1024];
    const char *const wanted = words == 3 ? word[1] : NULL, *const way = words == 3 ? word[2] : NULL;
    if (wanted == NULL)
        puts("| class       | ours | Knot | names | full | Knot's later | earlier |\n"
             "|-------------|---:|---:|---:|---:|---:|---:|");
    while (scanf("%31s %1023s %1023s", next, apex, name) == 3) {
        if (strcmp(class, next) != 0)
            finish(class, wanted, way);
        strcpy(class, next);
        add(apex, name);
    }
    finish(class, wanted, way);
    return 0;
}
