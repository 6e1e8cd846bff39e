/*
 * Counts how often a comparison reads each octet of its two names.
 *
 *     reads run      compares pairs of names, for a tool that traces the program's memory
 *     reads count    reads the trace, as valgrind's lackey writes it, and counts
 *
 * A read of several octets at once is one read of each. The check of the two names ends with the
 * first read of the second name's last octet. In it, each length octet must be read once and no
 * other octet; past it, each length octet at most twice; and never an octet outside the names.
 * The octet 0 at a name's end is a length octet too.
 */
#include "qorshudan.h"

#include <inttypes.h>
#include <stdbool.h>
#include <stdio.h>
#include <stdlib.h>
#include <string.h>

enum { MOST_PAST_CHECK = 2, RANDOM_PAIRS = 200, MARGIN = 64 };

/* Both uses of the program have these at the same addresses. The marks are written before and
   after each comparison, so that the trace shows where it begins and ends. */
static uint8_t octets[2][MARGIN + QORSHUDAN_NAME_MAX + MARGIN];
static size_t lengths[2];
static volatile uint8_t marks[2];

/* In names, {n} repeats an octet, n* before a label repeats the label, and \nnn is an octet. */
static const struct pair {
    const char *what, *first, *second;
    int comparison;
} pairs[] = {
    { "the root and itself", "", "", 0 },
    { "the root and a label", "", "com.", -1 },
    { "none shared, one length", "example.com.", "example.org.", -1 },
    { "none shared, two lengths", "example.com.", "example.net1.", -1 },
    { "none shared, 127 labels", "126*a.b.", "126*a.c.", -1 },
    { "none shared, 63 octets", "a{61}.b{63}.c{63}.d{63}.", "a{61}.b{63}.c{63}.d{62}e.", -1 },
    { "1 shared", "example.com.", "sample.com.", -2 },
    { "2 shared", "www.example.com.", "mail.example.com.", 3 },
    { "2 shared, letter case", "www.example.com.", "WWW2.Example.COM.", -3 },
    { "2 shared, one label less", "www.example.com.", "example.com.", 3 },
    { "3 shared, 63 octets", "a{61}.b{63}.c{63}.d{63}.", "a{60}b.b{63}.c{63}.d{63}.", -4 },
    { "63 shared of 127", "63*a.b.63*a.", "63*a.c.63*a.", -64 },
    { "126 shared of 127", "127*a.", "B.126*A.", -127 },
    { "126 shared, one label less", "126*a.", "127*a.", -127 },
    { "all shared", "www.example.com.", "www.example.com.", 0 },
    { "all shared, letter case", "www.example.com.", "WWW.EXAMPLE.COM.", 0 },
    { "all shared, 127 labels", "127*a.", "127*a.", 0 },
    { "all shared, 127, letter case", "127*a.", "127*A.", 0 },
    { "all shared, 63 octets", "a{61}.b{63}.c{63}.d{63}.", "A{61}.B{63}.C{63}.D{63}.", 0 },
    { "the same octets, two labels", "abcdef\\003xyz.", "f.xyz.", -1 },
    { "the same octets, 8 and more", "abc\\010abcdefgh.", "c.abcdefgh.", -1 },
};
enum { PAIRS = sizeof pairs / sizeof *pairs };

static void fail(const char *what, const char *why)
{
    fprintf(stderr, "reads: %s: %s\n", what, why);
    exit(1);
}

static uint8_t *name_of(int which)
{
    return octets[which] + MARGIN;
}

static void put_octet(int which, uint8_t octet)
{
    if (lengths[which] == QORSHUDAN_NAME_MAX)
        fail("a name", "longer than 255 octets");
    name_of(which)[lengths[which]++] = octet;
}

static void put_name(int which, const char *text)
{
    lengths[which] = 0;
    while (*text != '\0') {
        char *end;
        unsigned long copies = strtoul(text, &end, 10);
        if (*end == '*')
            text = end + 1;
        else
            copies = 1;
        const size_t start = lengths[which];
        put_octet(which, 0);
        for (; *text != '.'; text++) {
            uint8_t octet = (uint8_t)*text;
            if (*text == '\\') {
                octet = (uint8_t)((text[1] - '0') * 100 + (text[2] - '0') * 10 + text[3] - '0');
                text += 3;
            }
            put_octet(which, octet);
            if (text[1] == '{') {
                for (unsigned long more = strtoul(text + 2, &end, 10); more > 1; more--)
                    put_octet(which, octet);
                text = end;
            }
        }
        text++;
        const size_t size = lengths[which] - start;
        name_of(which)[start] = (uint8_t)(size - 1);
        for (; copies > 1; copies--)
            for (size_t i = 0; i < size; i++)
                put_octet(which, name_of(which)[lengths[which] - size]);
    }
    put_octet(which, 0);
}

static uint32_t state;

static unsigned below(unsigned bound)
{
    state = state * 1664525u + 1013904223u;
    return (unsigned)((uint64_t)state * bound >> 32);
}

/* Labels of letters before the octets that follow, which are `kept` many. */
static size_t put_labels(uint8_t *name, size_t room, size_t kept, unsigned longest)
{
    size_t length = 0;
    while (below(32) > 0 && length + 2 + kept <= room) {
        size_t size = 1 + below(longest);
        if (size > room - length - 1 - kept)
            size = room - length - 1 - kept;
        name[length++] = (uint8_t)size;
        for (; size > 0; size--)
            name[length++] = (uint8_t)((below(2) == 0 ? 'A' : 'a') + (int)below(3));
    }
    return length;
}

/* Two names over the same labels, in different letter case. */
static void put_random(void)
{
    uint8_t parent[QORSHUDAN_NAME_MAX];
    const unsigned longest = below(2) == 0 ? 63 : 4;
    size_t kept = put_labels(parent, sizeof parent - 1, 0, longest);
    parent[kept++] = 0;
    for (int which = 0; which < 2; which++) {
        const size_t before = put_labels(name_of(which), QORSHUDAN_NAME_MAX, kept, longest);
        memcpy(name_of(which) + before, parent, kept);
        lengths[which] = before + kept;
        for (size_t i = 0; i < kept; i++)
            if (parent[i] >= 'A' && below(2) == 0)
                name_of(which)[before + i] ^= 'a' - 'A';
    }
}

/* Puts the names with this index in their places: the pairs of the table, then random ones. */
static void put_names(int index)
{
    if (index < PAIRS) {
        put_name(0, pairs[index].first);
        put_name(1, pairs[index].second);
    } else {
        state = (uint32_t)index * 2654435761u;
        put_random();
    }
}

static int run(void)
{
    for (int index = 0; index < PAIRS + RANDOM_PAIRS; index++) {
        put_names(index);
        marks[0] = 1;
        const uint64_t result = qorshudan_compare(name_of(0), lengths[0], name_of(1), lengths[1]);
        marks[1] = 1;
        const char *const what = index < PAIRS ? pairs[index].what : "random names";
        if (qorshudan_number(result) != QORSHUDAN_ANSWERED)
            fail(what, "refused");
        if (index < PAIRS && qorshudan_comparison(result) != pairs[index].comparison)
            fail(what, "another answer than expected");
    }
    return 0;
}

/* The reads of one comparison, in the check and past it. */
static unsigned reads[2][2][QORSHUDAN_NAME_MAX];
static bool checked;

static void note_read(const char *what, uintptr_t address, size_t size)
{
    for (int which = 0; which < 2; which++) {
        const uintptr_t start = (uintptr_t)name_of(which);
        if (address + size <= start - MARGIN || start + QORSHUDAN_NAME_MAX + MARGIN <= address)
            continue;
        if (address < start || start + lengths[which] < address + size)
            fail(what, "an octet outside the names is read");
        for (size_t at = address - start; at < address - start + size; at++)
            reads[checked][which][at]++;
        if (which == 1 && address - start + size == lengths[1])
            checked = true;
    }
}

/* The most reads of a length octet in the check and past it, and of any octet past it. */
struct most {
    unsigned labels, in_check, past_check, any;
};

static void take_most(struct most *most, const char *what)
{
    for (int which = 0; which < 2; which++) {
        size_t next = 0;
        unsigned labels = 0;
        for (size_t at = 0; at < lengths[which]; at++) {
            const unsigned in_check = reads[0][which][at], past_check = reads[1][which][at];
            const bool is_length = at == next;
            if (is_length) {
                next += 1u + name_of(which)[at];
                labels += name_of(which)[at] > 0;
                if (past_check > MOST_PAST_CHECK)
                    fail(what, "a length octet is read more than twice past the check");
                if (in_check > most->in_check)
                    most->in_check = in_check;
                if (past_check > most->past_check)
                    most->past_check = past_check;
            }
            if (in_check != (is_length ? 1 : 0))
                fail(what, "the check does not read each length octet once, and those alone");
            if (past_check > most->any)
                most->any = past_check;
        }
        if (labels > most->labels)
            most->labels = labels;
    }
}

static void print_row(const char *what, const struct most *most)
{
    printf("%-30s %6u %14u %9u %10u\n", what, most->labels, most->in_check, most->past_check,
           most->any);
}

static int count(void)
{
    char line[256];
    int index = -1;
    bool under_way = false;
    struct most of_random = { 0, 0, 0, 0 };
    printf("%-30s %6s %14s %9s %10s\n", "most reads of a length octet", "labels", "in the check",
           "past it", "any octet");
    while (fgets(line, sizeof line, stdin) != NULL) {
        char kind;
        uintptr_t address;
        size_t size;
        if (line[0] != ' ' || sscanf(line, " %c %" SCNxPTR ",%zu", &kind, &address, &size) != 3)
            continue;
        if (kind == 'S' && address == (uintptr_t)&marks[0]) {
            put_names(++index);
            memset(reads, 0, sizeof reads);
            checked = false;
            under_way = true;
        } else if (kind == 'S' && address == (uintptr_t)&marks[1]) {
            struct most most = { 0, 0, 0, 0 };
            under_way = false;
            if (index < PAIRS) {
                take_most(&most, pairs[index].what);
                print_row(pairs[index].what, &most);
            } else {
                take_most(&of_random, "random names");
            }
        } else if (under_way && kind != 'S') {
            note_read(index < PAIRS ? pairs[index].what : "random names", address, size);
        }
    }
    if (index + 1 != PAIRS + RANDOM_PAIRS || under_way)
        fail("the trace", "it does not have every comparison");
    print_row("200 random pairs", &of_random);
    return 0;
}

int main(int argc, char **argv)
{
    if (argc == 2 && strcmp(argv[1], "run") == 0)
        return run();
    if (argc == 2 && strcmp(argv[1], "count") == 0)
        return count();
    fputs("usage: reads run|count\n", stderr);
    return 2;
}
