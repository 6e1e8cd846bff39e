/*
 * Calls every function with every combination of odd slices, limits and spaces, and checks what
 * holds of any call: the number is one that the function knows, reason and value are in range, no
 * input is changed, a refusal changes no octet of the space and an answer only its first ones.
 *
 *     robust heap    slices from malloc, of exactly their length, for valgrind
 *     robust pages   slices that end where an unreadable page begins, inputs unwritable
 */
#define _GNU_SOURCE
#include "qorshudan.h"

#include <inttypes.h>
#include <signal.h>
#include <stdio.h>
#include <stdlib.h>
#include <string.h>
#include <sys/mman.h>
#include <unistd.h>

enum { LONG = 100000, MOST_SLICES = 60, COUNT_OF_SPACES = 5 };

struct slice {
    const char *what;
    uint8_t *start;
    size_t length;
    uint8_t *copy; /* of an input: what it must still be after a call */
};

static int in_pages;
static struct slice inputs[MOST_SLICES];
static size_t count_of_inputs;
static struct slice spaces[COUNT_OF_SPACES];
static uint8_t filling[LONG]; /* what a space holds before a call */
static unsigned long calls;
static unsigned long seen[19]; /* calls by number */
static unsigned long enclosed[2]; /* closest enclosers, of the owner and of the next name */
static unsigned long denied[2]; /* denials, of one gap and of two */

static void *must(void *pointer)
{
    if (pointer == NULL || pointer == MAP_FAILED) {
        perror("robust");
        exit(2);
    }
    return pointer;
}

static size_t rounded(size_t length)
{
    const size_t page = (size_t)sysconf(_SC_PAGESIZE);
    return (length + page - 1) / page * page;
}

/* A slice of exactly this length. One of length 0 is a pointer that must not be followed. */
static uint8_t *allocate(size_t length)
{
    if (!in_pages)
        return length == 0 ? (uint8_t *)malloc(0) : (uint8_t *)must(malloc(length));
    const size_t readable = rounded(length);
    uint8_t *const start = (uint8_t *)must(mmap(NULL, readable + rounded(1),
                                                PROT_READ | PROT_WRITE,
                                                MAP_PRIVATE | MAP_ANONYMOUS, -1, 0));
    if (mprotect(start + readable, rounded(1), PROT_NONE) != 0)
        must(NULL);
    return start + (readable - length);
}

/* Adds an input; octets beyond those given repeat them. */
static void add_input(const char *what, const void *octets, size_t given, size_t length)
{
    struct slice *const input = &inputs[count_of_inputs++];
    input->what = what;
    input->length = length;
    input->start = allocate(length);
    input->copy = (uint8_t *)must(malloc(length + 1));
    for (size_t i = 0; i < length; i++)
        input->start[i] = input->copy[i] = ((const uint8_t *)octets)[i % given];
    if (in_pages && length > 0
        && mprotect(input->start - (rounded(length) - length), rounded(length), PROT_READ) != 0)
        must(NULL);
}

static void add_empty(const char *what, uintptr_t address)
{
    struct slice *const input = &inputs[count_of_inputs++];
    input->what = what;
    input->start = (uint8_t *)address;
    input->length = 0;
    input->copy = NULL;
}

static void make_slices(void)
{
    static const uint8_t octets[] = { 0, 1, 63, 64, 97, 255 };
    static const char *const one[] = { "octet 0", "octet 1", "octet 63", "octet 64", "octet 97",
                                       "octet 255" };
    static const uint8_t letters[] = { 1, 97 };
    static const uint8_t key_octets[] = { 97, 0 };
    static const uint8_t name[] = { 3, 'F', 'o', 'o', 7, 'e', 'x', 'a', 'm', 'p', 'l', 'e',
                                    3, 'c', 'o', 'm', 0 };
    static const uint8_t other[] = { 1, '_', 7, 'e', 'x', 'a', 'm', 'p', 'l', 'e',
                                     3, 'c', 'o', 'm', 0 };
    uint8_t longest[QORSHUDAN_NAME_MAX], key[QORSHUDAN_KEY_MAX + 1], pattern[251],
            text[QORSHUDAN_TEXT_MAX + 1];

    add_empty("empty, NULL", 0);
    add_empty("empty, last address", UINTPTR_MAX);
    add_input("empty", octets, 1, 0);
    for (size_t i = 0; i < sizeof octets; i++)
        add_input(one[i], &octets[i], 1, 1);
    for (size_t i = 0; i < sizeof pattern; i++)
        pattern[i] = (uint8_t)(i * 37 + 11);
    add_input("100,000 octets 0", &octets[0], 1, LONG);
    add_input("100,000 octets 255", &octets[5], 1, LONG);
    add_input("100,000 octets of a pattern", pattern, sizeof pattern, LONG);
    add_input("100,000 octets of labels", letters, sizeof letters, LONG);
    add_input("100,000 octets of a key's labels", key_octets, sizeof key_octets, LONG);
    add_input("example.com.", name + 4, sizeof name - 4, sizeof name - 4);
    add_input("foo.example.com.", name, sizeof name, sizeof name);
    add_input("_.example.com.", other, sizeof other, sizeof other);

    /* Four labels, as long as a name can be: all octets 0, with the longest key, or 255. */
    for (int round = 0; round < 2; round++) {
        memset(longest, round == 0 ? 0 : 255, sizeof longest);
        longest[0] = longest[64] = longest[128] = 63;
        longest[192] = 61;
        longest[254] = 0;
        add_input(round == 0 ? "a name of 255 octets, 0" : "a name of 255 octets, 255", longest,
                  sizeof longest, sizeof longest);
    }
    memset(key, 1, sizeof key);
    key[61 * 2] = key[61 * 2 + 127] = key[61 * 2 + 127 * 2] = key[QORSHUDAN_KEY_MAX - 1] = 0;
    add_input("a key of 504 octets", key, sizeof key, QORSHUDAN_KEY_MAX);
    add_input("a key of 504 octets and one more", key, sizeof key, QORSHUDAN_KEY_MAX + 1);

    /* The longest text, of that name of 255 octets, and one character more. */
    for (size_t i = 0; i < sizeof text; i++)
        text[i] = (uint8_t) "\\200"[i % 4];
    memcpy(text + 63 * 4, ".", 1);
    memcpy(text + 63 * 4 + 1, text, 63 * 4 + 1);
    memcpy(text + (63 * 4 + 1) * 2, text, 63 * 4 + 1);
    memcpy(text + (63 * 4 + 1) * 3, text, 61 * 4);
    text[QORSHUDAN_TEXT_MAX - 1] = '.';
    add_input("a text of 1004 octets", text, sizeof text, QORSHUDAN_TEXT_MAX);
    add_input("a text of 1004 octets and one more", text, sizeof text, QORSHUDAN_TEXT_MAX + 1);
    add_input("a text without its final dot", "foo.example.com", 15, 15);
    add_input("a text that breaks off in an escape", "foo.\\25", 7, 7);
    add_input("100,000 octets of a text's labels", "a.", 2, LONG);

    /* A hash of 20 octets, and one octet less and more; its label, and one character less and more. */
    add_input("a hash", pattern, sizeof pattern, QORSHUDAN_HASH_LENGTH);
    add_input("a hash of octets 255", &octets[5], 1, QORSHUDAN_HASH_LENGTH);
    add_input("19 octets", pattern, sizeof pattern, QORSHUDAN_HASH_LENGTH - 1);
    add_input("21 octets", pattern, sizeof pattern, QORSHUDAN_HASH_LENGTH + 1);
    add_input("a hash's label", "0p9mhaveqvm6t7vb", 16, QORSHUDAN_HASH_LABEL_LENGTH);
    add_input("a hash's label in upper case", "0P9MHAVEQVM6T7VB", 16, QORSHUDAN_HASH_LABEL_LENGTH);
    add_input("31 characters", "0p9mhaveqvm6t7vb", 16, QORSHUDAN_HASH_LABEL_LENGTH - 1);
    add_input("33 characters", "0p9mhaveqvm6t7vb", 16, QORSHUDAN_HASH_LABEL_LENGTH + 1);

    /* A name between two others, and under the second's parent. */
    add_input("a.FOO.example.com.", "\1a\3FOO\7example\3com", 19, 19);
    add_input("b.foo.Example.com.", "\1b\3foo\7Example\3com", 19, 19);
    /* Next to the wildcard, so that the gaps of the two touch. */
    add_input("*\\000.example.com.", "\2*\0\7example\3com", 16, 16);
    /* The longest bitmap, of all types, and one octet more; a bitmap of five types, and what is none. */
    static const uint8_t bitmap[] = { 0, 6, 0x40, 1, 0, 0, 0, 3, 4, 1, 0x20 };
    uint8_t all[QORSHUDAN_BITMAP_MAX];
    memset(all, 255, sizeof all);
    for (size_t i = 0; i < sizeof all; i += 34) {
        all[i] = (uint8_t)(i / 34);
        all[i + 1] = 32;
    }
    add_input("a bitmap of all types", all, sizeof all, sizeof all);
    add_input("a bitmap of all types and one octet more", all, sizeof all, sizeof all + 1);
    add_input("a bitmap", bitmap, sizeof bitmap, sizeof bitmap);
    add_input("a bitmap that breaks off", bitmap, sizeof bitmap, sizeof bitmap - 1);
    add_input("a bitmap twice", bitmap, sizeof bitmap, 2 * sizeof bitmap);

    static const size_t rooms[COUNT_OF_SPACES] = { 0, 1, QORSHUDAN_NAME_MAX, QORSHUDAN_KEY_MAX,
                                                   LONG };
    for (size_t i = 0; i < LONG; i++)
        filling[i] = (uint8_t)(i * 167 + 13 + (i >> 8));
    for (size_t i = 0; i < COUNT_OF_SPACES; i++) {
        spaces[i].what = "space";
        spaces[i].length = rooms[i];
        spaces[i].start = allocate(rooms[i]);
        if (rooms[i] > 0)
            memcpy(spaces[i].start, filling, rooms[i]);
    }
}

/* The call that is under way: the function's name and what it is given. */
static struct call {
    const char *function;
    const struct slice *first, *second; /* all but the first may be missing */
    const uint64_t *limit;
    const struct slice *space;
    const struct slice *third;
} call;

static void print_call(void)
{
    printf("robust: %s(%s", call.function, call.first->what);
    if (call.limit != NULL)
        printf(", limit %" PRIu64, *call.limit);
    if (call.second != NULL)
        printf(", %s", call.second->what);
    if (call.third != NULL)
        printf(", %s", call.third->what);
    if (call.space != NULL)
        printf(", space of %zu octets", call.space->length);
    printf(")");
}

/* Nothing is printing during a call of the library, so this may. */
static void went_outside(int signal)
{
    (void)signal;
    print_call();
    printf(" reads or writes where it must not\n");
    fflush(stdout);
    _exit(1);
}

static void fail(uint64_t result, const char *what)
{
    print_call();
    printf(" gave number %d, reason %d, value %zu: %s\n", qorshudan_number(result),
           qorshudan_reason(result), qorshudan_value(result), what);
    exit(1);
}

/* The slice that a refusal with a place is about. */
static const struct slice *at_fault(int number)
{
    return call.second != NULL
                   && (number == QORSHUDAN_BAD_SECOND_NAME
                       || (number == QORSHUDAN_BAD_NAME && call.limit != NULL))
               ? call.second
               : call.first;
}

/* Checks a call that may give the numbers whose bits are in `known` and an answer of at most
   `longest` octets. */
static void check_call(uint64_t result, unsigned known, size_t longest)
{
    const int number = qorshudan_number(result), reason = qorshudan_reason(result);
    const size_t value = qorshudan_value(result);
    const struct slice *const space = call.space;
    size_t written = 0;

    calls++;
    if (number > 18 || (known >> number & 1) == 0)
        fail(result, "the function knows no such number");
    seen[number]++;
    const struct slice *const at = at_fault(number);
    switch (number) {
    case QORSHUDAN_ANSWERED:
        if (reason != 0)
            fail(result, "an answer has no reason");
        if (value > longest)
            fail(result, "the answer is too long");
        if (space != NULL)
            written = value;
        if (space != NULL && value > space->length)
            fail(result, "the answer is longer than the space");
        break;
    case QORSHUDAN_BAD_APEX:
    case QORSHUDAN_BAD_NAME:
    case QORSHUDAN_BAD_SECOND_NAME:
        if (reason < QORSHUDAN_REASON_CUT_SHORT || reason > QORSHUDAN_REASON_TOO_LONG)
            fail(result, "there is no such reason");
        if (value > at->length || value > QORSHUDAN_NAME_MAX)
            fail(result, "the place is behind the octets");
        if ((value == at->length) != (reason == QORSHUDAN_REASON_CUT_SHORT))
            fail(result, "the place is the length exactly for what is cut short");
        break;
    case QORSHUDAN_NOT_A_KEY:
        if (reason != 0)
            fail(result, "this number has no reason");
        if (value > at->length || value > QORSHUDAN_KEY_MAX)
            fail(result, "the place is behind the octets");
        break;
    case QORSHUDAN_NOT_A_TEXT:
        if (reason != 0)
            fail(result, "this number has no reason");
        if (value > at->length || value > QORSHUDAN_TEXT_MAX)
            fail(result, "the place is behind the octets");
        break;
    case QORSHUDAN_NOT_A_SET:
        if (reason != 0)
            fail(result, "this number has no reason");
        if (value > at->length || value > QORSHUDAN_TYPES_MAX)
            fail(result, "the place is behind the octets, or the index behind the types");
        break;
    case QORSHUDAN_NOT_A_LIST:
        if (reason != 0)
            fail(result, "this number has no reason");
        if (value >= QORSHUDAN_OWNERS_MAX)
            fail(result, "the index is behind the owners");
        break;
    default:
        if (reason != 0 || value != 0)
            fail(result, "this number has neither reason nor value");
        break;
    }
    if (call.limit != NULL
        && (number == QORSHUDAN_BAD_LIMIT)
               != (*call.limit < 1 || *call.limit > QORSHUDAN_NAME_MAX))
        fail(result, "refusal 1 exactly for a limit that is not 1 to 255");
    if (space != NULL && space->length > 0) {
        if (memcmp(space->start + written, filling + written, space->length - written) != 0)
            fail(result, "an octet of the space outside the answer was changed");
        memcpy(space->start, filling, written);
    }
}

/* Checks that the inputs of some calls are as they were. */
static void check_inputs(uint64_t result)
{
    const struct slice *const given[] = { call.first, call.second, call.third };
    for (int i = 0; i < 3; i++)
        if (given[i] != NULL && given[i]->length > 0
            && memcmp(given[i]->start, given[i]->copy, given[i]->length) != 0)
            fail(result, "an input was changed");
}

#define KNOWS(number) (1u << QORSHUDAN_##number)

static const unsigned of_names = KNOWS(ANSWERED) | KNOWS(BAD_NAME);
static const unsigned of_neighbours = KNOWS(ANSWERED) | KNOWS(BAD_LIMIT) | KNOWS(BAD_APEX)
                                      | KNOWS(APEX_TOO_LONG) | KNOWS(BAD_NAME)
                                      | KNOWS(NAME_TOO_LONG) | KNOWS(NOT_UNDER_APEX)
                                      | KNOWS(NO_ROOM);

static void try_check(const struct slice *name)
{
    call = (struct call){ "qorshudan_check", name, NULL, NULL, NULL, NULL };
    const uint64_t result = qorshudan_check(name->start, name->length);
    check_call(result, of_names, QORSHUDAN_NAME_MAX);
    if (qorshudan_number(result) == QORSHUDAN_ANSWERED && qorshudan_value(result) != name->length)
        fail(result, "the answer is not the name's length");
    check_inputs(result);
}

static void try_compare(const struct slice *first, const struct slice *second)
{
    call = (struct call){ "qorshudan_compare", first, second, NULL, NULL, NULL };
    const uint64_t result = qorshudan_compare(first->start, first->length, second->start,
                                              second->length);
    check_call(result, of_names | KNOWS(BAD_SECOND_NAME), 255);
    if (qorshudan_number(result) == QORSHUDAN_ANSWERED) {
        const int comparison = qorshudan_comparison(result);
        if (qorshudan_value(result) < 1)
            fail(result, "a comparison is not below -127");
        if (first == second && comparison != 0)
            fail(result, "a name differs from itself");
        if (comparison
            != -qorshudan_comparison(qorshudan_compare(second->start, second->length,
                                                       first->start, first->length)))
            fail(result, "the names exchanged don't turn the sign");
    }
    int order = 7;
    if (qorshudan_order(first->start, first->length, second->start, second->length, &order)
        != result)
        fail(result, "qorshudan_order() returns something else");
    if (qorshudan_number(result) == QORSHUDAN_ANSWERED
            ? order != (qorshudan_value(result) > 128) - (qorshudan_value(result) < 128)
            : order != 7)
        fail(result, "the order is not the sign of an answer, or was put by a refusal");
    if (qorshudan_number(result) != QORSHUDAN_ANSWERED && qorshudan_comparison(result) != -128)
        fail(result, "a refused comparison is not -128");
    check_inputs(result);
}

typedef uint64_t fills(const uint8_t *, size_t, uint8_t *, size_t);

static void try_filling(const char *function, fills *fill, unsigned known, size_t longest,
                        const struct slice *octets)
{
    call = (struct call){ function, octets, NULL, NULL, NULL, NULL };
    uint64_t result = 0;
    for (size_t i = 0; i < COUNT_OF_SPACES; i++) {
        call.space = &spaces[i];
        result = fill(octets->start, octets->length, spaces[i].start, spaces[i].length);
        check_call(result, known, longest);
    }
    call.space = &spaces[0];
    if (fill(octets->start, octets->length, NULL, 0)
        != fill(octets->start, octets->length, spaces[0].start, 0))
        fail(result, "an empty space at NULL is another than elsewhere");
    check_inputs(result);
}

/* Hashes are told apart from other octets by their length alone. */
static void try_between(const struct slice *first, const struct slice *hash,
                        const struct slice *second)
{
    call = (struct call){ "qorshudan_hash_between", first, hash, NULL, NULL, second };
    const uint64_t result = qorshudan_hash_between(first->start, first->length, hash->start,
                                                   hash->length, second->start, second->length);
    check_call(result, KNOWS(ANSWERED) | KNOWS(NOT_A_HASH), 1);
    const int hashes = first->length == QORSHUDAN_HASH_LENGTH
                       && hash->length == QORSHUDAN_HASH_LENGTH
                       && second->length == QORSHUDAN_HASH_LENGTH;
    if ((qorshudan_number(result) == QORSHUDAN_ANSWERED) != hashes)
        fail(result, "three hashes are answered, and they alone");
    if (hashes && first == second && (qorshudan_value(result) == 1) != (hash != first))
        fail(result, "between equal ends lies every other hash");
    check_inputs(result);
}

/* Where an encloser is told, it is the end of a well formed name, and the query's own end but for
   letter case. */
static void try_closest(const struct slice *query, const struct slice *owner,
                        const struct slice *next)
{
    call = (struct call){ "qorshudan_closest_encloser", query, owner, NULL, NULL, next };
    const uint64_t result = qorshudan_closest_encloser(query->start, query->length, owner->start,
                                                       owner->length, next->start, next->length);
    check_call(result, KNOWS(ANSWERED), 256 + QORSHUDAN_NAME_MAX);
    const size_t value = qorshudan_value(result), length = value & 0xff;
    const struct slice *const name = value < 256 ? owner : next;
    if (value == 256 || length > name->length || length > query->length)
        fail(result, "the encloser is no part of the name");
    if (length > 0) {
        uint8_t folded[2][QORSHUDAN_NAME_MAX];
        const uint8_t *const ends[] = { name->start + (name->length - length),
                                        query->start + (query->length - length) };
        for (int i = 0; i < 2; i++)
            if (qorshudan_fold(ends[i], length, folded[i], sizeof folded[i]) >> 16 != length)
                fail(result, "the encloser is no name");
        if (memcmp(folded[0], folded[1], length) != 0)
            fail(result, "the encloser is no ancestor of the query");
        enclosed[value >= 256]++;
    }
    if (query == owner && length > 0)
        fail(result, "the owner exists");
    check_inputs(result);
}

/* No name is covered where one of the three is not well formed, nor an end of the gap; between equal
   ends every other name is. */
static void try_covers(const struct slice *owner, const struct slice *next,
                       const struct slice *name)
{
    call = (struct call){ "qorshudan_covers", owner, next, NULL, NULL, name };
    const uint64_t result = qorshudan_covers(owner->start, owner->length, next->start,
                                             next->length, name->start, name->length);
    check_call(result, KNOWS(ANSWERED), 1);
    const uint64_t order = qorshudan_compare(owner->start, owner->length, name->start,
                                             name->length);
    const int names = qorshudan_number(order) == QORSHUDAN_ANSWERED
                      && qorshudan_number(qorshudan_check(next->start, next->length))
                             == QORSHUDAN_ANSWERED;
    if (qorshudan_value(result) == 1 && (!names || name == owner || name == next))
        fail(result, "an end is covered, or what is no name");
    if (names && owner == next
        && (qorshudan_value(result) == 1) != (qorshudan_comparison(order) != 0))
        fail(result, "between equal ends every other name is covered");
    check_inputs(result);
}

/* The next closer name is the end of the query, a name, and the query itself in its own zone. */
static void try_closer(const struct slice *encloser, const struct slice *query)
{
    call = (struct call){ "qorshudan_next_closer", encloser, query, NULL, NULL, NULL };
    const uint64_t result = qorshudan_next_closer(encloser->start, encloser->length, query->start,
                                                  query->length);
    check_call(result, KNOWS(ANSWERED), QORSHUDAN_NAME_MAX);
    const size_t length = qorshudan_value(result);
    if (length > query->length || (encloser == query && length > 0))
        fail(result, "the next closer name is no part of the query below the encloser");
    if (length > 0
        && qorshudan_number(qorshudan_check(query->start + (query->length - length), length))
               != QORSHUDAN_ANSWERED)
        fail(result, "the next closer name is no name");
    check_inputs(result);
}

/* What is told of a denial's names is their lengths. They are names, the query is covered by one of
   the gaps, and no end is. */
static void check_denial(uint64_t result, unsigned known)
{
    const uint8_t *const space = call.space->start;
    const uint8_t *names[4];
    size_t lengths[4], all = 0;
    uint64_t told = result;
    if (qorshudan_number(result) == QORSHUDAN_ANSWERED) {
        for (int i = 0; i < 4; i++) {
            lengths[i] = qorshudan_denial_length(result, i);
            names[i] = space + all;
            all += lengths[i];
        }
        if (all > call.space->length)
            fail(result, "the names are longer than the space");
        if (lengths[0] == 0 || lengths[1] == 0 || (lengths[2] == 0) != (lengths[3] == 0))
            fail(result, "the gaps have not two names each");
        int covered = 0;
        for (int i = 0; i < 4 && lengths[i] > 0; i += 2) {
            covered |= qorshudan_covers(names[i], lengths[i], names[i + 1], lengths[i + 1],
                                        call.second->start, call.second->length) != 0;
            for (int j = 0; j < 4 && lengths[j] > 0; j++)
                if (qorshudan_number(qorshudan_check(names[j], lengths[j])) != QORSHUDAN_ANSWERED
                    || qorshudan_covers(names[i], lengths[i], names[i + 1], lengths[i + 1],
                                        names[j], lengths[j]) != 0)
                    fail(result, "an end is no name, or is covered");
        }
        if (!covered)
            fail(result, "the query is not covered");
        told = (uint64_t)all << 16;
        denied[lengths[2] > 0]++;
    }
    check_call(told, known, QORSHUDAN_DENIAL_MAX);
}

static void try_denial(const struct slice *apex, const struct slice *encloser,
                       const struct slice *query)
{
    static const uint64_t limits[] = { 0, 1, 255, 256, UINT64_MAX };
    const unsigned known = of_neighbours | KNOWS(NOT_AN_ENCLOSER);
    /* Every limit and space where the encloser is the apex, the largest of the limits elsewhere. */
    const size_t first = apex == encloser ? 0 : 2, last = apex == encloser ? 5 : 3;
    call = (struct call){ "qorshudan_denial", apex, query, NULL, NULL, encloser };
    uint64_t result = 0;
    for (size_t i = first; i < last; i++) {
        call.limit = &limits[i];
        for (size_t j = apex == encloser ? 0 : COUNT_OF_SPACES - 1; j < COUNT_OF_SPACES; j++) {
            call.space = &spaces[j];
            result = qorshudan_denial(apex->start, apex->length, limits[i], encloser->start,
                                      encloser->length, query->start, query->length,
                                      spaces[j].start, spaces[j].length);
            check_denial(result, known);
            if (encloser == query && qorshudan_number(result) == QORSHUDAN_ANSWERED)
                fail(result, "a name is denied under itself");
        }
    }
    check_inputs(result);
}

/* The octets of a slice as a bitmap, and their pairs as a list of types; a slice that begins at an
   odd address is no list, and stays a bitmap alone. A space is as many places as it has pairs. */
static void try_types(const struct slice *octets)
{
    static const uint16_t asked[] = { 0, 1, 255, 256, 1234, 65535 };
    const unsigned known = KNOWS(ANSWERED) | KNOWS(NOT_A_SET);
    const uint8_t *const bitmap = octets->start;
    const size_t length = octets->length;
    uint64_t result = 0;
    size_t count = QORSHUDAN_TYPES_MAX + 1;

    call = (struct call){ "qorshudan_count_types", octets, NULL, NULL, NULL, NULL };
    result = qorshudan_count_types(bitmap, length);
    check_call(result, known, QORSHUDAN_TYPES_MAX);
    const uint64_t refused = qorshudan_number(result) == QORSHUDAN_ANSWERED ? 0 : result;
    if (refused == 0)
        count = qorshudan_value(result);
    call.function = "qorshudan_smallest_type";
    result = qorshudan_smallest_type(bitmap, length);
    check_call(result, known, QORSHUDAN_TYPES_MAX);
    if (refused != 0 ? result != refused : (qorshudan_value(result) == 0) != (count == 0))
        fail(result, "there is a smallest type exactly where there are types");
    call.function = "qorshudan_largest_type";
    if (refused != 0 ? qorshudan_largest_type(bitmap, length) != refused
                     : qorshudan_value(qorshudan_largest_type(bitmap, length))
                           < qorshudan_value(result))
        fail(result, "the largest type is below the smallest");
    result = qorshudan_largest_type(bitmap, length);
    check_call(result, known, QORSHUDAN_TYPES_MAX);
    call.function = "qorshudan_has_type";
    for (size_t i = 0; i < sizeof asked / sizeof *asked; i++) {
        result = qorshudan_has_type(bitmap, length, asked[i]);
        check_call(result, known, 1);
        if (refused != 0 && result != refused)
            fail(result, "another refusal than that of the count");
    }
    check_inputs(result);

    call.function = "qorshudan_read_types";
    for (size_t i = 0; i < COUNT_OF_SPACES; i++) {
        /* What is checked of the space is checked in octets. Types begin at an even address. */
        const struct slice places = spaces[i];
        const size_t odd = places.length > 0 ? (uintptr_t)places.start % 2 : 0;
        uint16_t *const types = (uint16_t *)(void *)(places.start + odd);
        const size_t room = (places.length - odd) / 2;
        call.space = NULL;
        result = qorshudan_read_types(bitmap, length, types, room);
        check_call(result, known | KNOWS(NO_ROOM), QORSHUDAN_TYPES_MAX);
        size_t written = 0;
        if (refused != 0 ? result != refused
                         : (qorshudan_number(result) == QORSHUDAN_NO_ROOM) != (room < count))
            fail(result, "9 exactly where there are fewer places than types");
        if (qorshudan_number(result) == QORSHUDAN_ANSWERED)
            written = 2 * qorshudan_value(result);
        if (written > 2 * room || (places.length > 0 && memcmp(places.start, filling, odd) != 0)
            || (places.length > 0
                && memcmp(places.start + odd + written, filling + odd + written,
                          places.length - odd - written) != 0))
            fail(result, "a place outside the answer was changed");
        if (written > 0)
            memcpy(places.start + odd, filling + odd, written);
    }
    check_inputs(result);

    if (length > 0 && (uintptr_t)bitmap % 2 != 0)
        return;
    struct slice list = *octets;
    list.length = length / 2;
    call = (struct call){ "qorshudan_write_types", &list, NULL, NULL, NULL, NULL };
    for (size_t i = 0; i < COUNT_OF_SPACES; i++) {
        call.space = &spaces[i];
        result = qorshudan_write_types((const uint16_t *)(const void *)bitmap, length / 2,
                                       spaces[i].start, spaces[i].length);
        check_call(result, known | KNOWS(NO_ROOM), QORSHUDAN_BITMAP_MAX);
    }
    call.first = octets;
    check_inputs(result);
}

/* A list with odd starts, and with four and four of its own octets as starts, checked for an apex, which
   is the query too. */
static void try_list(const struct slice *apex, const struct slice *names, const uint32_t *starts,
                     size_t count)
{
    static const uint64_t limits[] = { 0, 1, 255, 256 };
    const unsigned known = KNOWS(ANSWERED) | KNOWS(BAD_LIMIT) | KNOWS(BAD_APEX)
                           | KNOWS(APEX_TOO_LONG) | KNOWS(NOT_A_LIST);
    uint64_t result = 0;
    call = (struct call){ "qorshudan_check_owners", apex, names, NULL, NULL, NULL };
    for (size_t i = 0; i < sizeof limits / sizeof *limits; i++) {
        call.limit = &limits[i];
        result = qorshudan_check_owners(apex->start, apex->length, limits[i], names->start,
                                        names->length, starts, count);
        check_call(result, known, QORSHUDAN_OWNERS_MAX);
        if (qorshudan_number(result) == QORSHUDAN_ANSWERED && qorshudan_value(result) != count)
            fail(result, "the value is not the number of owners");
    }
    call = (struct call){ "qorshudan_find_owner", apex, NULL, NULL, NULL, NULL };
    result = qorshudan_find_owner(names->start, names->length, starts, count, apex->start,
                                  apex->length);
    check_call(result, KNOWS(ANSWERED) | KNOWS(BAD_NAME) | KNOWS(NOT_A_LIST),
               15 + 256 * QORSHUDAN_OWNERS_MAX);
    if (qorshudan_number(result) == QORSHUDAN_ANSWERED && qorshudan_value(result) % 256 > 15)
        fail(result, "more than 15 owners were looked at");
    check_inputs(result);
}

static void try_owners(const struct slice *apex, const struct slice *names)
{
    static const uint32_t starts[] = { 0, 0, 1, UINT32_MAX, 3, 3 };
    for (size_t count = 0; count <= sizeof starts / sizeof *starts; count++)
        try_list(apex, names, count == 0 ? NULL : starts, count);
    if (names->length > 0 && (uintptr_t)names->start % 4 == 0)
        try_list(apex, names, (const uint32_t *)(const void *)names->start, names->length / 4);
}

typedef uint64_t finds(const uint8_t *, size_t, uint64_t, const uint8_t *, size_t, uint8_t *,
                       size_t);

static void try_neighbour(const char *function, finds *find, unsigned known,
                          const struct slice *apex, const struct slice *name)
{
    static const uint64_t limits[] = { 0, 1, 255, 256, UINT64_MAX };
    call = (struct call){ function, apex, name, NULL, NULL, NULL };
    uint64_t result = 0;
    for (size_t i = 0; i < sizeof limits / sizeof *limits; i++) {
        call.limit = &limits[i];
        for (size_t j = 0; j < COUNT_OF_SPACES; j++) {
            call.space = &spaces[j];
            result = find(apex->start, apex->length, limits[i], name->start, name->length,
                          spaces[j].start, spaces[j].length);
            check_call(result, known, QORSHUDAN_NAME_MAX);
        }
        call.space = &spaces[0];
        if (find(apex->start, apex->length, limits[i], name->start, name->length, NULL, 0)
            != find(apex->start, apex->length, limits[i], name->start, name->length,
                    spaces[0].start, 0))
            fail(result, "an empty space at NULL is another than elsewhere");
    }
    check_inputs(result);
}

typedef uint64_t finds_in(uint64_t, const uint8_t *, size_t, uint64_t, const uint8_t *, size_t,
                          uint8_t *, size_t);
typedef uint64_t finds_deep(uint64_t, uint64_t, const uint8_t *, size_t, uint64_t, const uint8_t *,
                            size_t, uint8_t *, size_t);

/* One function or the other: `deep` takes a depth. In the full alphabet, and at depth 1, it gives
   what the plain one gives; a depth that is not 1 to 3 is never answered. */
static void try_neighbour_in(const char *function, finds_in *find, finds_deep *deep, finds *plain,
                             unsigned known, const struct slice *apex, const struct slice *name)
{
    static const struct {
        uint64_t limit, alphabet, depth;
    } asked[] = {
        { 1, QORSHUDAN_ALPHABET_FULL, 1 },   { 255, QORSHUDAN_ALPHABET_FULL, 1 },
        { 255, QORSHUDAN_ALPHABET_LDH, 1 },  { 255, UINT64_MAX, 2 },
        { 255, QORSHUDAN_ALPHABET_FULL, 3 }, { 255, QORSHUDAN_ALPHABET_LDH, 0 },
        { 255, QORSHUDAN_ALPHABET_FULL, 4 }, { 255, QORSHUDAN_ALPHABET_LDH, UINT64_C(1) << 63 },
        { 256, QORSHUDAN_ALPHABET_LDH, 2 },
    };
    call = (struct call){ function, apex, name, NULL, NULL, NULL };
    uint64_t result = 0;
    for (size_t i = 0; i < sizeof asked / sizeof *asked; i++) {
        const uint64_t limit = asked[i].limit, alphabet = asked[i].alphabet,
                       depth = asked[i].depth;
        unsigned knows = known;
        if (alphabet != QORSHUDAN_ALPHABET_FULL)
            knows |= KNOWS(NOT_IN_ALPHABET);
        if (deep != NULL && (depth < 1 || depth > 3))
            knows &= ~(KNOWS(ANSWERED) | KNOWS(NO_ROOM) | KNOWS(NOT_IN_ALPHABET));
        call.limit = &asked[i].limit;
        for (size_t j = 0; j < COUNT_OF_SPACES; j++) {
            uint8_t *const space = spaces[j].start;
            const size_t room = spaces[j].length;
            call.space = &spaces[j];
            result = deep == NULL ? find(alphabet, apex->start, apex->length, limit, name->start,
                                         name->length, space, room)
                                  : deep(alphabet, depth, apex->start, apex->length, limit,
                                         name->start, name->length, space, room);
            check_call(result, knows, QORSHUDAN_NAME_MAX);
            if (plain != NULL && alphabet == QORSHUDAN_ALPHABET_FULL
                && (deep == NULL || depth == 1)) {
                if (plain(apex->start, apex->length, limit, name->start, name->length, space, room)
                    != result)
                    fail(result, "the plain function gives something else");
                check_call(result, knows, QORSHUDAN_NAME_MAX);
            }
        }
    }
    check_inputs(result);
}

int main(int argc, char **argv)
{
    if (argc != 2 || (strcmp(argv[1], "heap") != 0 && strcmp(argv[1], "pages") != 0)) {
        fputs("usage: robust heap|pages\n", stderr);
        return 2;
    }
    in_pages = strcmp(argv[1], "pages") == 0;
    make_slices();
    signal(SIGSEGV, went_outside);
    signal(SIGBUS, went_outside);

    const unsigned of_hashes = KNOWS(ANSWERED) | KNOWS(NO_ROOM) | KNOWS(NOT_A_HASH);
    const unsigned modified = of_neighbours | KNOWS(NO_FULL_LABEL);
    for (size_t i = 0; i < count_of_inputs; i++) {
        const struct slice *const first = &inputs[i];
        try_check(first);
        try_filling("qorshudan_fold", qorshudan_fold, of_names | KNOWS(NO_ROOM),
                    QORSHUDAN_NAME_MAX, first);
        try_filling("qorshudan_label_places", qorshudan_label_places, of_names | KNOWS(NO_ROOM),
                    QORSHUDAN_LABELS_MAX, first);
        try_filling("qorshudan_write_key", qorshudan_write_key, of_names | KNOWS(NO_ROOM),
                    QORSHUDAN_KEY_MAX, first);
        try_filling("qorshudan_read_key", qorshudan_read_key,
                    KNOWS(ANSWERED) | KNOWS(NO_ROOM) | KNOWS(NOT_A_KEY), QORSHUDAN_NAME_MAX,
                    first);
        try_filling("qorshudan_write_text", qorshudan_write_text, of_names | KNOWS(NO_ROOM),
                    QORSHUDAN_TEXT_MAX, first);
        try_filling("qorshudan_read_text", qorshudan_read_text,
                    KNOWS(ANSWERED) | KNOWS(NO_ROOM) | KNOWS(NOT_A_TEXT), QORSHUDAN_NAME_MAX,
                    first);
        try_filling("qorshudan_hash_after", qorshudan_hash_after, of_hashes,
                    QORSHUDAN_HASH_LENGTH, first);
        try_filling("qorshudan_hash_before", qorshudan_hash_before, of_hashes,
                    QORSHUDAN_HASH_LENGTH, first);
        try_filling("qorshudan_write_hash_label", qorshudan_write_hash_label, of_hashes,
                    QORSHUDAN_HASH_LABEL_LENGTH, first);
        try_filling("qorshudan_read_hash_label", qorshudan_read_hash_label, of_hashes,
                    QORSHUDAN_HASH_LENGTH, first);
        try_filling("qorshudan_wildcard", qorshudan_wildcard,
                    of_names | KNOWS(NAME_TOO_LONG) | KNOWS(NO_ROOM), QORSHUDAN_NAME_MAX, first);
        try_types(first);
        for (size_t j = 0; j < count_of_inputs; j++) {
            const struct slice *const second = &inputs[j];
            for (size_t k = 0; k < count_of_inputs; k++) {
                try_between(first, second, &inputs[k]);
                try_closest(first, second, &inputs[k]);
                try_covers(first, second, &inputs[k]);
                try_denial(first, second, &inputs[k]);
            }
            try_closer(first, second);
            try_neighbour_in("qorshudan_subtree_successor", qorshudan_subtree_successor, NULL, NULL,
                             of_neighbours, first, second);
            try_compare(first, second);
            try_owners(first, second);
            try_neighbour("qorshudan_predecessor", qorshudan_predecessor, of_neighbours, first,
                          second);
            try_neighbour("qorshudan_successor", qorshudan_successor, of_neighbours, first,
                          second);
            try_neighbour("qorshudan_modified_predecessor", qorshudan_modified_predecessor,
                          modified, first, second);
            try_neighbour("qorshudan_modified_successor", qorshudan_modified_successor, modified,
                          first, second);
            try_neighbour_in("qorshudan_predecessor_in", qorshudan_predecessor_in, NULL,
                             qorshudan_predecessor, of_neighbours, first, second);
            try_neighbour_in("qorshudan_successor_in", qorshudan_successor_in, NULL,
                             qorshudan_successor, of_neighbours, first, second);
            try_neighbour_in("qorshudan_modified_predecessor_in", NULL,
                             qorshudan_modified_predecessor_in, qorshudan_modified_predecessor,
                             modified, first, second);
            try_neighbour_in("qorshudan_modified_successor_in", NULL,
                             qorshudan_modified_successor_in, qorshudan_modified_successor,
                             modified, first, second);
        }
    }

    /* 8 is reserved; 13 is a number of no function here. */
    for (int number = 0; number < 19; number++)
        if (number != 8 && number != 13 && seen[number] == 0) {
            printf("robust: no call gave number %d\n", number);
            return 1;
        }
    if (enclosed[0] == 0 || enclosed[1] == 0) {
        puts("robust: no encloser was a part of the owner, or none of the next name");
        return 1;
    }
    if (denied[0] == 0 || denied[1] == 0) {
        puts("robust: no denial had one gap, or none had two");
        return 1;
    }
    printf("robust %s: %lu calls, every number that a function knows given\n", argv[1], calls);
    return 0;
}
