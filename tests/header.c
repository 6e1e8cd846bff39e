/* The header in a C99 or C++17 program: it may be included twice, every function links with the
   types it declares, the helpers take a result apart, and every number and reason has its sentence.

       header              runs the tests
       header sentences    prints the sentences: `number N: ..` and `reason N: ..`
       header version      prints the version, as the header's text, its number, and the library's */
#include "qorshudan.h"
#include "qorshudan.h"

#include <stdio.h>
#include <string.h>

static int failures = 0;

#define EXPECT(condition)                                                  \
    do {                                                                   \
        if (!(condition)) {                                                \
            printf("header: line %d: not so: %s\n", __LINE__, #condition); \
            failures++;                                                    \
        }                                                                  \
    } while (0)

typedef uint64_t filling(const uint8_t *, size_t, uint8_t *, size_t);
typedef uint64_t neighbour(const uint8_t *, size_t, uint64_t, const uint8_t *, size_t, uint8_t *,
                           size_t);
typedef uint64_t neighbour_in(uint64_t, const uint8_t *, size_t, uint64_t, const uint8_t *, size_t,
                              uint8_t *, size_t);
typedef uint64_t modified_in(uint64_t, uint64_t, const uint8_t *, size_t, uint64_t, const uint8_t *,
                             size_t, uint8_t *, size_t);

static int same(const char *one, const char *other)
{
    return strcmp(one, other) == 0;
}

/* Every number and every reason that a function gives has a sentence of its own, and so has 13, the
   number of the program batch. Any other has the sentence for an unknown one. */
static void try_sentences(void)
{
    static const int numbers[] = { QORSHUDAN_ANSWERED,       QORSHUDAN_BAD_LIMIT,
                                   QORSHUDAN_BAD_APEX,       QORSHUDAN_APEX_TOO_LONG,
                                   QORSHUDAN_BAD_NAME,       QORSHUDAN_NAME_TOO_LONG,
                                   QORSHUDAN_NOT_UNDER_APEX, QORSHUDAN_NO_FULL_LABEL,
                                   QORSHUDAN_NO_ROOM,        QORSHUDAN_NOT_A_KEY,
                                   QORSHUDAN_BAD_SECOND_NAME, QORSHUDAN_NOT_IN_ALPHABET, 13,
                                   QORSHUDAN_NOT_A_TEXT,     QORSHUDAN_NOT_A_SET,
                                   QORSHUDAN_NOT_A_LIST,     QORSHUDAN_NOT_A_HASH,
                                   QORSHUDAN_NOT_AN_ENCLOSER };
    static const int reasons[] = { 0, QORSHUDAN_REASON_CUT_SHORT, QORSHUDAN_REASON_LEFT_OVER,
                                   QORSHUDAN_REASON_BAD_LENGTH, QORSHUDAN_REASON_TOO_LONG };
    int number, known = 0;
    size_t i;

    for (number = -2; number < 300; number++) {
        const char *const of_number = qorshudan_strerror(number);
        const char *const of_reason = qorshudan_reason_string(number);
        int is_number = 0, is_reason = 0;
        for (i = 0; i < sizeof numbers / sizeof *numbers; i++)
            is_number |= number == numbers[i];
        for (i = 0; i < sizeof reasons / sizeof *reasons; i++)
            is_reason |= number == reasons[i];
        known += is_number + is_reason;
        EXPECT(same(of_number, "this version has no such number") == !is_number);
        EXPECT(same(of_reason, "this version has no such reason") == !is_reason);
        EXPECT(strlen(of_number) > 5 && strlen(of_reason) > 5);
        for (i = 0; i < sizeof numbers / sizeof *numbers; i++)
            EXPECT(!is_number || number == numbers[i]
                   || !same(of_number, qorshudan_strerror(numbers[i])));
        for (i = 0; i < sizeof reasons / sizeof *reasons; i++)
            EXPECT(!is_reason || number == reasons[i]
                   || !same(of_reason, qorshudan_reason_string(reasons[i])));
    }
    EXPECT(known == 18 + 5);
    EXPECT(same(qorshudan_strerror(QORSHUDAN_NOT_UNDER_APEX),
                "the name is not at or under the apex"));
    EXPECT(same(qorshudan_reason_string(QORSHUDAN_REASON_BAD_LENGTH),
                "a length octet is above 63"));
}

static void print_sentences(void)
{
    int i;
    for (i = 0; i < 256; i++)
        if (!same(qorshudan_strerror(i), qorshudan_strerror(-1)))
            printf("number %d: %s\n", i, qorshudan_strerror(i));
    for (i = 0; i < 256; i++)
        if (!same(qorshudan_reason_string(i), qorshudan_reason_string(-1)))
            printf("reason %d: %s\n", i, qorshudan_reason_string(i));
}

/* The gap that the header draws, and a name outside of it. */
static void try_enclosers(void)
{
    static const uint8_t owner[] = "\3bar\7example\3com", next[] = "\1z\4Shop\7example\3com",
                         query[] = "\1a\4shop\7example\3com",
                         expected[] = "\1*\4Shop\7example\3com";
    uint8_t space[QORSHUDAN_NAME_MAX];
    size_t length = 7;
    const uint8_t *encloser = qorshudan_encloser(query, sizeof query, owner, sizeof owner, next,
                                                 sizeof next, &length);
    uint64_t result = qorshudan_closest_encloser(query, sizeof query, owner, sizeof owner, next,
                                                 sizeof next);
    EXPECT(result == UINT64_C(274) << 16);
    EXPECT(encloser == next + 2 && length == 18);
    result = qorshudan_wildcard(encloser, length, space, sizeof space);
    EXPECT(qorshudan_number(result) == QORSHUDAN_ANSWERED);
    EXPECT(qorshudan_value(result) == sizeof expected);
    EXPECT(memcmp(space, expected, sizeof expected) == 0);
    result = qorshudan_wildcard(encloser, length, space, length + 1);
    EXPECT(result == QORSHUDAN_NO_ROOM);
    result = qorshudan_wildcard(encloser, length - 1, NULL, 0);
    EXPECT(qorshudan_number(result) == QORSHUDAN_BAD_NAME);
    EXPECT(qorshudan_reason(result) == QORSHUDAN_REASON_CUT_SHORT);
    encloser = qorshudan_encloser(owner, sizeof owner, owner, sizeof owner, next, sizeof next,
                                  &length);
    EXPECT(encloser == owner + sizeof owner && length == 0);
    result = qorshudan_closest_encloser(NULL, 0, NULL, 0, NULL, 0);
    EXPECT(result == 0);
}

/* The gap of a missing name: the name above the encloser that it is about, its end past all names
   under it, and what it covers. */
static void try_denials(void)
{
    static const uint8_t apex[] = "\7example\3com", query[] = "\1a\4Shop\7example\3com",
                         closer[] = "\4Shop\7example\3com", end[] = "\5shop\0\7example\3com",
                         under[] = "\1z\4shop\7example\3com", other[] = "\4sho~\7example\3com";
    uint8_t owner[QORSHUDAN_NAME_MAX], next[QORSHUDAN_NAME_MAX];
    size_t owner_length;
    uint64_t result = qorshudan_next_closer(apex, sizeof apex, query, sizeof query);
    EXPECT(result == UINT64_C(18) << 16);
    result = qorshudan_next_closer(query, sizeof query, query, sizeof query);
    EXPECT(result == 0);
    result = qorshudan_predecessor(apex, sizeof apex, 255, closer, sizeof closer, owner,
                                   sizeof owner);
    EXPECT(qorshudan_number(result) == QORSHUDAN_ANSWERED);
    owner_length = qorshudan_value(result);
    result = qorshudan_subtree_successor(0, apex, sizeof apex, 255, closer, sizeof closer, next,
                                         sizeof next);
    EXPECT(result == UINT64_C(19) << 16 && memcmp(next, end, sizeof end) == 0);
    result = qorshudan_subtree_successor(1, apex, sizeof apex, 255, end, sizeof end, next,
                                         sizeof next);
    EXPECT(result == QORSHUDAN_NOT_IN_ALPHABET && memcmp(next, end, sizeof end) == 0);
    result = qorshudan_subtree_successor(0, apex, sizeof apex, 255, closer, sizeof closer, next, 18);
    EXPECT(result == QORSHUDAN_NO_ROOM);
    EXPECT(qorshudan_covers(owner, owner_length, end, sizeof end, query, sizeof query)
           == UINT64_C(1) << 16);
    EXPECT(qorshudan_covers(owner, owner_length, end, sizeof end, under, sizeof under)
           == UINT64_C(1) << 16);
    EXPECT(qorshudan_covers(owner, owner_length, end, sizeof end, other, sizeof other) == 0);
    EXPECT(qorshudan_covers(owner, owner_length, end, sizeof end, end, sizeof end) == 0);
    EXPECT(qorshudan_covers(closer, sizeof closer, apex, sizeof apex, other, sizeof other)
           == UINT64_C(1) << 16);
    EXPECT(qorshudan_covers(other, sizeof other, apex, sizeof apex, query, sizeof query) == 0);
    EXPECT(qorshudan_covers(NULL, 0, NULL, 0, NULL, 0) == 0);
}

/* The two gaps that deny a query under the apex, by the papers' examples of neighbours, and the one
   for a query next to the wildcard; 18, and no room. */
static void try_denial(void)
{
    static const uint8_t apex[] = "\7example\3com", query[] = "\1A\3Foo\7example\3com",
                         next[] = "\4foo\0\7example\3com", last[] = "\2*\0\7example\3com",
                         wildcard[] = "\1*\7example\3com";
    uint8_t space[QORSHUDAN_DENIAL_MAX], owner[QORSHUDAN_NAME_MAX];
    uint64_t result = qorshudan_denial(apex, sizeof apex, 255, apex, sizeof apex, query,
                                       sizeof query, space, sizeof space);
    EXPECT(qorshudan_number(result) == QORSHUDAN_ANSWERED);
    EXPECT(qorshudan_denial_length(result, 0) == 255 && qorshudan_denial_length(result, 2) == 255);
    EXPECT(qorshudan_denial_length(result, 1) == sizeof next);
    EXPECT(qorshudan_denial_length(result, 3) == sizeof last);
    EXPECT(qorshudan_denial_length(result, 4) == 0 && qorshudan_denial_length(result, -1) == 0);
    EXPECT(memcmp(space + 255, next, sizeof next) == 0);
    EXPECT(memcmp(space + 510 + sizeof next, last, sizeof last) == 0);
    EXPECT(qorshudan_value(qorshudan_predecessor(apex, sizeof apex, 255, wildcard, sizeof wildcard,
                                                 owner, sizeof owner)) == 255);
    EXPECT(memcmp(space + 255 + sizeof next, owner, 255) == 0);
    EXPECT(qorshudan_covers(space, 255, next, sizeof next, query, sizeof query)
           == UINT64_C(1) << 16);
    EXPECT(qorshudan_covers(owner, 255, last, sizeof last, wildcard, sizeof wildcard)
           == UINT64_C(1) << 16);
    result = qorshudan_denial(apex, sizeof apex, 255, apex, sizeof apex, last, sizeof last, space,
                              sizeof space);
    EXPECT(qorshudan_denial_length(result, 0) == 255 && qorshudan_denial_length(result, 2) == 0);
    EXPECT(memcmp(space, owner, 255) == 0);
    result = qorshudan_denial(apex, sizeof apex, 255, query, sizeof query, query, sizeof query,
                              space, sizeof space);
    EXPECT(result == QORSHUDAN_NOT_AN_ENCLOSER && qorshudan_denial_length(result, 0) == 0);
    result = qorshudan_denial(apex, sizeof apex, 255, apex, sizeof apex, query, sizeof query, space,
                              510 + sizeof next + sizeof last - 1);
    EXPECT(result == QORSHUDAN_NO_ROOM);
}

/* A, MX, RRSIG, NSEC and 1234 have a bitmap of 37 octets; what is asked of it, and of others. */
static void try_types(void)
{
    static const uint16_t types[] = { 1, 15, 46, 47, 1234 };
    static const uint16_t falling[] = { 1, 15, 15 };
    static const uint8_t front[] = { 0, 6, 0x40, 1, 0, 0, 0, 3, 4, 27 };
    uint8_t bitmap[37];
    uint16_t back[5];
    uint64_t result = qorshudan_write_types(types, 5, bitmap, sizeof bitmap);
    EXPECT(qorshudan_number(result) == QORSHUDAN_ANSWERED);
    EXPECT(qorshudan_value(result) == sizeof bitmap);
    EXPECT(memcmp(bitmap, front, sizeof front) == 0 && bitmap[36] == 0x20);
    result = qorshudan_read_types(bitmap, sizeof bitmap, back, 5);
    EXPECT(qorshudan_number(result) == QORSHUDAN_ANSWERED);
    EXPECT(qorshudan_value(result) == 5 && memcmp(back, types, sizeof types) == 0);
    EXPECT(qorshudan_read_types(bitmap, sizeof bitmap, back, 4) == QORSHUDAN_NO_ROOM);
    EXPECT(qorshudan_write_types(types, 5, bitmap, 36) == QORSHUDAN_NO_ROOM);
    result = qorshudan_write_types(falling, 3, NULL, 0);
    EXPECT(qorshudan_number(result) == QORSHUDAN_NOT_A_SET);
    EXPECT(qorshudan_value(result) == 2);
    EXPECT(qorshudan_value(qorshudan_has_type(bitmap, sizeof bitmap, 1234)) == 1);
    EXPECT(qorshudan_has_type(bitmap, sizeof bitmap, 1235) == 0);
    EXPECT(qorshudan_value(qorshudan_count_types(bitmap, sizeof bitmap)) == 5);
    EXPECT(qorshudan_value(qorshudan_smallest_type(bitmap, sizeof bitmap)) == 1 + 1);
    EXPECT(qorshudan_value(qorshudan_largest_type(bitmap, sizeof bitmap)) == 1 + 1234);
    EXPECT(qorshudan_smallest_type(NULL, 0) == 0 && qorshudan_largest_type(NULL, 0) == 0);
    EXPECT(qorshudan_count_types(NULL, 0) == 0);
    result = qorshudan_count_types(bitmap, 20);
    EXPECT(qorshudan_number(result) == QORSHUDAN_NOT_A_SET);
    EXPECT(qorshudan_value(result) == 20);
}

/* The owners com., a.com. and www.com. as a list, as the header lays it out, and queries in it. */
static void try_owners(void)
{
    static const uint8_t apex[] = { 3, 'C', 'o', 'm', 0 };
    static const uint8_t owners[3][9] = { { 3, 'c', 'o', 'm', 0 },
                                          { 1, 'A', 3, 'c', 'o', 'm', 0 },
                                          { 3, 'w', 'w', 'w', 3, 'c', 'o', 'm', 0 } };
    static const size_t lengths[] = { 5, 7, 9 };
    static const uint8_t query[] = { 1, 'B', 3, 'c', 'o', 'm', 0 };
    static uint8_t names[QORSHUDAN_OWNER_OCTETS_MAX];
    uint32_t starts[3];
    size_t length = 0, count = 0;
    for (size_t i = 0; i < 3; i++) {
        starts[count++] = (uint32_t)length;
        length += qorshudan_value(qorshudan_fold(owners[i], lengths[i], names + length,
                                                 sizeof names - length));
    }
    EXPECT(length == 21 && starts[1] == 5 && starts[2] == 12);
    uint64_t result = qorshudan_check_owners(apex, 5, 255, names, length, starts, count);
    EXPECT(qorshudan_number(result) == QORSHUDAN_ANSWERED && qorshudan_value(result) == 3);
    result = qorshudan_find_owner(names, length, starts, count, query, 7);
    EXPECT(qorshudan_number(result) == QORSHUDAN_ANSWERED);
    EXPECT(qorshudan_value(result) == 2 + 256 * (1 + 1));
    /* an owner that runs past its end, an empty list, and a query that is no name */
    starts[2] = 13;
    result = qorshudan_check_owners(apex, 5, 255, names, length, starts, count);
    EXPECT(qorshudan_number(result) == QORSHUDAN_NOT_A_LIST && qorshudan_value(result) == 1);
    result = qorshudan_check_owners(apex, 5, 255, NULL, 0, NULL, 0);
    EXPECT(qorshudan_number(result) == QORSHUDAN_NOT_A_LIST && qorshudan_value(result) == 0);
    EXPECT(qorshudan_find_owner(NULL, 0, NULL, 0, query, 7) == 0);
    result = qorshudan_find_owner(names, length, starts, count, query, 6);
    EXPECT(qorshudan_number(result) == QORSHUDAN_BAD_NAME && qorshudan_value(result) == 6);
}

int main(int argc, char **argv)
{
    /* foo.example.com., whose last octets are the apex example.com. */
    static const uint8_t name[] = { 3, 'F', 'o', 'o', 7, 'e', 'x', 'a', 'm', 'p', 'l', 'e',
                                    3, 'c', 'o', 'm', 0 };
    static const uint8_t key[] = { 'c', 'o', 'm', 0, 'e', 'x', 'a', 'm', 'p', 'l', 'e', 0,
                                   'f', 'o', 'o', 0 };
    static const char text[] = "Foo.example.com.";
    /* The hash of example. in RFC 5155, appendix A. */
    static const uint8_t hash[] = { 0x06, 0x53, 0x68, 0xab, 0xee, 0xd7, 0xec, 0x6e, 0x9f, 0xeb,
                                    0xa9, 0x6b, 0x8c, 0x8b, 0xc3, 0xe8, 0xb7, 0x91, 0xf7, 0x16 };
    static const char label[] = "0p9mhaveqvm6t7vbl5lop2u3t2rp3tom";
    const uint8_t *const apex = name + 4;
    const size_t apex_length = sizeof name - 4;
    filling *const fillings[] = { qorshudan_fold, qorshudan_write_key, qorshudan_read_key };
    neighbour *const neighbours[] = { qorshudan_predecessor, qorshudan_successor,
                                      qorshudan_modified_predecessor,
                                      qorshudan_modified_successor };
    neighbour_in *const neighbours_in[] = { qorshudan_predecessor_in, qorshudan_successor_in };
    modified_in *const modifieds_in[] = { qorshudan_modified_predecessor_in,
                                          qorshudan_modified_successor_in };
    static const size_t lengths[] = { 255, 19, 77, 18 };
    uint8_t space[QORSHUDAN_KEY_MAX], before[QORSHUDAN_HASH_LENGTH], after[QORSHUDAN_HASH_LENGTH];
    uint64_t result;
    size_t i;
    int order;

    if (argc == 2 && same(argv[1], "sentences")) {
        print_sentences();
        return 0;
    }
    if (argc == 2 && same(argv[1], "version")) {
        printf("%s %d %d\n", QORSHUDAN_VERSION, QORSHUDAN_VERSION_NUMBER,
               (int)qorshudan_version());
        return 0;
    }
    EXPECT(argc == 1);

#if QORSHUDAN_VERSION_NUMBER < 1280
#error "the version's number can be tested by the preprocessor, and grows"
#endif
    EXPECT(qorshudan_version() == QORSHUDAN_VERSION_NUMBER);
    EXPECT(QORSHUDAN_VERSION_NUMBER / 65536 == QORSHUDAN_VERSION_MAJOR);
    EXPECT(QORSHUDAN_VERSION_NUMBER / 256 % 256 == QORSHUDAN_VERSION_MINOR);
    EXPECT(QORSHUDAN_VERSION_NUMBER % 256 == QORSHUDAN_VERSION_PATCH);
    try_sentences();

    result = qorshudan_check(name, sizeof name);
    EXPECT(qorshudan_number(result) == QORSHUDAN_ANSWERED);
    EXPECT(qorshudan_reason(result) == 0);
    EXPECT(qorshudan_value(result) == sizeof name);

    result = qorshudan_check(name, 5);
    EXPECT(qorshudan_number(result) == QORSHUDAN_BAD_NAME);
    EXPECT(qorshudan_reason(result) == QORSHUDAN_REASON_CUT_SHORT);
    EXPECT(qorshudan_value(result) == 5);

    /* At each place stands a label's length octet, and the labels follow one another. */
    memset(space, 170, sizeof space);
    result = qorshudan_label_places(name, sizeof name, space, QORSHUDAN_LABELS_MAX);
    EXPECT(qorshudan_number(result) == QORSHUDAN_ANSWERED);
    EXPECT(qorshudan_value(result) == 3);
    EXPECT(space[0] == 0 && space[1] == 4 && space[2] == 12 && space[3] == 170);
    for (i = 0; i < 3; i++)
        EXPECT((size_t)space[i] + 1 + name[space[i]] == (i < 2 ? space[i + 1] : sizeof name - 1));
    EXPECT(qorshudan_number(qorshudan_label_places(name, sizeof name, space, 2))
           == QORSHUDAN_NO_ROOM);
    EXPECT(qorshudan_number(qorshudan_label_places(name, 5, space, 0)) == QORSHUDAN_BAD_NAME);

    result = qorshudan_compare(apex, apex_length, name, sizeof name);
    EXPECT(qorshudan_number(result) == QORSHUDAN_ANSWERED);
    EXPECT(qorshudan_comparison(result) == -3);
    result = qorshudan_compare(name, sizeof name, apex, apex_length);
    EXPECT(qorshudan_comparison(result) == 3);
    result = qorshudan_compare(name, sizeof name, name, sizeof name);
    EXPECT(qorshudan_comparison(result) == 0);
    result = qorshudan_compare(name, sizeof name, key, sizeof key);
    EXPECT(qorshudan_number(result) == QORSHUDAN_BAD_SECOND_NAME);
    EXPECT(qorshudan_reason(result) == QORSHUDAN_REASON_BAD_LENGTH);
    EXPECT(qorshudan_value(result) == 0);
    EXPECT(qorshudan_comparison(result) == -128);

    /* An answer's order is put, a refusal's is not, whatever its place. */
    order = 7;
    result = qorshudan_order(apex, apex_length, name, sizeof name, &order);
    EXPECT(result == qorshudan_compare(apex, apex_length, name, sizeof name));
    EXPECT(order == -1);
    result = qorshudan_order(name, sizeof name, apex, apex_length, &order);
    EXPECT(qorshudan_number(result) == QORSHUDAN_ANSWERED);
    EXPECT(order == 1);
    result = qorshudan_order(name, sizeof name, name, sizeof name, &order);
    EXPECT(qorshudan_number(result) == QORSHUDAN_ANSWERED);
    EXPECT(order == 0);
    for (i = 0; i < sizeof name; i++) {
        order = 7;
        result = qorshudan_order(name, i, name, sizeof name, &order);
        EXPECT(qorshudan_number(result) == QORSHUDAN_BAD_NAME);
        EXPECT(qorshudan_reason(result) == QORSHUDAN_REASON_CUT_SHORT);
        EXPECT(qorshudan_value(result) == i);
        EXPECT(order == 7);
        EXPECT(qorshudan_comparison(result) == -128);
        result = qorshudan_order(name, sizeof name, name, i, &order);
        EXPECT(qorshudan_number(result) == QORSHUDAN_BAD_SECOND_NAME);
        EXPECT(order == 7);
        EXPECT(qorshudan_comparison(result) == -128);
    }

    for (i = 0; i < sizeof fillings / sizeof *fillings; i++) {
        const uint8_t *const input = i == 2 ? key : name;
        const size_t length = i == 2 ? sizeof key : sizeof name;
        result = fillings[i](input, length, space, sizeof space);
        EXPECT(qorshudan_number(result) == QORSHUDAN_ANSWERED);
        EXPECT(qorshudan_value(result) == (i == 1 ? sizeof key : sizeof name));
        EXPECT(i != 1 || memcmp(space, key, sizeof key) == 0);
        EXPECT(i == 1 || (space[1] == 'f' && memcmp(space + 2, name + 2, sizeof name - 2) == 0));
    }
    result = qorshudan_write_text(name, sizeof name, space, sizeof space);
    EXPECT(qorshudan_number(result) == QORSHUDAN_ANSWERED);
    EXPECT(qorshudan_value(result) == sizeof text - 1);
    EXPECT(memcmp(space, "foo.example.com.", sizeof text - 1) == 0);
    result = qorshudan_read_text((const uint8_t *)text, sizeof text - 1, space, sizeof space);
    EXPECT(qorshudan_number(result) == QORSHUDAN_ANSWERED);
    EXPECT(qorshudan_value(result) == sizeof name);
    EXPECT(memcmp(space, name, sizeof name) == 0);
    result = qorshudan_read_text((const uint8_t *)text, sizeof text - 2, NULL, 0);
    EXPECT(qorshudan_number(result) == QORSHUDAN_NOT_A_TEXT);
    EXPECT(qorshudan_value(result) == sizeof text - 2);

    result = qorshudan_read_key(key, 2, NULL, 0);
    EXPECT(qorshudan_number(result) == QORSHUDAN_NOT_A_KEY);
    EXPECT(qorshudan_value(result) == 2);

    /* Between the hash before and the hash after lies the hash, and neither of the two. */
    result = qorshudan_hash_before(hash, sizeof hash, before, sizeof before);
    EXPECT(qorshudan_number(result) == QORSHUDAN_ANSWERED);
    EXPECT(qorshudan_value(result) == QORSHUDAN_HASH_LENGTH);
    EXPECT(before[19] == 0x15 && memcmp(before, hash, 19) == 0);
    result = qorshudan_hash_after(hash, sizeof hash, after, sizeof after);
    EXPECT(qorshudan_number(result) == QORSHUDAN_ANSWERED);
    EXPECT(after[19] == 0x17 && memcmp(after, hash, 19) == 0);
    result = qorshudan_hash_between(before, sizeof before, hash, sizeof hash, after, sizeof after);
    EXPECT(qorshudan_number(result) == QORSHUDAN_ANSWERED);
    EXPECT(qorshudan_value(result) == 1);
    result = qorshudan_hash_between(before, sizeof before, after, sizeof after, after, sizeof after);
    EXPECT(result == 0);
    result = qorshudan_hash_between(before, sizeof before, hash, sizeof hash, after, 19);
    EXPECT(result == QORSHUDAN_NOT_A_HASH);
    result = qorshudan_write_hash_label(hash, sizeof hash, space, sizeof space);
    EXPECT(qorshudan_number(result) == QORSHUDAN_ANSWERED);
    EXPECT(qorshudan_value(result) == QORSHUDAN_HASH_LABEL_LENGTH);
    EXPECT(memcmp(space, label, sizeof label - 1) == 0);
    result = qorshudan_read_hash_label((const uint8_t *)label, sizeof label - 1, space, sizeof space);
    EXPECT(qorshudan_number(result) == QORSHUDAN_ANSWERED);
    EXPECT(qorshudan_value(result) == sizeof hash && memcmp(space, hash, sizeof hash) == 0);
    result = qorshudan_read_hash_label((const uint8_t *)label, sizeof label - 2, NULL, 0);
    EXPECT(result == QORSHUDAN_NOT_A_HASH);

    try_enclosers();
    try_denials();
    try_denial();
    try_types();
    try_owners();

    for (i = 0; i < sizeof neighbours / sizeof *neighbours; i++) {
        result = neighbours[i](apex, apex_length, QORSHUDAN_NAME_MAX, name, sizeof name, space,
                               sizeof space);
        EXPECT(qorshudan_number(result) == QORSHUDAN_ANSWERED);
        EXPECT(qorshudan_value(result) == lengths[i]);
        result = neighbours[i](apex, apex_length, QORSHUDAN_NAME_MAX, name, sizeof name, space, 17);
        EXPECT(qorshudan_number(result) == QORSHUDAN_NO_ROOM);
        result = neighbours[i](apex, apex_length, 0, NULL, 0, NULL, 0);
        EXPECT(qorshudan_number(result) == QORSHUDAN_BAD_LIMIT);
        EXPECT(result == 1);
    }

    /* In the full alphabet, and at depth 1, the answers are the same; in the other an underscore is
       refused, and the answers have a letter, a digit or a hyphen where those have octets 0 and
       255. */
    for (i = 0; i < sizeof neighbours / sizeof *neighbours; i++) {
        static const uint8_t other[] = { 1, '_', 7, 'e', 'x', 'a', 'm', 'p', 'l', 'e',
                                         3, 'c', 'o', 'm', 0 };
        static const uint8_t changed[] = { 'z', '-', 'z', '-' };
        static const size_t places[] = { 1, 1, 4, 4 };
        uint8_t full[QORSHUDAN_NAME_MAX];
        const uint64_t expected = neighbours[i](apex, apex_length, QORSHUDAN_NAME_MAX, name,
                                                sizeof name, full, sizeof full);
#define ASK(alphabet, depth, octets)                                                            \
    (i < 2 ? neighbours_in[i](alphabet, apex, apex_length, QORSHUDAN_NAME_MAX, octets,          \
                              sizeof octets, space, sizeof space)                               \
           : modifieds_in[i - 2](alphabet, depth, apex, apex_length, QORSHUDAN_NAME_MAX, octets, \
                                 sizeof octets, space, sizeof space))
        result = ASK(QORSHUDAN_ALPHABET_FULL, 1, name);
        EXPECT(result == expected && memcmp(space, full, qorshudan_value(result)) == 0);
        result = ASK(QORSHUDAN_ALPHABET_LDH, 1, name);
        EXPECT(result == expected && space[places[i]] == changed[i]);
        result = ASK(QORSHUDAN_ALPHABET_LDH, 1, other);
        EXPECT(result == QORSHUDAN_NOT_IN_ALPHABET);
        if (i < 2)
            continue;
        /* Two labels deep, the names before and after have two labels more than the apex. */
        result = ASK(QORSHUDAN_ALPHABET_FULL, 2, name);
        EXPECT(qorshudan_number(result) == QORSHUDAN_ANSWERED);
        EXPECT(qorshudan_value(result) == (i == 2 ? 13 + 2 * 64 : 19));
        EXPECT(i == 2 || memcmp(space, "\1\0\3foo", 6) == 0);
        EXPECT(ASK(QORSHUDAN_ALPHABET_FULL, 0, name) == QORSHUDAN_NO_FULL_LABEL);
        EXPECT(ASK(QORSHUDAN_ALPHABET_FULL, 4, name) == QORSHUDAN_NO_FULL_LABEL);
        EXPECT(ASK(QORSHUDAN_ALPHABET_LDH, UINT64_MAX, other) == QORSHUDAN_NO_FULL_LABEL);
#undef ASK
    }

    EXPECT(qorshudan_number(UINT64_C(0xfe040b)) == QORSHUDAN_BAD_SECOND_NAME);
    EXPECT(qorshudan_reason(UINT64_C(0xfe040b)) == QORSHUDAN_REASON_TOO_LONG);
    EXPECT(qorshudan_value(UINT64_C(0xfe040b)) == 254);
    EXPECT(qorshudan_comparison(UINT64_C(0x010000)) == -127);
    EXPECT(qorshudan_comparison(UINT64_C(0xff0000)) == 127);

    return failures != 0;
}
