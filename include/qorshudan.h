/*
 * Qorshudan: DNS name arithmetic for signers, proved.
 *
 * Checks names in wire format, folds letter case, compares names in the canonical order of
 * RFC 4034 section 6.1, writes and reads sorting keys, writes and reads names as text (RFC 1035
 * section 5.1), and finds the names next to a given one in a zone (RFC 4471), which are the ends
 * of the gap that denies it. For zones with hashed names (NSEC3, RFC 5155) it finds the hashes
 * next to a given one, writes and reads their owner labels, and tells what lies between two. From
 * the two ends of a gap it finds the closest encloser of a missing name, and writes the wildcard
 * above it (RFC 4592). It writes and reads type bitmaps (RFC 4034 section 4.1.2) and tells which
 * types they have. For zones that are signed ahead it checks a list of their owners and finds the
 * gap that a query lies in.
 *
 * Any octets may be given: a function ends with an answer or with a numbered refusal, so there is
 * nothing to check first. What a function answers and when it refuses is proved of the code, for
 * every input.
 *
 *
 * What every function requires
 *
 *  - A slice is a pointer to uint8_t and then its length in octets. The octets of an input can be
 *    read, those of a space read and written; a space need not be initialized. A slice of length 0
 *    may come with any pointer, NULL included. A list of types is a pointer to uint16_t and then
 *    the number of types; what is said of octets holds of its types. A table of starts is the same
 *    with uint32_t.
 *  - The space overlaps no input (so a name can't be folded in place). Inputs may overlap one
 *    another: an apex may point into its name.
 *
 * What every function ensures
 *
 *  - No input is changed.
 *  - A refusal changes no octet of the space.
 *  - An answer fills the first octets of the space, tells their number, and leaves the octets
 *    after them as they were.
 *  - Of several refusals that apply, the one with the lowest number is given, and
 *    QORSHUDAN_NO_ROOM only when no other applies.
 *  - Nothing is allocated, and there is no global state and no lock. Any number of threads may
 *    call any function at once, signal handlers too.
 *
 * What every function but qorshudan_version() returns
 *
 *    number + 2^8 * reason + 2^16 * value
 *
 *    which qorshudan_number(), qorshudan_reason(), qorshudan_value() and qorshudan_comparison(),
 *    at the end of this file, take apart. An answer to any function with a space is thus
 *
 *        uint8_t space[QORSHUDAN_NAME_MAX];
 *        uint64_t result = qorshudan_fold(name, name_length, space, sizeof space);
 *        if (qorshudan_number(result) == QORSHUDAN_ANSWERED)
 *            use(space, qorshudan_value(result));
 *        else
 *            complain(qorshudan_strerror(qorshudan_number(result)));
 *
 *
 * Words
 *
 *  - A name is 0 to 127 labels of 1 to 63 octets, each behind its length octet, and one zero
 *    octet: 1 to 255 octets in all. Octets are well formed when they are exactly one such name.
 *    Compressed names are not.
 *  - Folding turns octets 65 to 90 (A to Z) into 97 to 122 and changes no other. Apex and name
 *    are folded before any other work, and every name that is answered is folded, but for one
 *    that is read from a text, a closest encloser and a wildcard: these keep their letter case.
 *  - The zone of an apex and a limit is all folded names at or under the apex that are at most
 *    the limit long.
 *  - An alphabet says which octets the labels above the apex have in a zone that keeps to it: the
 *    full one has every octet but A to Z, which are folded, and LDH the letters, the digits and
 *    the hyphen alone (RFC 4471 section 4.3). The apex is free in either.
 *  - The depth of a modified question, 1 to 3, is how many labels more than the apex the names
 *    have at most that are looked among.
 *  - A hash is 20 octets (RFC 5155), taken as a number of 160 bits, the high octet first. The
 *    hashes are a ring: after 20 octets ff come 20 octets 00. No hash is computed here. The owner
 *    label of a hash is its 32 characters in base32hex (RFC 4648 section 7) without padding, and
 *    here without a length octet.
 *  - A set of types is a list of them that strictly rises; pseudo-types count like others. Its
 *    bitmap is what RFC 4034 section 4.1.2 says: windows by rising number, 1 to 32 octets each,
 *    none empty and none with a trailing zero octet. The empty set has the empty bitmap. Each set
 *    has exactly one bitmap, and other octets are none.
 *  - A list of owners is their names back to back, and a table of where each of them starts: an
 *    owner runs from its start to the next one, the last to the end of the names. It has at most
 *    QORSHUDAN_OWNERS_MAX owners and QORSHUDAN_OWNER_OCTETS_MAX octets of names.
 *
 * The library is for x86-64 Linux, and needs memcpy and memset of the C library and nothing else.
 * Once it is installed: cc program.c $(pkg-config --cflags --libs qorshudan)
 * Where it was built:   cc program.c -I include -L target/staticlib -lqorshudan
 */
#ifndef QORSHUDAN_H
#define QORSHUDAN_H

#include <stddef.h>
#include <stdint.h>

#ifdef __cplusplus
extern "C" {
#endif

/* The version of this header. A program can ask the library that it runs with for its own, with
   qorshudan_version(), and compare it with QORSHUDAN_VERSION_NUMBER. */
#define QORSHUDAN_VERSION "0.5.0"
#define QORSHUDAN_VERSION_MAJOR 0
#define QORSHUDAN_VERSION_MINOR 5
#define QORSHUDAN_VERSION_PATCH 0
#define QORSHUDAN_VERSION_NUMBER                                     \
    (QORSHUDAN_VERSION_MAJOR * 65536 + QORSHUDAN_VERSION_MINOR * 256 \
     + QORSHUDAN_VERSION_PATCH)

/* The longest name, and the most that a limit can be. A space this long has room for any name. */
#define QORSHUDAN_NAME_MAX 255

/* The most labels of a name. */
#define QORSHUDAN_LABELS_MAX 127

/* The longest sorting key. */
#define QORSHUDAN_KEY_MAX 504

/* The longest text of a name. */
#define QORSHUDAN_TEXT_MAX 1004

/* The most octets of the four names of a denial. */
#define QORSHUDAN_DENIAL_MAX 1020

/* The alphabets: the full one, and that of letters, digits and hyphens, which any other number
   than 0 stands for. */
#define QORSHUDAN_ALPHABET_FULL 0
#define QORSHUDAN_ALPHABET_LDH 1

/* The octets of a hash, and the characters of its owner label. */
#define QORSHUDAN_HASH_LENGTH 20
#define QORSHUDAN_HASH_LABEL_LENGTH 32

/* The longest type bitmap, and the most types that one has. */
#define QORSHUDAN_BITMAP_MAX 8704
#define QORSHUDAN_TYPES_MAX 65536

/* The most owners of a list, and the most octets of their names together. */
#define QORSHUDAN_OWNERS_MAX 16384
#define QORSHUDAN_OWNER_OCTETS_MAX 4194304

/* The numbers: an answer, or why there is none. */
enum qorshudan_outcome {
    /* The value is the number of octets written, the length of a checked name, 128 plus the
       number of a comparison, 1 or 0 for whether a hash lies between two others, or the length of
       a closest encloser, plus 256 where it is a part of the next name; for bitmaps, the number
       of types, 1 or 0 for whether a type is there, or 1 plus a type, and 0 for none; the number
       of owners of a list, or what qorshudan_find_owner() says. */
    QORSHUDAN_ANSWERED = 0,
    /* The limit is not 1 to 255. */
    QORSHUDAN_BAD_LIMIT = 1,
    /* The apex is not well formed. With reason; the value is the place. */
    QORSHUDAN_BAD_APEX = 2,
    /* The limit leaves no room for a name under the apex: the length of the apex plus 2 is above
       it. */
    QORSHUDAN_APEX_TOO_LONG = 3,
    /* The name (in a comparison, the first) is not well formed. With reason; the value is the
       place. */
    QORSHUDAN_BAD_NAME = 4,
    /* The name is longer than the limit; of a wildcard, than 255 octets. */
    QORSHUDAN_NAME_TOO_LONG = 5,
    /* The name is not at or under the apex. */
    QORSHUDAN_NOT_UNDER_APEX = 6,
    /* Modified neighbours only: the apex and a label of 63 octets for each label of depth are
       longer than the limit (the length of the apex plus 64 times the depth is above it), or the
       depth is not 1 to 3. Where no depth is given it is 1. */
    QORSHUDAN_NO_FULL_LABEL = 7,
    /* 8 is reserved: no function gives it. */
    /* The answer is longer than the space. */
    QORSHUDAN_NO_ROOM = 9,
    /* The octets are no name's sorting key. The value is the place: the length of the longest
       beginning of the octets that some key also begins with. */
    QORSHUDAN_NOT_A_KEY = 10,
    /* The second name of a comparison is not well formed. With reason; the value is the place. */
    QORSHUDAN_BAD_SECOND_NAME = 11,
    /* A label of the name above the apex has an octet, folded, that is not in the alphabet. */
    QORSHUDAN_NOT_IN_ALPHABET = 12,
    /* 13 is given by the program batch alone: the octets are no question. */
    /* The octets are no name's text. The value is the place: the length of the longest beginning
       of the octets that some text also begins with; so where only the final dot is missing, the
       length of the octets. */
    QORSHUDAN_NOT_A_TEXT = 14,
    /* The octets are no type bitmap. The value is the place: the length of the longest beginning of
       the octets that some bitmap also begins with. Or a list of types does not strictly rise; the
       value is the index of the first type that is not above the one before it. */
    QORSHUDAN_NOT_A_SET = 15,
    /* The list is none of owners. The value is the index of the first owner that breaks it, or that
       is looked at and is no name; 0 for too large a list, in a check for an empty one too, and
       where the first owner does not start at 0. */
    QORSHUDAN_NOT_A_LIST = 16,
    /* The octets are not 20, so they are no hash, or the characters are no hash's owner label. */
    QORSHUDAN_NOT_A_HASH = 17,
    /* The encloser is no proper ancestor of the query at or under the apex. */
    QORSHUDAN_NOT_AN_ENCLOSER = 18
};

/* The reasons for which octets are not well formed (numbers 2, 4 and 11), in the order in which
   they are looked for at each length octet, from the left. The place is an index into the octets,
   at most 255. */
enum qorshudan_fault {
    /* The octets end before the name does. The place is their length. */
    QORSHUDAN_REASON_CUT_SHORT = 1,
    /* Octets follow the zero octet that ends the name. The place is the first of them. */
    QORSHUDAN_REASON_LEFT_OVER = 2,
    /* A length octet is above 63 (a compression pointer, for one). The place is its own. */
    QORSHUDAN_REASON_BAD_LENGTH = 3,
    /* A label would make the name longer than 255 octets. The place is its length octet. */
    QORSHUDAN_REASON_TOO_LONG = 4
};

/* A result that is not looked at may be a refusal that goes unnoticed. */
#if defined(__GNUC__)
#define QORSHUDAN_RESULT __attribute__((__warn_unused_result__)) uint64_t
#else
#define QORSHUDAN_RESULT uint64_t
#endif

uint64_t qorshudan_version(void);
/*
 * Tells the version of the library: 2^16 * major + 2^8 * minor + patch, plainly. It is no result
 * with a number and a value.
 */

QORSHUDAN_RESULT qorshudan_check(const uint8_t *name, size_t name_length);
/*
 * Checks that the octets are one well formed name.
 *
 * Returns:
 *    QORSHUDAN_ANSWERED         it is; the value is its length, which is name_length
 *    QORSHUDAN_BAD_NAME         it is not, with reason and place
 */

QORSHUDAN_RESULT qorshudan_fold(const uint8_t *name, size_t name_length,
                                uint8_t *space, size_t space_length);
/*
 * Folds a name: the same octets, with A to Z as a to z.
 *
 * Ensures:
 *    The answer has name_length octets, is well formed, and folds to itself.
 *
 * Returns:
 *    QORSHUDAN_ANSWERED         the folded name is in the space; the value is its length
 *    QORSHUDAN_BAD_NAME         with reason and place
 *    QORSHUDAN_NO_ROOM          the space is shorter than the name
 */

QORSHUDAN_RESULT qorshudan_label_places(const uint8_t *name, size_t name_length,
                                        uint8_t *places, size_t places_length);
/*
 * Tells where the labels of a name begin: the places of their length octets, from the left.
 *
 * Ensures:
 *    The answer has one octet for each label, at most QORSHUDAN_LABELS_MAX; for the root it is
 *    empty. At each place, counted from 0 at the name's first octet, stands the length octet of a
 *    label, and the octets of that label follow it. These labels, in this order, are the name's.
 *
 * Returns:
 *    QORSHUDAN_ANSWERED         the places are in places; the value is the number of labels
 *    QORSHUDAN_BAD_NAME         with reason and place
 *    QORSHUDAN_NO_ROOM          the name has more labels than there are octets in places
 */

QORSHUDAN_RESULT qorshudan_compare(const uint8_t *first, size_t first_length,
                                   const uint8_t *second, size_t second_length);
/*
 * Compares two names in the canonical order: labels from the right, each as unsigned octets from
 * its left end, letter case aside. A missing octet sorts before any octet, and a name before
 * every name under it.
 *
 * Ensures:
 *    qorshudan_comparison() of the answer is zero when the names differ in letter case at most,
 *    negative when the first sorts earlier and positive when it sorts later. If not zero, it is,
 *    apart from its sign, 1 plus the number of labels that the names share from the right; so it
 *    lies between -127 and 127. Exchanging the names turns its sign.
 *
 * Returns:
 *    QORSHUDAN_ANSWERED         the value is 128 plus that number, 1 to 255
 *    QORSHUDAN_BAD_NAME         the first name, with reason and place
 *    QORSHUDAN_BAD_SECOND_NAME  the second name, with reason and place
 */

QORSHUDAN_RESULT qorshudan_write_key(const uint8_t *name, size_t name_length,
                                     uint8_t *space, size_t space_length);
/*
 * Writes the sorting key of a name: its labels from the right, folded, each followed by 00, where
 * octet 0 of a label is written 01 01 and octet 1 is written 01 02. The root's key is empty.
 *
 * Ensures:
 *    Keys sort, by memcmp() and then the shorter first, as their names do in the canonical order.
 *    Two names have the same key exactly when they differ in letter case at most.
 *    The answer is at most QORSHUDAN_KEY_MAX octets long: the name's length, less 1, plus the
 *    number of its label octets that are 0 or 1.
 *
 * Returns:
 *    QORSHUDAN_ANSWERED         the key is in the space; the value is its length, 0 for the root
 *    QORSHUDAN_BAD_NAME         with reason and place
 *    QORSHUDAN_NO_ROOM          the space is shorter than the key
 */

QORSHUDAN_RESULT qorshudan_read_key(const uint8_t *key, size_t key_length,
                                    uint8_t *space, size_t space_length);
/*
 * Reads a sorting key: writes the one folded name that has it. The key of that name is these
 * octets again.
 *
 * Returns:
 *    QORSHUDAN_ANSWERED         the name is in the space; the value is its length
 *    QORSHUDAN_NOT_A_KEY        no name has this key, with the place, however short the space
 *    QORSHUDAN_NO_ROOM          the space is shorter than the name
 */

QORSHUDAN_RESULT qorshudan_write_text(const uint8_t *name, size_t name_length,
                                      uint8_t *space, size_t space_length);
/*
 * Writes the text of a name: its labels, folded, with a dot after each, and the root as a single
 * dot. Octets 33 to 126 are written as they are, but . \ " ; ( ) @ $ behind a backslash; all
 * others as a backslash and three decimal digits.
 *
 * Ensures:
 *    The answer is at most QORSHUDAN_TEXT_MAX octets long. It has no zero octet, and none is put
 *    behind it.
 *    Two names have the same text exactly when they differ in letter case at most.
 *
 * Returns:
 *    QORSHUDAN_ANSWERED         the text is in the space; the value is its length
 *    QORSHUDAN_BAD_NAME         with reason and place
 *    QORSHUDAN_NO_ROOM          the space is shorter than the text
 */

QORSHUDAN_RESULT qorshudan_read_text(const uint8_t *text, size_t text_length,
                                     uint8_t *space, size_t space_length);
/*
 * Reads the text of a name, and writes that name, in the letter case of the text: labels with a
 * dot after each, or a single dot. A character of a label is one of 33 to 126 other than dot and
 * backslash, or a backslash and three decimal digits up to 255, or a backslash and one of 33 to
 * 126 that is no digit. There is no relative name: a text ends with a dot.
 *
 * Ensures:
 *    Exactly the texts whose name is well formed are answered. The text that
 *    qorshudan_write_text() writes is read as the folded name.
 *
 * Returns:
 *    QORSHUDAN_ANSWERED         the name is in the space; the value is its length
 *    QORSHUDAN_NOT_A_TEXT       no name has this text, with the place, however short the space
 *    QORSHUDAN_NO_ROOM          the space is shorter than the name
 */

QORSHUDAN_RESULT qorshudan_predecessor(const uint8_t *apex, size_t apex_length, uint64_t limit,
                                       const uint8_t *name, size_t name_length,
                                       uint8_t *space, size_t space_length);
/*
 * Finds the absolute predecessor of a name: of all names of the zone, the last before it in the
 * canonical order. Before the apex comes the last name of the zone.
 *
 * Ensures:
 *    The answer is a folded name at or under the apex and at most limit octets long.
 *    It is another name than the one that is asked for, as in all functions that find a neighbour.
 *
 * Returns:
 *    QORSHUDAN_ANSWERED         the predecessor is in the space; the value is its length
 *    QORSHUDAN_BAD_LIMIT        the limit is not 1 to 255
 *    QORSHUDAN_BAD_APEX         with reason and place
 *    QORSHUDAN_APEX_TOO_LONG    the limit leaves no room for a name under the apex: the length of
 *                               the apex plus 2 is above it
 *    QORSHUDAN_BAD_NAME         with reason and place
 *    QORSHUDAN_NAME_TOO_LONG    the name is longer than the limit
 *    QORSHUDAN_NOT_UNDER_APEX   the name is not at or under the apex
 *    QORSHUDAN_NO_ROOM          the space is shorter than the predecessor
 */

QORSHUDAN_RESULT qorshudan_successor(const uint8_t *apex, size_t apex_length, uint64_t limit,
                                     const uint8_t *name, size_t name_length,
                                     uint8_t *space, size_t space_length);
/*
 * Finds the absolute successor of a name: of all names of the zone, the first after it in the
 * canonical order. After the last name of the zone comes the apex.
 *
 * In an NSEC record: where it fits, it is the name with one octet 0 as a label in front, and lies
 * under the name. From a name that exists to its successor no name of the zone is covered, which is
 * what an answer without data needs. From the predecessor of a missing name to its successor a
 * resolver reads an empty non-terminal, and no missing name: the gap of that one ends at
 * qorshudan_subtree_successor().
 *
 * Ensures:
 *    The answer is a folded name at or under the apex and at most limit octets long.
 *    The predecessor of the answer is the name, folded.
 *
 * Returns:
 *    What qorshudan_predecessor() returns, in the same cases.
 */

QORSHUDAN_RESULT qorshudan_modified_predecessor(const uint8_t *apex, size_t apex_length,
                                                uint64_t limit,
                                                const uint8_t *name, size_t name_length,
                                                uint8_t *space, size_t space_length);
/*
 * Finds the modified predecessor of a name: of the apex and the names of the zone with exactly
 * one label more, the last before the name in the canonical order. Before the apex comes the last
 * of them all. The name itself may have any number of labels more than the apex.
 *
 * Ensures:
 *    The answer is a folded name at or under the apex and at most limit octets long.
 *    If the name has at most one label more than the apex, the modified successor of the answer is
 *    the name, folded.
 *
 * Returns:
 *    What qorshudan_predecessor() returns, in the same cases, and
 *    QORSHUDAN_NO_FULL_LABEL    the length of the apex plus 64 is above the limit
 */

QORSHUDAN_RESULT qorshudan_modified_successor(const uint8_t *apex, size_t apex_length,
                                              uint64_t limit,
                                              const uint8_t *name, size_t name_length,
                                              uint8_t *space, size_t space_length);
/*
 * Finds the modified successor of a name: of the names of the zone with exactly one label more
 * than the apex, the first after the name in the canonical order, or the apex when there is none.
 * The name itself may have any number of labels more than the apex.
 *
 * Ensures:
 *    The answer is a folded name at or under the apex and at most limit octets long.
 *    If the name has at most one label more than the apex, the modified predecessor of the answer
 *    is the name, folded.
 *
 * Returns:
 *    What qorshudan_modified_predecessor() returns, in the same cases.
 */

QORSHUDAN_RESULT qorshudan_predecessor_in(uint64_t alphabet,
                                          const uint8_t *apex, size_t apex_length,
                                          uint64_t limit,
                                          const uint8_t *name, size_t name_length,
                                          uint8_t *space, size_t space_length);
/*
 * Finds the absolute predecessor of a name, as qorshudan_predecessor() does, among the names of
 * the zone whose labels above the apex keep to the alphabet. In the full one it is that function.
 *
 * Ensures:
 *    The answer is a folded name at or under the apex and at most limit octets long, and its
 *    labels above the apex keep to the alphabet.
 *
 * Returns:
 *    What qorshudan_predecessor() returns, in the same cases, and
 *    QORSHUDAN_NOT_IN_ALPHABET  a label above the apex has another octet; letters may be in
 *                               either case
 */

QORSHUDAN_RESULT qorshudan_successor_in(uint64_t alphabet,
                                        const uint8_t *apex, size_t apex_length,
                                        uint64_t limit,
                                        const uint8_t *name, size_t name_length,
                                        uint8_t *space, size_t space_length);
/*
 * Finds the absolute successor of a name, as qorshudan_successor() does, among the names of the
 * zone whose labels above the apex keep to the alphabet. In the full one it is that function.
 *
 * Ensures:
 *    The answer is as that of qorshudan_predecessor_in(), whose answer for it is the name, folded.
 *
 * Returns:
 *    What qorshudan_predecessor_in() returns, in the same cases.
 */

QORSHUDAN_RESULT qorshudan_modified_predecessor_in(uint64_t alphabet, uint64_t depth,
                                                   const uint8_t *apex, size_t apex_length,
                                                   uint64_t limit,
                                                   const uint8_t *name, size_t name_length,
                                                   uint8_t *space, size_t space_length);
/*
 * Finds the modified predecessor of a name among the apex and the names of the zone with at most
 * depth labels more that keep to the alphabet: the last before the name in the canonical order.
 * Before the apex comes the last of them all. The name itself may have any number of labels more
 * than the apex. In the full alphabet and at depth 1 it is qorshudan_modified_predecessor().
 *
 * Ensures:
 *    The answer is as that of qorshudan_predecessor_in(). If the name has at most depth labels
 *    more than the apex, the modified successor of the answer, in this alphabet and at this depth,
 *    is the name, folded.
 *
 * Returns:
 *    What qorshudan_predecessor() returns, in the same cases, and
 *    QORSHUDAN_NO_FULL_LABEL    the depth is not 1 to 3, or the length of the apex plus 64 times
 *                               the depth is above the limit
 *    QORSHUDAN_NOT_IN_ALPHABET  a label above the apex has another octet
 */

QORSHUDAN_RESULT qorshudan_modified_successor_in(uint64_t alphabet, uint64_t depth,
                                                 const uint8_t *apex, size_t apex_length,
                                                 uint64_t limit,
                                                 const uint8_t *name, size_t name_length,
                                                 uint8_t *space, size_t space_length);
/*
 * Finds the modified successor of a name among the apex and the names of the zone with at most
 * depth labels more that keep to the alphabet: the first after the name in the canonical order, or
 * the apex when there is none. The name itself may have any number of labels more than the apex.
 * In the full alphabet and at depth 1 it is qorshudan_modified_successor().
 *
 * Ensures:
 *    The answer is as that of qorshudan_predecessor_in(). If the name has at most depth labels
 *    more than the apex, the modified predecessor of the answer, in this alphabet and at this
 *    depth, is the name, folded.
 *
 * Returns:
 *    What qorshudan_modified_predecessor_in() returns, in the same cases.
 */

QORSHUDAN_RESULT qorshudan_hash_after(const uint8_t *hash, size_t hash_length,
                                      uint8_t *space, size_t space_length);
/*
 * Finds the hash after a hash on the ring: one more as a number. After the greatest comes 0.
 *
 * Ensures:
 *    The hash before the answer is the hash.
 *    Of all hashes only the hash itself lies between the one before it and the one after it
 *    (qorshudan_hash_between()), so that a record with these two ends denies nothing else.
 *
 * Returns:
 *    QORSHUDAN_ANSWERED         the hash after is in the space; the value is 20
 *    QORSHUDAN_NOT_A_HASH       hash_length is not 20
 *    QORSHUDAN_NO_ROOM          the space has less than 20 octets
 */

QORSHUDAN_RESULT qorshudan_hash_before(const uint8_t *hash, size_t hash_length,
                                       uint8_t *space, size_t space_length);
/*
 * Finds the hash before a hash on the ring: one less as a number. Before 0 comes the greatest.
 *
 * Ensures:
 *    The hash after the answer is the hash.
 *
 * Returns:
 *    What qorshudan_hash_after() returns, in the same cases.
 */

QORSHUDAN_RESULT qorshudan_write_hash_label(const uint8_t *hash, size_t hash_length,
                                            uint8_t *space, size_t space_length);
/*
 * Writes the owner label of a hash: 32 characters, 0 to 9 and a to v, without padding and without
 * a length octet.
 *
 * Ensures:
 *    Labels sort, by memcmp(), as their hashes do.
 *    qorshudan_read_hash_label() of the answer is the hash.
 *
 * Returns:
 *    QORSHUDAN_ANSWERED         the label is in the space; the value is 32
 *    QORSHUDAN_NOT_A_HASH       hash_length is not 20
 *    QORSHUDAN_NO_ROOM          the space has less than 32 octets
 */

QORSHUDAN_RESULT qorshudan_read_hash_label(const uint8_t *label, size_t label_length,
                                           uint8_t *space, size_t space_length);
/*
 * Reads the owner label of a hash, in either letter case, which may change within the label, and
 * writes the hash.
 *
 * Ensures:
 *    Exactly labels of 32 characters, each one of 0 to 9, a to v and A to V, are answered. The
 *    label that qorshudan_write_hash_label() writes for the answer is this one in lower case.
 *
 * Returns:
 *    QORSHUDAN_ANSWERED         the hash is in the space; the value is 20
 *    QORSHUDAN_NOT_A_HASH       it is no hash's label, however short the space
 *    QORSHUDAN_NO_ROOM          the space has less than 20 octets
 */

QORSHUDAN_RESULT qorshudan_hash_between(const uint8_t *first, size_t first_length,
                                        const uint8_t *hash, size_t hash_length,
                                        const uint8_t *second, size_t second_length);
/*
 * Tells whether a hash lies strictly between two others on the ring, going up from the first. If
 * the two are equal, every other hash lies between.
 *
 * Returns:
 *    QORSHUDAN_ANSWERED         the value is 1 if the hash lies between, else 0
 *    QORSHUDAN_NOT_A_HASH       one of the three has not 20 octets
 */

QORSHUDAN_RESULT qorshudan_closest_encloser(const uint8_t *query, size_t query_length,
                                            const uint8_t *owner, size_t owner_length,
                                            const uint8_t *next, size_t next_length);
/*
 * Finds the closest encloser of a query that does not exist, from the owner and the next name of
 * the gap that it lies in: the longest ancestor that the query shares with either, each name
 * counting as its own ancestor. It is the end of the name that has it, the owner's if both do, and
 * so in that name's own spelling.
 *
 *              example.com.                 an ancestor of all three
 *             /            \
 *          bar              Shop            the closest encloser, a part of next
 *         owner          /   |    \
 *                       *    a     z        *.Shop.example.com. is the wildcard above it
 *                          query  next
 *
 *    in the canonical order:   bar.example.com. < a.shop.example.com. < z.Shop.example.com.
 *                              owner              query                 next
 *
 * All three must be well formed, and the query in the gap: after the owner in the canonical order,
 * and before the next name. In the last gap, where the next name is not after the owner, both the
 * owner and the query lie at or under the next name instead.
 *
 * Ensures:
 *    The answer is an ancestor of the query or the query itself, letter case aside, and the same
 *    of the name that it is a part of; nothing longer is shared with either.
 *    With the conditions met it has an octet at least, since the root is an ancestor of every
 *    name. Otherwise, and only then, it has none.
 *    It is the query, as the next name spells it, if the next name lies under the query (an empty
 *    non-terminal), and the owner if the query lies under it and the next name does not.
 *
 * Returns:
 *    QORSHUDAN_ANSWERED         always; the value is the number of octets of the encloser, plus
 *                               256 where they are the end of the next name and not of the owner.
 *                               qorshudan_encloser() tells where they are
 */

QORSHUDAN_RESULT qorshudan_wildcard(const uint8_t *encloser, size_t encloser_length,
                                    uint8_t *space, size_t space_length);
/*
 * Writes the wildcard name of an encloser: the label * and then the encloser, spelled as it is.
 *
 * Returns:
 *    QORSHUDAN_ANSWERED         the wildcard name is in the space; the value is its length, which
 *                               is encloser_length plus 2
 *    QORSHUDAN_BAD_NAME         the encloser, with reason and place
 *    QORSHUDAN_NAME_TOO_LONG    the wildcard name would be longer than 255 octets
 *    QORSHUDAN_NO_ROOM          the space is shorter than the wildcard name
 */

QORSHUDAN_RESULT qorshudan_subtree_successor(uint64_t alphabet,
                                             const uint8_t *apex, size_t apex_length,
                                             uint64_t limit,
                                             const uint8_t *name, size_t name_length,
                                             uint8_t *space, size_t space_length);
/*
 * Finds the subtree successor of a name: of all names of the zone whose labels above the apex keep
 * to the alphabet, the first that is after the name and not under it. Where there is none, and for
 * the apex, it is the apex.
 *
 * The gap that denies a missing name and all names under it goes from the name's predecessor to
 * its subtree successor. So neither end lies under the name.
 *
 * Ensures:
 *    The answer is a folded name at or under the apex and at most limit octets long.
 *    qorshudan_covers() of these two ends and any name of the zone is 1 exactly for the names at or
 *    under this one, unless it is the apex.
 *
 * Returns:
 *    What qorshudan_predecessor_in() returns, in the same cases.
 */

QORSHUDAN_RESULT qorshudan_next_closer(const uint8_t *encloser, size_t encloser_length,
                                       const uint8_t *query, size_t query_length);
/*
 * Finds the next closer name of a query: its ancestor, or the query itself, with one label more
 * than the encloser. It is the end of the query, in the query's own spelling. Of a missing query
 * and its closest encloser it is what the denial is about: nothing at or under it exists.
 *
 * Ensures:
 *    It has an octet at least if both names are well formed and the encloser is an ancestor of the
 *    query and not the query itself, letter case aside. Otherwise, and only then, it has none.
 *
 * Returns:
 *    QORSHUDAN_ANSWERED         always; the value is the number of octets at the end of the query
 */

QORSHUDAN_RESULT qorshudan_covers(const uint8_t *owner, size_t owner_length,
                                  const uint8_t *next, size_t next_length,
                                  const uint8_t *name, size_t name_length);
/*
 * Tells whether an NSEC record covers a name, as a resolver reads it: all three are well formed,
 * and the name lies strictly between the owner and the next name in the canonical order. Where the
 * next name is not after the owner, as in the last record of a zone, the name lies after the owner
 * or before the next name.
 *
 * Returns:
 *    QORSHUDAN_ANSWERED         always; the value is 1 if the name is covered, else 0
 */

QORSHUDAN_RESULT qorshudan_denial(const uint8_t *apex, size_t apex_length,
                                  uint64_t limit,
                                  const uint8_t *encloser, size_t encloser_length,
                                  const uint8_t *query, size_t query_length,
                                  uint8_t *space, size_t space_length);
/*
 * Makes the gaps that deny a query (NXDOMAIN): its next closer name does not exist, nor does the
 * wildcard right above its closest encloser, nor any name under these two. Writes the names of one
 * gap or of two back to back: the owner of the first NSEC record, its next name, then those of the
 * second. qorshudan_denial_length() tells how long each is.
 *
 *        uint8_t space[QORSHUDAN_DENIAL_MAX];
 *        const uint64_t made = qorshudan_denial(apex, apex_length, 255, encloser, encloser_length,
 *                                               query, query_length, space, sizeof space);
 *        const uint8_t *name = space;
 *        for (int i = 0; qorshudan_number(made) == QORSHUDAN_ANSWERED && i < 4; i++) {
 *            ... qorshudan_denial_length(made, i) octets at name; owner, next, owner, next ...
 *            name += qorshudan_denial_length(made, i);
 *        }
 *
 * It is one gap where the wildcard would pass the limit, where it is the next closer name, and where
 * the two gaps touch: records that touch contradict each other, and validators refuse them.
 *
 * That the encloser is the closest one, and that the wildcard does not exist, is the caller's to
 * know. An owner that exists must carry its own types, and one that does not becomes askable.
 *
 * Ensures:
 *    The names are folded names of the zone, none at or under the next closer name or the wildcard.
 *    Of the names of the zone, qorshudan_covers() is 1 for one of the gaps exactly for those at or
 *    under the one or the other.
 *
 * Returns:
 *    QORSHUDAN_ANSWERED         the names are in the space; the value is their lengths, the first
 *                               plus 2^8 times the second plus 2^16 times the third plus 2^24 times
 *                               the fourth, 0 for the last two where there is one gap
 *    1 to 6                     as qorshudan_predecessor() for apex, limit and query, in the same
 *                               cases
 *    QORSHUDAN_NOT_AN_ENCLOSER  the encloser is not well formed, no ancestor of the query, the query
 *                               itself, or not at or under the apex
 *    QORSHUDAN_NO_ROOM          the space is shorter than the names together; QORSHUDAN_DENIAL_MAX
 *                               octets are always enough
 */

QORSHUDAN_RESULT qorshudan_read_types(const uint8_t *bitmap, size_t bitmap_length,
                                      uint16_t *types, size_t types_count);
/*
 * Reads a type bitmap, and writes the list of its types, which strictly rises.
 *
 * Ensures:
 *    Exactly the bitmaps of sets are answered. qorshudan_write_types() of the answer is the bitmap.
 *
 * Returns:
 *    QORSHUDAN_ANSWERED         the list is in types; the value is the number of types
 *    QORSHUDAN_NOT_A_SET        it is no bitmap, however few places there are; with its place
 *    QORSHUDAN_NO_ROOM          types has fewer places than the bitmap has types
 */

QORSHUDAN_RESULT qorshudan_write_types(const uint16_t *types, size_t types_count,
                                       uint8_t *space, size_t space_length);
/*
 * Writes the bitmap of a set of types.
 *
 * Ensures:
 *    The bitmap is at most QORSHUDAN_BITMAP_MAX octets long.
 *    qorshudan_read_types() of the answer is the list.
 *
 * Returns:
 *    QORSHUDAN_ANSWERED         the bitmap is in the space; the value is its length
 *    QORSHUDAN_NOT_A_SET        the list does not strictly rise; the value is the first index at
 *                               which it does not
 *    QORSHUDAN_NO_ROOM          the space is shorter than the bitmap
 */

QORSHUDAN_RESULT qorshudan_has_type(const uint8_t *bitmap, size_t bitmap_length, uint16_t type);
/*
 * Tells whether a bitmap has a type.
 *
 * Returns:
 *    QORSHUDAN_ANSWERED         the value is 1 if the type is there, else 0
 *    QORSHUDAN_NOT_A_SET        it is no bitmap, wherever the type would be; with its place
 */

QORSHUDAN_RESULT qorshudan_count_types(const uint8_t *bitmap, size_t bitmap_length);
/*
 * Tells how many types a bitmap has.
 *
 * Returns:
 *    QORSHUDAN_ANSWERED         the value is the number of types
 *    QORSHUDAN_NOT_A_SET        it is no bitmap; with its place
 */

QORSHUDAN_RESULT qorshudan_smallest_type(const uint8_t *bitmap, size_t bitmap_length);
/*
 * Tells the smallest type of a bitmap, if it has any.
 *
 * Returns:
 *    QORSHUDAN_ANSWERED         the value is 1 plus the type, or 0 if there is none
 *    QORSHUDAN_NOT_A_SET        it is no bitmap; with its place
 */

QORSHUDAN_RESULT qorshudan_largest_type(const uint8_t *bitmap, size_t bitmap_length);
/*
 * Tells the largest type of a bitmap, if it has any.
 *
 * Returns:
 *    What qorshudan_smallest_type() returns, in the same cases.
 */

QORSHUDAN_RESULT qorshudan_check_owners(const uint8_t *apex, size_t apex_length, uint64_t limit,
                                        const uint8_t *names, size_t names_length,
                                        const uint32_t *starts, size_t starts_count);
/*
 * Checks that a list has the owners of a zone: first the folded apex, and then folded names of the
 * zone, each after the one before it in the canonical order.
 *
 *    example.com., a.example.com. and www.example.com. as a list: sorted by qorshudan_order() or by
 *    their sorting keys, folded, and then laid out one behind the other
 *
 *        names    7 example 3 com 0 | 1 a 7 example 3 com 0 | 3 www 7 example 3 com 0
 *        starts   0                   13                      28
 *
 *        static uint8_t names[QORSHUDAN_OWNER_OCTETS_MAX];
 *        static uint32_t starts[QORSHUDAN_OWNERS_MAX];
 *        size_t length = 0, count = 0;
 *        for (each owner, in the canonical order) {
 *            starts[count++] = (uint32_t)length;
 *            length += qorshudan_value(qorshudan_fold(owner, owner_length, names + length,
 *                                                     sizeof names - length));
 *        }
 *
 * Ensures:
 *    Exactly such lists are answered, so that each set of owners has one list.
 *
 * Returns:
 *    QORSHUDAN_ANSWERED         the value is the number of owners
 *    QORSHUDAN_BAD_LIMIT        the limit is not 1 to 255
 *    QORSHUDAN_BAD_APEX         with reason and place
 *    QORSHUDAN_APEX_TOO_LONG    the limit leaves no room for a name under the apex: the length of
 *                               the apex plus 2 is above it
 *    QORSHUDAN_NOT_A_LIST       the value is the index of the first owner that breaks the list
 *                               against those before it; 0 for no owner, a first start above 0 or
 *                               too large a list. An owner whose end is before its start or beyond
 *                               the names breaks it
 */

QORSHUDAN_RESULT qorshudan_find_owner(const uint8_t *names, size_t names_length,
                                      const uint32_t *starts, size_t starts_count,
                                      const uint8_t *query, size_t query_length);
/*
 * Finds the last owner of a list that is not after a query, by halving: of the stretch of indexes
 * that is left, from its first up to its end, which is excluded, the owner at half the sum of the
 * two is looked at, rounded down. It goes on above that one if that owner is not after the query,
 * else below it. Letter case does not count.
 *
 * Ensures:
 *    At most 15 owners are looked at.
 *    In a list that qorshudan_check_owners() answers, and for a query of its zone, the owner and
 *    the next one, after the last the first, are the two ends of the gap that the query lies in
 *    (qorshudan_closest_encloser() takes them), or the owner is the query, letter case aside.
 *    In any other list the answer is that of this halving.
 *
 * Returns:
 *    QORSHUDAN_ANSWERED         the value is the number of owners looked at, plus 2^8 times 1 plus
 *                               the index of the owner, or plus 0 if none was found
 *    QORSHUDAN_BAD_NAME         the query, with reason and place
 *    QORSHUDAN_NOT_A_LIST       the list is too large, and the value is 0; or an owner that is
 *                               looked at is not one well formed name, and the value is its index
 */

/* The number of a result: one of enum qorshudan_outcome. A later library may have more of them;
   all but QORSHUDAN_ANSWERED are refusals. */
static inline int qorshudan_number(uint64_t result)
{
    return result & 0xff;
}

/* The reason of a result with number 2, 4 or 11: one of enum qorshudan_fault. Otherwise 0. */
static inline int qorshudan_reason(uint64_t result)
{
    return result >> 8 & 0xff;
}

/* The value of a result. Of an answer, the number of octets written, or of a check the length of
   the name, or 1 or 0 for whether a hash lies between two others or a name is covered, or what
   qorshudan_closest_encloser() or qorshudan_next_closer() says; of a denial, the lengths of its
   names (qorshudan_denial_length() has each); of a bitmap, the number of types, 1 or 0 for whether a
   type is there, or 1 plus a type, and 0 for none; the number of owners of a list, or what
   qorshudan_find_owner() says; of a refusal with number 2, 4, 10, 11, 14, 15 or 16, the place or the
   index; of any other refusal, 0. */
static inline size_t qorshudan_value(uint64_t result)
{
    return result >> 16;
}

/* The number of an answered comparison, -127 to 127. Of a refusal it is -128, which says nothing
   about the order: ask qorshudan_number() first, or call qorshudan_order(). */
static inline int qorshudan_comparison(uint64_t result)
{
    const int value = result >> 16 & 0xff;
    return qorshudan_number(result) == QORSHUDAN_ANSWERED ? value - 128 : -128;
}

/* Compares two names as qorshudan_compare() does and returns the same result. An answer puts -1, 0
   or 1 into *order: the first name sorts earlier, differs in letter case at most, or sorts later.
   A refusal leaves *order as it was. */
static inline QORSHUDAN_RESULT qorshudan_order(const uint8_t *first, size_t first_length,
                                               const uint8_t *second, size_t second_length,
                                               int *order)
{
    const uint64_t result = qorshudan_compare(first, first_length, second, second_length);
    const int comparison = qorshudan_comparison(result);
    if (qorshudan_number(result) == QORSHUDAN_ANSWERED)
        *order = (comparison > 0) - (comparison < 0);
    return result;
}

/* Finds the closest encloser as qorshudan_closest_encloser() does, and returns where it begins, in
   the owner or in the next name. Its length goes to *length: 0 outside of the gap, where the end
   of the owner is returned. */
static inline const uint8_t *qorshudan_encloser(const uint8_t *query, size_t query_length,
                                                const uint8_t *owner, size_t owner_length,
                                                const uint8_t *next, size_t next_length,
                                                size_t *length)
{
    const size_t value = qorshudan_value(qorshudan_closest_encloser(
        query, query_length, owner, owner_length, next, next_length));
    *length = value & 0xff;
    return value < 256 ? owner + (owner_length - *length) : next + (next_length - *length);
}

/* The length of a name of an answered denial: of its first owner for 0, of the next name for 1, of
   the second owner for 2 and of its next name for 3. It is 0 where there is none: for 2 and 3 of one
   gap, of a refusal, and for any other index. */
static inline size_t qorshudan_denial_length(uint64_t result, int index)
{
    if (qorshudan_number(result) != QORSHUDAN_ANSWERED || index < 0 || index > 3)
        return 0;
    return result >> (16 + 8 * index) & 0xff;
}

/* The sentence for a number: why there is no answer. A static string, for any number at all. */
static inline const char *qorshudan_strerror(int number)
{
    switch (number) {
    case QORSHUDAN_ANSWERED:
        return "answered";
    case QORSHUDAN_BAD_LIMIT:
        return "the limit is not 1 to 255";
    case QORSHUDAN_BAD_APEX:
        return "the apex is not well formed";
    case QORSHUDAN_APEX_TOO_LONG:
        return "the limit leaves no room for a name under the apex: the length of the apex plus 2 is above it";
    case QORSHUDAN_BAD_NAME:
        return "the name is not well formed";
    case QORSHUDAN_NAME_TOO_LONG:
        return "the name is longer than the limit";
    case QORSHUDAN_NOT_UNDER_APEX:
        return "the name is not at or under the apex";
    case QORSHUDAN_NO_FULL_LABEL:
        return "the limit leaves less than 64 octets for each label of depth, or the depth is not 1 to 3";
    case QORSHUDAN_NO_ROOM:
        return "the answer is longer than the space";
    case QORSHUDAN_NOT_A_KEY:
        return "the octets are no name's sorting key";
    case QORSHUDAN_BAD_SECOND_NAME:
        return "the second name is not well formed";
    case QORSHUDAN_NOT_IN_ALPHABET:
        return "a label above the apex has an octet that is not in the alphabet";
    case 13:
        return "the octets are no question";
    case QORSHUDAN_NOT_A_TEXT:
        return "the octets are no name's text";
    case QORSHUDAN_NOT_A_SET:
        return "the octets are no type bitmap, or the types do not rise";
    case QORSHUDAN_NOT_A_LIST:
        return "the list is none of owners";
    case QORSHUDAN_NOT_A_HASH:
        return "the octets are no hash, or no hash's owner label";
    case QORSHUDAN_NOT_AN_ENCLOSER:
        return "the encloser is no proper ancestor of the query at or under the apex";
    default:
        return "this version has no such number";
    }
}

/* The sentence for a reason: what is wrong at the place. A static string, for any reason at all. */
static inline const char *qorshudan_reason_string(int reason)
{
    switch (reason) {
    case 0:
        return "no reason is given";
    case QORSHUDAN_REASON_CUT_SHORT:
        return "it is cut short";
    case QORSHUDAN_REASON_LEFT_OVER:
        return "octets are left over behind its end";
    case QORSHUDAN_REASON_BAD_LENGTH:
        return "a length octet is above 63";
    case QORSHUDAN_REASON_TOO_LONG:
        return "a label makes it longer than 255 octets";
    default:
        return "this version has no such reason";
    }
}

#undef QORSHUDAN_RESULT

#ifdef __cplusplus
}
#endif

#endif /* QORSHUDAN_H */
