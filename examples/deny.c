/*
 * Shows the gaps that deny a name, the names next to it in a zone, and its sorting key.
 *
 *     deny APEX NAME [LIMIT]
 *
 * A signer that makes its records on the spot denies a missing name with one NSEC record or two:
 * qorshudan_denial() has their owners and their next names. Here the closest encloser is the apex,
 * as in a zone where nothing else exists; a server hands in the one that it found. Before it signs,
 * it still has to look whether an owner exists (RFC 4471 section 4.1), since the record then lists
 * its types.
 *
 * The name's own successor is no end of these: \000.foo lies under foo, so a record that ends there
 * says that foo is an empty non-terminal, and goes with NODATA. The modified neighbours (RFC 4471
 * section 3.2) are the nearest among the apex and the names with one label more.
 *
 * cc -I include examples/deny.c -L target/staticlib -lqorshudan -o deny
 */
#include "qorshudan.h"

#include <stdio.h>
#include <string.h>

static const char usage[] =
    "usage: deny APEX NAME [LIMIT]\n"
    "Shows the gaps that deny NAME and the wildcard of APEX, the owner and the next name of each, the\n"
    "names next to NAME in the zone, in canonical order, and its sorting key.\n"
    "Names are written as in zone files, with their final dot: \\. is a dot in a label, \\200 is\n"
    "octet 200. LIMIT is the most octets that a name of the zone may have; without it, 255.\n"
    "    deny example.com. foo.example.com.\n"
    "The exit status is 0 when all is answered, 1 when something is refused, and 2 when the\n"
    "arguments are not understood.\n";

enum { ANSWERED = 0, REFUSED = 1, NOT_UNDERSTOOD = 2 };

static int status = ANSWERED;

/* A name in wire format. */
struct name {
    uint8_t octets[QORSHUDAN_NAME_MAX];
    size_t length;
};

/* Whether a text that is no name's would be one with a dot behind it. */
static int lacks_dot(const char *text, size_t length)
{
    uint8_t dotted[QORSHUDAN_TEXT_MAX], name[QORSHUDAN_NAME_MAX];
    if (length >= sizeof dotted)
        return 0;
    memcpy(dotted, text, length);
    dotted[length] = '.';
    const uint64_t result = qorshudan_read_text(dotted, length + 1, name, sizeof name);
    return qorshudan_number(result) == QORSHUDAN_ANSWERED;
}

/* Reads a name as people type it. If it is none, says so and returns 0. */
static int read_name(const char *what, const char *text, struct name *name)
{
    const size_t length = strlen(text);
    const uint64_t result = qorshudan_read_text((const uint8_t *)text, length, name->octets,
                                                sizeof name->octets);
    if (qorshudan_number(result) == QORSHUDAN_ANSWERED) {
        name->length = qorshudan_value(result);
        return 1;
    }
    printf("%s: refused %d at %zu: %s\n", what, qorshudan_number(result), qorshudan_value(result),
           lacks_dot(text, length) ? "the name must end with a dot"
                                   : "no name's text goes on like this");
    status = REFUSED;
    return 0;
}

/* Reads a limit in decimal digits. All above 255 are refused alike, so it stops growing there. */
static int read_limit(const char *text, uint64_t *limit)
{
    const char *digit = text;
    for (*limit = 0; *digit >= '0' && *digit <= '9'; digit++)
        if (*limit <= QORSHUDAN_NAME_MAX)
            *limit = *limit * 10 + (uint64_t)(*digit - '0');
    return digit > text && *digit == '\0';
}

/* Prints a name that was asked for as text, or why there is none. */
static void print_name(const char *what, uint64_t result, const uint8_t *name)
{
    uint8_t text[QORSHUDAN_TEXT_MAX];
    if (qorshudan_number(result) != QORSHUDAN_ANSWERED) {
        printf("%s: refused %d: %s\n", what, qorshudan_number(result),
               qorshudan_strerror(qorshudan_number(result)));
        status = REFUSED;
        return;
    }
    /* This always answers: a name that was answered is well formed, and there is room. */
    result = qorshudan_write_text(name, qorshudan_value(result), text, sizeof text);
    printf("%s: %.*s\n", what, (int)qorshudan_value(result), (const char *)text);
}

static void print_neighbours(const struct name *apex, uint64_t limit, const struct name *name)
{
    uint8_t found[QORSHUDAN_NAME_MAX];
    uint64_t result;
    result = qorshudan_predecessor(apex->octets, apex->length, limit, name->octets, name->length,
                                   found, sizeof found);
    print_name("predecessor", result, found);
    result = qorshudan_successor(apex->octets, apex->length, limit, name->octets, name->length,
                                 found, sizeof found);
    print_name("successor", result, found);
    result = qorshudan_modified_predecessor(apex->octets, apex->length, limit, name->octets,
                                            name->length, found, sizeof found);
    print_name("modified predecessor", result, found);
    result = qorshudan_modified_successor(apex->octets, apex->length, limit, name->octets,
                                          name->length, found, sizeof found);
    print_name("modified successor", result, found);
}

/* Prints the gaps that deny a name under the apex, or why there are none. */
static void print_gaps(const struct name *apex, uint64_t limit, const struct name *name)
{
    uint8_t space[QORSHUDAN_DENIAL_MAX], owner[QORSHUDAN_TEXT_MAX], next[QORSHUDAN_TEXT_MAX];
    const uint8_t *end = space;
    const uint64_t made = qorshudan_denial(apex->octets, apex->length, limit, apex->octets,
                                           apex->length, name->octets, name->length, space,
                                           sizeof space);
    if (qorshudan_number(made) != QORSHUDAN_ANSWERED)
        print_name("gap", made, space);
    for (int i = 0; qorshudan_denial_length(made, i) > 0; i += 2) {
        const uint64_t first = qorshudan_write_text(end, qorshudan_denial_length(made, i), owner,
                                                    sizeof owner);
        end += qorshudan_denial_length(made, i);
        const uint64_t second = qorshudan_write_text(end, qorshudan_denial_length(made, i + 1), next,
                                                     sizeof next);
        end += qorshudan_denial_length(made, i + 1);
        printf("gap: %.*s NSEC %.*s\n", (int)qorshudan_value(first), (const char *)owner,
               (int)qorshudan_value(second), (const char *)next);
    }
}

static void print_key(const struct name *name)
{
    uint8_t key[QORSHUDAN_KEY_MAX];
    const uint64_t result = qorshudan_write_key(name->octets, name->length, key, sizeof key);
    printf("key: ");
    for (size_t i = 0; i < qorshudan_value(result); i++)
        printf("%02x", key[i]);
    putchar('\n');
}

int main(int argc, char **argv)
{
    struct name apex, name;
    uint64_t limit = QORSHUDAN_NAME_MAX;
    if (argc == 2 && strcmp(argv[1], "--help") == 0) {
        fputs(usage, stdout);
        return ANSWERED;
    }
    if (argc < 3 || argc > 4 || (argc == 4 && !read_limit(argv[3], &limit))) {
        fputs(usage, stderr);
        return NOT_UNDERSTOOD;
    }
    const int has_apex = read_name("apex", argv[1], &apex);
    const int has_name = read_name("name", argv[2], &name);
    if (has_apex && has_name) {
        print_gaps(&apex, limit, &name);
        print_neighbours(&apex, limit, &name);
    }
    if (has_name)
        print_key(&name);
    return status;
}
