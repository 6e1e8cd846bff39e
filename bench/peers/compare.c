/*
 * Times qorshudan_compare beside the comparisons of four C libraries, those of BIND 9, ldns,
 * Unbound and Knot DNS, on the pairs of names of the benchmark, which it reads from standard input:
 *
 *     cargo run --release --offline -p bench --bin pairs >target/pairs
 *     bench/peers/build && target/peers <target/pairs
 *
 * bench/peers/build says what it needs. No other part of the repository needs it, and neither does
 * the gate. Every answer of all of them is compared first; where Knot DNS gives another, the pairs
 * are counted and told of. With two words it makes one way's calls on one class alone, for counting
 * instructions:
 *
 *     valgrind --tool=callgrind --callgrind-out-file=/dev/null --toggle-collect=measured \
 *         target/peers CLASS WAY <target/pairs
 *
 * Each library has a way that checks nothing, on what it wants to have of a name beforehand, and
 * one that takes any octets, with the library's own check of them:
 *
 *     BIND     names whose labels have been found; found from octets that are a name
 *              (dns_name_fromregion); read from any octets (dns_name_fromwire)
 *     ldns     octets that are a name; read from any octets (ldns_wire2dname), which takes memory
 *     Unbound  octets that are a name; any octets (dname_valid)
 *     Knot     octets that are a name in lower case; any octets (knot_dname_wire_check), copied and
 *              folded
 */
#define _POSIX_C_SOURCE 199309L
#define HAVE_STDATOMIC_H 1 /* asked by BIND's headers */
#include "qorshudan.h"

#include <dns/compress.h>
#include <dns/fixedname.h>
#include <dns/name.h>
#include <isc/buffer.h>
#include <isc/region.h>
#include <ldns/ldns.h>
#include <libknot/dname.h>
#include <stdio.h>
#include <stdlib.h>
#include <string.h>
#include <time.h>

/* Of Unbound's util/data/dname.h, which no package has: the library exports none of them. */
int dname_canon_lab_cmp(uint8_t *d1, int labs1, uint8_t *d2, int labs2, int *mlabs);
int dname_count_labels(uint8_t *dname);
size_t dname_valid(uint8_t *dname, size_t maxlen);

enum { MOST_PAIRS = 2000, ROUNDS = 35 };

/* A name, with what the libraries have of it beside it. */
struct name {
    uint8_t *octets;
    size_t length;
    dns_name_t of_bind;
    dns_offsets_t starts;
    ldns_rdf *of_ldns;
    uint8_t folded[QORSHUDAN_NAME_MAX];
};

static struct pair {
    struct name first, second;
} pairs[MOST_PAIRS];
static size_t count;

/* The octets of all names, back to back, and one that may be read behind them. */
static uint8_t octets[2 * MOST_PAIRS * QORSHUDAN_NAME_MAX + 1];
static size_t used_octets;

static void fail(const char *what)
{
    fprintf(stderr, "peers: %s\n", what);
    exit(1);
}

static int sign(int number)
{
    return (number > 0) - (number < 0);
}

/* ---- ours */

static int ours(struct pair *p)
{
    return qorshudan_comparison(qorshudan_compare(p->first.octets, p->first.length,
                                                  p->second.octets, p->second.length));
}

/* Our check of both names, alone. */
static int our_checks(struct pair *p)
{
    return (int)(qorshudan_check(p->first.octets, p->first.length)
                 + qorshudan_check(p->second.octets, p->second.length));
}

/* ---- BIND: 1 plus the number of shared labels, as it counts the root */

static int by_bind(const dns_name_t *first, const dns_name_t *second)
{
    int order;
    unsigned int labels;
    dns_name_fullcompare(first, second, &order, &labels);
    return sign(order) * (int)labels;
}

static int bind_found(struct pair *p)
{
    return by_bind(&p->first.of_bind, &p->second.of_bind);
}

static void find_labels(struct name *name)
{
    isc_region_t region = { name->octets, (unsigned int)name->length };
    dns_name_init(&name->of_bind, name->starts);
    dns_name_fromregion(&name->of_bind, &region);
}

static int bind_from_octets(struct pair *p)
{
    find_labels(&p->first);
    find_labels(&p->second);
    return bind_found(p);
}

static dns_name_t *read_by_bind(dns_fixedname_t *space, const struct name *name)
{
    dns_name_t *const read = dns_fixedname_initname(space);
    dns_decompress_t no_pointers;
    isc_buffer_t source;
    isc_buffer_init(&source, name->octets, (unsigned int)name->length);
    isc_buffer_add(&source, (unsigned int)name->length);
    isc_buffer_setactive(&source, (unsigned int)name->length);
    dns_decompress_init(&no_pointers, -1, DNS_DECOMPRESS_NONE);
    const isc_result_t result = dns_name_fromwire(read, &source, &no_pointers, 0, NULL);
    dns_decompress_invalidate(&no_pointers);
    if (result != ISC_R_SUCCESS || isc_buffer_remaininglength(&source) != 0)
        fail("BIND takes a name for none");
    return read;
}

static int bind_checked(struct pair *p)
{
    dns_fixedname_t first, second;
    return by_bind(read_by_bind(&first, &p->first), read_by_bind(&second, &p->second));
}

/* ---- ldns: the sign alone */

static int ldns_unchecked(struct pair *p)
{
    return ldns_dname_compare(p->first.of_ldns, p->second.of_ldns);
}

static ldns_rdf *read_by_ldns(const struct name *name)
{
    ldns_rdf *read;
    size_t place = 0;
    if (ldns_wire2dname(&read, name->octets, name->length, &place) != LDNS_STATUS_OK
        || place != name->length)
        fail("ldns takes a name for none");
    return read;
}

static int ldns_checked(struct pair *p)
{
    ldns_rdf *const first = read_by_ldns(&p->first), *const second = read_by_ldns(&p->second);
    const int order = ldns_dname_compare(first, second);
    ldns_rdf_deep_free(first);
    ldns_rdf_deep_free(second);
    return order;
}

/* ---- Unbound: as BIND counts; this is dname_canonical_compare with the labels told */

static int unbound_unchecked(struct pair *p)
{
    int labels;
    const int order
        = dname_canon_lab_cmp(p->first.octets, dname_count_labels(p->first.octets),
                              p->second.octets, dname_count_labels(p->second.octets), &labels);
    return order * labels;
}

static int unbound_checked(struct pair *p)
{
    if (dname_valid(p->first.octets, p->first.length) != p->first.length
        || dname_valid(p->second.octets, p->second.length) != p->second.length)
        fail("Unbound takes a name for none");
    return unbound_unchecked(p);
}

/* ---- Knot: the sign alone, of names in lower case */

static int knot_folded(struct pair *p)
{
    return sign(knot_dname_cmp(p->first.folded, p->second.folded));
}

static void read_by_knot(uint8_t *folded, const struct name *name)
{
    if (knot_dname_wire_check(name->octets, name->octets + name->length, NULL)
        != (int)name->length)
        fail("Knot takes a name for none");
    memcpy(folded, name->octets, name->length);
    knot_dname_to_lower(folded);
}

static int knot_checked(struct pair *p)
{
    uint8_t first[QORSHUDAN_NAME_MAX], second[QORSHUDAN_NAME_MAX];
    read_by_knot(first, &p->first);
    read_by_knot(second, &p->second);
    return sign(knot_dname_cmp(first, second));
}

/* ---- all ways */

enum answers { NUMBERS, SIGNS, OTHERS_COUNTED, NONE };

static const struct way {
    const char *name;
    int (*compare)(struct pair *);
    enum answers answers;
} ways[] = {
    { "ours", ours, NUMBERS },
    { "our-checks", our_checks, NONE },
    { "BIND", bind_found, NUMBERS },
    { "BIND-from-octets", bind_from_octets, NUMBERS },
    { "BIND-checked", bind_checked, NUMBERS },
    { "ldns", ldns_unchecked, SIGNS },
    { "ldns-checked", ldns_checked, SIGNS },
    { "Unbound", unbound_unchecked, NUMBERS },
    { "Unbound-checked", unbound_checked, NUMBERS },
    { "Knot", knot_folded, OTHERS_COUNTED },
    { "Knot-checked", knot_checked, OTHERS_COUNTED },
};
enum { WAYS = sizeof ways / sizeof ways[0] };

static size_t others[WAYS];

static void compare_answers(void)
{
    for (size_t way = 0; way < WAYS; way++) {
        others[way] = 0;
        for (size_t i = 0; i < count && ways[way].answers != NONE; i++) {
            const int number = ours(&pairs[i]), found = ways[way].compare(&pairs[i]);
            if (found == (ways[way].answers == NUMBERS ? number : sign(number)))
                continue;
            if (ways[way].answers != OTHERS_COUNTED)
                fail(ways[way].name);
            others[way]++;
        }
    }
}

/* ---- names */

static uint8_t digit(char character)
{
    static const char digits[] = "0123456789abcdef";
    const char *const found = memchr(digits, character, 16);
    if (found == NULL)
        fail("a name that is not in hex");
    return (uint8_t)(found - digits);
}

static void read_name(struct name *name, uint8_t *start, const char *hex)
{
    name->octets = start;
    name->length = strlen(hex) / 2;
    for (size_t i = 0; i < name->length; i++)
        name->octets[i] = (uint8_t)(16 * digit(hex[2 * i]) + digit(hex[2 * i + 1]));
}

static void add_pair(const char *first, const char *second)
{
    struct pair *const pair = &pairs[count];
    if (count == MOST_PAIRS || strlen(first) > 2 * QORSHUDAN_NAME_MAX
        || strlen(second) > 2 * QORSHUDAN_NAME_MAX)
        return;
    read_name(&pair->first, octets + used_octets, first);
    read_name(&pair->second, octets + used_octets + pair->first.length, second);
    if (qorshudan_number(qorshudan_compare(pair->first.octets, pair->first.length,
                                           pair->second.octets, pair->second.length))
        != QORSHUDAN_ANSWERED)
        return;
    struct name *const names[] = { &pair->first, &pair->second };
    for (size_t i = 0; i < 2; i++) {
        used_octets += names[i]->length;
        find_labels(names[i]);
        read_by_knot(names[i]->folded, names[i]);
        names[i]->of_ldns = ldns_rdf_new_frm_data(LDNS_RDF_TYPE_DNAME, names[i]->length,
                                                  names[i]->octets);
    }
    count++;
}

static void forget_pairs(void)
{
    for (size_t i = 0; i < count; i++) {
        ldns_rdf_deep_free(pairs[i].first.of_ldns);
        ldns_rdf_deep_free(pairs[i].second.of_ldns);
    }
    count = used_octets = 0;
}

/* ---- times and calls to count */

static double now(void)
{
    struct timespec time;
    clock_gettime(CLOCK_MONOTONIC, &time);
    return (double)time.tv_sec * 1e9 + (double)time.tv_nsec;
}

static volatile int used;

/* All that is counted: one call for each pair. */
__attribute__((noinline)) void measured(int (*compare)(struct pair *));
void measured(int (*compare)(struct pair *))
{
    for (size_t i = 0; i < count; i++)
        used += compare(&pairs[i]);
}

/* Nanoseconds for a comparison, over all pairs, after a first pass without the clock. */
static double time_of(int (*compare)(struct pair *))
{
    measured(compare);
    const double start = now();
    measured(compare);
    return (now() - start) / (double)count;
}

static void print_times(const char *class)
{
    double best[WAYS];
    for (int round = 0; round < ROUNDS; round++)
        for (size_t way = 0; way < WAYS; way++) {
            const double time = time_of(ways[way].compare);
            if (round == 0 || time < best[way])
                best[way] = time;
        }
    printf("| %-11s |", class);
    for (size_t way = 0; way < WAYS; way++)
        printf(" %.0f |", best[way]);
    putchar('\n');
    for (size_t way = 0; way < WAYS; way++)
        if (others[way] > 0)
            fprintf(stderr, "%s: %s sorts %zu of %zu pairs in another way\n", class,
                    ways[way].name, others[way], count);
}

/* The pairs of one class, in which all ways are compared, and timed unless one is asked for. */
static void finish(const char *class, const char *wanted, const char *way)
{
    if (count > 0 && wanted == NULL) {
        compare_answers();
        print_times(class);
    } else if (count > 0 && strcmp(class, wanted) == 0) {
        for (size_t i = 0; i < WAYS; i++)
            if (strcmp(ways[i].name, way) == 0) {
                measured(ways[i].compare);
                printf("%zu calls\n", count);
            }
    }
    forget_pairs();
}

int main(int words, char **word)
{
    char class[32] = "", next[32], first[1024], second[1024];
    const char *const wanted = words == 3 ? word[1] : NULL, *const way = words == 3 ? word[2] : NULL;
    if (wanted == NULL) {
        printf("| class       |");
        for (size_t i = 0; i < WAYS; i++)
            printf(" %s |", ways[i].name);
        printf("\n|-------------|");
        for (size_t i = 0; i < WAYS; i++)
            printf("---:|");
        putchar('\n');
    }
    while (scanf("%31s %1023s %1023s", next, first, second) == 3) {
        if (strcmp(class, next) != 0)
            finish(class, wanted, way);
        strcpy(class, next);
        add_pair(first, second);
    }
    finish(class, wanted, way);
    return 0;
}
