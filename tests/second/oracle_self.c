/* The oracle held against every figure that document 01 prints, in edition 1, and some of document 02. Needs no proved
 * code. */
#include <inttypes.h>
#include <math.h>
#include <stdio.h>
#include <stdlib.h>
#include <string.h>

#include "oracle_parts.h"

static unsigned held;

static void expect(int line, const char *what, uint64_t got, uint64_t wanted)
{
    held++;
    if (got != wanted) {
        printf("oracle_self.c:%d: %s is %" PRIu64 ", and document 01 says %" PRIu64 "\n", line, what, got, wanted);
        exit(1);
    }
}
#define IS(got, wanted) expect(__LINE__, #got, (got), (wanted))
#define REFUSED(call, wanted_number, wanted_place) \
    do { \
        struct answer got_ = (call); \
        expect(__LINE__, "number of " #call, got_.number, (wanted_number)); \
        expect(__LINE__, "place of " #call, got_.place, (wanted_place)); \
    } while (0)

static uint8_t out[256];

/* A printed code as bytes of value 0 to 9. */
static struct code code_of(const char *printed)
{
    struct code code = {.length = strlen(printed)};
    for (size_t i = 0; i < code.length; i++)
        code.digit[i] = (uint8_t)(printed[i] - '0');
    return code;
}

static bool is_printed(const uint8_t *digits, size_t count, const char *printed)
{
    struct code code = code_of(printed);
    return same_digits(digits, count, &code);
}

static uint64_t whole_at_1(const char *printed)
{
    struct code code = code_of(printed);
    uint8_t edges[128];
    struct answer decoded = oracle_decode_code(1, code.digit, code.length, edges, sizeof edges);
    uint64_t value = UINT64_MAX;
    IS(oracle_whole(1, code.length, edges, decoded.place, 1, &value).number, 0);
    return value;
}

/* A row of "Skeletons to hold it against": edges from the centred code, and everything from the edges. */
static void p_row(const char *centred, const char *n_tuple, uint64_t whole)
{
    struct code code = code_of(centred);
    uint8_t edges[128];
    struct answer decoded = oracle_decode_centred(1, code.digit, code.length, edges, sizeof edges);
    IS(decoded.number, 0);
    IS(decoded.place, 2 * (code.length - 1));
    struct answer answer = oracle_centred_code(1, code.length, edges, decoded.place, out, sizeof out);
    IS(is_printed(out, answer.place, centred), true);
    answer = oracle_n_tuple_code(1, code.length, edges, decoded.place, out, sizeof out);
    IS(is_printed(out, answer.place, n_tuple), true);
    IS(whole_at_1(centred), whole);
    answer = oracle_unwhole(1, code.length, whole, out, sizeof out);
    IS(answer.number, 0);
    IS(memcmp(out, edges, decoded.place), 0);
}

static void p_rows(void)
{
    p_row("0", "0", 0);
    p_row("10", "10", 4);
    p_row("200", "200", 24);
    p_row("2100", "2100", 104);
    p_row("3000", "3000", 112);
    p_row("40000", "40000", 480);
    p_row("220010", "311000", 1732);
    p_row("3110100", "3110100", 7496);
    p_row("32100100", "32100100", 30344);
}

static void adjacency(void)
{
    const uint8_t cam[] = {1, 2, 2, 3, 1, 6}, by_code[] = {1, 2, 3, 1, 5, 1};
    uint8_t edges[12];
    uint64_t value;
    IS(oracle_decode_cam(1, 7, cam, 6, edges, sizeof edges).number, 0);
    struct answer answer = oracle_centred_code(1, 7, edges, 12, out, sizeof out);
    IS(is_printed(out, answer.place, "3110100"), true);
    IS(oracle_zero_a(1, 7, edges, 12, &value).number, 0);
    IS(value, 545);
    IS(oracle_a_zero(1, 7, edges, 12, &value).number, 0);
    IS(value, 1646688);
    IS(oracle_zero_a_by_code(1, 7, edges, 12, &value).number, 0);
    IS(value, 624);
    REFUSED(oracle_cam_by_code(1, 7, edges, 12, out, sizeof out), 0, 6);
    IS(memcmp(out, by_code, 6), 0);
    REFUSED(oracle_cam(1, 7, edges, 12, out, sizeof out), 0, 6);
    IS(memcmp(out, cam, 6), 0);
    REFUSED(oracle_decode_zero_a(1, 7, 545, out, sizeof out), 0, 12);
    IS(memcmp(out, edges, 12), 0);
    REFUSED(oracle_decode_a_zero(1, 7, 1646688, out, sizeof out), 0, 12);
    IS(memcmp(out, edges, 12), 0);
}

static void fractions(void)
{
    struct code code = code_of("32100100");
    uint8_t edges[14];
    double value = 0;
    IS(oracle_decode_code(1, code.digit, 8, edges, sizeof edges).number, 0);
    IS(oracle_fraction(1, 8, edges, 14, 1, &value).number, 0);
    IS(value == 0.926025390625 && value == 30344.0 / 32768.0, true);
    REFUSED(oracle_unfraction(1, value, out, sizeof out), 0, 14);
    IS(memcmp(out, edges, 14), 0);
    REFUSED(oracle_unfraction(1, 0.5, out, sizeof out), 0, 2);
    IS(out[0] == 1 && out[1] == 2, true);
    REFUSED(oracle_unfraction(1, 0.0, out, sizeof out), 0, 0);
    REFUSED(oracle_unfraction(1, 0.25, out, sizeof out), 11, 2);
    REFUSED(oracle_unfraction(1, ldexp(1, -60), out, sizeof out), 11, 2);
    REFUSED(oracle_unfraction(1, 1.0, out, sizeof out), 4, 0);
    REFUSED(oracle_unfraction(1, -0.0, out, sizeof out), 4, 0);
    REFUSED(oracle_unfraction(1, NAN, out, sizeof out), 4, 0);
    REFUSED(oracle_unwhole(1, 3, 16, out, sizeof out), 11, 3);
}

static struct answer rooted(const char *printed)
{
    struct code code = code_of(printed);
    return oracle_check_code(1, code.digit, code.length);
}

static void codes(void)
{
    REFUSED(rooted("2010"), 13, 3);
    REFUSED(rooted("00"), 11, 2);
    REFUSED(rooted("20"), 12, 2);
    REFUSED(rooted("50"), 10, 1);
    REFUSED(rooted("140000"), 10, 2);
    REFUSED(rooted("1200"), 0, 0);
    REFUSED(rooted("020"), 11, 2);
    REFUSED(rooted("007"), 10, 3);
    struct code code = code_of("1200");
    REFUSED(oracle_decode_centred(1, code.digit, 4, out, sizeof out), 14, 0);
    code = code_of("2210010");
    REFUSED(oracle_check_code(1, code.digit, 7), 0, 0);
    REFUSED(oracle_decode_centred(1, code.digit, 7, out, sizeof out), 14, 0);
}

/* A path numbered from one end, which is physical. */
static size_t path(unsigned n, uint8_t *edges)
{
    for (unsigned i = 1; i < n; i++) {
        edges[2 * i - 2] = (uint8_t)i;
        edges[2 * i - 1] = (uint8_t)(i + 1);
    }
    return 2 * (n - 1);
}

static void limits(void)
{
    uint8_t edges[128], path_code[65];
    uint64_t value;
    double x;
    memset(path_code, 1, 65);
    path_code[63] = 0;
    REFUSED(oracle_check_code(1, path_code, 64), 0, 0);
    path_code[63] = 1, path_code[64] = 0;
    REFUSED(oracle_check_code(1, path_code, 65), 3, 0);
    REFUSED(oracle_check_code(1, path_code, 0), 3, 0);
    REFUSED(oracle_centred_code(1, 64, edges, path(64, edges), out, sizeof out), 0, 64);
    REFUSED(oracle_centred_code(1, 65, edges, path(65, edges), out, sizeof out), 3, 0);
    IS(oracle_zero_a(1, 21, edges, path(21, edges), &value).number, 0);
    IS(value, 2432902008176639999u); /* 20! - 1, the largest */
    REFUSED(oracle_decode_zero_a(1, 21, value, out, sizeof out), 0, 40);
    REFUSED(oracle_decode_zero_a(1, 21, value + 1, out, sizeof out), 4, 0);
    REFUSED(oracle_decode_zero_a(1, 22, 0, out, sizeof out), 3, 0);
    IS(oracle_zero_a(1, 22, edges, path(22, edges), &value).number, 3);
    IS(oracle_a_zero(1, 11, edges, path(11, edges), &value).number, 0);
    REFUSED(oracle_decode_a_zero(1, 11, value, out, sizeof out), 0, 20);
    IS(oracle_a_zero(1, 12, edges, path(12, edges), &value).number, 3);
    REFUSED(oracle_decode_a_zero(1, 12, value, out, sizeof out), 3, 0);
    IS(oracle_fraction(1, 27, edges, path(27, edges), 1, &x).number, 0);
    REFUSED(oracle_unfraction(1, x, out, sizeof out), 0, 52);
    IS(oracle_fraction(1, 28, edges, path(28, edges), 1, &x).number, 3);
    IS(oracle_whole(1, 32, edges, path(32, edges), 1, &value).number, 0);
    REFUSED(oracle_unwhole(1, 32, value, out, sizeof out), 0, 62);
    IS(oracle_whole(1, 33, edges, path(33, edges), 1, &value).number, 3);
    IS(oracle_zero_a(1, 1, edges, 0, &value).number, 0);
    IS(value, 0);
    IS(oracle_zero_a(1, 2, edges, path(2, edges), &value).number, 0);
    IS(value, 0);
    REFUSED(oracle_pack(1, 1, edges, 0, 1, out, sizeof out), 0, 1);
    IS(out[0], 0);
}

static struct answer line(const char *text)
{
    return oracle_read_line(1, (const uint8_t *)text, strlen(text), out, sizeof out);
}

static void lines(void)
{
    REFUSED(line("0 0\n"), 3, 0);
    REFUSED(line("08 32100100\n"), 2, 0);
    REFUSED(line("00 0\n"), 2, 0);
    REFUSED(line("100 0\n"), 2, 0);
    REFUSED(line("1 0"), 1, 0);
    REFUSED(line("1 0\n"), 0, 1);
    REFUSED(line("1 0\nwhatever"), 0, 1);
    REFUSED(line(""), 1, 0);
    REFUSED(line("\n"), 2, 0);
}

/* The sample of "The listing", the empty input and one that is too long; and the reader over the sample. */
static void listing(void)
{
    const char *text = "8 32100100\n6 220010\n6 311000\n6 2200,10\n3 20\n1 0";
    const char *wanted = "1 0 0\n2 0 0\n3 14 0\n4 2 0\n5 5 0\n6 1 0\nread 2 refused 4\n";
    const char *none = "read 0 refused 0\n", *too_long = "input too long\n";
    static uint8_t longer[65537];
    uint8_t records[64 * 8], numbers[8], listed[200];
    size_t places[8], answered, at;
    IS(oracle_list((const uint8_t *)text, strlen(text), 0, listed, sizeof listed), strlen(wanted));
    IS(memcmp(listed, wanted, strlen(wanted)), 0);
    IS(oracle_list((const uint8_t *)text, 0, 0, listed, sizeof listed), strlen(none));
    IS(memcmp(listed, none, strlen(none)), 0);
    IS(oracle_list(longer, sizeof longer, 0, listed, sizeof listed), strlen(too_long));
    IS(memcmp(listed, too_long, strlen(too_long)), 0);
    oracle_read_text(1, (const uint8_t *)text, strlen(text), records, sizeof records, numbers, 8, places, 8,
                     &answered, &at);
    IS(answered, 6);
    IS(at, strlen(text));
    IS(places[0], 8);
    IS(is_printed(records, 8, "32100100"), true);
    oracle_read_text(1, (const uint8_t *)text, 0, records, sizeof records, numbers, 8, places, 8, &answered, &at);
    IS(answered, 0);
}

/* What a lent output holds after 15, and behind a result. */
static void lent_outputs(void)
{
    struct code code = code_of("200");
    memset(out, 77, sizeof out);
    REFUSED(oracle_decode_code(1, code.digit, 3, out, 3), 15, 4);
    IS(out[0], 77);
    REFUSED(oracle_decode_code(1, code.digit, 3, out, 4), 0, 4);
    IS(memcmp(out, "\1\2\1\3\115", 5), 0);
}

static void classes_of(const char *printed, const char *wanted)
{
    struct code code = code_of(printed);
    uint8_t edges[128];
    struct answer decoded = oracle_decode_code(1, code.digit, code.length, edges, sizeof edges);
    REFUSED(oracle_equal_vertices(1, code.length, edges, decoded.place, out, sizeof out), 0, code.length);
    IS(memcmp(out, wanted, code.length), 0);
}

/* Document 02's figure first. 3110100 has no two alike; 2100, and 2300013000 with its other middle at 6, turn over;
 * 11 vertices are told by codes: the path turns about its middle, and with one end forked it does not. */
static void classes(void)
{
    classes_of("220010", "\1\2\3\3\4\5");
    classes_of("3110100", "\1\2\3\4\5\6\7");
    classes_of("2100", "\1\1\2\2");
    classes_of("40000", "\1\2\2\2\2");
    classes_of("2300013000", "\1\2\3\3\3\1\2\3\3\3");
    classes_of("21111011110", "\1\2\3\4\5\6\2\3\4\5\6");
    classes_of("21120011110", "\1\2\3\4\5\5\6\7\x08\x09\x0a");
}

/* A vertex with k leaves: its code, its edges, its line and its packed form in an edition. */
static void star(uint64_t edition, unsigned k, unsigned number_of_code, unsigned number_of_edges)
{
    struct code code = {.length = k + 1, .digit = {(uint8_t)k}};
    uint8_t edges[128], packed[4] = {0};
    char written[80];
    for (unsigned v = 2; v <= k + 1; v++) {
        edges[2 * v - 4] = 1;
        edges[2 * v - 3] = (uint8_t)v;
    }
    for (unsigned bit = 0; bit < k; bit++)
        packed[bit / 8] |= (uint8_t)(0x80 >> bit % 8);
    int length = snprintf(written, sizeof written, "%u %u%0*u\n", k + 1, k, (int)k, 0u);
    unsigned place_of_edge = number_of_edges == 9 ? limit_of(edition) + 1 : 0;
    REFUSED(oracle_check_code(edition, code.digit, code.length), number_of_code, number_of_code == 10);
    REFUSED(oracle_check_edges(edition, k + 1, edges, 2 * k, 1), number_of_edges, place_of_edge);
    REFUSED(oracle_same_skeleton(edition, k + 1, edges, 2 * k, k + 1, edges, 2 * k), number_of_edges,
            number_of_edges == 0 ? 1 : place_of_edge);
    REFUSED(oracle_unpack(edition, packed, (2 * k + 8) / 8, out, sizeof out), number_of_code,
            number_of_code == 0 ? 2 * k : number_of_code == 10);
    if (k < 10)
        REFUSED(oracle_read_line(edition, (const uint8_t *)written, (size_t)length, out, sizeof out), number_of_code,
                number_of_code == 0 ? k + 1 : number_of_code == 10);
}

/* Four neighbours and nine; what is no edition is 22, before 1 and before all else. */
static void editions(void)
{
    const uint64_t none[] = {0, 3, UINT64_MAX};
    star(1, 4, 0, 0);
    star(1, 5, 10, 9);
    star(1, 9, 10, 9);
    star(2, 5, 0, 0);
    star(2, 9, 0, 0);
    star(2, 10, 10, 9);
    REFUSED(oracle_check_code(2, (const uint8_t[]){1, 8, 0, 0, 0, 0, 0, 0, 0, 0}, 10), 0, 0);
    REFUSED(oracle_check_code(2, (const uint8_t[]){1, 9, 0, 0, 0, 0, 0, 0, 0, 0, 0}, 11), 10, 2);
    REFUSED(oracle_unpack(2, (const uint8_t[]){255, 192}, 2, out, sizeof out), 10, 1);
    REFUSED(oracle_unpack(2, (const uint8_t[]){255, 128, 0}, 3, out, sizeof out), 0, 18);
    REFUSED(oracle_unpack(2, (const uint8_t[]){255, 128}, 2, out, sizeof out), 12, 7);
    for (unsigned i = 0; i < 3; i++) {
        star(none[i], 4, 22, 22);
        star(none[i], 10, 22, 22);
        REFUSED(oracle_read_line(none[i], (const uint8_t *)"1 0", 3, out, sizeof out), 22, 0);
        REFUSED(oracle_check_code(none[i], out, 0), 22, 0);
        REFUSED(oracle_unfraction(none[i], NAN, out, 0), 22, 0);
        REFUSED(oracle_decode_a_zero(none[i], 0, 0, out, 0), 22, 0);
    }
}

static struct answer named(const char *text)
{
    uint8_t letters[64];
    return oracle_named_read_line((const uint8_t *)text, strlen(text), out, sizeof out, letters, sizeof letters);
}

/* Wish 7: the order of refusals in a named line, marks of digit and atom, counts of any length. */
static void named_lines(void)
{
    REFUSED(named("6 210110 CNCCCC 5 1 0\n"), 0, 6);
    REFUSED(line("6 210110\n"), 13, 4);
    REFUSED(named("6 211010 CCNCCC 5 1 0\n"), 14, 0);
    REFUSED(named("2 10 OC 1 0 1\n"), 0, 2);
    REFUSED(named("2 10 CO 1 0 1\n"), 14, 0);
    REFUSED(named("2 10 OC 1 0 18446744073709551617\n"), 21, 0);
    REFUSED(named("2 10 OC 1 0 01\n"), 2, 0);
    REFUSED(named("2 10 OC 1 0 1"), 1, 0);
    REFUSED(named("2 10\n"), 2, 0);
    REFUSED(named("2 10 OC 1 0 1 \n"), 2, 0);
    REFUSED(named("2 10  1 0 1\n"), 2, 0);
    REFUSED(named("2 10 Oc 1 0 1\n"), 2, 0);
    REFUSED(named("0 10 OC 1 0 1\n"), 3, 0);
    REFUSED(named("3 10 OC 1 0 1\n"), 5, 0);
    REFUSED(named("2 90 OCC 1 0 1\n"), 21, 0);
    REFUSED(named("2 90 OC 1 1 0\n"), 21, 0);
    REFUSED(named("3 004 COC 2 0 1\n"), 10, 3);
    REFUSED(named("3 002 CCO 2 0 1\n"), 20, 3);
    REFUSED(named("3 200 CCC 3 0 0\n"), 0, 3);
}

/* Five edges at a nitrogen are 9 at the fifth, four 20 at the fourth; an atom's 14 comes before that of a numbering. */
static void named_edges(void)
{
    const uint8_t star[] = {1, 2, 1, 3, 1, 4, 1, 5, 1, 6}, path[] = {1, 3, 3, 2};
    uint64_t value;
    REFUSED(oracle_named_check_edges(6, star, 10, (const uint8_t *)"NCCCCC", 6, 1), 9, 5);
    REFUSED(oracle_named_check_edges(5, star, 8, (const uint8_t *)"NCCCC", 5, 1), 20, 4);
    REFUSED(oracle_named_check_edges(4, star, 6, (const uint8_t *)"OCCC", 4, 1), 20, 3);
    REFUSED(oracle_named_check_edges(4, star, 6, (const uint8_t *)"NCCC", 4, 1), 0, 0);
    REFUSED(oracle_named_check_edges(0, star, 6, (const uint8_t *)"X", 1, 1), 2, 0);
    REFUSED(oracle_named_cam(3, path, 4, (const uint8_t *)"CCC", 3, out, sizeof out), 14, 2);
    REFUSED(oracle_named_cam(3, path, 4, (const uint8_t *)"CCN", 3, out, sizeof out), 14, 3);
    REFUSED(oracle_named_a_zero_by_code(3, path, 4, (const uint8_t *)"CON", 3, &value), 14, 2);
    REFUSED(oracle_named_plain_line(3, path, 4, (const uint8_t *)"CCO", 3, out, sizeof out), 14, 3);
    REFUSED(oracle_named_check_renumbering(1, path, 0, (const uint8_t *)"C", 1, 1, path, 0, (const uint8_t *)"O", 1, (const uint8_t *)"\1", 1), 18, 1);
}

int main(void)
{
    p_rows();
    adjacency();
    fractions();
    codes();
    limits();
    lines();
    listing();
    lent_outputs();
    classes();
    editions();
    named_lines();
    named_edges();
    printf("oracle: %u figures of documents 01 and 02 held\n", held);
    return 0;
}
