/* What the header says of memory that is lent: that a null pointer of length 0 is an empty list, and how much is needed at most.
 *
 * A null pointer with length 0 is an empty list: every exported call that is lent one, as an input or as an output, answers as with a pointer to memory.
 * Each is made twice on the same values: with empty lists that are null, and with empty lists that point to a byte, which has to stay as it is; and that in both editions
 * and in one that there is not. A call on named atoms takes no edition: it is handed an atom with its letter and room for what it gives, then no letter, then no room. */
#include <stdio.h>
#include <string.h>
#include <zurkhovel.h>

static uint8_t memory[2] = {0x5a, 0x5a};
static uint8_t *in, *to; /* the empty input and the empty output */

/* What a call answered and what it wrote. */
struct answer {
    uint32_t whole;
    uint64_t value;
    size_t one, another;
    double exact;
    uint8_t out[4], line[12], letters[4];
};

static struct answer a;
static const uint8_t zero[1] = {0};
static size_t edition;

/* An atom as a named code, a list's letter and a named line, each empty in its turn, and the rooms that are lent. */
struct part {
    const uint8_t *at;
    size_t len;
};
static struct part digit, letter, line;
static uint8_t *out, *line_out, *letters_out;
static size_t room;

#define VARIANT(NAME, OF, ...) \
    static void NAME(void) { a.whole = zk_##OF(edition, __VA_ARGS__); }
#define CALL(NAME, ...) VARIANT(NAME, NAME, __VA_ARGS__)
/* a call that takes no edition */
#define BARE(NAME, ...) \
    static void NAME(void) { a.whole = zk_##NAME(__VA_ARGS__); }
/* a call of the host: the function of its name is of edition 1 */
#define HOST(NAME, ...) BARE(NAME, __VA_ARGS__) CALL(NAME##_edition, __VA_ARGS__)

CALL(check_code, in, 0)
CALL(decode_code, in, 0, to, 0)
CALL(decode_n_tuple, in, 0, to, 0)
CALL(decode_centred, in, 0, to, 0)
VARIANT(decode_code_1, decode_code, zero, 1, to, 0)
VARIANT(decode_n_tuple_1, decode_n_tuple, zero, 1, to, 0)
VARIANT(decode_centred_1, decode_centred, zero, 1, to, 0)
CALL(check_edges, 1, in, 0, 1)
CALL(rooted_code, 1, in, 0, 1, a.out, 4)
VARIANT(rooted_code_short, rooted_code, 1, in, 0, 1, to, 0)
CALL(n_tuple_code, 1, in, 0, a.out, 4)
VARIANT(n_tuple_code_short, n_tuple_code, 1, in, 0, to, 0)
CALL(centred_code, 1, in, 0, a.out, 4)
VARIANT(centred_code_short, centred_code, 1, in, 0, to, 0)
VARIANT(centred_code_none, centred_code, 2, in, 0, to, 0)
HOST(same_skeleton, 1, in, 0, 1, in, 0)
CALL(renumbering, 1, in, 0, 1, in, 0, a.out, 4)
VARIANT(renumbering_short, renumbering, 1, in, 0, 1, in, 0, to, 0)
CALL(check_renumbering, 1, in, 0, 1, in, 0, in, 0)
HOST(pack, 1, in, 0, 1, a.out, 4)
VARIANT(pack_short, pack_edition, 1, in, 0, 1, to, 0)
CALL(unpack, in, 0, to, 0)
VARIANT(unpack_1, unpack, zero, 1, to, 0)
CALL(whole, 1, in, 0, 1, &a.value)
CALL(unwhole, 1, 0, to, 0)
CALL(fraction, 1, in, 0, 1, &a.exact)
CALL(unfraction, 0.0, to, 0)
CALL(cam, 1, in, 0, to, 0)
CALL(cam_by_code, 1, in, 0, to, 0)
CALL(decode_cam, 1, in, 0, to, 0)
CALL(zero_a, 1, in, 0, &a.value)
CALL(zero_a_by_code, 1, in, 0, &a.value)
CALL(decode_zero_a, 1, 0, to, 0)
CALL(a_zero, 1, in, 0, &a.value)
CALL(a_zero_by_code, 1, in, 0, &a.value)
CALL(decode_a_zero, 1, 0, to, 0)
HOST(read_line, in, 0, to, 0)
HOST(write_line, 1, in, 0, a.out, 4)
VARIANT(write_line_short, write_line_edition, 1, in, 0, to, 0)
CALL(equal_vertices, 1, in, 0, a.out, 4)
VARIANT(equal_vertices_short, equal_vertices, 1, in, 0, to, 0)

#define CODE digit.at, digit.len, letter.at, letter.len
#define LIST 1, in, 0, letter.at, letter.len
#define OUT out, room
#define LINE_OUT line_out, 3 * room
#define LETTERS_OUT letters_out, room

BARE(named_check_code, CODE)
BARE(named_decode_code, CODE, to, 0, LETTERS_OUT)
BARE(named_decode_n_tuple, CODE, to, 0, LETTERS_OUT)
BARE(named_decode_centred, CODE, to, 0, LETTERS_OUT)
BARE(named_check_edges, LIST, 1)
BARE(named_rooted_code, LIST, 1, OUT, LETTERS_OUT, &a.one)
BARE(named_n_tuple_code, LIST, OUT, LETTERS_OUT, &a.one)
BARE(named_centred_code, LIST, OUT, LETTERS_OUT, &a.one)
BARE(named_same_skeleton, LIST, LIST, &a.one)
BARE(named_renumbering, LIST, LIST, OUT, &a.one)
BARE(named_check_renumbering, LIST, LIST, in, 0)
BARE(named_equal_vertices, LIST, OUT, &a.one)
BARE(named_pack, LIST, 1, OUT, &a.one)
BARE(named_whole, LIST, 1, &a.value, &a.one)
BARE(named_fraction, LIST, 1, &a.exact, &a.one)
BARE(named_cam, LIST, to, 0)
BARE(named_zero_a, LIST, &a.value)
BARE(named_a_zero, LIST, &a.value)
BARE(named_cam_by_code, LIST, to, 0, &a.one)
BARE(named_zero_a_by_code, LIST, &a.value, &a.one)
BARE(named_a_zero_by_code, LIST, &a.value, &a.one)
BARE(named_plain_line, LIST, OUT, &a.one)
BARE(named_write_line, LIST, LINE_OUT, &a.one)
BARE(named_read_line, line.at, line.len, OUT, LETTERS_OUT)

static void read_text(void) { zk_read_text(edition, in, 0, to, 0, to, 0, NULL, 0, &a.one, &a.another); }
static void read_text_no_room(void) { zk_read_text(edition, zero, 1, to, 0, to, 0, NULL, 0, &a.one, &a.another); }
static void named_read_text(void) { zk_named_read_text(line.at, line.len, to, 0, to, 0, to, 0, NULL, 0, &a.one, &a.another); }
static void count(void) { zk_count(in, 0, &a.one, &a.another); }
static void list(void) { a.one = zk_list(in, 0, 0, a.out, 4); }
static void list_no_room(void) { a.one = zk_list(zero, 1, 0, to, 0); }
static void named_list(void) { a.one = zk_named_list(line.at, line.len, 0, LINE_OUT); }

static void (*const calls[])(void) = {
    check_code, decode_code, decode_n_tuple, decode_centred, decode_code_1, decode_n_tuple_1, decode_centred_1, check_edges, rooted_code, rooted_code_short,
    n_tuple_code, n_tuple_code_short, centred_code, centred_code_short, centred_code_none, same_skeleton, same_skeleton_edition, renumbering, renumbering_short,
    check_renumbering, pack, pack_edition, pack_short, unpack, unpack_1, whole, unwhole, fraction,
    unfraction, cam, cam_by_code, decode_cam, zero_a, zero_a_by_code, decode_zero_a, a_zero, a_zero_by_code, decode_a_zero, read_line, read_line_edition, write_line,
    write_line_edition, write_line_short, equal_vertices, equal_vertices_short, read_text, read_text_no_room, count, list, list_no_room,
    named_check_code, named_decode_code, named_decode_n_tuple, named_decode_centred, named_check_edges, named_rooted_code, named_n_tuple_code, named_centred_code,
    named_same_skeleton, named_renumbering, named_check_renumbering, named_equal_vertices, named_pack, named_whole, named_fraction, named_cam, named_zero_a, named_a_zero,
    named_cam_by_code, named_zero_a_by_code, named_a_zero_by_code, named_plain_line, named_write_line, named_read_line, named_read_text, named_list,
};

/* What is handed over of an atom: as it is, but where it is not to be handed over. */
static struct part handed(const void *bytes, size_t len) {
    return edition == 2 ? (struct part){in, 0} : (struct part){bytes, len};
}

static uint8_t *lent(uint8_t *bytes) { return edition == 3 ? to : bytes; }

static struct answer made(void (*call)(void), uint8_t *input, uint8_t *output) {
    memset(&a, 0x77, sizeof a);
    in = input;
    to = output;
    digit = handed(zero, 1), letter = handed("C", 1), line = handed("1 0 C 1 0 0\n", 12);
    out = lent(a.out), line_out = lent(a.line), letters_out = lent(a.letters), room = edition == 3 ? 0 : 4;
    call();
    return a;
}

/* The named sizes are what a path of 64 vertices needs, which is as much as any skeleton. */
static unsigned wrong_sizes(void) {
    uint8_t edges[2 * 64], code[256], out[256], letters[64], spelling[256];
    size_t pairs;
    for (unsigned i = 1; i < 64; i++) {
        edges[2 * i - 2] = (uint8_t)i;
        edges[2 * i - 1] = (uint8_t)(i + 1);
    }
    for (unsigned i = 0; i < 64; i++)
        letters[i] = (uint8_t)"CNO"[i % 3]; /* so that each count has two digits */
    uint32_t digits = zk_centred_code(1, 64, edges, 126, code, sizeof code), spelled = 0;
    memset(spelling, 0, sizeof spelling);
    zk_named_centred_code(64, edges, 126, letters, 64, out, sizeof out, spelling, sizeof spelling, &pairs);
    while (spelled < sizeof spelling && spelling[spelled] != 0)
        spelled++;
    const struct {
        const char *name;
        uint32_t named, needed;
    } sizes[] = {
        {"ZK_DIGITS", ZK_DIGITS, digits},
        {"ZK_DIGITS", ZK_DIGITS, zk_equal_vertices(1, 64, edges, 126, out, sizeof out)},
        {"ZK_RECORD", ZK_RECORD, digits},
        {"ZK_EDGES", ZK_EDGES, zk_decode_centred(1, code, digits, out, sizeof out)},
        {"ZK_LINE", ZK_LINE, zk_write_line(64, edges, 126, out, sizeof out)},
        {"ZK_PACKED", ZK_PACKED, zk_pack(64, edges, 126, 1, out, sizeof out)},
        {"ZK_CAM", ZK_CAM, zk_cam(1, 64, edges, 126, out, sizeof out)},
        {"ZK_MAP", ZK_MAP, zk_renumbering(1, 64, edges, 126, 64, edges, 126, out, sizeof out)},
        {"ZK_LETTERS", ZK_LETTERS, spelled},
        {"ZK_NAMED_LINE", ZK_NAMED_LINE, zk_named_write_line(64, edges, 126, letters, 64, out, sizeof out, &pairs)},
    };
    unsigned wrong = 0;
    for (unsigned i = 0; i < sizeof sizes / sizeof *sizes; i++)
        if (sizes[i].named != sizes[i].needed) {
            printf("lent: %s is %u, and %u is needed\n", sizes[i].name, sizes[i].named, sizes[i].needed);
            wrong = 1;
        }
    return wrong;
}

int main(void) {
    unsigned many = sizeof calls / sizeof calls[0], bad = wrong_sizes();
    for (unsigned i = 0; i < 3 * many; i++) {
        edition = 1 + i / many;
        struct answer held = made(calls[i % many], memory, memory + 1), null = made(calls[i % many], NULL, NULL);
        if (memcmp(&held, &null, sizeof held)) {
            printf("lent: case %u in edition %zu answers %u with null pointers, and %u otherwise\n", i % many + 1, edition, null.whole, held.whole);
            bad = 1;
        }
    }
    if (memory[0] != 0x5a || memory[1] != 0x5a) {
        puts("lent: a byte was written behind an output of length 0");
        bad = 1;
    }
    if (!bad)
        printf("lent: the sizes are what is needed; %u calls answer alike with null pointers of length 0 and with others, in editions 1, 2 and 3, or with all, no letters and no room\n", many);
    return (int)bad;
}
