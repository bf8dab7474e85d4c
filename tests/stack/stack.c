/* How many bytes of its thread's stack each exported call touches.
 *
 *   stack LIMIT    prints a table, a row for each call and a column for each shape of skeleton; exits with 1 where a call touches more than LIMIT bytes
 *
 * The shapes are a path, a caterpillar and the largest balanced tree of edition 1, and that of edition 2, on which the functions that are of edition 1 are not run. Calls on
 * named atoms are run with carbon alone, and, where the call takes others, with other atoms at every vertex that may be one.
 *
 * A call runs on a thread whose stack was filled with a pattern. What an empty function touches there, which is what starting a thread takes, is
 * subtracted. Each run is made with two patterns, so a byte that is written with one of them is seen by the other. Calls that take a root are run
 * at every vertex; calls whose form ends below 64 vertices are run at the form's own limit. */
#define _DEFAULT_SOURCE
#include <pthread.h>
#include <stdio.h>
#include <stdlib.h>
#include <string.h>
#include <sys/mman.h>
#include <zurkhovel.h>

enum { STACK = 1 << 18, LINES = 4 };

/* What a call is handed. `lines` is LINES times the line of the skeleton. */
static size_t edition, n, root, len, packed_len, lines_len, named_len;
static uint64_t whole, zero_a, a_zero;
static uint8_t edges[ZK_EDGES], other[ZK_EDGES], code[ZK_DIGITS], n_tuple[ZK_DIGITS], centred[ZK_DIGITS], packed[ZK_PACKED], cam[ZK_CAM], map[ZK_MAP],
    lines[LINES * ZK_LINE];
static double fraction;

/* The same with letters: those of `edges` and of `other`, whose vertices have the same numbers, the codes with theirs, and LINES times the named line. */
struct named {
    uint8_t digits[ZK_DIGITS], letters[ZK_LETTERS];
};
static struct named named_code, named_n_tuple, named_centred;
static uint8_t letters[ZK_LETTERS], named_lines[LINES * ZK_NAMED_LINE];

/* What it answers with. */
static uint32_t answer;
static uint64_t value;
static size_t one, another, places[LINES];
static uint8_t out[ZK_NAMED_LINE], spelling[ZK_LETTERS], records[LINES * ZK_RECORD], spellings[LINES * ZK_LETTERS], numbers[LINES];
static double exact;

/* ---- The calls ---- */

static void none(void) { answer = 0; }

#define MADE(NAME, ...) \
    static void do_##NAME(void) { answer = zk_##NAME(__VA_ARGS__); }
#define CALL(NAME, ...) MADE(NAME, edition, __VA_ARGS__)
/* a call of the host: the function of its name is of edition 1 */
#define HOST(NAME, ...) MADE(NAME, __VA_ARGS__) CALL(NAME##_edition, __VA_ARGS__)

CALL(check_code, code, n)
CALL(decode_code, code, n, out, sizeof out)
CALL(decode_n_tuple, n_tuple, n, out, sizeof out)
CALL(decode_centred, centred, n, out, sizeof out)
CALL(check_edges, n, edges, len, root)
CALL(rooted_code, n, edges, len, root, out, sizeof out)
CALL(n_tuple_code, n, edges, len, out, sizeof out)
CALL(centred_code, n, edges, len, out, sizeof out)
HOST(same_skeleton, n, edges, len, n, other, len)
CALL(renumbering, n, edges, len, n, other, len, out, sizeof out)
CALL(check_renumbering, n, edges, len, n, other, len, map, n)
HOST(pack, n, edges, len, root, out, sizeof out)
CALL(unpack, packed, packed_len, out, sizeof out)
CALL(whole, n, edges, len, root, &value)
CALL(unwhole, n, whole, out, sizeof out)
CALL(fraction, n, edges, len, root, &exact)
CALL(unfraction, fraction, out, sizeof out)
CALL(cam, n, edges, len, out, sizeof out)
CALL(cam_by_code, n, edges, len, out, sizeof out)
CALL(decode_cam, n, cam, n - 1, out, sizeof out)
CALL(zero_a, n, edges, len, &value)
CALL(zero_a_by_code, n, edges, len, &value)
CALL(decode_zero_a, n, zero_a, out, sizeof out)
CALL(a_zero, n, edges, len, &value)
CALL(a_zero_by_code, n, edges, len, &value)
CALL(decode_a_zero, n, a_zero, out, sizeof out)
HOST(read_line, lines, lines_len, out, sizeof out)
HOST(write_line, n, edges, len, out, sizeof out)
CALL(equal_vertices, n, edges, len, out, sizeof out)

/* The same, with the pairs looked at handed over. */
CALL(rooted_code_pairs, n, edges, len, root, out, sizeof out, &one)
CALL(n_tuple_code_pairs, n, edges, len, out, sizeof out, &one)
CALL(centred_code_pairs, n, edges, len, out, sizeof out, &one)
CALL(same_skeleton_pairs, n, edges, len, n, other, len, &one)
CALL(renumbering_pairs, n, edges, len, n, other, len, out, sizeof out, &one)
CALL(pack_pairs, n, edges, len, root, out, sizeof out, &one)
CALL(whole_pairs, n, edges, len, root, &value, &one)
CALL(fraction_pairs, n, edges, len, root, &exact, &one)
CALL(cam_by_code_pairs, n, edges, len, out, sizeof out, &one)
CALL(zero_a_by_code_pairs, n, edges, len, &value, &one)
CALL(a_zero_by_code_pairs, n, edges, len, &value, &one)
CALL(write_line_pairs, n, edges, len, out, sizeof out, &one)
CALL(equal_vertices_pairs, n, edges, len, out, sizeof out, &one)

/* On named atoms. */
#define SPELLED(CODE) CODE.digits, n, CODE.letters, n
#define LIST n, edges, len, letters, n
#define OTHER n, other, len, letters, n
#define OUT out, sizeof out
#define BOTH OUT, spelling, sizeof spelling

MADE(named_check_code, SPELLED(named_code))
MADE(named_decode_code, SPELLED(named_code), BOTH)
MADE(named_decode_n_tuple, SPELLED(named_n_tuple), BOTH)
MADE(named_decode_centred, SPELLED(named_centred), BOTH)
MADE(named_check_edges, LIST, root)
MADE(named_rooted_code, LIST, root, BOTH, &one)
MADE(named_n_tuple_code, LIST, BOTH, &one)
MADE(named_centred_code, LIST, BOTH, &one)
MADE(named_same_skeleton, LIST, OTHER, &one)
MADE(named_renumbering, LIST, OTHER, OUT, &one)
MADE(named_check_renumbering, LIST, OTHER, map, n)
MADE(named_equal_vertices, LIST, OUT, &one)
MADE(named_pack, LIST, root, OUT, &one)
MADE(named_whole, LIST, root, &value, &one)
MADE(named_fraction, LIST, root, &exact, &one)
MADE(named_cam, LIST, OUT)
MADE(named_zero_a, LIST, &value)
MADE(named_a_zero, LIST, &value)
MADE(named_cam_by_code, LIST, OUT, &one)
MADE(named_zero_a_by_code, LIST, &value, &one)
MADE(named_a_zero_by_code, LIST, &value, &one)
MADE(named_plain_line, LIST, OUT, &one)
MADE(named_write_line, LIST, OUT, &one)
MADE(named_read_line, named_lines, named_len, BOTH)

static void do_named_read_text(void) {
    answer = 0;
    zk_named_read_text(named_lines, named_len, records, sizeof records, spellings, sizeof spellings, numbers, sizeof numbers, places, LINES, &one, &another);
}

static void do_named_list(void) {
    answer = 0;
    one = zk_named_list(named_lines, named_len, 0, OUT);
}

static void do_read_text(void) {
    answer = 0;
    zk_read_text(edition, lines, lines_len, records, sizeof records, numbers, sizeof numbers, places, LINES, &one, &another);
}

static void do_count(void) {
    answer = 0;
    zk_count(numbers, sizeof numbers, &one, &another);
}

static void do_list(void) {
    answer = 0;
    one = zk_list(lines, lines_len, 0, out, sizeof out);
}

/* A call, the largest size of its form, whether it takes a root, the highest edition that it knows, and how many letterings it is run with. */
#define ROW(NAME, MOST, ROOTED) {"zk_" #NAME, do_##NAME, MOST, ROOTED, 2, 1}
#define ROW_1(NAME, MOST, ROOTED) {"zk_" #NAME, do_##NAME, MOST, ROOTED, 1, 1}
#define ROW_HOST(NAME, MOST, ROOTED) ROW_1(NAME, MOST, ROOTED), ROW(NAME##_edition, MOST, ROOTED)
#define ROW_NAMED(NAME, MOST, ROOTED) {"zk_named_" #NAME, do_named_##NAME, MOST, ROOTED, 1, LETTERINGS}
#define ROW_CARBON(NAME, MOST, ROOTED) ROW_1(named_##NAME, MOST, ROOTED)
enum { LETTERINGS = 2 };
static const struct call {
    const char *name;
    void (*run)(void);
    unsigned most, rooted, editions, letterings;
} calls[] = {
    ROW(check_code, 64, 1),     ROW(decode_code, 64, 1),    ROW(decode_n_tuple, 64, 0), ROW(decode_centred, 64, 0),
    ROW(check_edges, 64, 1),    ROW(rooted_code, 64, 1),    ROW(n_tuple_code, 64, 0),   ROW(centred_code, 64, 0),
    ROW_HOST(same_skeleton, 64, 0), ROW_HOST(pack, 64, 1),  ROW(unpack, 64, 1),         ROW(whole, 32, 1),
    ROW(unwhole, 32, 1),        ROW(fraction, 27, 1),       ROW(unfraction, 27, 1),     ROW(cam, 64, 0),
    ROW(zero_a, 21, 0),         ROW(a_zero, 11, 0),         ROW(cam_by_code, 64, 0),    ROW(zero_a_by_code, 21, 0),
    ROW(a_zero_by_code, 11, 0), ROW(decode_cam, 64, 0),     ROW(decode_zero_a, 21, 0),  ROW(decode_a_zero, 11, 0),
    ROW(equal_vertices, 64, 0), ROW_HOST(read_line, 64, 0), ROW_HOST(write_line, 64, 0), ROW(read_text, 64, 0),
    ROW(count, 64, 0),          ROW_1(list, 64, 0),         ROW(renumbering, 64, 0),    ROW(check_renumbering, 64, 0),
    ROW(rooted_code_pairs, 64, 1), ROW(n_tuple_code_pairs, 64, 0), ROW(centred_code_pairs, 64, 0), ROW(same_skeleton_pairs, 64, 0),
    ROW(pack_pairs, 64, 1), ROW(whole_pairs, 32, 1), ROW(fraction_pairs, 27, 1), ROW(cam_by_code_pairs, 64, 0),
    ROW(zero_a_by_code_pairs, 21, 0), ROW(a_zero_by_code_pairs, 11, 0), ROW(write_line_pairs, 64, 0), ROW(equal_vertices_pairs, 64, 0),
    ROW(renumbering_pairs, 64, 0),
    ROW_NAMED(check_code, 64, 1), ROW_NAMED(decode_code, 64, 1), ROW_NAMED(decode_n_tuple, 64, 0), ROW_NAMED(decode_centred, 64, 0),
    ROW_NAMED(check_edges, 64, 1), ROW_NAMED(rooted_code, 64, 1), ROW_NAMED(n_tuple_code, 64, 0), ROW_NAMED(centred_code, 64, 0),
    ROW_NAMED(same_skeleton, 64, 0), ROW_NAMED(renumbering, 64, 0), ROW_NAMED(check_renumbering, 64, 0), ROW_NAMED(equal_vertices, 64, 0),
    ROW_CARBON(pack, 64, 1), ROW_CARBON(whole, 32, 1), ROW_CARBON(fraction, 27, 1), ROW_CARBON(cam, 64, 0),
    ROW_CARBON(zero_a, 21, 0), ROW_CARBON(a_zero, 11, 0), ROW_CARBON(cam_by_code, 64, 0), ROW_CARBON(zero_a_by_code, 21, 0),
    ROW_CARBON(a_zero_by_code, 11, 0), ROW_CARBON(plain_line, 64, 0), ROW_NAMED(write_line, 64, 0), ROW_NAMED(read_line, 64, 0),
    ROW_NAMED(read_text, 64, 0), ROW_NAMED(list, 64, 0),
};

/* ---- The skeletons ---- */

/* Each in a physical numbering: vertex i + 1 hangs on one of the vertices before it. */
static unsigned path(unsigned i) { return i; }
static unsigned caterpillar(unsigned i) { return i % 2 ? i : i - 1; } /* a spine with a leaf at each of its vertices */
static unsigned balanced(unsigned i) { return i <= 4 ? 1 : (i - 5) / 3 + 2; } /* four branches, then three, level by level */
static unsigned wide(unsigned i) { return i <= 9 ? 1 : (i - 10) / 8 + 2; } /* nine, then eight */

static const struct shape {
    const char *name;
    unsigned (*below)(unsigned);
    unsigned edition;
} shapes[] = {{"path", path, 1}, {"caterpillar", caterpillar, 1}, {"balanced", balanced, 1}, {"edition 2", wide, 2}};

enum { SHAPES = sizeof shapes / sizeof shapes[0], CALLS = sizeof calls / sizeof calls[0] };

/* What a call gives that may not refuse. */
static uint32_t must(uint32_t given, const char *what) {
    if (zk_refused(given)) {
        printf("stack: %s is refused: %u at %u\n", what, zk_number(given), zk_place(given));
        exit(2);
    }
    return zk_place(given);
}

/* LINES times the line that stands at the start. */
static size_t repeat(uint8_t *text, size_t line) {
    for (unsigned i = 1; i < LINES; i++)
        memcpy(text + i * line, text, line);
    return LINES * line;
}

/* Letters for the skeleton, and what a call may be handed of it with them: carbon alone, or by turns O, N and C where a vertex may be one. */
static void name_atoms(unsigned lettering) {
    unsigned degree[ZK_DIGITS + 1] = {0};
    for (size_t i = 0; i < len; i++)
        degree[edges[i]]++;
    for (unsigned v = 1; v <= n; v++) {
        unsigned atom = lettering == 0 ? 0 : 2 - v % 3;
        letters[v - 1] = (uint8_t)"CNO"[degree[v] + atom <= 4 ? atom : 0];
    }
    must(zk_named_n_tuple_code(LIST, named_n_tuple.digits, ZK_DIGITS, named_n_tuple.letters, ZK_LETTERS, &one), "named_n_tuple_code");
    must(zk_named_centred_code(LIST, named_centred.digits, ZK_DIGITS, named_centred.letters, ZK_LETTERS, &one), "named_centred_code");
    must(zk_named_renumbering(LIST, OTHER, map, sizeof map, &one), "named_renumbering");
    named_len = repeat(named_lines, must(zk_named_write_line(LIST, named_lines, sizeof named_lines, &one), "named_write_line"));
}

/* A skeleton of m vertices, and all that a call may be handed of it but what depends on the root. */
static void make(const struct shape *shape, unsigned m, unsigned lettering) {
    edition = shape->edition;
    n = m;
    len = 2 * (n - 1);
    for (unsigned i = 1; i < n; i++) {
        edges[2 * i - 2] = other[len - 2 * i + 1] = cam[i - 1] = (uint8_t)shape->below(i);
        edges[2 * i - 1] = other[len - 2 * i] = (uint8_t)(i + 1);
    }
    must(zk_n_tuple_code(edition, n, edges, len, n_tuple, sizeof n_tuple), "n_tuple_code");
    must(zk_centred_code(edition, n, edges, len, centred, sizeof centred), "centred_code");
    must(zk_cam(edition, n, edges, len, out, sizeof out), "cam");
    if (memcmp(out, cam, n - 1)) {
        printf("stack: the numbering of a %s of %u is not physical\n", shape->name, m);
        exit(2);
    }
    if (n <= 21)
        must(zk_zero_a(edition, n, edges, len, &zero_a), "zero_a");
    if (n <= 11)
        must(zk_a_zero(edition, n, edges, len, &a_zero), "a_zero");
    must(zk_renumbering(edition, n, edges, len, n, other, len, map, sizeof map), "renumbering");
    lines_len = repeat(lines, must(zk_write_line_edition(edition, n, edges, len, lines, sizeof lines), "write_line"));
    if (edition == 1)
        name_atoms(lettering);
}

/* The same of the code at a vertex. */
static void turn(unsigned v) {
    root = v;
    must(zk_rooted_code(edition, n, edges, len, root, code, sizeof code), "rooted_code");
    packed_len = must(zk_pack_edition(edition, n, edges, len, root, packed, sizeof packed), "pack");
    if (edition == 1)
        must(zk_named_rooted_code(LIST, root, named_code.digits, ZK_DIGITS, named_code.letters, ZK_LETTERS, &one), "named_rooted_code");
    if (n <= 32)
        must(zk_whole(edition, n, edges, len, root, &whole), "whole");
    if (n <= 27)
        must(zk_fraction(edition, n, edges, len, root, &fraction), "fraction");
}

/* ---- The measurement ---- */

static uint8_t *stack;

static void *started(void *call) {
    (*(void (**)(void))call)();
    return NULL;
}

/* The bytes from the top of the thread's stack down to the lowest one that was touched. */
static size_t touched_with(void (*call)(void), uint8_t pattern) {
    pthread_attr_t attributes;
    pthread_t thread;
    memset(stack, pattern, STACK);
    if (pthread_attr_init(&attributes) || pthread_attr_setstack(&attributes, stack, STACK) || pthread_create(&thread, &attributes, started, &call) ||
        pthread_join(thread, NULL)) {
        puts("stack: no thread could be started");
        exit(2);
    }
    pthread_attr_destroy(&attributes);
    size_t low = 0;
    while (low < STACK && stack[low] == pattern)
        low++;
    return STACK - low;
}

static size_t touched(void (*call)(void)) {
    size_t a = touched_with(call, 0xa5), b = touched_with(call, 0x5a);
    return a > b ? a : b;
}

static size_t bare;

/* The most that a call touches on a skeleton, over its letterings and its roots. */
static size_t most(const struct call *call, const struct shape *shape) {
    size_t worst = 0;
    for (unsigned k = 0; k < call->letterings; k++) {
        make(shape, call->most, k);
        for (unsigned v = 1; v <= (call->rooted ? n : 1); v++) {
            turn(v);
            size_t all = touched(call->run), bytes = all > bare ? all - bare : 0;
            must(answer, call->name);
            if (bytes > worst)
                worst = bytes;
        }
    }
    return worst;
}

int main(int argc, char **argv) {
    size_t limit = argc > 1 ? strtoul(argv[1], NULL, 10) : 0, highest = 0;
    int failed = 0;
    stack = mmap(NULL, STACK, PROT_READ | PROT_WRITE, MAP_PRIVATE | MAP_ANONYMOUS | MAP_STACK, -1, 0);
    if (!limit || stack == MAP_FAILED) {
        puts("usage: stack LIMIT");
        return 2;
    }
    touched(none);
    bare = touched(none);
    printf("bytes of stack touched, at most %zu; starting a thread: %zu\n%-27s %4s", limit, bare, "call", "N");
    for (unsigned s = 0; s < SHAPES; s++)
        printf(" %12s", shapes[s].name);
    puts("");
    for (unsigned c = 0; c < CALLS; c++) {
        printf("%-27s %4u", calls[c].name, calls[c].most);
        for (unsigned s = 0; s < SHAPES; s++) {
            if (shapes[s].edition > calls[c].editions) {
                printf(" %12s", "");
                continue;
            }
            size_t bytes = most(&calls[c], &shapes[s]);
            printf(" %12zu", bytes);
            failed |= bytes > limit;
            highest = bytes > highest ? bytes : highest;
        }
        puts("");
    }
    printf("stack: at most %zu bytes of %zu\n", highest, limit);
    return failed;
}
