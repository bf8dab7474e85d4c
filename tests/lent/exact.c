/* Every exported call on memory that is exactly as long as it says: whole and damaged inputs, outputs of the length needed, one byte less, none and some
 * bytes more.
 *
 *   exact ROUNDS [CALL...]    so many inputs to each call; to all calls where none is named
 *
 * Each call is made on ample memory first. Then all that it is lent ends at a page that cannot be touched, and then begins behind one: a byte read or written
 * outside ends the program with 1, and so does another answer, other bytes in an output, or one that was changed where nothing is given: after a refusal, and behind a
 * result. Where a call has two outputs, the second has one of the four lengths by chance. Compiled with -DHEAP, what is lent is a heap block of the very size
 * instead, its outputs not set, for valgrind to watch over. */
#define _DEFAULT_SOURCE
#include <setjmp.h>
#include <signal.h>
#include <stdio.h>
#include <stdlib.h>
#include <string.h>
#include <sys/mman.h>
#include <unistd.h>
#include <zurkhovel.h>

enum { MOST = 512, LINES = 6, AREAS = 9 };

/* ---- Memory that is lent ---- */

enum side { END, START, SIDES };

#ifdef HEAP
static void *lend(unsigned area, size_t size, enum side side) {
    (void)area, (void)side;
    return malloc(size);
}
static void give_back(void *memory) { free(memory); }
#else
/* An area is a page between two that cannot be touched. */
static void *lend(unsigned area, size_t size, enum side side) {
    static uint8_t *areas[AREAS];
    size_t page = (size_t)sysconf(_SC_PAGESIZE);
    if (areas[area] == NULL) {
        areas[area] = mmap(NULL, 3 * page, PROT_NONE, MAP_PRIVATE | MAP_ANONYMOUS, -1, 0);
        if (areas[area] == MAP_FAILED || mprotect(areas[area] + page, page, PROT_READ | PROT_WRITE) || size > page) {
            puts("exact: no memory");
            exit(2);
        }
    }
    return areas[area] + page + (side == END ? page - size : 0);
}
static void give_back(void *memory) { (void)memory; }
#endif

static uint8_t *lend_copy(unsigned area, const uint8_t *bytes, size_t size, enum side side) {
    uint8_t *copy = lend(area, size, side);
    if (size > 0)
        memcpy(copy, bytes, size);
    return copy;
}

/* ---- The inputs ---- */

static uint64_t state = 20011;

static size_t below(size_t bound) {
    uint64_t z = state += 0x9e3779b97f4a7c15u;
    z = (z ^ (z >> 30)) * 0xbf58476d1ce4e5b9u;
    z = (z ^ (z >> 27)) * 0x94d049bb133111ebu;
    return (z ^ (z >> 31)) % bound;
}

struct bytes {
    uint8_t *at;
    size_t len;
};

/* What a call is handed: a list, a code or a line, a second list, a map, and the letters of either; and what it is lent to write to. */
enum { FIRST, SECOND, BETWEEN, LETTERS, LETTERS_2, INPUTS };
enum { RESULT, SPELLING, OUTPUTS };
struct given {
    size_t edition, n, root, n2;
    struct bytes in[INPUTS], out[OUTPUTS];
    uint64_t number;
    double x;
    size_t *pairs; /* where a call hands over the pairs looked at */
};

/* A tree of an edition in a physical numbering, or its like under other numbers. In edition 2 half of the vertices hang on the first few, which get full. */
static size_t tree(size_t edition, size_t n, uint8_t *edges, int renumbered) {
    unsigned degree[ZK_DIGITS + 1] = {0};
    uint8_t name[ZK_DIGITS + 1];
    for (size_t v = 1; v <= n; v++) {
        size_t other = 1 + below(v);
        name[v] = (uint8_t)v;
        if (renumbered) {
            name[v] = name[other];
            name[other] = (uint8_t)v;
        }
    }
    for (size_t v = 2; v <= n; v++) {
        size_t u;
        do
            u = 1 + below(edition == 2 && v > 3 && below(2) ? 3 : v - 1);
        while (degree[u] == (edition == 2 ? 9 : 4));
        degree[u]++, degree[v]++;
        edges[2 * v - 4] = (uint8_t)u;
        edges[2 * v - 3] = (uint8_t)v;
    }
    for (size_t i = 0; i < 2 * (n - 1); i++)
        edges[i] = name[edges[i]];
    return 2 * (n - 1);
}

/* A byte changed, lost, or put in at the end. */
static void damage(uint8_t *bytes, size_t *len, unsigned values) {
    size_t how = below(4);
    if (how == 0)
        bytes[(*len)++] = (uint8_t)below(values);
    else if (how == 1 && *len > 0)
        (*len)--;
    else if (*len > 0)
        bytes[below(*len)] = (uint8_t)below(values);
}

/* The letters of a list: an atom that may have as many neighbours for each vertex, or carbon alone. */
static void name_atoms(size_t n, const struct bytes *edges, struct bytes *letters) {
    unsigned degree[ZK_DIGITS + 1] = {0};
    size_t atoms = 1 + 2 * below(2);
    for (size_t i = 0; i < edges->len; i++)
        degree[edges->at[i]]++;
    for (size_t v = 1; v <= n; v++) {
        size_t atom = below(atoms);
        letters->at[v - 1] = (uint8_t)"CNO"[degree[v] + atom <= 4 ? atom : 0];
    }
    letters->len = n;
}

/* Another atom, or any damage. */
static void damage_letters(struct bytes *letters) {
    if (letters->len == 0 || below(2))
        damage(letters->at, &letters->len, 256);
    else
        letters->at[below(letters->len)] = (uint8_t)"CNO"[below(3)];
}

enum kind { EDGES, LISTS, MAP, CODE, N_TUPLE, CENTRED, PACKED, CAM, LINE, WHOLE, FRACTION, ZERO_A, A_ZERO };

/* A code, a form or a line in the place of the list that it is of. */
static void encode(enum kind kind, struct given *g) {
    uint8_t edges[MOST];
    struct bytes *in = &g->in[FIRST];
    size_t edition = g->edition, n = g->n, len = in->len;
    memcpy(edges, in->at, len);
    if (kind == CODE)
        in->len = zk_rooted_code(edition, n, edges, len, g->root, in->at, MOST);
    else if (kind == N_TUPLE)
        in->len = zk_n_tuple_code(edition, n, edges, len, in->at, MOST);
    else if (kind == CENTRED)
        in->len = zk_centred_code(edition, n, edges, len, in->at, MOST);
    else if (kind == PACKED)
        in->len = zk_pack_edition(edition, n, edges, len, g->root, in->at, MOST);
    else if (kind == CAM)
        in->len = zk_cam(edition, n, edges, len, in->at, MOST);
    else if (kind == LINE)
        in->len = zk_write_line_edition(edition, n, edges, len, in->at, MOST);
    else if (kind == WHOLE)
        zk_whole(edition, n, edges, len, g->root, &g->number);
    else if (kind == FRACTION)
        zk_fraction(edition, n, edges, len, g->root, &g->x);
    else if (kind == ZERO_A)
        zk_zero_a(edition, n, edges, len, &g->number);
    else if (kind == A_ZERO)
        zk_a_zero(edition, n, edges, len, &g->number);
}

/* The same with letters. */
static void encode_named(enum kind kind, struct given *g) {
    uint8_t edges[MOST], letters[MOST];
    struct bytes *in = &g->in[FIRST], *spelling = &g->in[LETTERS];
    size_t n = g->n, len = in->len;
    memcpy(edges, in->at, len);
    memcpy(letters, spelling->at, n);
    if (kind == CODE)
        in->len = zk_named_rooted_code(n, edges, len, letters, n, g->root, in->at, MOST, spelling->at, MOST, g->pairs);
    else if (kind == N_TUPLE)
        in->len = zk_named_n_tuple_code(n, edges, len, letters, n, in->at, MOST, spelling->at, MOST, g->pairs);
    else if (kind == CENTRED)
        in->len = zk_named_centred_code(n, edges, len, letters, n, in->at, MOST, spelling->at, MOST, g->pairs);
    else if (kind == LINE)
        in->len = zk_named_write_line(n, edges, len, letters, n, in->at, MOST, g->pairs);
}

/* Another list, or one that a map leads to. */
static void add_second(enum kind kind, size_t most, struct given *g) {
    struct bytes *first = &g->in[FIRST], *second = &g->in[SECOND], *map = &g->in[BETWEEN];
    if (kind == LISTS) {
        g->n2 = below(4) ? g->n : 1 + below(most);
        second->len = tree(g->edition, g->n2, second->at, 1);
        name_atoms(g->n2, second, &g->in[LETTERS_2]);
        return;
    }
    for (size_t v = 0; v < g->n; v++) {
        size_t other = below(v + 1);
        map->at[v] = map->at[other];
        map->at[other] = (uint8_t)(v + 1);
    }
    for (size_t i = 0; i < first->len; i++)
        second->at[i] = map->at[first->at[i] - 1];
    for (size_t v = 0; v < g->n; v++)
        g->in[LETTERS_2].at[map->at[v] - 1] = g->in[LETTERS].at[v];
    g->n2 = map->len = g->in[LETTERS_2].len = g->n;
    second->len = first->len;
}

static void damage_given(enum kind kind, int named, struct given *g) {
    struct bytes *in = g->in;
    size_t n = g->n;
    if (kind == MAP && below(2))
        damage(in[BETWEEN].at, &in[BETWEEN].len, (unsigned)n + 3);
    else if (named && kind != LINE && below(2))
        damage_letters(&in[g->n2 > 0 && below(2) ? LETTERS_2 : LETTERS]);
    else if (kind == LISTS && below(2))
        damage(in[SECOND].at, &in[SECOND].len, (unsigned)g->n2 + 3);
    else {
        damage(in[FIRST].at, &in[FIRST].len, kind == LINE ? 256 : (unsigned)n + 3);
        g->number ^= (uint64_t)below(2) << below(64);
        g->x += below(2) / 4096.0;
        g->n += below(2);
        g->root += below(8) == 0 ? n : 0;
    }
}

static struct given make(enum kind kind, size_t most, int named) {
    static uint8_t bytes[INPUTS][MOST];
    static size_t pairs;
    struct given g = {.edition = named ? 1 : 1 + below(2), .n = 1 + below(most), .pairs = &pairs};
    for (unsigned i = 0; i < INPUTS; i++)
        g.in[i].at = bytes[i];
    g.in[FIRST].len = tree(g.edition, g.n, bytes[FIRST], kind == EDGES && below(2));
    g.root = 1 + below(g.n);
    name_atoms(g.n, &g.in[FIRST], &g.in[LETTERS]);
    if (kind == LISTS || kind == MAP)
        add_second(kind, most, &g);
    else
        (named ? encode_named : encode)(kind, &g);
    if (below(10) == 0)
        g.edition = below(5);
    if (below(2))
        damage_given(kind, named, &g);
    return g;
}

/* ---- The calls ---- */

/* What a call writes: bytes, digits and as many letters, edges and the letters of their ends, a value, or nothing. */
enum output { BYTES, CODED, DECODED, VALUE, NOTHING };

#define IN(I) g->in[I].at, g->in[I].len
#define OUT(O) g->out[O].at, g->out[O].len
#define LIST g->n, IN(FIRST)
#define LIST_2 g->n2, IN(SECOND)
#define NAMED LIST, IN(LETTERS)
#define NAMED_2 LIST_2, IN(LETTERS_2)
#define BOTH OUT(RESULT), OUT(SPELLING)
#define WHOLE_OUT (uint64_t *)(void *)g->out[RESULT].at
#define EXACT_OUT (double *)(void *)g->out[RESULT].at

#define MADE(NAME, ...) \
    static uint32_t do_##NAME(const struct given *g) { return zk_##NAME(__VA_ARGS__); }
#define CALL(NAME, ...) MADE(NAME, g->edition, __VA_ARGS__)
/* A call of the host: the function of its name is of edition 1. */
#define HOST(NAME, ...) MADE(NAME, __VA_ARGS__) CALL(NAME##_edition, __VA_ARGS__)

CALL(check_code, IN(FIRST))
CALL(decode_code, IN(FIRST), OUT(RESULT))
CALL(decode_n_tuple, IN(FIRST), OUT(RESULT))
CALL(decode_centred, IN(FIRST), OUT(RESULT))
CALL(check_edges, LIST, g->root)
CALL(rooted_code, LIST, g->root, OUT(RESULT))
CALL(n_tuple_code, LIST, OUT(RESULT))
CALL(centred_code, LIST, OUT(RESULT))
HOST(same_skeleton, LIST, LIST_2)
CALL(renumbering, LIST, LIST_2, OUT(RESULT))
CALL(check_renumbering, LIST, LIST_2, IN(BETWEEN))
HOST(pack, LIST, g->root, OUT(RESULT))
CALL(unpack, IN(FIRST), OUT(RESULT))
CALL(whole, LIST, g->root, WHOLE_OUT)
CALL(unwhole, g->n, g->number, OUT(RESULT))
CALL(fraction, LIST, g->root, EXACT_OUT)
CALL(unfraction, g->x, OUT(RESULT))
CALL(cam, LIST, OUT(RESULT))
CALL(zero_a, LIST, WHOLE_OUT)
CALL(a_zero, LIST, WHOLE_OUT)
CALL(cam_by_code, LIST, OUT(RESULT))
CALL(zero_a_by_code, LIST, WHOLE_OUT)
CALL(a_zero_by_code, LIST, WHOLE_OUT)
CALL(decode_cam, LIST, OUT(RESULT))
CALL(decode_zero_a, g->n, g->number, OUT(RESULT))
CALL(decode_a_zero, g->n, g->number, OUT(RESULT))
CALL(equal_vertices, LIST, OUT(RESULT))
HOST(read_line, IN(FIRST), OUT(RESULT))
HOST(write_line, LIST, OUT(RESULT))
CALL(rooted_code_pairs, LIST, g->root, OUT(RESULT), g->pairs)
CALL(n_tuple_code_pairs, LIST, OUT(RESULT), g->pairs)
CALL(centred_code_pairs, LIST, OUT(RESULT), g->pairs)
CALL(same_skeleton_pairs, LIST, LIST_2, g->pairs)
CALL(renumbering_pairs, LIST, LIST_2, OUT(RESULT), g->pairs)
CALL(pack_pairs, LIST, g->root, OUT(RESULT), g->pairs)
CALL(whole_pairs, LIST, g->root, WHOLE_OUT, g->pairs)
CALL(fraction_pairs, LIST, g->root, EXACT_OUT, g->pairs)
CALL(cam_by_code_pairs, LIST, OUT(RESULT), g->pairs)
CALL(zero_a_by_code_pairs, LIST, WHOLE_OUT, g->pairs)
CALL(a_zero_by_code_pairs, LIST, WHOLE_OUT, g->pairs)
CALL(equal_vertices_pairs, LIST, OUT(RESULT), g->pairs)
CALL(write_line_pairs, LIST, OUT(RESULT), g->pairs)

/* Those on named atoms. */
MADE(named_check_code, IN(FIRST), IN(LETTERS))
MADE(named_decode_code, IN(FIRST), IN(LETTERS), BOTH)
MADE(named_decode_n_tuple, IN(FIRST), IN(LETTERS), BOTH)
MADE(named_decode_centred, IN(FIRST), IN(LETTERS), BOTH)
MADE(named_check_edges, NAMED, g->root)
MADE(named_rooted_code, NAMED, g->root, BOTH, g->pairs)
MADE(named_n_tuple_code, NAMED, BOTH, g->pairs)
MADE(named_centred_code, NAMED, BOTH, g->pairs)
MADE(named_same_skeleton, NAMED, NAMED_2, g->pairs)
MADE(named_renumbering, NAMED, NAMED_2, OUT(RESULT), g->pairs)
MADE(named_check_renumbering, NAMED, NAMED_2, IN(BETWEEN))
MADE(named_equal_vertices, NAMED, OUT(RESULT), g->pairs)
MADE(named_pack, NAMED, g->root, OUT(RESULT), g->pairs)
MADE(named_whole, NAMED, g->root, WHOLE_OUT, g->pairs)
MADE(named_fraction, NAMED, g->root, EXACT_OUT, g->pairs)
MADE(named_cam, NAMED, OUT(RESULT))
MADE(named_zero_a, NAMED, WHOLE_OUT)
MADE(named_a_zero, NAMED, WHOLE_OUT)
MADE(named_cam_by_code, NAMED, OUT(RESULT), g->pairs)
MADE(named_zero_a_by_code, NAMED, WHOLE_OUT, g->pairs)
MADE(named_a_zero_by_code, NAMED, WHOLE_OUT, g->pairs)
MADE(named_plain_line, NAMED, OUT(RESULT), g->pairs)
MADE(named_write_line, NAMED, OUT(RESULT), g->pairs)
MADE(named_read_line, IN(FIRST), BOTH)

/* A call, what it is handed, the largest size of its form, and what it is lent. */
#define ROW(NAME, KIND, MOST_SIZE, OUTPUT) {#NAME, do_##NAME, KIND, MOST_SIZE, OUTPUT, 0}
#define NAMED_ROW(NAME, KIND, MOST_SIZE, OUTPUT) {"named_" #NAME, do_named_##NAME, KIND, MOST_SIZE, OUTPUT, 1}
static const struct call {
    const char *name;
    uint32_t (*run)(const struct given *);
    enum kind kind;
    size_t most;
    enum output output;
    int named;
} calls[] = {
    ROW(check_code, CODE, 64, NOTHING),      ROW(decode_code, CODE, 64, BYTES),         ROW(decode_n_tuple, N_TUPLE, 64, BYTES),
    ROW(decode_centred, CENTRED, 64, BYTES), ROW(check_edges, EDGES, 64, NOTHING),      ROW(rooted_code, EDGES, 64, BYTES),
    ROW(n_tuple_code, EDGES, 64, BYTES),     ROW(centred_code, EDGES, 64, BYTES),       ROW(same_skeleton, LISTS, 64, NOTHING),
    ROW(renumbering, MAP, 64, BYTES),        ROW(check_renumbering, MAP, 64, NOTHING),
    ROW(pack, EDGES, 64, BYTES),             ROW(unpack, PACKED, 64, BYTES),            ROW(whole, EDGES, 32, VALUE),
    ROW(unwhole, WHOLE, 32, BYTES),          ROW(fraction, EDGES, 27, VALUE),           ROW(unfraction, FRACTION, 27, BYTES),
    ROW(cam, EDGES, 64, BYTES),              ROW(zero_a, EDGES, 21, VALUE),             ROW(a_zero, EDGES, 11, VALUE),
    ROW(cam_by_code, EDGES, 64, BYTES),      ROW(zero_a_by_code, EDGES, 21, VALUE),     ROW(a_zero_by_code, EDGES, 11, VALUE),
    ROW(decode_cam, CAM, 64, BYTES),         ROW(decode_zero_a, ZERO_A, 21, BYTES),     ROW(decode_a_zero, A_ZERO, 11, BYTES),
    ROW(equal_vertices, EDGES, 64, BYTES),   ROW(read_line, LINE, 64, BYTES),           ROW(write_line, EDGES, 64, BYTES),
    ROW(rooted_code_pairs, EDGES, 64, BYTES), ROW(n_tuple_code_pairs, EDGES, 64, BYTES), ROW(centred_code_pairs, EDGES, 64, BYTES),
    ROW(same_skeleton_pairs, LISTS, 64, NOTHING), ROW(pack_pairs, EDGES, 64, BYTES), ROW(whole_pairs, EDGES, 32, VALUE),
    ROW(fraction_pairs, EDGES, 27, VALUE), ROW(cam_by_code_pairs, EDGES, 64, BYTES), ROW(zero_a_by_code_pairs, EDGES, 21, VALUE),
    ROW(a_zero_by_code_pairs, EDGES, 11, VALUE), ROW(equal_vertices_pairs, EDGES, 64, BYTES), ROW(write_line_pairs, EDGES, 64, BYTES),
    ROW(renumbering_pairs, MAP, 64, BYTES),  ROW(read_line_edition, LINE, 64, BYTES),   ROW(write_line_edition, EDGES, 64, BYTES),
    ROW(same_skeleton_edition, LISTS, 64, NOTHING), ROW(pack_edition, EDGES, 64, BYTES),
    NAMED_ROW(check_code, CODE, 64, NOTHING), NAMED_ROW(decode_code, CODE, 64, DECODED), NAMED_ROW(decode_n_tuple, N_TUPLE, 64, DECODED),
    NAMED_ROW(decode_centred, CENTRED, 64, DECODED), NAMED_ROW(check_edges, EDGES, 64, NOTHING), NAMED_ROW(rooted_code, EDGES, 64, CODED),
    NAMED_ROW(n_tuple_code, EDGES, 64, CODED), NAMED_ROW(centred_code, EDGES, 64, CODED), NAMED_ROW(same_skeleton, LISTS, 64, NOTHING),
    NAMED_ROW(renumbering, MAP, 64, BYTES), NAMED_ROW(check_renumbering, MAP, 64, NOTHING), NAMED_ROW(equal_vertices, EDGES, 64, BYTES),
    NAMED_ROW(pack, EDGES, 64, BYTES), NAMED_ROW(whole, EDGES, 32, VALUE), NAMED_ROW(fraction, EDGES, 27, VALUE), NAMED_ROW(cam, EDGES, 64, BYTES),
    NAMED_ROW(zero_a, EDGES, 21, VALUE), NAMED_ROW(a_zero, EDGES, 11, VALUE), NAMED_ROW(cam_by_code, EDGES, 64, BYTES),
    NAMED_ROW(zero_a_by_code, EDGES, 21, VALUE), NAMED_ROW(a_zero_by_code, EDGES, 11, VALUE), NAMED_ROW(plain_line, EDGES, 64, BYTES),
    NAMED_ROW(write_line, EDGES, 64, BYTES), NAMED_ROW(read_line, LINE, 64, CODED),
};
enum { CALLS = sizeof calls / sizeof *calls };

/* ---- Comparing ---- */

static const char *name_now = "";
static const struct given *given_now;
static size_t cases;

static void report(const char *what) {
    const struct given *g = given_now;
    printf("exact: zk_%s %s\n", name_now, what);
    if (g != NULL)
        printf("  edition %zu, n %zu, root %zu, number %llu, x %a, n2 %zu\n", g->edition, g->n, g->root, (unsigned long long)g->number, g->x, g->n2);
    for (unsigned i = 0; g != NULL && i < INPUTS; i++) {
        printf("  %zu bytes:", g->in[i].len);
        for (size_t k = 0; k < g->in[i].len; k++)
            printf(" %u", g->in[i].at[k]);
        puts("");
    }
    exit(1);
}

/* The report is made outside of the handler, which an emulator may call with a stack that is not aligned. */
static sigjmp_buf outside;

static void crashed(int signal) { siglongjmp(outside, signal); }

/* How many bytes of an output a call has written, as its answer says. */
static size_t written(uint32_t answer, enum output output, unsigned o) {
    size_t place = zk_place(answer);
    if (zk_refused(answer) || output == NOTHING)
        return 0;
    if (o == SPELLING)
        return output == CODED ? place : output == DECODED ? place / 2 + 1 : 0;
    return output == VALUE ? 8 : place;
}

/* The bytes that have to be compared: on the heap, those that were written. */
static size_t compared(size_t set, size_t lent) {
#ifdef HEAP
    (void)lent;
    return set;
#else
    (void)set;
    return lent;
#endif
}

/* What an output holds before a call; on the heap it is not set. */
static void fill(void *bytes, size_t len) {
#ifdef HEAP
    (void)bytes, (void)len;
#else
    memset(bytes, 0x5a, len);
#endif
}

/* An output in ample memory is as it was from a byte on. */
static void must_be_left(const uint8_t *bytes, size_t from, size_t len) {
    for (size_t i = from; i < len; i++)
        if (bytes[i] != 0x5a)
            report("changes an output where it gives nothing");
}

static void compare(const struct call *call, const struct given *g, const size_t *rooms, enum side side) {
    _Alignas(uint64_t) uint8_t ample[OUTPUTS][MOST];
    struct given whole = *g, lent = *g;
    cases++;
    memset(ample, 0x5a, sizeof ample);
    for (unsigned i = 0; i < INPUTS; i++)
        lent.in[i].at = lend_copy(i, g->in[i].at, g->in[i].len, side);
    for (unsigned o = 0; o < OUTPUTS; o++) {
        whole.out[o] = (struct bytes){ample[o], rooms[o]};
        lent.out[o] = (struct bytes){lend(INPUTS + o, rooms[o], side), rooms[o]};
        fill(lent.out[o].at, rooms[o]);
    }
    lent.pairs = lend(INPUTS + OUTPUTS, sizeof *lent.pairs, side);
    *whole.pairs = *lent.pairs = 7;
    uint32_t wanted = call->run(&whole), got = call->run(&lent);
    if (got != wanted)
        report("answers otherwise than with ample memory");
    for (unsigned o = 0; o < OUTPUTS; o++) {
        size_t set = written(got, call->output, o);
        if (memcmp(lent.out[o].at, ample[o], compared(set, rooms[o])) != 0)
            report("writes otherwise than with ample memory");
        must_be_left(ample[o], set, MOST);
        give_back(lent.out[o].at);
    }
    if (*lent.pairs != *whole.pairs)
        report("hands over other pairs than with ample memory");
    for (unsigned i = 0; i < INPUTS; i++) {
        if (memcmp(lent.in[i].at, g->in[i].at, g->in[i].len) != 0)
            report("changes an input");
        give_back(lent.in[i].at);
    }
    give_back(lent.pairs);
}

static unsigned met[2]; /* whether successes and refusals were met */

/* What is needed of an output, one byte less, none, or some bytes more. */
enum { ROOMS = 4 };
static size_t room(size_t needed, unsigned k) {
    const size_t rooms[ROOMS] = {needed, needed > 0 ? needed - 1 : 0, 0, needed + 5};
    return rooms[k];
}

static void try_call(const struct call *call) {
    _Alignas(uint64_t) static uint8_t ample[OUTPUTS][MOST];
    struct given g = make(call->kind, call->most, call->named);
    size_t needed[OUTPUTS];
    int second = call->output == CODED || call->output == DECODED;
    name_now = call->name;
    given_now = &g;
    for (unsigned o = 0; o < OUTPUTS; o++)
        g.out[o] = (struct bytes){ample[o], MOST};
    uint32_t answer = call->run(&g);
    met[zk_refused(answer)] = 1;
    for (unsigned o = 0; o < OUTPUTS; o++)
        needed[o] = zk_refused(answer) ? 1 + below(ZK_EDGES) : written(answer, call->output, o);
    for (enum side side = END; side < SIDES; side++) {
        if (call->output == VALUE || call->output == NOTHING) {
            compare(call, &g, (const size_t[OUTPUTS]){call->output == VALUE ? 8 : 0}, side);
            continue;
        }
        for (unsigned k = 0; k < ROOMS; k++)
            compare(call, &g, (const size_t[OUTPUTS]){room(needed[RESULT], k), second ? room(needed[SPELLING], (unsigned)below(ROOMS)) : 0}, side);
    }
    given_now = NULL;
}

/* ---- A text: what three calls are lent, and two of named lines ---- */

struct reading {
    uint8_t *text, *records, *letters, *numbers;
    size_t *places, *lines, *at;
};

static void read_text(int named, size_t edition, const struct reading *r, size_t len, size_t room) {
    if (named)
        zk_named_read_text(r->text, len, r->records, ZK_RECORD * room, r->letters, ZK_LETTERS * room, r->numbers, room, r->places, room, r->lines, r->at);
    else
        zk_read_text(edition, r->text, len, r->records, ZK_RECORD * room, r->numbers, room, r->places, room, r->lines, r->at);
}

static size_t list(int named, const uint8_t *text, size_t len, size_t from, uint8_t *out, size_t out_len) {
    return (named ? zk_named_list : zk_list)(text, len, from, out, out_len);
}

/* The records of two readings, or their letters: alike where something was read, and left elsewhere. */
static void compare_records(const struct reading *whole, const uint8_t *ample, const uint8_t *lent, size_t read) {
    for (size_t i = 0; i < LINES; i++) {
        size_t set = i < *whole->lines && whole->numbers[i] == 0 ? read * whole->places[i] : 0;
        if (memcmp(lent + ZK_RECORD * i, ample + ZK_RECORD * i, set) != 0)
            report("writes otherwise than with ample memory");
        must_be_left(ample + ZK_RECORD * i, set, ZK_RECORD);
    }
}

static void try_text(int named) {
    uint8_t text[MOST * 2], records[LINES * ZK_RECORD], letters[LINES * ZK_LETTERS], numbers[LINES], listing[MOST];
    size_t places[LINES], lines, at, len = 0, many = below(LINES), room = below(LINES), edition = below(4);
    struct reading whole = {text, records, letters, numbers, places, &lines, &at};
    for (size_t i = 0; i < many; i++) {
        struct given g = make(LINE, 64, named);
        memcpy(text + len, g.in[FIRST].at, g.in[FIRST].len);
        len += g.in[FIRST].len;
    }
    for (enum side side = END; side < SIDES; side++) {
        size_t read, refused, their_read, their_refused, from = below(8), part = below(200);
        cases += 3;
        name_now = named ? "named_read_text" : "read_text";
        memset(records, 0x5a, sizeof records);
        memset(letters, 0x5a, sizeof letters);
        struct reading lent = {lend_copy(0, text, len, side), lend(1, ZK_RECORD * room, side), lend(2, ZK_LETTERS * room, side), lend(3, room, side),
                               lend(4, room * sizeof *places, side), lend(5, sizeof lines, side), lend(6, sizeof at, side)};
        read_text(named, edition, &whole, len, room);
        read_text(named, edition, &lent, len, room);
        if (*lent.lines != lines || *lent.at != at || memcmp(lent.numbers, numbers, lines) != 0 || memcmp(lent.places, places, lines * sizeof *places) != 0)
            report("answers otherwise than with ample memory");
        compare_records(&whole, records, lent.records, 1);
        compare_records(&whole, letters, lent.letters, (size_t)named);
        name_now = "count";
        zk_count(numbers, lines, &read, &refused);
        uint8_t *counted = lend_copy(7, numbers, lines, side);
        zk_count(counted, lines, &their_read, &their_refused);
        if (read != their_read || refused != their_refused)
            report("answers otherwise than with ample memory");
        name_now = named ? "named_list" : "list";
        size_t count = list(named, text, len, from, listing, part);
        uint8_t *piece = lend(8, part, side);
        if (list(named, lent.text, len, from, piece, part) != count || memcmp(piece, listing, count) != 0)
            report("answers otherwise than with ample memory");
        give_back(lent.text), give_back(lent.records), give_back(lent.letters), give_back(lent.numbers), give_back(lent.places), give_back(lent.lines);
        give_back(lent.at), give_back(counted), give_back(piece);
    }
}

static int is_named(const char *name, int argc, char **argv) {
    for (int i = 2; i < argc; i++)
        if (strcmp(name, argv[i]) == 0)
            return 1;
    return argc == 2;
}

int main(int argc, char **argv) {
    signal(SIGSEGV, crashed);
    signal(SIGBUS, crashed);
    if (sigsetjmp(outside, 1))
        report("touches what it was not lent");
    unsigned long rounds = argc > 1 ? strtoul(argv[1], NULL, 10) : 0;
    unsigned many = 0;
    for (unsigned c = 0; c < CALLS; c++) {
        if (!is_named(calls[c].name, argc, argv))
            continue;
        many++;
        met[0] = met[1] = 0;
        for (unsigned long i = 0; i < rounds; i++)
            try_call(&calls[c]);
        if (!met[0] || !met[1])
            report("met no refusal, or no success");
    }
    if (argc == 2) {
        many += 5;
        for (unsigned long i = 0; i < 2 * rounds; i++)
            try_text(i % 2 != 0);
    }
    if (many == 0 || many < (unsigned)(argc - 2)) {
        puts("usage: exact ROUNDS [CALL...]");
        return 2;
    }
    printf("exact: %u calls answer alike with exactly lent memory, %zu cases\n", many, cases);
    return 0;
}
