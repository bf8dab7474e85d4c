/* measure EDITION KIND check - N     both sides on the same inputs, whole and damaged, in each edition and in none: every answer and byte of output alike
 * measure EDITION KIND CALL WHO N    one call on TREES trees of N vertices; WHO is proved, c, or none (all but the call)
 * measure EDITION KIND graph6 - N    the same trees in graph6, one to a line
 * measure EDITION KIND pairs - N     how many pairs of digits are looked at on these trees
 *
 * A vertex may have as many neighbours as the edition allows, four or nine. KIND is random, where each new vertex hangs on a random earlier one with fewer; crowded, where it
 * hangs on a random one with fewer of the first 1 + N / 7 (in edition 1 1 + N / 2), which get nearly full; path, where it hangs on the last; star, as many paths from one vertex as it may have; or balanced,
 * where each vertex gets as many neighbours as it may have before the next one does. Then vertices get random numbers, edges a random order and a random direction. */
#include "careful.h"
#include <stdio.h>
#include <stdlib.h>
#include <string.h>
#include <zurkhovel.h>

enum { TREES = 500 };

struct input {
    unsigned n;
    uint8_t edges[ZK_EDGES], other[ZK_EDGES]; /* other: the same tree under other numbers for every even input, another tree for every odd one */
    uint8_t map[ZK_MAP]; /* from edges to other where they are the same tree, else each number once */
    uint8_t line[ZK_LINE];
    size_t line_len;
    uint8_t letters[ZK_LETTERS], named_line[ZK_NAMED_LINE + 1]; /* of edges: an atom for each vertex, C for half of them and where it has four neighbours */
    size_t named_len;
};
static struct input inputs[TREES];

/* what a call gave: the answer as zurkhovel.h has it, what it wrote, and the pairs of digits that it looked at */
struct result {
    uint32_t answer;
    uint8_t out[ZK_LINE], letters[ZK_LETTERS];
    size_t pairs;
};

static uint64_t state = 20011;

/* a random number below k */
static unsigned below(unsigned k) {
    state += 0x9e3779b97f4a7c15u;
    uint64_t z = state;
    z = (z ^ (z >> 30)) * 0xbf58476d1ce4e5b9u;
    z = (z ^ (z >> 27)) * 0x94d049bb133111ebu;
    return (unsigned)((z ^ (z >> 31)) % k);
}

static size_t edition;
static unsigned limit; /* how many neighbours a vertex may have in it */
static enum { RANDOM, CROWDED, PATH, STAR, BALANCED, KINDS } kind;
static const char *const kinds[KINDS] = {"random", "crowded", "path", "star", "balanced"};

/* the vertex that v hangs on, where the shape leaves no choice */
static unsigned hangs_on(unsigned v) {
    return kind == PATH ? v - 1 : v <= limit + 1 ? 1 : kind == STAR ? v - limit : (v - limit - 2) / (limit - 1) + 2;
}

static void grow(unsigned n, uint8_t *edges) {
    unsigned degree[SIZE + 1] = {0};
    for (unsigned v = 2; v <= n; v++) {
        unsigned u, few = n / (limit - 2) + 1, first = kind == CROWDED && v - 1 > few ? few : v - 1;
        do
            u = kind == RANDOM || kind == CROWDED ? 1 + below(first) : hangs_on(v);
        while (degree[u] == limit);
        degree[u]++;
        degree[v]++;
        edges[2 * v - 4] = (uint8_t)u;
        edges[2 * v - 3] = (uint8_t)v;
    }
}

static void swap(uint8_t *a, uint8_t *b) {
    uint8_t x = *a;
    *a = *b;
    *b = x;
}

static void shuffle(unsigned n, const uint8_t *from, uint8_t *edges) {
    uint8_t name[SIZE + 1];
    for (unsigned v = 1; v <= n; v++)
        name[v] = (uint8_t)v;
    for (unsigned v = n; v > 1; v--)
        swap(&name[v], &name[1 + below(v)]);
    for (unsigned i = 0; i < 2 * (n - 1); i++)
        edges[i] = name[from[i]];
    for (unsigned p = n - 1; p > 0; p--) {
        unsigned q = below(p);
        swap(&edges[2 * p - 2], &edges[2 * q]);
        swap(&edges[2 * p - 1], &edges[2 * q + 1]);
        if (below(2))
            swap(&edges[2 * p - 2], &edges[2 * p - 1]);
    }
}

/* the atoms of the first edge list, and its named line; in edition 2 it may have none */
static void name_atoms(struct input *x) {
    unsigned degree[SIZE + 1] = {0}, tally[3] = {0}, n = x->n;
    for (unsigned i = 0; i < 2 * (n - 1); i++)
        degree[x->edges[i]]++;
    for (unsigned v = 1; v <= n; v++) {
        unsigned atom = degree[v] > 3 || below(2) ? 0 : degree[v] == 3 || below(2) ? 1 : 2;
        x->letters[v - 1] = (uint8_t)"CNO"[atom];
        tally[atom]++;
    }
    uint8_t code[SIZE] = {0}, letters[SIZE];
    size_t pairs;
    memcpy(letters, x->letters, n);
    c_named_centred_code(n, x->edges, 2 * (n - 1), x->letters, n, code, SIZE, letters, SIZE, &pairs);
    for (unsigned i = 0; i < n; i++)
        code[i] = (uint8_t)(code[i] + '0');
    x->named_len = (size_t)snprintf((char *)x->named_line, sizeof x->named_line, "%u %.*s %.*s %u %u %u\n", n, (int)n, (char *)code, (int)n, (char *)letters, tally[0], tally[1], tally[2]);
}

static void make(struct input *x, unsigned n, int same) {
    uint8_t plain[ZK_EDGES];
    x->n = n;
    grow(n, plain);
    shuffle(n, plain, x->edges);
    if (!same)
        grow(n, plain);
    shuffle(n, plain, x->other);
    size_t pairs;
    for (unsigned v = 0; v < n; v++)
        x->map[v] = (uint8_t)(v + 1);
    c_renumbering(edition, n, x->edges, 2 * (n - 1), n, x->other, 2 * (n - 1), x->map, ZK_MAP, &pairs);
    uint32_t answer = c_write_line(edition, n, x->edges, 2 * (n - 1), x->line, ZK_LINE, &pairs);
    if (zk_refused(answer))
        exit(2);
    x->line_len = zk_place(answer);
}

/* ---- The calls, each by both sides ---- */

enum side { NONE, PROVED, PLAIN };

static void read_line(enum side s, const struct input *x, struct result *r) {
    if (s == PROVED)
        r->answer = zk_read_line_edition(edition, x->line, x->line_len, r->out, ZK_DIGITS);
    else if (s == PLAIN)
        r->answer = c_read_line(edition, x->line, x->line_len, r->out, ZK_DIGITS);
}

static void write_line(enum side s, const struct input *x, struct result *r) {
    if (s == PROVED)
        r->answer = zk_write_line_pairs(edition, x->n, x->edges, 2 * (x->n - 1), r->out, ZK_LINE, &r->pairs);
    else if (s == PLAIN)
        r->answer = c_write_line(edition, x->n, x->edges, 2 * (x->n - 1), r->out, ZK_LINE, &r->pairs);
}

static void centred(enum side s, const struct input *x, struct result *r) {
    if (s == PROVED)
        r->answer = zk_centred_code_pairs(edition, x->n, x->edges, 2 * (x->n - 1), r->out, ZK_DIGITS, &r->pairs);
    else if (s == PLAIN)
        r->answer = c_centred_code(edition, x->n, x->edges, 2 * (x->n - 1), r->out, ZK_DIGITS, &r->pairs);
}

static void n_tuple(enum side s, const struct input *x, struct result *r) {
    if (s == PROVED)
        r->answer = zk_n_tuple_code_pairs(edition, x->n, x->edges, 2 * (x->n - 1), r->out, ZK_DIGITS, &r->pairs);
    else if (s == PLAIN)
        r->answer = c_n_tuple_code(edition, x->n, x->edges, 2 * (x->n - 1), r->out, ZK_DIGITS, &r->pairs);
}

static void verdict(enum side s, const struct input *x, struct result *r) {
    if (s == PROVED)
        r->answer = zk_same_skeleton_pairs(edition, x->n, x->edges, 2 * (x->n - 1), x->n, x->other, 2 * (x->n - 1), &r->pairs);
    else if (s == PLAIN)
        r->answer = c_same_skeleton(edition, x->n, x->edges, 2 * (x->n - 1), x->n, x->other, 2 * (x->n - 1), &r->pairs);
}

static void packed(enum side s, const struct input *x, struct result *r) {
    if (s == PROVED)
        r->answer = zk_pack_pairs(edition, x->n, x->edges, 2 * (x->n - 1), 1, r->out, ZK_PACKED, &r->pairs);
    else if (s == PLAIN)
        r->answer = c_pack(edition, x->n, x->edges, 2 * (x->n - 1), 1, r->out, ZK_PACKED, &r->pairs);
}

static void equal_vertices(enum side s, const struct input *x, struct result *r) {
    if (s == PROVED)
        r->answer = zk_equal_vertices_pairs(edition, x->n, x->edges, 2 * (x->n - 1), r->out, ZK_DIGITS, &r->pairs);
    else if (s == PLAIN)
        r->answer = c_equal_vertices(edition, x->n, x->edges, 2 * (x->n - 1), r->out, ZK_DIGITS, &r->pairs);
}

static void renumbering(enum side s, const struct input *x, struct result *r) {
    if (s == PROVED)
        r->answer = zk_renumbering_pairs(edition, x->n, x->edges, 2 * (x->n - 1), x->n, x->other, 2 * (x->n - 1), r->out, ZK_MAP, &r->pairs);
    else if (s == PLAIN)
        r->answer = c_renumbering(edition, x->n, x->edges, 2 * (x->n - 1), x->n, x->other, 2 * (x->n - 1), r->out, ZK_MAP, &r->pairs);
}

static void judged(enum side s, const struct input *x, struct result *r) {
    if (s == PROVED)
        r->answer = zk_check_renumbering(edition, x->n, x->edges, 2 * (x->n - 1), x->n, x->other, 2 * (x->n - 1), x->map, x->n);
    else if (s == PLAIN)
        r->answer = c_check_renumbering(edition, x->n, x->edges, 2 * (x->n - 1), x->n, x->other, 2 * (x->n - 1), x->map, x->n);
}

static void named_centred(enum side s, const struct input *x, struct result *r) {
    if (s == PROVED)
        r->answer = zk_named_centred_code(x->n, x->edges, 2 * (x->n - 1), x->letters, x->n, r->out, ZK_DIGITS, r->letters, ZK_LETTERS, &r->pairs);
    else if (s == PLAIN)
        r->answer = c_named_centred_code(x->n, x->edges, 2 * (x->n - 1), x->letters, x->n, r->out, ZK_DIGITS, r->letters, ZK_LETTERS, &r->pairs);
}

static void named_read_line(enum side s, const struct input *x, struct result *r) {
    if (s == PROVED)
        r->answer = zk_named_read_line(x->named_line, x->named_len, r->out, ZK_DIGITS, r->letters, ZK_LETTERS);
    else if (s == PLAIN)
        r->answer = c_named_read_line(x->named_line, x->named_len, r->out, ZK_DIGITS, r->letters, ZK_LETTERS);
}

static const struct call {
    const char *name;
    void (*run)(enum side, const struct input *, struct result *);
} calls[] = {{"read_line", read_line}, {"write_line", write_line}, {"centred_code", centred}, {"n_tuple_code", n_tuple}, {"verdict", verdict}, {"packed", packed}, {"renumbering", renumbering}, {"judged", judged}, {"equal_vertices", equal_vertices},
           {"named_centred_code", named_centred}, {"named_read_line", named_read_line}};
enum { CALLS = sizeof calls / sizeof *calls };

/* ---- What the program does ---- */

static unsigned refused;

static void compare(const struct input *x) {
    for (unsigned c = 0; c < CALLS; c++) {
        struct result a = {0}, b = {0};
        calls[c].run(PROVED, x, &a);
        calls[c].run(PLAIN, x, &b);
        if (a.answer != b.answer || a.pairs != b.pairs || memcmp(a.out, b.out, ZK_LINE) != 0 || memcmp(a.letters, b.letters, ZK_LETTERS) != 0) {
            printf("%s: %u with %zu pairs, and %u with %zu in C, or the outputs differ\n", calls[c].name, a.answer, a.pairs, b.answer, b.pairs);
            exit(1);
        }
        refused += zk_refused(a.answer) != 0;
    }
}

/* The same in the other editions: both sides refuse much of it. */
static void compare_elsewhere(const struct input *x) {
    const size_t others[] = {0, 1, 2, 3, SIZE_MAX}, named = edition;
    for (unsigned i = 0; i < sizeof others / sizeof *others; i++) {
        edition = others[i];
        compare(x);
    }
    edition = named;
}

static void check(void) {
    for (int i = 0; i < TREES; i++) {
        compare(&inputs[i]);
        compare_elsewhere(&inputs[i]);
        for (int j = 0; j < 20; j++) {
            struct input x = inputs[i];
            x.edges[below(2 * (x.n - 1))] = (uint8_t)below(x.n + 2);
            x.map[below(x.n)] = (uint8_t)below(x.n + 2);
            x.line[below((unsigned)x.line_len)] = (uint8_t)(j % 5 ? '0' + below(limit + 1) : below(256));
            x.letters[below(x.n)] = (uint8_t)"CNOX"[j % 7 ? below(3) : 3];
            uint8_t *mark = &x.named_line[below((unsigned)x.named_len)];
            if (j % 2)
                *mark = j % 3 ? (uint8_t)"0123 CNO\n"[below(9)] : (uint8_t)below(256);
            else /* the counts may still match */
                swap(mark, &x.named_line[below((unsigned)x.named_len)]);
            compare(&x);
        }
    }
    if (refused == 0)
        exit(1);
    printf("edition %zu, %d %s trees of %u vertices, whole and with 20 damages each: both sides answer alike, %u refusals among them\n", edition, TREES, kinds[kind], inputs[0].n, refused);
}

static void measure(const char *name, const char *who) {
    enum side s = strcmp(who, "proved") == 0 ? PROVED : strcmp(who, "c") == 0 ? PLAIN : NONE;
    uint64_t sum = 0;
    for (unsigned c = 0; c < CALLS; c++) {
        if (strcmp(calls[c].name, name) != 0)
            continue;
        for (int i = 0; i < TREES; i++) {
            struct result r = {0};
            calls[c].run(s, &inputs[i], &r);
            sum += r.answer + r.out[0] + r.letters[0] + r.pairs;
        }
    }
    printf("%llu\n", (unsigned long long)sum);
}

/* graph6: the size, and the upper triangle of the adjacency matrix by columns, six bits to a byte */
static void graph6(const struct input *x) {
    static uint8_t joined[SIZE + 1][SIZE + 1];
    unsigned held = 0, bits = 0;
    memset(joined, 0, sizeof joined);
    for (unsigned p = 0; p + 1 < x->n; p++)
        joined[x->edges[2 * p]][x->edges[2 * p + 1]] = joined[x->edges[2 * p + 1]][x->edges[2 * p]] = 1;
    if (x->n > 62)
        printf("~?%c%c", 63 + x->n / 64, 63 + x->n % 64);
    else
        putchar((int)(63 + x->n));
    for (unsigned v = 2; v <= x->n; v++)
        for (unsigned u = 1; u < v; u++) {
            held = 2 * held + joined[u][v];
            if (++bits == 6) {
                putchar((int)(63 + held));
                held = bits = 0;
            }
        }
    if (bits)
        putchar((int)(63 + (held << (6 - bits))));
    putchar('\n');
}

/* The pairs looked at on all trees: the mean and the most of the rooted code at vertex 1, of the centred and of the N-tuple code, and the bound for one root. */
static void pairs(void) {
    unsigned n = inputs[0].n, log2 = 0;
    while (n >> (log2 + 1))
        log2++;
    size_t sum[3] = {0}, most[3] = {0};
    for (int i = 0; i < TREES; i++) {
        const struct input *x = &inputs[i];
        uint8_t out[ZK_DIGITS];
        size_t looked[3];
        zk_rooted_code_pairs(edition, n, x->edges, 2 * (n - 1), 1, out, ZK_DIGITS, &looked[0]);
        zk_centred_code_pairs(edition, n, x->edges, 2 * (n - 1), out, ZK_DIGITS, &looked[1]);
        zk_n_tuple_code_pairs(edition, n, x->edges, 2 * (n - 1), out, ZK_DIGITS, &looked[2]);
        for (int k = 0; k < 3; k++) {
            sum[k] += looked[k];
            most[k] = looked[k] > most[k] ? looked[k] : most[k];
        }
    }
    printf("%3u", n);
    for (int k = 0; k < 3; k++)
        printf(" %8.1f %6zu", (double)sum[k] / TREES, most[k]);
    printf(" %6u\n", (limit - 1) * n * log2);
}

int main(int argc, char **argv) {
    if (argc != 6)
        return 2;
    edition = strtoul(argv[1], NULL, 10);
    limit = limit_of(edition);
    while (kind < KINDS && strcmp(argv[2], kinds[kind]) != 0)
        kind++;
    unsigned n = (unsigned)atoi(argv[5]);
    if (limit == 0 || kind == KINDS || n < 2 || n > SIZE)
        return 2;
    for (int i = 0; i < TREES; i++)
        make(&inputs[i], n, i % 2 == 0);
    for (int i = 0; i < TREES; i++)
        name_atoms(&inputs[i]);
    if (strcmp(argv[3], "check") == 0)
        check();
    else if (strcmp(argv[3], "pairs") == 0)
        pairs();
    else if (strcmp(argv[3], "graph6") == 0)
        for (int i = 0; i < TREES; i++)
            graph6(&inputs[i]);
    else
        measure(argv[3], argv[4]);
    return 0;
}
