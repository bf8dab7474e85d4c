/* Edge lists, and the codes of a tree. */
#include "coder.h"

static unsigned head(uint8_t *up, unsigned v) {
    while (up[v] != v) {
        up[v] = up[up[v]];
        v = up[v];
    }
    return v;
}

uint32_t tree_read(size_t edition, struct tree *t, uint64_t n, const uint8_t *edges, size_t len, uint64_t root, uint64_t *place) {
    uint8_t up[SIZE + 1];
    size_t joined = 0, full = 0;
    unsigned limit = limit_of(edition);
    *place = 0;
    if (limit == 0)
        return 22;
    if (n == 0 || n > SIZE)
        return 3;
    if (len != 2 * (n - 1))
        return 5;
    if (root == 0 || root > n)
        return 6;
    for (size_t i = 0; i < len; i++)
        if (edges[i] == 0 || edges[i] > n) {
            *place = i / 2 + 1;
            return 6;
        }
    t->n = (unsigned)n;
    memset(t->degree, 0, sizeof t->degree);
    for (unsigned v = 0; v <= n; v++)
        up[v] = (uint8_t)v;
    /* one pass: a loop is refused at once, the first edge of a ring and the first of a full vertex are kept until then */
    for (size_t p = 1; p < n; p++) {
        unsigned a = edges[2 * p - 2], b = edges[2 * p - 1];
        if (a == b) {
            *place = p;
            return 7;
        }
        unsigned x = head(up, a), y = head(up, b);
        if (x == y) {
            if (!joined)
                joined = p;
        } else
            up[y] = (uint8_t)x;
        if (t->degree[a] == limit || t->degree[b] == limit) {
            if (!full)
                full = p;
        } else {
            t->near[a][t->degree[a]++] = (uint8_t)b;
            t->near[b][t->degree[b]++] = (uint8_t)a;
        }
    }
    if (joined || full) {
        *place = joined ? joined : full;
        return joined ? 8 : 9;
    }
    return 0;
}

unsigned code_rooted(const struct tree *t, unsigned root, uint8_t *order, uint8_t *out) {
    uint8_t mark[SIZE + 1];
    unsigned looked = 0;
    for (unsigned v = 1; v <= SIZE; v++)
        mark[v] = (uint8_t)(t->degree[v] - 1);
    mark[root] = t->degree[root];
    subtree(t, mark, root, 0, order, &looked);
    for (unsigned i = 0; i < t->n; i++)
        out[i] = mark[order[i]];
    return looked;
}

unsigned code_centred(const struct tree *t, uint8_t *out) {
    uint8_t order[SIZE];
    unsigned first, second;
    centre(t, &first, &second);
    unsigned looked = code_rooted(t, first, order, out);
    if (first != second) {
        uint8_t other[SIZE];
        looked += code_rooted(t, second, order, other);
        if (digits_compare(out, other, t->n) < 0)
            memcpy(out, other, t->n);
    }
    return looked;
}

unsigned code_n_tuple(const struct tree *t, uint8_t *out) {
    uint8_t order[SIZE], other[SIZE];
    unsigned most = 0, any = 0, looked = 0;
    for (unsigned v = 1; v <= t->n; v++)
        if (t->degree[v] > most)
            most = t->degree[v];
    for (unsigned v = 1; v <= t->n; v++) {
        if (t->degree[v] != most)
            continue;
        looked += code_rooted(t, v, order, any ? other : out);
        if (any && digits_compare(out, other, t->n) < 0)
            memcpy(out, other, t->n);
        any = 1;
    }
    return looked;
}

/* An edge list and a lent output of `need` bytes: every row that can refuse. */
static uint32_t begin(size_t edition, struct tree *t, uint64_t n, const uint8_t *edges, size_t len, uint64_t root, size_t need, size_t out_len, uint64_t *place) {
    uint32_t refused = tree_read(edition, t, n, edges, len, root, place);
    if (refused)
        return refused;
    *place = need;
    return out_len < need ? 15 : 0;
}

uint32_t c_centred_code(size_t edition, size_t n, const uint8_t *edges, size_t len, uint8_t *out, size_t out_len, size_t *pairs) {
    struct tree t;
    uint64_t place;
    uint32_t refused = begin(edition, &t, n, edges, len, 1, n, out_len, &place);
    *pairs = refused ? 0 : code_centred(&t, out);
    return answered(refused, place);
}

uint32_t c_n_tuple_code(size_t edition, size_t n, const uint8_t *edges, size_t len, uint8_t *out, size_t out_len, size_t *pairs) {
    struct tree t;
    uint64_t place;
    uint32_t refused = begin(edition, &t, n, edges, len, 1, n, out_len, &place);
    *pairs = refused ? 0 : code_n_tuple(&t, out);
    return answered(refused, place);
}

/* Whether the child v of the root, whose part ends before b, cuts the code in two equal halves: what hangs at v, and the rest with the root's digit one less. */
static int halves(const uint8_t *code, unsigned n, unsigned v, unsigned b) {
    return 2 * (b - v) == n && code[v] + 1 == code[0] && digits_compare(code + v + 1, code + 1, v - 1) == 0 && digits_compare(code + 2 * v, code + b, n - b) == 0;
}

/* The class of each vertex of a centred code: one for two vertices that a renumbering of the skeleton onto itself carries to one another. Of two vertices but the root the
 * parents must be of one class and the parts equal; the root is like a child that cuts the code in two halves. */
static void classes(const uint8_t *code, unsigned n, uint8_t *out) {
    uint8_t up[SIZE], len[SIZE], above[SIZE], open[SIZE];
    unsigned depth = 0, top = 1;
    for (unsigned v = 0; v < n; v++) {
        up[v] = depth ? open[--depth] : 0;
        for (unsigned i = 0; i < code[v]; i++)
            open[depth++] = (uint8_t)v;
    }
    for (unsigned v = n; v-- > 0;) {
        unsigned end = v + 1;
        for (unsigned i = 0; i < code[v]; i++)
            end += len[end];
        len[v] = (uint8_t)(end - v);
    }
    out[0] = 1;
    for (unsigned v = 1; v < n; v++) {
        unsigned u = 1, k = above[v] = out[up[v]], m = len[v];
        if (up[v] == 0 && halves(code, n, v, v + m)) {
            out[v] = 1;
            continue;
        }
        while (u < v && !(above[u] == k && len[u] == m && digits_compare(code + u, code + v, m) == 0))
            u++;
        out[v] = u < v ? out[u] : (uint8_t)++top;
    }
}

uint32_t c_equal_vertices(size_t edition, size_t n, const uint8_t *edges, size_t len, uint8_t *out, size_t out_len, size_t *pairs) {
    struct tree t;
    uint8_t code[SIZE];
    uint64_t place;
    uint32_t refused = begin(edition, &t, n, edges, len, 1, n, out_len, &place);
    *pairs = 0;
    if (!refused) {
        *pairs = code_centred(&t, code);
        classes(code, (unsigned)n, out);
    }
    return answered(refused, place);
}

uint32_t c_same_skeleton(size_t edition, size_t n1, const uint8_t *e1, size_t l1, size_t n2, const uint8_t *e2, size_t l2, size_t *pairs) {
    struct tree a, b;
    uint8_t x[SIZE], y[SIZE];
    uint64_t place;
    *pairs = 0;
    uint32_t refused = tree_read(edition, &a, n1, e1, l1, 1, &place);
    if (refused)
        return answered(refused, place);
    refused = tree_read(edition, &b, n2, e2, l2, 1, &place);
    if (refused)
        return 65536 + answered(refused, place);
    if (n1 != n2)
        return 0;
    *pairs = code_centred(&a, x);
    *pairs += code_centred(&b, y);
    return digits_compare(x, y, n1) == 0;
}

/* The centred code with the vertex of each digit; of two middle vertices that both have it the root is the one of the lower number. */
static unsigned number_centred(const struct tree *t, uint8_t *order, uint8_t *out) {
    unsigned first, second;
    centre(t, &first, &second);
    if (first > second) {
        unsigned v = first;
        first = second;
        second = v;
    }
    unsigned looked = code_rooted(t, first, order, out);
    if (first != second) {
        uint8_t its[SIZE], other[SIZE];
        looked += code_rooted(t, second, its, other);
        if (digits_compare(out, other, t->n) < 0) {
            memcpy(out, other, t->n);
            memcpy(order, its, t->n);
        }
    }
    return looked;
}

uint32_t c_renumbering(size_t edition, size_t n1, const uint8_t *e1, size_t l1, size_t n2, const uint8_t *e2, size_t l2, uint8_t *out, size_t out_len, size_t *pairs) {
    struct tree a, b;
    uint8_t x[SIZE], y[SIZE], from[SIZE], to[SIZE];
    uint64_t place;
    *pairs = 0;
    uint32_t refused = tree_read(edition, &a, n1, e1, l1, 1, &place);
    if (refused)
        return answered(refused, place);
    refused = tree_read(edition, &b, n2, e2, l2, 1, &place);
    if (refused)
        return 65536 + answered(refused, place);
    if (n1 != n2)
        return 0;
    size_t looked = number_centred(&a, from, x);
    looked += number_centred(&b, to, y);
    int same = digits_compare(x, y, n1) == 0;
    if (same && out_len < n1)
        return 131072 + answered(15, n1);
    *pairs = looked;
    if (!same)
        return 0;
    for (size_t i = 0; i < n1; i++)
        out[from[i] - 1] = to[i];
    return (uint32_t)n1;
}

uint32_t c_check_renumbering(size_t edition, size_t n1, const uint8_t *e1, size_t l1, size_t n2, const uint8_t *e2, size_t l2, const uint8_t *map, size_t len) {
    struct tree a, b;
    uint64_t place;
    uint32_t refused = tree_read(edition, &a, n1, e1, l1, 1, &place);
    if (refused)
        return answered(refused, place);
    refused = tree_read(edition, &b, n2, e2, l2, 1, &place);
    if (refused)
        return 65536 + answered(refused, place);
    if (n1 != n2 || len != n1)
        return 131072 + answered(5, 0);
    for (size_t p = 0; p < len; p++) {
        if (map[p] == 0 || map[p] > n1)
            return 131072 + answered(18, p + 1);
        for (size_t q = 0; q < p; q++)
            if (map[q] == map[p])
                return 131072 + answered(18, p + 1);
    }
    for (size_t p = 1; p < n1; p++) {
        uint8_t u = map[e1[2 * p - 2] - 1], v = map[e1[2 * p - 1] - 1];
        size_t q = 0;
        while (q < l2 && !(e2[q] == u && e2[q + 1] == v) && !(e2[q] == v && e2[q + 1] == u))
            q += 2;
        if (q == l2)
            return 131072 + answered(19, p);
    }
    return 0;
}

uint32_t c_pack(size_t edition, size_t n, const uint8_t *edges, size_t len, size_t root, uint8_t *out, size_t out_len, size_t *pairs) {
    struct tree t;
    uint8_t order[SIZE], code[SIZE];
    uint64_t place;
    uint32_t refused = begin(edition, &t, n, edges, len, root, (2 * n + 6) / 8, out_len, &place);
    *pairs = 0;
    if (refused)
        return answered(refused, place);
    *pairs = code_rooted(&t, (unsigned)root, order, code);
    uint64_t held = 0;
    unsigned bits = 0, at = 0;
    for (unsigned i = 0; i < n; i++) {
        held = held << (code[i] + 1) | ((2u << code[i]) - 2);
        bits += code[i] + 1u;
        while (bits >= 8) {
            bits -= 8;
            out[at++] = (uint8_t)(held >> bits);
        }
    }
    if (bits)
        out[at] = (uint8_t)(held << (8 - bits));
    return answered(0, place);
}
