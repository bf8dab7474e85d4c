/* The calls on named atoms: a mark is a digit with its atom. */
#include "coder.h"
#define SHIFT 2
#include "judge.h"

/* The tree of an edge list with letters, and the atom of each vertex: rows 2, 3, 5, 21, 6 to 9, 20. */
static uint32_t named_read(struct tree *t, uint8_t *atom, uint64_t n, const uint8_t *edges, size_t len, const uint8_t *letters, size_t letters_len, uint64_t *place) {
    *place = 0;
    for (size_t i = 0; i < letters_len; i++)
        if (atom_of(letters[i]) == 3)
            return 2;
    if (n == 0 || n > SIZE)
        return 3;
    if (len != 2 * (n - 1))
        return 5;
    if (letters_len != n)
        return 21;
    uint32_t refused = tree_read(1, t, n, edges, len, 1, place);
    if (refused)
        return refused;
    int crowded = 0;
    for (unsigned v = 1; v <= n; v++) {
        atom[v] = (uint8_t)atom_of(letters[v - 1]);
        crowded |= t->degree[v] + atom[v] > 4;
    }
    if (!crowded)
        return 0;
    memset(t->degree, 0, sizeof t->degree);
    for (size_t i = 0;; i++)
        if (++t->degree[edges[i]] + atom[edges[i]] > 4) {
            *place = i / 2 + 1;
            return 20;
        }
}

/* The marks of the code at a root; in `mark` every digit is that of a vertex with a parent. */
static unsigned marks_rooted(const struct tree *t, uint8_t *mark, unsigned root, uint8_t *out) {
    uint8_t order[SIZE];
    unsigned looked = 0;
    mark[root] = (uint8_t)(mark[root] + 4);
    subtree(t, mark, root, 0, order, &looked);
    for (unsigned i = 0; i < t->n; i++)
        out[i] = mark[order[i]];
    mark[root] = (uint8_t)(mark[root] - 4);
    return looked;
}

uint32_t c_named_centred_code(size_t n, const uint8_t *edges, size_t len, const uint8_t *letters, size_t letters_len, uint8_t *out, size_t out_len, uint8_t *out_letters,
                              size_t out_letters_len, size_t *pairs) {
    struct tree t;
    uint8_t mark[SIZE + 1], one[SIZE], other[SIZE], *best = one;
    uint64_t place;
    unsigned first, second;
    *pairs = 0;
    uint32_t refused = named_read(&t, mark, n, edges, len, letters, letters_len, &place);
    if (refused)
        return answered(refused, place);
    if (out_len < n || out_letters_len < n)
        return answered(15, n);
    for (unsigned v = 1; v <= n; v++)
        mark[v] = (uint8_t)(4 * (t.degree[v] - 1) + mark[v]);
    centre(&t, &first, &second);
    *pairs = marks_rooted(&t, mark, first, one);
    if (first != second) {
        *pairs += marks_rooted(&t, mark, second, other);
        if (digits_compare(one, other, n) < 0)
            best = other;
    }
    for (unsigned i = 0; i < n; i++) {
        out[i] = best[i] >> 2;
        out_letters[i] = (uint8_t)"CNO"[best[i] & 3];
    }
    return answered(0, n);
}

/* The end of the run of bytes from `at` on that are digits; `*value` gets the number that they are, SIZE + 1 where it is larger. */
static size_t number_end(const uint8_t *t, size_t at, size_t *value) {
    size_t v = 0;
    for (; t[at] >= '0' && t[at] <= '9'; at++) {
        v = 10 * v + (t[at] - '0');
        if (v > SIZE)
            v = SIZE + 1;
    }
    *value = v;
    return at;
}

static uint32_t named_read_line(const uint8_t *t, size_t len, uint8_t *out, size_t out_len, uint8_t *out_letters, size_t letters_room, uint64_t *place) {
    uint8_t c[SIZE];
    size_t n, digits, kept, letters, at, from, count[3], tally[4] = {0};
    *place = 0;
    const uint8_t *feed = memchr(t, 10, len);
    if (!feed)
        return 1;
    /* no run goes beyond the line feed, which belongs to none */
    at = number_end(t, 0, &n);
    if (at == 0 || at > 2 || (at == 2 && t[0] == '0') || t[at] != ' ')
        return 2;
    for (from = ++at; t[at] >= '0' && t[at] <= '9'; at++)
        if (at - from < SIZE)
            c[at - from] = (uint8_t)(4 * (t[at] - '0'));
    digits = at - from;
    if (digits == 0 || t[at] != ' ')
        return 2;
    kept = digits < SIZE ? digits : SIZE;
    for (from = ++at;; at++) {
        unsigned atom = atom_of(t[at]);
        if (atom == 3)
            break;
        tally[atom]++;
        if (at - from < kept)
            c[at - from] = (uint8_t)(c[at - from] + atom);
    }
    letters = at - from;
    if (letters == 0)
        return 2;
    for (unsigned k = 0; k < 3; k++) {
        if (t[at] != ' ')
            return 2;
        from = ++at;
        at = number_end(t, at, &count[k]);
        if (at == from || (at > from + 1 && t[from] == '0'))
            return 2;
    }
    if (t + at != feed)
        return 2;
    if (n == 0 || n > SIZE)
        return 3;
    if (digits != n)
        return 5;
    if (letters != n || count[0] != tally[0] || count[1] != tally[1] || count[2] != tally[2])
        return 21;
    uint32_t refused = judge(4, c, n);
    if (refused)
        return refused == 14 ? 14 : why(4, c, n, place);
    *place = n;
    if (out_len < n || letters_room < n)
        return 15;
    for (size_t i = 0; i < n; i++) {
        out[i] = c[i] >> 2;
        out_letters[i] = (uint8_t)"CNO"[c[i] & 3];
    }
    return 0;
}

uint32_t c_named_read_line(const uint8_t *text, size_t len, uint8_t *out, size_t out_len, uint8_t *out_letters, size_t out_letters_len) {
    uint64_t place;
    uint32_t number = named_read_line(text, len, out, out_len, out_letters, out_letters_len, &place);
    return answered(number, place);
}
