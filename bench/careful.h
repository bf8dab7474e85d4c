/* A careful C implementation of eleven of the library's calls, as a C programmer would ship it: the same inputs, the same checks, the same answer
 * in one whole number. A function that only looks returns the refusal number, 0 for none, and has `*place` for its place. The edition comes first in every call; what is
 * below takes the limit, how many neighbours a vertex may have. */
#ifndef CAREFUL_H
#define CAREFUL_H

#include <stddef.h>
#include <stdint.h>

enum { SIZE = 64, WIDTH = 9 };

/* The limit of an edition, 0 where there is no such edition. */
static inline unsigned limit_of(size_t edition) {
    return edition == 1 ? 4 : edition == 2 ? 9 : 0;
}

/* A checked skeleton: vertices from 1, each with its neighbours. */
struct tree {
    unsigned n;
    uint8_t degree[SIZE + 1];
    uint8_t near[SIZE + 1][WIDTH];
};

/* The atom of a letter: 0, 1 and 2 for C, N and O, so it may have 4 less that many neighbours; 3 for any other byte. With a named atom a vertex has the mark 4 times its
 * digit plus the atom. */
static inline unsigned atom_of(uint8_t letter) {
    static const uint8_t below[256] = {['C'] = 3, ['N'] = 2, ['O'] = 1};
    return 3u - below[letter];
}

/* The tree of an edge list: rows 22, 3 and 5 to 9. */
uint32_t tree_read(size_t edition, struct tree *t, uint64_t n, const uint8_t *edges, size_t len, uint64_t root, uint64_t *place);

/* Dictionary order of two runs of n digits. They mostly differ early, so a call of memcmp would cost more. */
static inline int digits_compare(const uint8_t *a, const uint8_t *b, size_t n) {
    for (size_t i = 0; i < n; i++)
        if (a[i] != b[i])
            return a[i] < b[i] ? -1 : 1;
    return 0;
}

/* Codes of a tree, n digits each. `order` gets the vertex of each digit of the rooted code; the answer is how many pairs of marks were looked at, where every two
 * siblings were compared once, over all roots. */
unsigned code_rooted(const struct tree *t, unsigned root, uint8_t *order, uint8_t *out);
unsigned code_centred(const struct tree *t, uint8_t *out);
unsigned code_n_tuple(const struct tree *t, uint8_t *out);

/* A call's answer: 256 times the refusal number plus the place. */
static inline uint32_t answered(uint32_t number, uint64_t place) {
    return number << 8 | (uint32_t)place;
}

/* The calls. `*pairs` gets the pairs looked at, 0 with a refusal. */
uint32_t c_read_line(size_t edition, const uint8_t *text, size_t len, uint8_t *out, size_t out_len);
uint32_t c_write_line(size_t edition, size_t n, const uint8_t *edges, size_t len, uint8_t *out, size_t out_len, size_t *pairs);
uint32_t c_centred_code(size_t edition, size_t n, const uint8_t *edges, size_t len, uint8_t *out, size_t out_len, size_t *pairs);
uint32_t c_n_tuple_code(size_t edition, size_t n, const uint8_t *edges, size_t len, uint8_t *out, size_t out_len, size_t *pairs);
uint32_t c_same_skeleton(size_t edition, size_t n1, const uint8_t *e1, size_t l1, size_t n2, const uint8_t *e2, size_t l2, size_t *pairs);
uint32_t c_renumbering(size_t edition, size_t n1, const uint8_t *e1, size_t l1, size_t n2, const uint8_t *e2, size_t l2, uint8_t *out, size_t out_len, size_t *pairs);
uint32_t c_check_renumbering(size_t edition, size_t n1, const uint8_t *e1, size_t l1, size_t n2, const uint8_t *e2, size_t l2, const uint8_t *map, size_t len);
uint32_t c_equal_vertices(size_t edition, size_t n, const uint8_t *edges, size_t len, uint8_t *out, size_t out_len, size_t *pairs);
uint32_t c_pack(size_t edition, size_t n, const uint8_t *edges, size_t len, size_t root, uint8_t *out, size_t out_len, size_t *pairs);

/* The calls on named atoms, which are of edition 1. */
uint32_t c_named_centred_code(size_t n, const uint8_t *edges, size_t len, const uint8_t *letters, size_t letters_len, uint8_t *out, size_t out_len, uint8_t *out_letters,
                              size_t out_letters_len, size_t *pairs);
uint32_t c_named_read_line(const uint8_t *text, size_t len, uint8_t *out, size_t out_len, uint8_t *out_letters, size_t out_letters_len);

#endif
