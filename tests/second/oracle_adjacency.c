/* CAM, 0A and A0: in the caller's numbering, by the centred code's numbering, and back. */
#include "oracle_parts.h"

enum { cam_limit = most_vertices, limit_0a = 21, limit_a0 = 11 };

/* ---- Writing ---- */

static unsigned lower_neighbours(const struct tree *tree, unsigned v)
{
    unsigned count = 0;
    for (unsigned u = 1; u < v; u++)
        count += are_joined(tree, u, v);
    return count;
}

static struct row row_14_physical(const struct tree *tree)
{
    for (unsigned v = 2; v <= tree->n; v++)
        if (lower_neighbours(tree, v) != 1)
            return row_at(14, v);
    return row_none(14);
}

/* CAM(i), i from 1: the lower neighbour of vertex i+1. */
static unsigned cam_entry(const struct tree *tree, unsigned i)
{
    for (unsigned u = 1; u <= i; u++)
        if (are_joined(tree, u, i + 1))
            return u;
    return 0;
}

/* X(i) = CAM(i+1), i = 1 to N-2: begin with 0, multiply by i+1 and add X(i)-1. */
static uint64_t value_0a(const struct tree *tree)
{
    uint64_t value = 0;
    for (unsigned i = 1; i + 2 <= tree->n; i++)
        value = value * (i + 1) + (cam_entry(tree, i + 1) - 1);
    return value;
}

static uint64_t value_a0(const struct tree *tree)
{
    uint64_t value = 0;
    for (unsigned i = 1; i + 1 <= tree->n; i++) {
        uint64_t bin = 0;
        for (unsigned r = 1; r <= i; r++)
            if (are_joined(tree, r, i + 1))
                bin += (uint64_t)1 << (r - 1);
        value = (value << i) + bin;
    }
    return value;
}

/* The tree in the caller's numbering, with row 14 where the form asks for a physical one. */
static struct answer as_given(uint64_t edition, uint64_t n, uint64_t largest, const uint8_t *edges, size_t len,
                              bool physical, struct tree *tree)
{
    struct answer refusal = refuse_edges(edition, n, largest, edges, len, no_root);
    if (refusal.number != 0)
        return refusal;
    *tree = tree_of(n, edges);
    return physical ? LOWEST(row_14_physical(tree)) : refusal;
}

static struct answer by_code(uint64_t edition, uint64_t n, uint64_t largest, const uint8_t *edges, size_t len,
                             struct tree *tree)
{
    struct answer refusal = refuse_edges(edition, n, largest, edges, len, no_root);
    if (refusal.number != 0)
        return refusal;
    struct tree given = tree_of(n, edges);
    struct code code = centred_code(&given);
    *tree = tree_of_code(code.digit, code.length);
    return telling(refusal, code.pairs);
}

static struct answer deliver_cam(struct answer refusal, const struct tree *tree, uint8_t *out, size_t room)
{
    if (refusal.number != 0)
        return refusal;
    uint8_t cam[most_vertices];
    for (unsigned i = 1; i < tree->n; i++)
        cam[i - 1] = (uint8_t)cam_entry(tree, i);
    return deliver(refusal, cam, tree->n - 1, out, room);
}

struct answer oracle_cam(uint64_t edition, uint64_t n, const uint8_t *edges, size_t len, uint8_t *out, size_t room)
{
    struct tree tree;
    return deliver_cam(as_given(edition, n, cam_limit, edges, len, true, &tree), &tree, out, room);
}

struct answer oracle_cam_by_code(uint64_t edition, uint64_t n, const uint8_t *edges, size_t len, uint8_t *out, size_t room)
{
    struct tree tree;
    struct answer refusal = by_code(edition, n, cam_limit, edges, len, &tree);
    return telling(deliver_cam(refusal, &tree, out, room), refusal.pairs);
}

struct answer oracle_zero_a(uint64_t edition, uint64_t n, const uint8_t *edges, size_t len, uint64_t *value)
{
    struct tree tree;
    struct answer refusal = as_given(edition, n, limit_0a, edges, len, true, &tree);
    if (refusal.number == 0)
        *value = value_0a(&tree);
    return refusal;
}

struct answer oracle_zero_a_by_code(uint64_t edition, uint64_t n, const uint8_t *edges, size_t len, uint64_t *value)
{
    struct tree tree;
    struct answer refusal = by_code(edition, n, limit_0a, edges, len, &tree);
    if (refusal.number == 0)
        *value = value_0a(&tree);
    return refusal;
}

struct answer oracle_a_zero(uint64_t edition, uint64_t n, const uint8_t *edges, size_t len, uint64_t *value)
{
    struct tree tree;
    struct answer refusal = as_given(edition, n, limit_a0, edges, len, false, &tree);
    if (refusal.number == 0)
        *value = value_a0(&tree);
    return refusal;
}

struct answer oracle_a_zero_by_code(uint64_t edition, uint64_t n, const uint8_t *edges, size_t len, uint64_t *value)
{
    struct tree tree;
    struct answer refusal = by_code(edition, n, limit_a0, edges, len, &tree);
    if (refusal.number == 0)
        *value = value_a0(&tree);
    return refusal;
}

/* ---- Reading ---- */

static struct row row_5_cam(uint64_t n, size_t len)
{
    return row_if(5, n == 0 || len != n - 1);
}

static struct row row_6_cam(const uint8_t *cam, size_t len)
{
    for (size_t i = 1; i <= len; i++)
        if (cam[i - 1] == 0 || cam[i - 1] > i)
            return row_at(6, i);
    return row_none(6);
}

/* Entry i makes edge i, (CAM(i), i+1). Entries beyond the largest skeleton are left out: 3 or 5 is met. */
static size_t edges_of_cam(const uint8_t *cam, size_t len, uint8_t *edges)
{
    size_t count = len < most_vertices ? len : most_vertices - 1;
    for (size_t i = 1; i <= count; i++) {
        edges[2 * i - 2] = cam[i - 1];
        edges[2 * i - 1] = (uint8_t)(i + 1);
    }
    return 2 * count;
}

struct answer oracle_decode_cam(uint64_t edition, uint64_t n, const uint8_t *cam, size_t len, uint8_t *out, size_t room)
{
    uint8_t edges[2 * most_vertices];
    size_t length = edges_of_cam(cam, len, edges);
    struct answer refusal = LOWEST(row_22(edition), row_3(n, cam_limit), row_5_cam(n, len), row_6_cam(cam, len),
                                   row_8(edges, length), row_9(limit_of(edition), edges, length));
    return deliver(refusal, edges, length, out, room);
}

static uint64_t factorial(uint64_t k)
{
    return k == 0 ? 1 : k * factorial(k - 1);
}

static struct row row_4_0a(uint64_t n, uint64_t value)
{
    bool has_range = n >= 1 && n <= limit_0a;
    return row_if(4, has_range && value > factorial(n - 1) - 1);
}

struct answer oracle_decode_zero_a(uint64_t edition, uint64_t n, uint64_t value, uint8_t *out, size_t room)
{
    uint8_t cam[limit_0a] = {1};
    size_t entries = n >= 1 && n <= limit_0a ? (size_t)n - 1 : 0;
    uint64_t left = value;
    for (size_t i = entries; i >= 2; i--) {
        cam[i - 1] = (uint8_t)(left % i + 1);
        left /= i;
    }
    uint8_t edges[2 * most_vertices];
    size_t length = edges_of_cam(cam, entries, edges);
    struct answer refusal = LOWEST(row_22(edition), row_3(n, limit_0a), row_4_0a(n, value), row_8(edges, length),
                                   row_9(limit_of(edition), edges, length));
    return deliver(refusal, edges, length, out, room);
}

static struct row row_4_a0(uint64_t n, uint64_t value)
{
    bool has_range = n >= 1 && n <= limit_a0;
    return row_if(4, has_range && value >= (uint64_t)1 << (n * (n - 1) / 2));
}

/* The power of 2 that stands in A0 for the edge (r, i+1): r-1 in its column, and all later columns. */
static unsigned power_a0(unsigned n, unsigned r, unsigned i)
{
    unsigned power = r - 1;
    for (unsigned later = i + 1; later <= n - 1; later++)
        power += later;
    return power;
}

/* An A0 in its range can have up to 55 ones; its edges go by column, rows ascending. */
struct answer oracle_decode_a_zero(uint64_t edition, uint64_t n, uint64_t value, uint8_t *out, size_t room)
{
    uint8_t edges[2 * 64];
    size_t ones = 0;
    bool has_edges = n >= 1 && n <= limit_a0;
    for (unsigned i = 1; has_edges && i + 1 <= n; i++)
        for (unsigned r = 1; r <= i; r++)
            if (value >> power_a0((unsigned)n, r, i) & 1u) {
                edges[2 * ones] = (uint8_t)r;
                edges[2 * ones + 1] = (uint8_t)(i + 1);
                ones++;
            }
    struct answer refusal = LOWEST(row_22(edition), row_3(n, limit_a0), row_4_a0(n, value), row_if(5, ones + 1 != n),
                                   row_8(edges, 2 * ones), row_9(limit_of(edition), edges, 2 * ones));
    return deliver(refusal, edges, 2 * ones, out, room);
}
