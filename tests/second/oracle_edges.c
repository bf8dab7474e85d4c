/* Edge lists: rows 3 and 5 to 9, each over the whole list, and the tree of a right list. */
#include <string.h>

#include "oracle_parts.h"

struct row row_3(uint64_t n, uint64_t largest)
{
    return row_if(3, n == 0 || n > largest || n > most_vertices);
}

struct row row_5(uint64_t n, size_t len)
{
    bool right = n >= 1 && len % 2 == 0 && len / 2 == n - 1;
    return row_if(5, !right);
}

static bool is_vertex(uint64_t v, uint64_t n)
{
    return v >= 1 && v <= n;
}

struct row row_6(uint64_t n, const uint8_t *edges, size_t len, uint64_t root)
{
    if (!is_vertex(root, n))
        return row_at(6, 0);
    for (size_t e = 1; 2 * e <= len; e++)
        if (!is_vertex(edges[2 * e - 2], n) || !is_vertex(edges[2 * e - 1], n))
            return row_at(6, e);
    return row_none(6);
}

struct row row_7(const uint8_t *edges, size_t len)
{
    for (size_t e = 1; 2 * e <= len; e++)
        if (edges[2 * e - 2] == edges[2 * e - 1])
            return row_at(7, e);
    return row_none(7);
}

/* Searches from u along the first `count` edges until nothing new is reached. */
static bool joined_by(const uint8_t *edges, size_t count, uint8_t u, uint8_t v)
{
    bool reached[256] = {false};
    reached[u] = true;
    bool grew = true;
    while (grew) {
        grew = false;
        for (size_t e = 0; e < count; e++) {
            uint8_t a = edges[2 * e], b = edges[2 * e + 1];
            if (reached[a] != reached[b]) {
                reached[a] = reached[b] = true;
                grew = true;
            }
        }
    }
    return reached[v];
}

struct row row_8(const uint8_t *edges, size_t len)
{
    for (size_t e = 1; 2 * e <= len; e++)
        if (joined_by(edges, e - 1, edges[2 * e - 2], edges[2 * e - 1]))
            return row_at(8, e);
    return row_none(8);
}

static unsigned edges_at(const uint8_t *edges, size_t count, uint8_t v)
{
    unsigned met = 0;
    for (size_t e = 0; e < count; e++)
        met += edges[2 * e] == v || edges[2 * e + 1] == v;
    return met;
}

struct row row_9(unsigned limit, const uint8_t *edges, size_t len)
{
    for (size_t e = 1; 2 * e <= len; e++)
        if (edges_at(edges, e - 1, edges[2 * e - 2]) >= limit || edges_at(edges, e - 1, edges[2 * e - 1]) >= limit)
            return row_at(9, e);
    return row_none(9);
}

struct answer refuse_edges(uint64_t edition, uint64_t n, uint64_t largest, const uint8_t *edges, size_t len, uint64_t root)
{
    return LOWEST(row_22(edition), row_3(n, largest), row_5(n, len), row_6(n, edges, len, root), row_7(edges, len),
                  row_8(edges, len), row_9(limit_of(edition), edges, len));
}

struct answer oracle_check_edges(uint64_t edition, uint64_t n, const uint8_t *edges, size_t len, uint64_t root)
{
    return refuse_edges(edition, n, most_vertices, edges, len, root);
}

static void add_neighbour(struct tree *tree, unsigned u, unsigned v)
{
    tree->neighbour[u][tree->degree[u]++] = v;
}

struct tree tree_of(uint64_t n, const uint8_t *edges)
{
    struct tree tree;
    memset(&tree, 0, sizeof tree);
    tree.n = (unsigned)n;
    for (size_t e = 0; e + 1 < n; e++) {
        add_neighbour(&tree, edges[2 * e], edges[2 * e + 1]);
        add_neighbour(&tree, edges[2 * e + 1], edges[2 * e]);
    }
    return tree;
}

struct tree tree_of_code(const uint8_t *digits, size_t n)
{
    uint8_t edges[2 * most_vertices];
    edges_of_code(digits, n, edges);
    return tree_of(n, edges);
}

bool are_joined(const struct tree *tree, unsigned u, unsigned v)
{
    for (unsigned i = 0; i < tree->degree[u]; i++)
        if (tree->neighbour[u][i] == v)
            return true;
    return false;
}
