/* Renumberings as maps: the one that is handed out, and a partner's own judged. */
#include <string.h>

#include "oracle_parts.h"

/* ---- The one that is handed out ---- */

/* The vertices of what hangs at a vertex in the order of its code's digits. Of children with equal codes the one
 * whose edge is listed first goes first: neighbours stand in the order of the edges. */
static void write_order(const struct tree *tree, unsigned vertex, unsigned parent, uint8_t *order, unsigned *count)
{
    bool written[most_neighbours] = {false};
    order[(*count)++] = (uint8_t)vertex;
    for (;;) {
        int next = -1;
        struct code best = {.length = 0};
        for (unsigned i = 0; i < tree->degree[vertex]; i++) {
            unsigned child = tree->neighbour[vertex][i];
            if (child == parent || written[i])
                continue;
            struct code code = part_code(tree, child, vertex);
            if (next < 0 || larger(&code, &best))
                next = (int)i, best = code;
        }
        if (next < 0)
            return;
        written[next] = true;
        write_order(tree, tree->neighbour[vertex][next], vertex, order, count);
    }
}

/* The middle vertex with the centred code; where both have it, the one of the lower number. */
static unsigned root_of(const struct tree *tree)
{
    unsigned middle[2];
    centre(tree, middle);
    unsigned low = middle[0] < middle[1] ? middle[0] : middle[1], high = middle[0] + middle[1] - low;
    struct code at_low = rooted_code(tree, low), at_high = rooted_code(tree, high);
    return larger(&at_high, &at_low) ? high : low;
}

void map_between(const struct tree *one, const struct tree *other, uint8_t *map)
{
    uint8_t from[most_vertices], to[most_vertices];
    unsigned count = 0, same = 0;
    write_order(one, root_of(one), 0, from, &count);
    write_order(other, root_of(other), 0, to, &same);
    for (unsigned i = 0; i < count; i++)
        map[from[i] - 1] = to[i];
}

/* The refusal of one of two lists, with its list; number 0 where there is none. */
static struct answer refuse_lists(uint64_t edition, uint64_t n1, const uint8_t *e1, size_t l1, uint64_t n2, const uint8_t *e2,
                                  size_t l2)
{
    struct answer first = oracle_check_edges(edition, n1, e1, l1, no_root);
    struct answer second = oracle_check_edges(edition, n2, e2, l2, no_root);
    if (first.number != 0)
        return first;
    second.lists_before = second.number != 0;
    return second;
}

struct answer of_map(struct answer answer)
{
    if (answer.number != 0)
        answer.lists_before = 2;
    return answer;
}

struct answer oracle_renumbering(uint64_t edition, uint64_t n1, const uint8_t *e1, size_t l1, uint64_t n2, const uint8_t *e2, size_t l2,
                                 uint8_t *out, size_t room)
{
    struct answer refusal = refuse_lists(edition, n1, e1, l1, n2, e2, l2), none = {.number = 0};
    if (refusal.number != 0)
        return refusal;
    struct answer verdict = oracle_same_skeleton(edition, n1, e1, l1, n2, e2, l2);
    if (verdict.place == 0)
        return telling(none, verdict.pairs);
    struct tree one = tree_of(n1, e1), other = tree_of(n2, e2);
    uint8_t map[most_vertices];
    map_between(&one, &other, map);
    return of_map(telling(deliver(none, map, n1, out, room), verdict.pairs));
}

/* ---- A partner's own ---- */

struct row row_18(uint64_t n, const uint8_t *map, size_t len)
{
    for (size_t p = 1; p <= len; p++) {
        if (map[p - 1] == 0 || map[p - 1] > n)
            return row_at(18, p);
        for (size_t q = 1; q < p; q++)
            if (map[q - 1] == map[p - 1])
                return row_at(18, p);
    }
    return row_none(18);
}

/* Whether an edge of a list has these ends, either way round. */
static bool has_edge(const uint8_t *edges, size_t len, unsigned u, unsigned v)
{
    for (size_t e = 0; e + 1 < len; e += 2)
        if ((edges[e] == u && edges[e + 1] == v) || (edges[e] == v && edges[e + 1] == u))
            return true;
    return false;
}

/* Where a map sends a vertex; to none where it has no such entry. */
static unsigned sent(const uint8_t *map, size_t len, unsigned v)
{
    return v >= 1 && v <= len ? map[v - 1] : 0;
}

struct row row_19(const uint8_t *e1, size_t l1, const uint8_t *e2, size_t l2, const uint8_t *map, size_t len)
{
    for (size_t e = 1; 2 * e <= l1; e++)
        if (!has_edge(e2, l2, sent(map, len, e1[2 * e - 2]), sent(map, len, e1[2 * e - 1])))
            return row_at(19, e);
    return row_none(19);
}

struct answer oracle_check_renumbering(uint64_t edition, uint64_t n1, const uint8_t *e1, size_t l1, uint64_t n2, const uint8_t *e2, size_t l2,
                                       const uint8_t *map, size_t len)
{
    struct answer refusal = refuse_lists(edition, n1, e1, l1, n2, e2, l2);
    if (refusal.number != 0)
        return refusal;
    return of_map(LOWEST(row_if(5, n1 != n2 || len != n1), row_18(n1, map, len), row_19(e1, l1, e2, l2, map, len)));
}
