/* Equal vertices, in the centred code's numbering: two are in one class when some renumbering that keeps all edges
 * carries one to the other; atoms are kept too. Small skeletons are told by trying renumberings; larger ones by the codes at the two
 * vertices as roots, which are equal exactly then. */
#include "oracle_parts.h"

enum { most_tried = 9 };

/* A renumbering under way: the images of the vertices up to `given`. */
struct trial {
    const struct tree *tree;
    unsigned from, to; /* the vertex that must be carried, and where to */
    unsigned image[most_vertices + 1];
    bool used[most_vertices + 1];
};

/* Whether w may be the image of v: unused, and joined to the images before as v is to their vertices. */
static bool fits(const struct trial *trial, unsigned v, unsigned w)
{
    if (trial->used[w] || (v == trial->from) != (w == trial->to) || trial->tree->atom[v] != trial->tree->atom[w])
        return false;
    for (unsigned u = 1; u < v; u++)
        if (are_joined(trial->tree, u, v) != are_joined(trial->tree, trial->image[u], w))
            return false;
    return true;
}

/* Whether the images of the vertices before v can be completed. */
static bool completes(struct trial *trial, unsigned v)
{
    if (v > trial->tree->n)
        return true;
    for (unsigned w = 1; w <= trial->tree->n; w++) {
        if (!fits(trial, v, w))
            continue;
        trial->image[v] = w;
        trial->used[w] = true;
        if (completes(trial, v + 1))
            return true;
        trial->used[w] = false;
    }
    return false;
}

static bool some_renumbering(const struct tree *tree, unsigned u, unsigned v)
{
    struct trial trial = {.tree = tree, .from = u, .to = v};
    return completes(&trial, 1);
}

/* Whether u is carried to v; `at` has the code at each vertex of a skeleton that is too large for trying. */
static bool carried(const struct tree *tree, const struct code *at, unsigned u, unsigned v)
{
    if (tree->n <= most_tried)
        return some_renumbering(tree, u, v);
    return same_code(&at[u], &at[v]);
}

void classes_in(const struct tree *tree, uint8_t *class)
{
    struct code at[most_vertices + 1];
    for (unsigned v = 1; v <= tree->n && tree->n > most_tried; v++)
        at[v] = rooted_code(tree, v);

    uint8_t first[most_vertices]; /* the first vertex of each class */
    uint8_t classes = 0;
    for (unsigned v = 1; v <= tree->n; v++) {
        uint8_t k = 0;
        while (k < classes && !carried(tree, at, first[k], v))
            k++;
        if (k == classes)
            first[classes++] = (uint8_t)v;
        class[v - 1] = k + 1;
    }
}

struct answer oracle_equal_vertices(uint64_t edition, uint64_t n, const uint8_t *edges, size_t len, uint8_t *out, size_t room)
{
    struct answer refusal = oracle_check_edges(edition, n, edges, len, no_root);
    if (refusal.number != 0)
        return refusal;
    struct tree as_lent = tree_of(n, edges);
    struct code code = centred_code(&as_lent);
    struct tree tree = tree_of_code(code.digit, code.length);
    uint8_t class[most_vertices];
    classes_in(&tree, class);
    return telling(deliver(refusal, class, n, out, room), code.pairs);
}
