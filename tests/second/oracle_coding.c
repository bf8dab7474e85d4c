/* Rooted, N-tuple and centred codes, the pairs of digits looked at for each, and the verdict "same skeleton". */
#include <string.h>

#include "oracle_parts.h"

/* The first place where two codes differ, in the digit or in the atom, or where one has ended. */
static size_t first_difference(const struct code *a, const struct code *b)
{
    size_t i = 0;
    while (i < a->length && i < b->length && a->digit[i] == b->digit[i] && a->atom[i] == b->atom[i])
        i++;
    return i;
}

/* Dictionary order, at each vertex the digit and then the atom. */
bool larger(const struct code *a, const struct code *b)
{
    size_t i = first_difference(a, b);
    if (i == a->length || i == b->length)
        return a->length > b->length;
    return a->digit[i] != b->digit[i] ? a->digit[i] > b->digit[i] : a->atom[i] > b->atom[i];
}

bool same_code(const struct code *a, const struct code *b)
{
    return a->length == b->length && first_difference(a, b) == a->length;
}

static void append(struct code *code, const struct code *part)
{
    memcpy(code->digit + code->length, part->digit, part->length);
    memcpy(code->atom + code->length, part->atom, part->length);
    code->length += part->length;
}

uint64_t pairs_of(const struct code *a, const struct code *b)
{
    size_t i = first_difference(a, b);
    return i < a->length && i < b->length ? i + 1 : i;
}

struct answer telling(struct answer answer, uint64_t pairs)
{
    answer.pairs = answer.number == 0 ? pairs : 0;
    return answer;
}

/* The code of a vertex seen from its parent: the count of its children, then their codes, always the
 * largest of those not yet written. The pairs are those of each child, and those of every two children. */
struct code part_code(const struct tree *tree, unsigned vertex, unsigned parent)
{
    struct code child[most_neighbours];
    unsigned children = 0;
    for (unsigned i = 0; i < tree->degree[vertex]; i++)
        if (tree->neighbour[vertex][i] != parent)
            child[children++] = part_code(tree, tree->neighbour[vertex][i], vertex);

    struct code code = {.length = 1};
    code.digit[0] = (uint8_t)children;
    code.atom[0] = tree->atom[vertex];
    for (unsigned i = 0; i < children; i++) {
        code.pairs += child[i].pairs;
        for (unsigned j = 0; j < i; j++)
            code.pairs += pairs_of(&child[i], &child[j]);
    }
    while (children > 0) {
        unsigned largest = 0;
        for (unsigned i = 1; i < children; i++)
            if (larger(&child[i], &child[largest]))
                largest = i;
        append(&code, &child[largest]);
        child[largest] = child[--children];
    }
    return code;
}

struct code rooted_code(const struct tree *tree, unsigned root)
{
    return part_code(tree, root, 0);
}

struct code n_tuple_code(const struct tree *tree)
{
    unsigned most = 0;
    for (unsigned v = 1; v <= tree->n; v++)
        if (tree->degree[v] > most)
            most = tree->degree[v];

    struct code best = {.length = 0};
    uint64_t pairs = 0;
    for (unsigned v = 1; v <= tree->n; v++) {
        if (tree->degree[v] != most)
            continue;
        struct code code = rooted_code(tree, v);
        pairs += code.pairs;
        if (best.length == 0 || larger(&code, &best))
            best = code;
    }
    best.pairs = pairs;
    return best;
}

static void measure(const struct tree *tree, unsigned vertex, unsigned parent, unsigned far, unsigned *distance)
{
    distance[vertex] = far;
    for (unsigned i = 0; i < tree->degree[vertex]; i++)
        if (tree->neighbour[vertex][i] != parent)
            measure(tree, tree->neighbour[vertex][i], vertex, far + 1, distance);
}

unsigned centre(const struct tree *tree, unsigned middle[2])
{
    unsigned distance[most_vertices + 1][most_vertices + 1];
    unsigned from = 1, to = 1;
    for (unsigned u = 1; u <= tree->n; u++) {
        measure(tree, u, 0, 0, distance[u]);
        for (unsigned v = 1; v <= tree->n; v++)
            if (distance[u][v] > distance[from][to])
                from = u, to = v;
    }

    unsigned path[most_vertices];
    unsigned steps = distance[from][to];
    path[0] = to;
    for (unsigned step = 1; step <= steps; step++)
        for (unsigned i = 0; i < tree->degree[path[step - 1]]; i++) {
            unsigned next = tree->neighbour[path[step - 1]][i];
            if (distance[from][next] == steps - step)
                path[step] = next;
        }

    middle[0] = path[steps / 2];
    middle[1] = path[(steps + 1) / 2];
    return middle[0] == middle[1] ? 1 : 2;
}

struct code centred_code(const struct tree *tree)
{
    unsigned middle[2];
    unsigned middles = centre(tree, middle);
    struct code one = rooted_code(tree, middle[0]);
    struct code other = rooted_code(tree, middle[1]);
    struct code best = larger(&other, &one) ? other : one;
    best.pairs = middles == 2 ? one.pairs + other.pairs : one.pairs;
    return best;
}

bool same_digits(const uint8_t *digits, size_t count, const struct code *code)
{
    return order_of(digits, count, code->digit, code->length) == 1;
}

struct answer oracle_rooted_code(uint64_t edition, uint64_t n, const uint8_t *edges, size_t len, uint64_t root,
                                 uint8_t *out, size_t room)
{
    struct answer refusal = oracle_check_edges(edition, n, edges, len, root);
    if (refusal.number != 0)
        return refusal;
    struct tree tree = tree_of(n, edges);
    struct code code = rooted_code(&tree, (unsigned)root);
    return telling(deliver(refusal, code.digit, code.length, out, room), code.pairs);
}

typedef struct code form(const struct tree *);

static struct answer code_as(form *of, uint64_t edition, uint64_t n, const uint8_t *edges, size_t len, uint8_t *out, size_t room)
{
    struct answer refusal = oracle_check_edges(edition, n, edges, len, no_root);
    if (refusal.number != 0)
        return refusal;
    struct tree tree = tree_of(n, edges);
    struct code code = of(&tree);
    return telling(deliver(refusal, code.digit, code.length, out, room), code.pairs);
}

struct answer oracle_n_tuple_code(uint64_t edition, uint64_t n, const uint8_t *edges, size_t len, uint8_t *out, size_t room)
{
    return code_as(n_tuple_code, edition, n, edges, len, out, room);
}

struct answer oracle_centred_code(uint64_t edition, uint64_t n, const uint8_t *edges, size_t len, uint8_t *out, size_t room)
{
    return code_as(centred_code, edition, n, edges, len, out, room);
}

/* Row 14 is about right rooted codes only, so it is looked at behind rows 3 and 10 to 13. */
static struct answer decode_as(form *of, uint64_t edition, const uint8_t *code, size_t len, uint8_t *out, size_t room)
{
    struct answer refusal = oracle_check_code(edition, code, len);
    if (refusal.number != 0)
        return refusal;
    struct tree tree = tree_of_code(code, len);
    struct code asked = of(&tree);
    refusal = LOWEST(row_if(14, !same_digits(code, len, &asked)));
    return deliver_edges(refusal, code, len, out, room);
}

struct answer oracle_decode_n_tuple(uint64_t edition, const uint8_t *code, size_t len, uint8_t *out, size_t room)
{
    return decode_as(n_tuple_code, edition, code, len, out, room);
}

struct answer oracle_decode_centred(uint64_t edition, const uint8_t *code, size_t len, uint8_t *out, size_t room)
{
    return decode_as(centred_code, edition, code, len, out, room);
}

struct answer oracle_same_skeleton(uint64_t edition, uint64_t n1, const uint8_t *e1, size_t l1,
                                   uint64_t n2, const uint8_t *e2, size_t l2)
{
    struct answer first = oracle_check_edges(edition, n1, e1, l1, no_root);
    struct answer second = oracle_check_edges(edition, n2, e2, l2, no_root);
    second.lists_before = 1;
    if (first.number != 0)
        return first;
    if (second.number != 0)
        return second;
    struct tree one = tree_of(n1, e1), other = tree_of(n2, e2);
    if (n1 != n2)
        return (struct answer){.number = 0, .place = 0};
    struct code a = centred_code(&one), b = centred_code(&other);
    return telling((struct answer){.number = 0, .place = same_digits(a.digit, a.length, &b) ? 1 : 0}, a.pairs + b.pairs);
}
