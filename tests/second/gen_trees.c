/* Trees, numberings and right codes. */
#include "gen.h"

#include <string.h>

#include "check.h"

enum { largest = 64 };

unsigned neighbours(void)
{
    return edition == 2 ? 9 : 4;
}

void add_edge(struct list *list, unsigned u, unsigned v)
{
    list->ends[list->len++] = (uint8_t)u;
    list->ends[list->len++] = (uint8_t)v;
}

void swap_bytes(uint8_t *a, uint8_t *b)
{
    uint8_t kept = *a;
    *a = *b;
    *b = kept;
}

void shuffle(struct list *list)
{
    for (size_t e = list->len / 2; e > 0; e--) {
        size_t other = below(e);
        swap_bytes(&list->ends[2 * e - 2], &list->ends[2 * other]);
        swap_bytes(&list->ends[2 * e - 1], &list->ends[2 * other + 1]);
        if (one_in(2))
            swap_bytes(&list->ends[2 * e - 2], &list->ends[2 * e - 1]);
    }
}

void renumber(struct list *list)
{
    uint8_t number[largest + 1];
    for (unsigned v = 1; v <= list->n; v++) {
        unsigned other = 1 + (unsigned)below(v);
        number[v] = number[other];
        number[other] = (uint8_t)v;
    }
    for (size_t i = 0; i < list->len; i++)
        list->ends[i] = number[list->ends[i]];
}

/* The vertex that the next one hangs on: anywhere, near the last, the first with room, on a thin tree, or near the
 * first, so that a few become full. */
static unsigned hang_on(const unsigned *degree, unsigned vertices, unsigned shape, unsigned limit)
{
    for (;;) {
        unsigned near = vertices < 3 ? vertices : 3;
        unsigned v = shape == 1 ? vertices - (unsigned)below(near) : 1 + (unsigned)below(shape == 6 ? near : vertices);
        for (unsigned first = 1; shape == 2 && first <= vertices; first++)
            if (degree[first] < limit) {
                v = first;
                break;
            }
        if (degree[v] < limit)
            return v;
        if (one_in(8))
            shape = 0;
    }
}

/* Each new vertex gets the next number, so this numbering is physical. */
static struct list grow(unsigned n, unsigned shape)
{
    struct list list = {.n = n, .len = 0};
    unsigned degree[largest + 1] = {0};
    unsigned limit = shape == 3 ? 3 : shape == 4 ? 2 : neighbours();
    for (unsigned v = 2; v <= n; v++) {
        unsigned here = shape == 5 ? (unsigned)below(3) : shape;
        unsigned room = one_in(10) || shape == 5 ? neighbours() : limit;
        unsigned u = hang_on(degree, v - 1, here, room);
        degree[u]++, degree[v]++;
        add_edge(&list, u, v);
    }
    return list;
}

struct list random_physical(unsigned n)
{
    struct list list = grow(n, (unsigned)below(7));
    shuffle(&list);
    return list;
}

struct list random_tree(unsigned n)
{
    struct list list = random_physical(n);
    renumber(&list);
    return list;
}

struct list path_of(unsigned n)
{
    struct list list = {.n = n, .len = 0};
    for (unsigned v = 2; v <= n; v++)
        add_edge(&list, v - 1, v);
    return list;
}

struct list star_of(unsigned n)
{
    struct list list = {.n = n, .len = 0};
    for (unsigned v = 2; v <= n; v++)
        add_edge(&list, 1, v);
    return list;
}

struct list star_of_stars(unsigned n)
{
    return grow(n, 2);
}

struct list two_halves(unsigned half)
{
    struct list one = random_physical(half), list = {.n = 2 * half, .len = 0};
    for (size_t i = 0; i < one.len; i += 2) {
        add_edge(&list, one.ends[i], one.ends[i + 1]);
        add_edge(&list, one.ends[i] + half, one.ends[i + 1] + half);
    }
    add_edge(&list, 1, half + 1);
    if (one_in(2))
        add_edge(&list, 1 + (unsigned)below(half), (unsigned)++list.n);
    if (one_in(2) && list.n < 64)
        add_edge(&list, half + 1 + (unsigned)below(half), (unsigned)++list.n);
    return list;
}

uint64_t labelled_trees(unsigned n)
{
    uint64_t count = 1;
    for (unsigned i = 2; i < n; i++)
        count *= n;
    return count;
}

struct list labelled_tree(unsigned n, uint64_t index)
{
    struct list list = {.n = n, .len = 0};
    if (n < 2)
        return list;
    unsigned sequence[largest], left[largest + 1];
    for (unsigned v = 1; v <= n; v++)
        left[v] = 1;
    for (unsigned i = 0; i + 2 < n; i++, index /= n)
        left[sequence[i] = 1 + (unsigned)(index % n)]++;
    for (unsigned i = 0; i + 2 < n; i++) {
        unsigned leaf = 1;
        while (left[leaf] != 1)
            leaf++;
        add_edge(&list, leaf, sequence[i]);
        left[leaf]--, left[sequence[i]]--;
    }
    unsigned last[2], found = 0;
    for (unsigned v = 1; v <= n; v++)
        if (left[v] == 1)
            last[found++] = v;
    add_edge(&list, last[0], last[1]);
    return list;
}

struct list list_of_code(const struct bytes *code)
{
    struct list list = {.n = code->len, .len = 0};
    list.len = oracle_decode_code(edition, code->byte, code->len, list.ends, sizeof list.ends).place;
    return list;
}

struct bytes rooted_code_of(const struct list *list, uint64_t root)
{
    struct bytes code;
    code.len = oracle_rooted_code(edition, list->n, list->ends, list->len, root, code.byte, sizeof code.byte).place;
    return code;
}

struct bytes centred_code_of(const struct list *list)
{
    struct bytes code;
    code.len = oracle_centred_code(edition, list->n, list->ends, list->len, code.byte, sizeof code.byte).place;
    return code;
}

int same_bytes(const struct bytes *a, const struct bytes *b)
{
    return a->len == b->len && memcmp(a->byte, b->byte, a->len) == 0;
}

static int known(const struct bytes *codes, size_t count, const struct bytes *code)
{
    for (size_t i = 0; i < count; i++)
        if (same_bytes(&codes[i], code))
            return 1;
    return 0;
}

size_t all_skeletons(unsigned n, struct bytes *codes)
{
    codes[0] = (struct bytes){.len = 1, .byte = {0}};
    if (n == 1)
        return 1;
    static struct bytes smaller[most_skeletons];
    size_t before = all_skeletons(n - 1, codes), count = 0;
    memcpy(smaller, codes, before * sizeof *codes);
    for (size_t i = 0; i < before; i++)
        for (unsigned v = 1; v < n; v++) {
            struct list list = list_of_code(&smaller[i]);
            list.n = n;
            add_edge(&list, v, n);
            if (oracle_check_edges(edition, n, list.ends, list.len, 1).number != 0)
                continue;
            struct bytes code = centred_code_of(&list);
            if (!known(codes, count, &code))
                codes[count++] = code;
        }
    return count;
}

struct bytes random_code(unsigned n)
{
    struct list list = random_tree(n);
    return rooted_code_of(&list, 1 + below(n));
}

static void write_unsorted(const struct list *list, unsigned vertex, unsigned parent, struct bytes *code)
{
    size_t digit = code->len++;
    code->byte[digit] = 0;
    for (size_t i = 0; i < list->len; i++) {
        unsigned other = list->ends[i ^ 1];
        if (list->ends[i] == vertex && other != parent) {
            code->byte[digit]++;
            write_unsorted(list, other, vertex, code);
        }
    }
}

struct bytes unsorted_code(unsigned n)
{
    struct list list = random_tree(n);
    struct bytes code = {.len = 0};
    write_unsorted(&list, 1 + (unsigned)below(n), 0, &code);
    return code;
}
