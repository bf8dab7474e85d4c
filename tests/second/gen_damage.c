/* Damage to edge lists and to bytes. */
#include "gen.h"

#include <string.h>

#include "check.h"

static void remove_at(uint8_t *bytes, size_t *len, size_t at, size_t count)
{
    memmove(bytes + at, bytes + at + count, *len - at - count);
    *len -= count;
}

static void insert_at(uint8_t *bytes, size_t *len, size_t at, uint8_t byte)
{
    memmove(bytes + at + 1, bytes + at, *len - at);
    bytes[at] = byte;
    ++*len;
}

void damage_bytes(struct bytes *bytes, unsigned usual_bound)
{
    uint8_t byte = (uint8_t)(one_in(8) ? below(256) : below(usual_bound));
    if (bytes->len == 0 || (bytes->len < 300 && one_in(6))) {
        insert_at(bytes->byte, &bytes->len, below(bytes->len + 1), byte);
        return;
    }
    size_t at = below(bytes->len);
    if (one_in(5))
        remove_at(bytes->byte, &bytes->len, at, 1);
    else if (one_in(5))
        swap_bytes(&bytes->byte[at], &bytes->byte[below(bytes->len)]);
    else if (one_in(8))
        bytes->len = at;
    else
        bytes->byte[at] = byte;
}

uint64_t some_root(const struct list *list, unsigned wrong_one_in)
{
    if (list->n > 0 && !one_in(wrong_one_in))
        return 1 + below(list->n);
    const uint64_t wrong[] = {0, list->n + 1, 255, 256, 257, UINT64_MAX, (uint64_t)1 << 32};
    return wrong[below(sizeof wrong / sizeof *wrong)];
}

static uint64_t some_wrong_n(uint64_t n)
{
    const uint64_t wrong[] = {0,   n - 1, n + 1, 64, 65, 66, 128, 255, 256, n + 256, n + ((uint64_t)1 << 32),
                              n + ((uint64_t)1 << 63), UINT64_MAX};
    return wrong[below(sizeof wrong / sizeof *wrong)];
}

/* A vertex number that is not one, or another one. */
static uint8_t some_end(uint64_t n)
{
    const uint8_t ends[] = {0, (uint8_t)(n + 1), 255, (uint8_t)below(256), (uint8_t)(1 + below(n % 256 + 1))};
    return ends[below(sizeof ends)];
}

/* Brings one vertex into several edges, so that a neighbour too many becomes likely. */
static void crowd(struct list *list)
{
    uint8_t v = list->ends[below(list->len)];
    for (unsigned i = 0; i <= neighbours(); i++) {
        size_t e = below(list->len / 2);
        list->ends[2 * e + below(2)] = v;
    }
}

void overfill(struct list *list)
{
    unsigned degree[256] = {0}, fullest = 0;
    for (size_t i = 0; i < list->len; i++)
        degree[list->ends[i]]++;
    for (unsigned v = 1; v < 256; v++)
        if (degree[v] > degree[fullest])
            fullest = v;
    unsigned wanted = neighbours() + 1 + (unsigned)below(2);
    for (size_t i = 0; i < (list->len & ~(size_t)1) && degree[fullest] < wanted;) {
        uint8_t *other = &list->ends[i ^ 1];
        if (degree[list->ends[i]] == 1 && *other != fullest) {
            degree[*other]--;
            degree[fullest]++;
            *other = (uint8_t)fullest;
            i = 0;
        } else {
            i++;
        }
    }
}

void damage_list(struct list *list)
{
    size_t edges = list->len / 2;
    unsigned kind = (unsigned)below(13);
    if (kind == 0 || edges == 0) {
        list->n = some_wrong_n(list->n);
        return;
    }
    size_t e = below(edges), other = below(edges);
    uint8_t *here = list->ends + 2 * e, *there = list->ends + 2 * other;
    switch (kind) {
    case 1:
        remove_at(list->ends, &list->len, below(list->len), 1);
        break;
    case 2:
        remove_at(list->ends, &list->len, 2 * e, 2);
        break;
    case 3:
        if (list->len < 300)
            list->ends[list->len++] = some_end(list->n);
        break;
    case 4:
        if (list->len < 300)
            add_edge(list, list->ends[below(list->len)], list->ends[below(list->len)]);
        break;
    case 5:
    case 6:
        here[below(2)] = some_end(list->n);
        break;
    case 7:
        here[0] = here[1];
        break;
    case 8: /* doubled, perhaps the other way round */
        here[0] = there[one_in(2)];
        here[1] = here[0] == there[0] ? there[1] : there[0];
        break;
    case 9: /* the last edge joins what is joined */
        list->ends[2 * edges - 2] = list->ends[below(list->len)];
        list->ends[2 * edges - 1] = list->ends[below(list->len)];
        break;
    case 10:
        crowd(list);
        break;
    case 11:
        overfill(list);
        break;
    default:
        here[below(2)] = list->ends[below(list->len)];
    }
}
