/* Piece maps: the renumbering that is handed out, and a partner's own judged. */
#include <string.h>

#include "calls.h"
#include "gen.h"
#include "second.h"

CALL_TELLING(renumbering, lent_map, in->n, in->bytes, in->len, in->n2, in->bytes2, in->len2, out, room);
CALL_BOTH(check_renumbering, no_output, in->n, in->bytes, in->len, in->n2, in->bytes2, in->len2, in->bytes3, in->len3);

static struct input of_lists(const struct list *a, const struct list *b)
{
    return (struct input){.n = a->n, .bytes = a->ends, .len = a->len, .n2 = b->n, .bytes2 = b->ends, .len2 = b->len};
}

static struct answer check_map(const struct list *a, const struct list *b, const struct bytes *map)
{
    struct input in = of_lists(a, b);
    in.bytes3 = map->byte;
    in.len3 = map->len;
    return check(&call_check_renumbering, in);
}

static int joined(const struct list *list, unsigned u, unsigned v)
{
    for (size_t i = 0; i < list->len; i += 2)
        if ((list->ends[i] == u && list->ends[i + 1] == v) || (list->ends[i] == v && list->ends[i + 1] == u))
            return 1;
    return 0;
}

/* Edge by edge, and number by number, without the oracle. */
static void claim_carries(const struct list *a, const struct list *b, const struct bytes *map)
{
    int used[65] = {0};
    claim(map->len == a->n && a->n == b->n, "a map that is handed out has an entry for each vertex");
    for (size_t i = 0; i < map->len; i++) {
        claim(map->byte[i] >= 1 && map->byte[i] <= b->n && !used[map->byte[i]], "it uses each number once");
        used[map->byte[i]] = 1;
    }
    for (size_t i = 0; i < a->len; i += 2)
        claim(joined(b, map->byte[a->ends[i] - 1], map->byte[a->ends[i + 1] - 1]), "it carries every edge to an edge");
}

/* The map that is handed out, or none; what is handed out is accepted, by the library too. */
static struct bytes check_pair(const struct list *a, const struct list *b)
{
    struct input in = of_lists(a, b);
    struct bytes map = {.len = 0};
    size_t pairs;
    struct answer answer = check(&call_renumbering, in);
    if (answer.number != 0 || answer.place == 0)
        return map;
    in.edition = edition;
    map.len = call_renumbering.theirs(&in, map.byte, sizeof map.byte, NULL, 0, &pairs);
    claim_carries(a, b, &map);
    claim(check_map(a, b, &map).number == 0, "a map that is handed out is accepted");
    return map;
}

/* A copy under other numbers, with its own map. */
static struct list copy_of(const struct list *a, struct bytes *map)
{
    struct list b = *a;
    map->len = a->n;
    for (unsigned v = 0; v < a->n; v++)
        map->byte[v] = (uint8_t)(v + 1);
    for (unsigned v = (unsigned)a->n; v > 1; v--)
        swap_bytes(&map->byte[v - 1], &map->byte[below(v)]);
    for (size_t i = 0; i < b.len; i++)
        b.ends[i] = map->byte[b.ends[i] - 1];
    shuffle(&b);
    return b;
}

/* All pairs of skeletons of up to 7 vertices, several numberings of each. */
static void small_skeletons(void)
{
    static struct bytes codes[most_skeletons], others[most_skeletons];
    for (unsigned n = 1; n <= 7; n++) {
        size_t count = all_skeletons(n, codes);
        for (unsigned m = 1; m <= 7; m++) {
            size_t many = all_skeletons(m, others);
            for (size_t i = 0; i < count; i++)
                for (size_t j = 0; j < many; j++)
                    for (unsigned round = 0; round < (n == m ? rounds(8) : 1); round++) {
                        struct list a = list_of_code(&codes[i]), b = list_of_code(&others[j]);
                        renumber(&a);
                        shuffle(&a);
                        renumber(&b);
                        shuffle(&b);
                        struct bytes map = check_pair(&a, &b);
                        claim((map.len != 0) == (n == m && i == j), "a map is handed out for the same skeleton alone");
                        map.len = n;
                        for (unsigned v = 0; v < n; v++)
                            map.byte[v] = (uint8_t)(v + 1);
                        check_map(&a, &b, &map);
                    }
        }
    }
}

/* One entry other, doubled, lost or more. */
static void damage_map(struct bytes *map, unsigned n)
{
    unsigned at = (unsigned)below(map->len), how = (unsigned)below(5);
    if (how == 0)
        map->byte[at] = (uint8_t)below(n + 3);
    else if (how == 1)
        map->byte[at] = map->byte[below(map->len)];
    else if (how == 2)
        map->byte[at] = (uint8_t)random64();
    else if (how == 3)
        map->len--;
    else
        map->byte[map->len++] = (uint8_t)(1 + below(n));
}

static unsigned degree(const struct list *list, unsigned v)
{
    unsigned count = 0;
    for (size_t i = 0; i < list->len; i++)
        count += list->ends[i] == v;
    return count;
}

/* A map that carries all edges of a but one: in the copy b a leaf hangs elsewhere. The place is the edge of a that is
 * not carried. */
static void all_but_one(const struct list *a, const struct bytes *own, const struct list *b)
{
    struct list near = *b;
    if (near.len < 4)
        return;
    size_t end = below(near.len), other = end ^ 1;
    uint8_t leaf = near.ends[end], to = (uint8_t)(1 + below(near.n));
    if (degree(&near, leaf) != 1 || to == leaf || to == near.ends[other] || degree(&near, to) == neighbours()) {
        near.ends[end] = to;
        check_map(a, &near, own);
        check_pair(a, &near);
        return;
    }
    near.ends[other] = to;
    struct answer answer = check_map(a, &near, own);
    claim(answer.number == 19, "a map that carries all edges but one is refused 19");
    const uint8_t *edge = a->ends + 2 * (answer.place - 1);
    claim(own->byte[edge[0] - 1] == leaf || own->byte[edge[1] - 1] == leaf, "at the edge that is not carried");
    check_pair(a, &near);
}

static void copies(void)
{
    for (unsigned round = 0; round < rounds(6000); round++) {
        unsigned n = 1 + (unsigned)below(one_in(4) ? 64 : 14);
        struct list a = random_tree(n);
        struct bytes own;
        struct list b = copy_of(&a, &own);
        claim(check_map(&a, &b, &own).number == 0, "a copy's own map is accepted");
        claim(check_pair(&a, &b).len == n, "a copy is handed a map");
        all_but_one(&a, &own, &b);
        struct bytes map = own;
        damage_map(&map, n);
        check_map(&a, &b, &map);
        map = own;
        if (n > 1)
            swap_bytes(&map.byte[below(n)], &map.byte[below(n)]);
        check_map(&a, &b, &map);
        struct list other = random_tree(1 + (unsigned)below(14));
        check_map(&a, &other, &own);
        check_pair(&a, &other);
    }
}

/* Two halves alike, so that both middle vertices have the centred code, and equal siblings. */
static void ties(void)
{
    for (unsigned round = 0; round < rounds(2000); round++) {
        unsigned half = 1 + (unsigned)below(12);
        struct list one = random_physical(half), a = {.n = 2 * half, .len = 0};
        for (size_t i = 0; i < one.len; i += 2) {
            add_edge(&a, one.ends[i], one.ends[i + 1]);
            add_edge(&a, one.ends[i] + half, one.ends[i + 1] + half);
        }
        add_edge(&a, 1, half + 1);
        renumber(&a);
        shuffle(&a);
        struct bytes own;
        struct list b = copy_of(&a, &own);
        check_pair(&a, &b);
        check_pair(&a, &a);
    }
}

/* Refusals of either list, of both, and of the map behind them. */
static void refusals(void)
{
    for (unsigned round = 0; round < rounds(6000); round++) {
        unsigned n = 1 + (unsigned)below(one_in(4) ? 64 : 6 + neighbours());
        struct list a = random_tree(n);
        struct bytes own;
        struct list b = copy_of(&a, &own);
        if (one_in(2))
            damage_list(&a);
        if (one_in(2))
            damage_list(&b);
        if (one_in(3))
            damage_map(&own, n);
        check_pair(&a, &b);
        check_map(&a, &b, &own);
        overfill(&b);
        check_pair(&a, &b);
        check_map(&a, &b, &own);
    }
}

void piece_maps(void)
{
    IN_BOTH_EDITIONS {
        small_skeletons();
        copies();
        ties();
        refusals();
    }
    CLAIM_MET(renumbering, 0, 3, 5, 6, 7, 8, 9, 15, 22);
    CLAIM_MET(check_renumbering, 0, 3, 5, 6, 7, 8, 9, 18, 19, 22);
}
