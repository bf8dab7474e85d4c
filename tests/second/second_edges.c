/* Piece edges: refusals of edge lists, and rooted coding at a named vertex. */
#include "calls.h"
#include "gen.h"
#include "second.h"

CALL_BOTH(check_edges, no_output, in->n, in->bytes, in->len, in->root);
CALL_TELLING(rooted_code, lent_bytes, in->n, in->bytes, in->len, in->root, out, room);

static struct answer check_both(const struct list *list, uint64_t root)
{
    struct input in = {.n = list->n, .bytes = list->ends, .len = list->len, .root = root};
    check(&call_check_edges, in);
    return check(&call_rooted_code, in);
}

/* Every labelled tree of up to 6 vertices at every root, and at 0 and N+1. Six have a star, which edition 1 refuses 9. */
static void labelled(void)
{
    for (unsigned n = 1; n <= 6; n++)
        for (uint64_t index = 0; index < labelled_trees(n); index++) {
            struct list list = labelled_tree(n, index);
            shuffle(&list);
            for (unsigned root = 0; root <= n + 1; root++)
                check_both(&list, root);
        }
}

/* Every rooted tree of up to 12 vertices, from every skeleton at each of its vertices. The largest numbers of pairs by
 * size are those of a count that neither the library nor this program made. */
static void rooted_trees(void)
{
    static const uint64_t largest[][13] = {{0, 0, 0, 1, 3, 6, 6, 7, 9, 12, 12, 15, 15}, {0, 0, 0, 1, 3, 6, 10, 15, 21, 28, 36, 36, 37}};
    static struct bytes codes[most_skeletons];
    for (unsigned n = 1; n <= 12; n++) {
        uint64_t most = 0;
        size_t count = all_skeletons(n, codes);
        for (size_t i = 0; i < count; i++) {
            struct list list = list_of_code(&codes[i]);
            for (unsigned root = 1; root <= n; root++) {
                uint64_t pairs = check_both(&list, root).pairs;
                most = pairs > most ? pairs : most;
            }
        }
        claim(most == largest[edition - 1][n], "the most pairs by size are 0, 0, 1, 3, 6, 6, 7, 9, 12, 12, 15, 15, "
                                               "and in edition 2 0, 0, 1, 3, 6, 10, 15, 21, 28, 36, 36, 37");
    }
}

/* What is looked at is at most 3 times N times the whole part of log2 N, in edition 2 at most 8 times. */
static void within_bound(uint64_t n, uint64_t pairs)
{
    uint64_t log2 = 0;
    while (n >> (log2 + 1) != 0)
        log2++;
    claim(pairs <= (neighbours() - 1) * n * log2, "the pairs keep the bound");
}

static void right(void)
{
    for (unsigned n = 1; n <= 64; n++)
        for (unsigned round = 0; round < rounds(150); round++) {
            struct list list = random_tree(n);
            struct answer answer = check_both(&list, 1 + below(n));
            claim(answer.number == 0, "a random tree is right");
            within_bound(n, answer.pairs);
            check_both(&list, some_root(&list, 4));
            struct bytes code = rooted_code_of(&list, 1 + below(n));
            struct list back = list_of_code(&code);
            check_both(&back, 1);
            struct bytes again = rooted_code_of(&back, 1);
            claim(same_bytes(&code, &again), "decoding and coding at vertex 1 gives the code again");
        }
}

/* One to four kinds of damage at once. */
static void damaged(void)
{
    for (unsigned round = 0; round < rounds(60000); round++) {
        struct list list = random_tree(1 + (unsigned)below(one_in(4) ? 64 : 12));
        for (uint64_t times = 1 + below(4) * below(2); times > 0; times--)
            damage_list(&list);
        check_both(&list, some_root(&list, 10));
    }
}

/* A neighbour too many and nothing else, in trees of every size. */
static void overfilled(void)
{
    for (unsigned n = neighbours() + 2; n <= 64; n++)
        for (unsigned round = 0; round < rounds(60); round++) {
            struct list list = random_tree(n);
            overfill(&list);
            shuffle(&list);
            claim(check_both(&list, 1 + below(n)).number == 9, "a neighbour too many is refused 9");
        }
}

/* The star of ten is a skeleton of edition 2 alone, and that of eleven of neither: 9 at the edge too many. */
static void stars(void)
{
    for (unsigned n = 1; n <= 14; n++) {
        struct list star = star_of(n);
        for (unsigned root = 1; root <= n; root++) {
            struct answer answer = check_both(&star, root);
            claim(answer.number == (n > neighbours() + 1 ? 9 : 0), "a star has as many neighbours as it may");
            claim(answer.number == 0 || answer.place == neighbours() + 1, "at the edge too many");
        }
    }
}

/* Any bytes at all, of the right length for N or nearly. */
static void any_bytes(void)
{
    for (unsigned round = 0; round < rounds(30000); round++) {
        unsigned n = 1 + (unsigned)below(9);
        struct list list = {.n = n, .len = 2 * (n - 1)};
        unsigned values = one_in(4) ? n + 2 : n;
        for (size_t i = 0; i < list.len; i++)
            list.ends[i] = (uint8_t)(below(values) + (values == n));
        if (one_in(20))
            list.len += below(3);
        check_both(&list, some_root(&list, 20));
    }
}

/* Every single end of a right list set to 0, N+1 and 255, and to its partner; every edge doubled. */
static void every_end(void)
{
    const unsigned sizes[] = {2, 5, 17, 63, 64};
    for (size_t s = 0; s < sizeof sizes / sizeof *sizes; s++) {
        struct list list = random_tree(sizes[s]);
        for (size_t i = 0; i < list.len; i++) {
            const uint8_t ends[] = {0, (uint8_t)(list.n + 1), 255, list.ends[i ^ 1]};
            for (size_t k = 0; k < sizeof ends; k++) {
                struct list one = list;
                one.ends[i] = ends[k];
                check_both(&one, 1);
            }
            struct list two = list;
            size_t e = i & ~(size_t)1;
            memcpy(two.ends + 2 * below(two.len / 2), list.ends + e, 2);
            check_both(&two, 1);
        }
    }
}

/* Sizes and lengths at and over the limits, without regard to each other. */
static void limits(void)
{
    const uint64_t sizes[] = {0, 1, 2, 63, 64, 65, 66, 128, 129, 255, 256, (uint64_t)1 << 32, UINT64_MAX};
    const size_t lengths[] = {0, 1, 2, 3, 124, 125, 126, 127, 128, 129, 130, 254, 256, 300};
    for (size_t s = 0; s < sizeof sizes / sizeof *sizes; s++)
        for (size_t l = 0; l < sizeof lengths / sizeof *lengths; l++)
            for (unsigned round = 0; round < rounds(6); round++) {
                struct list list = path_of(128);
                if (round % 2 == 1)
                    list = random_tree(64);
                list.n = sizes[s];
                list.len = lengths[l];
                check_both(&list, some_root(&list, 3));
            }
}

void piece_edges(void)
{
    IN_BOTH_EDITIONS
        stars();
    IN_BOTH_EDITIONS {
        labelled();
        rooted_trees();
        right();
        damaged();
        overfilled();
        any_bytes();
        every_end();
        limits();
    }
    CLAIM_MET(check_edges, 0, 3, 5, 6, 7, 8, 9, 22);
    CLAIM_MET(rooted_code, 0, 3, 5, 6, 7, 8, 9, 15, 22);
}
