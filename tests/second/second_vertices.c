/* Piece vertices: classes of equal vertices. Up to 9 vertices the oracle tries renumberings. */
#include "calls.h"
#include "gen.h"
#include "second.h"

CALL_CODED(equal_vertices);

static struct answer check_list(const struct list *list)
{
    return check(&call_equal_vertices, (struct input){.n = list->n, .bytes = list->ends, .len = list->len});
}

static void small_skeletons(void)
{
    static struct bytes codes[most_skeletons];
    for (unsigned n = 1; n <= 11; n++) {
        size_t count = all_skeletons(n, codes);
        for (size_t i = 0; i < count; i++) {
            struct list list = list_of_code(&codes[i]);
            for (unsigned round = 0; round < rounds(6); round++) {
                check_list(&list);
                renumber(&list);
                shuffle(&list);
            }
        }
    }
}

static void larger(void)
{
    for (unsigned n = 1; n <= 64; n++) {
        struct list shapes[] = {path_of(n), star_of_stars(n)};
        check_list(&shapes[0]);
        check_list(&shapes[1]);
        for (unsigned round = 0; round < rounds(60); round++) {
            struct list list = random_tree(n);
            claim(check_list(&list).number == 0, "a random tree is right");
            damage_list(&list);
            check_list(&list);
        }
    }
}

/* Equal halves, which turn over, and halves that differ in few digits, often late. */
static void halves(void)
{
    for (unsigned round = 0; round < rounds(4000); round++) {
        struct list list = two_halves(1 + (unsigned)below(31));
        renumber(&list);
        shuffle(&list);
        check_list(&list);
    }
}

/* A chain with a leaf at i and one at j. */
static struct list twigs(unsigned chain, unsigned i, unsigned j)
{
    struct list list = path_of(chain);
    add_edge(&list, i, (unsigned)++list.n);
    add_edge(&list, j, (unsigned)++list.n);
    return list;
}

/* Deep ones: a long chain whose leaves stand at mirrored places turns over, and with one leaf a step further it
 * does not. They have four neighbours at most, so edition 2 has few of them. */
static void deep(void)
{
    for (unsigned chain = 2; chain <= 62; chain += edition == 2 ? 20 : chain < 14 ? 1 : 8)
        for (unsigned i = 1; i <= chain; i++) {
            unsigned mirror = chain + 1 - i;
            struct list turns = twigs(chain, i, mirror);
            check_list(&turns);
            struct list almost = twigs(chain, i, mirror < chain ? mirror + 1 : mirror - 1);
            renumber(&almost);
            check_list(&almost);
        }
}

void piece_vertices(void)
{
    IN_BOTH_EDITIONS {
        small_skeletons();
        larger();
        halves();
        deep();
    }
    CLAIM_MET(equal_vertices, 0, 3, 5, 6, 7, 8, 9, 15, 22);
}
