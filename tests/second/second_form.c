/* Piece form: N-tuple and centred codes both ways, and the verdict. */
#include "calls.h"
#include "gen.h"
#include "second.h"

CALL_CODED(n_tuple_code);
CALL_CODED(centred_code);
CALL_BYTES(decode_n_tuple);
CALL_BYTES(decode_centred);
CALL_HOST_TELLING(same_skeleton, no_output, in->n, in->bytes, in->len, in->n2, in->bytes2, in->len2);

static void check_list(const struct list *list)
{
    struct input in = {.n = list->n, .bytes = list->ends, .len = list->len};
    check(&call_n_tuple_code, in);
    check(&call_centred_code, in);
}

/* A code that is read is given again by the edges that it is read into. */
static void check_back(const struct call *reads, const struct call *codes, const struct bytes *code)
{
    struct input in = {.bytes = code->byte, .len = code->len};
    if (check(reads, in).number != 0)
        return;
    struct list list = list_of_code(code);
    struct input back = {.edition = edition, .n = list.n, .bytes = list.ends, .len = list.len};
    check(codes, back);
    struct bytes again;
    again.len = codes->ours(&back, again.byte, sizeof again.byte, NULL, 0).place;
    claim(same_bytes(code, &again), "decoding and coding gives the code again");
}

static void check_code(const struct bytes *code)
{
    check_back(&call_decode_n_tuple, &call_n_tuple_code, code);
    check_back(&call_decode_centred, &call_centred_code, code);
}

static struct answer check_same(const struct list *a, const struct list *b)
{
    return check(&call_same_skeleton, (struct input){.n = a->n, .bytes = a->ends, .len = a->len,
                                                     .n2 = b->n, .bytes2 = b->ends, .len2 = b->len});
}

static void check_roots(const struct list *list)
{
    for (uint64_t root = 1; root <= list->n; root++) {
        struct bytes code = rooted_code_of(list, root);
        check_code(&code);
    }
}

/* How many skeletons of a size there are was counted elsewhere. */
static void counts(void)
{
    static const size_t wanted[][14] = {{0, 1, 1, 1, 2, 3, 5, 9, 18, 35, 75, 159, 355, 802}, {0, 1, 1, 1, 2, 3, 6, 11, 23, 47, 106, 234, 549, 1296}};
    static struct bytes codes[most_skeletons];
    for (unsigned n = 1; n <= 13; n++)
        claim(all_skeletons(n, codes) == wanted[edition - 1][n],
              "the skeletons by size are 1, 1, 1, 2, 3, 5, 9, 18, 35, 75, 159, 355, 802, "
              "and in edition 2 1, 1, 1, 2, 3, 6, 11, 23, 47, 106, 234, 549, 1296");
}

/* All skeletons of up to 9 vertices, each pair of a size for the verdict. */
static void small_skeletons(void)
{
    static struct bytes codes[most_skeletons];
    for (unsigned n = 1; n <= 9; n++) {
        size_t count = all_skeletons(n, codes);
        for (size_t i = 0; i < count; i++) {
            struct list list = list_of_code(&codes[i]);
            check_roots(&list);
            for (unsigned round = 0; round < rounds(20); round++) {
                renumber(&list);
                shuffle(&list);
                check_list(&list);
            }
            for (size_t j = 0; j < count; j++) {
                struct list other = list_of_code(&codes[j]);
                renumber(&other);
                claim(check_same(&list, &other).place == (i == j), "two skeletons of a size are not the same");
            }
        }
    }
}

static void random_trees(void)
{
    for (unsigned n = 1; n <= 64; n++)
        for (unsigned round = 0; round < rounds(25); round++) {
            struct list list = random_tree(n);
            check_list(&list);
            struct bytes code = random_code(n);
            check_code(&code);
            code = centred_code_of(&list);
            check_code(&code);
            damage_bytes(&code, neighbours());
            check_code(&code);
        }
}

static void long_and_wide(void)
{
    for (unsigned n = 1; n <= 64; n++) {
        struct list shapes[] = {path_of(n), star_of_stars(n)};
        for (unsigned s = 0; s < 2; s++) {
            check_list(&shapes[s]);
            if (n < 20 || n > 62)
                check_roots(&shapes[s]);
            renumber(&shapes[s]);
            shuffle(&shapes[s]);
            check_list(&shapes[s]);
        }
    }
}

static void two_centred(void)
{
    for (unsigned round = 0; round < rounds(3000); round++) {
        struct list list = two_halves(1 + (unsigned)below(31));
        renumber(&list);
        shuffle(&list);
        check_list(&list);
        if (oracle_check_edges(edition, list.n, list.ends, list.len, 1).number != 0)
            continue;
        struct bytes code = centred_code_of(&list);
        check_code(&code);
        struct bytes elsewhere = rooted_code_of(&list, 1 + below(list.n));
        check_code(&elsewhere);
    }
}

/* Renumbered copies, near copies (one end moved), other sizes, and refusals in either list. */
static void verdicts(void)
{
    for (unsigned round = 0; round < rounds(8000); round++) {
        unsigned n = 1 + (unsigned)below(one_in(4) ? 64 : 14);
        struct list a = random_tree(n), b = a;
        renumber(&b);
        shuffle(&b);
        claim(check_same(&a, &b).place == 1, "a renumbered copy is the same");
        struct list near = b;
        if (near.len > 0)
            near.ends[below(near.len)] = (uint8_t)(1 + below(n));
        check_same(&a, &near);
        struct list other = random_tree(1 + (unsigned)below(14));
        check_same(&a, &other);
        if (one_in(2))
            damage_list(&a);
        if (one_in(2))
            damage_list(&b);
        check_same(&a, &b);
        check_list(&a);
    }
}

void piece_form(void)
{
    IN_BOTH_EDITIONS {
        counts();
        small_skeletons();
        random_trees();
        long_and_wide();
        two_centred();
        verdicts();
    }
    CLAIM_MET(n_tuple_code, 0, 3, 5, 6, 7, 8, 9, 15, 22);
    CLAIM_MET(centred_code, 0, 3, 5, 6, 7, 8, 9, 15, 22);
    CLAIM_MET(decode_n_tuple, 0, 3, 10, 11, 12, 13, 14, 15, 22);
    CLAIM_MET(decode_centred, 0, 3, 10, 11, 12, 13, 14, 15, 22);
    CLAIM_MET(same_skeleton, 0, 3, 5, 6, 7, 8, 9, 22);
}
