/* Pieces named and named_lines: every call on skeletons with named atoms, which are of edition 1. */
#include <stdio.h>

#include "calls.h"
#include "gen.h"
#include "second.h"
#include "texts.h"

#define CODE in->bytes, in->len, in->letters, in->letters_len
#define LIST in->n, in->bytes, in->len, in->letters, in->letters_len
#define LIST_2 in->n2, in->bytes2, in->len2, in->letters2, in->letters_len2
#define OUTPUTS out, room, out_letters, letters_room

NAMED_BOTH(named_check_code, no_output, CODE);
NAMED_BOTH(named_decode_code, lent_edges, CODE, OUTPUTS);
NAMED_BOTH(named_decode_n_tuple, lent_edges, CODE, OUTPUTS);
NAMED_BOTH(named_decode_centred, lent_edges, CODE, OUTPUTS);
NAMED_BOTH(named_check_edges, no_output, LIST, in->root);
NAMED_TELLING(named_rooted_code, lent_both, LIST, in->root, OUTPUTS);
NAMED_TELLING(named_n_tuple_code, lent_both, LIST, OUTPUTS);
NAMED_TELLING(named_centred_code, lent_both, LIST, OUTPUTS);
NAMED_TELLING(named_same_skeleton, no_output, LIST, LIST_2);
NAMED_TELLING(named_renumbering, lent_map, LIST, LIST_2, out, room);
NAMED_BOTH(named_check_renumbering, no_output, LIST, LIST_2, in->bytes3, in->len3);
NAMED_TELLING(named_equal_vertices, lent_bytes, LIST, out, room);
NAMED_TELLING(named_pack, lent_bytes, LIST, in->root, out, room);
NAMED_VALUE_TELLING(named_whole, uint64_t, LIST, in->root);
NAMED_VALUE_TELLING(named_fraction, double, LIST, in->root);
NAMED_BOTH(named_cam, lent_bytes, LIST, out, room);
NAMED_VALUE(named_zero_a, uint64_t, LIST);
NAMED_VALUE(named_a_zero, uint64_t, LIST);
NAMED_TELLING(named_cam_by_code, lent_bytes, LIST, out, room);
NAMED_VALUE_TELLING(named_zero_a_by_code, uint64_t, LIST);
NAMED_VALUE_TELLING(named_a_zero_by_code, uint64_t, LIST);
NAMED_TELLING(named_plain_line, lent_bytes, LIST, out, room);
NAMED_TELLING(named_write_line, lent_bytes, LIST, out, room);
NAMED_BOTH(named_read_line, lent_both, in->bytes, in->len, OUTPUTS);

/* ---- Lists with letters ---- */

struct named {
    struct list list;
    struct bytes letters;
};

/* A code with its letters. */
struct named_digits {
    struct bytes digits, letters;
};

/* Letters for the vertices of a list, of which about one in so many is not carbon. */
static struct named with_letters(const struct list *list, unsigned chances)
{
    struct named named = {.list = *list, .letters = {.len = list->n}};
    unsigned degree[65] = {0};
    for (size_t i = 0; i < list->len; i++)
        degree[list->ends[i]]++;
    for (unsigned v = 1; v <= list->n; v++) {
        uint8_t other = degree[v] < 3 && one_in(2) ? 'O' : 'N';
        named.letters.byte[v - 1] = degree[v] < 4 && one_in(chances) ? other : 'C';
    }
    return named;
}

static struct named random_named(unsigned n)
{
    struct list list = random_tree(n);
    return with_letters(&list, one_in(5) ? 1000 : one_in(3) ? n : 2);
}

/* A copy under other numbers, with its map. */
static struct named copy_of(const struct named *a, struct bytes *map)
{
    struct named b = *a;
    map->len = a->list.n;
    for (unsigned v = 0; v < map->len; v++)
        map->byte[v] = (uint8_t)(v + 1);
    for (unsigned v = (unsigned)map->len; v > 1; v--)
        swap_bytes(&map->byte[v - 1], &map->byte[below(v)]);
    for (size_t i = 0; i < b.list.len; i++)
        b.list.ends[i] = map->byte[b.list.ends[i] - 1];
    for (unsigned v = 0; v < map->len; v++)
        b.letters.byte[map->byte[v] - 1] = a->letters.byte[v];
    shuffle(&b.list);
    return b;
}

/* One change to the letters: another atom, another mark, one less or one more. */
static void damage_letters(struct named *named)
{
    static const uint8_t marks[] = {'c', 'H', 'M', 'P', 'B', 'D', 0, 1, 255};
    struct bytes *letters = &named->letters;
    unsigned how = (unsigned)below(8);
    if (how == 0 || letters->len == 0)
        letters->byte[letters->len++] = 'C';
    else if (how == 1)
        letters->len--;
    else
        letters->byte[below(letters->len)] = how == 2 ? marks[below(sizeof marks)] : (uint8_t) "CNO"[below(3)];
}

static struct input of_list(const struct named *a)
{
    return (struct input){.n = a->list.n, .bytes = a->list.ends, .len = a->list.len, .letters = a->letters.byte, .letters_len = a->letters.len};
}

static struct input of_lists(const struct named *a, const struct named *b)
{
    struct input in = of_list(a);
    in.n2 = b->list.n, in.bytes2 = b->list.ends, in.len2 = b->list.len;
    in.letters2 = b->letters.byte, in.letters_len2 = b->letters.len;
    return in;
}

static int all_carbon(const struct named *a)
{
    return a->letters.len == a->list.n && memchr(a->letters.byte, 'N', a->letters.len) == NULL &&
           memchr(a->letters.byte, 'O', a->letters.len) == NULL;
}

/* With carbon alone the named calls of the library answer as the plain ones. */
static void claim_plain(const struct input *in)
{
    uint8_t out[80] = {0}, plain[80] = {0}, letters[64];
    size_t pairs, plain_pairs;
    uint32_t a = zk_named_centred_code(LIST, out, 64, letters, 64, &pairs);
    uint32_t b = zk_centred_code_pairs(1, in->n, in->bytes, in->len, plain, 64, &plain_pairs);
    claim(a == b && pairs == plain_pairs && memcmp(out, plain, 64) == 0, "the centred code of carbon alone is the plain one");
    a = zk_named_n_tuple_code(LIST, out, 64, letters, 64, &pairs);
    b = zk_n_tuple_code_pairs(1, in->n, in->bytes, in->len, plain, 64, &plain_pairs);
    claim(a == b && pairs == plain_pairs && memcmp(out, plain, 64) == 0, "the N-tuple code of carbon alone is the plain one");
    a = zk_named_plain_line(LIST, out, 80, &pairs);
    b = zk_write_line_pairs(1, in->n, in->bytes, in->len, plain, 80, &plain_pairs);
    claim(a == b && pairs == plain_pairs && memcmp(out, plain, 80) == 0, "the plain line of carbon alone is the plain one");
    a = zk_named_equal_vertices(LIST, out, 64, &pairs);
    b = zk_equal_vertices_pairs(1, in->n, in->bytes, in->len, plain, 64, &plain_pairs);
    claim(a == b && pairs == plain_pairs && memcmp(out, plain, 64) == 0, "the classes of carbon alone are the plain ones");
}

/* The codes, the classes and the named line of a list. */
static struct answer check_codes(const struct named *a)
{
    struct input in = of_list(a);
    in.root = some_root(&a->list, 12);
    check(&call_named_check_edges, in);
    check(&call_named_rooted_code, in);
    check(&call_named_n_tuple_code, in);
    check(&call_named_equal_vertices, in);
    check(&call_named_write_line, in);
    return check(&call_named_centred_code, in);
}

/* The forms that take carbon only. */
static void check_forms(const struct named *a)
{
    struct input in = of_list(a);
    in.root = some_root(&a->list, 12);
    check(&call_named_pack, in);
    check(&call_named_whole, in);
    check(&call_named_fraction, in);
    check(&call_named_cam, in);
    check(&call_named_zero_a, in);
    check(&call_named_a_zero, in);
    check(&call_named_cam_by_code, in);
    check(&call_named_zero_a_by_code, in);
    check(&call_named_a_zero_by_code, in);
    if (check(&call_named_plain_line, in).number == 0 && all_carbon(a))
        claim_plain(&in);
}

static struct answer check_digits(const struct named_digits *code)
{
    struct input in = {.bytes = code->digits.byte, .len = code->digits.len, .letters = code->letters.byte, .letters_len = code->letters.len};
    check(&call_named_check_code, in);
    check(&call_named_decode_n_tuple, in);
    check(&call_named_decode_centred, in);
    return check(&call_named_decode_code, in);
}

static struct named_digits centred_of(const struct named *a)
{
    struct named_digits code = {.letters = {.len = a->list.n}};
    struct input at = of_list(a), *in = &at;
    code.digits.len = oracle_named_centred_code(LIST, code.digits.byte, 64, code.letters.byte, 64).place;
    return code;
}

static struct named_digits rooted_of(const struct named *a, uint64_t root)
{
    struct named_digits code = {.letters = {.len = a->list.n}};
    struct input at = of_list(a), *in = &at;
    code.digits.len = oracle_named_rooted_code(LIST, root, code.digits.byte, 64, code.letters.byte, 64).place;
    return code;
}

static struct named list_of_digits(const struct named_digits *code)
{
    struct named named = {.list = {.n = code->digits.len}};
    struct input at = {.bytes = code->digits.byte, .len = code->digits.len, .letters = code->letters.byte, .letters_len = code->letters.len}, *in = &at;
    named.letters.len = named.list.n;
    named.list.len = oracle_named_decode_code(CODE, named.list.ends, 126, named.letters.byte, 64).place;
    return named;
}

static int same_digits_and_letters(const struct named_digits *a, const struct named_digits *b)
{
    return same_bytes(&a->digits, &b->digits) && same_bytes(&a->letters, &b->letters);
}

/* ---- All named skeletons of a size ---- */

enum { most_named = 5500 };

/* Found by adding a vertex of each atom to those of one vertex less. */
static size_t all_named(unsigned n, struct named_digits *codes)
{
    static struct named_digits smaller[most_named];
    size_t count = 0, before = n == 1 ? 0 : all_named(n - 1, codes);
    for (unsigned k = 0; n == 1 && k < 3; k++)
        codes[count++] = (struct named_digits){.digits = {.len = 1}, .letters = {.len = 1, .byte = {(uint8_t) "CNO"[k]}}};
    memcpy(smaller, codes, before * sizeof *codes);
    for (size_t i = 0; i < before; i++)
        for (unsigned place = 0; place < 3 * (n - 1); place++) {
            struct named a = list_of_digits(&smaller[i]);
            a.list.n = n;
            add_edge(&a.list, 1 + place / 3, n);
            a.letters.byte[a.letters.len++] = (uint8_t) "CNO"[place % 3];
            struct input at = of_list(&a), *in = &at;
            if (oracle_named_check_edges(LIST, 1).number != 0)
                continue;
            struct named_digits code = centred_of(&a);
            size_t k = 0;
            while (k < count && !same_digits_and_letters(&codes[k], &code))
                k++;
            if (k == count)
                codes[count++] = code;
        }
    return count;
}

static struct answer check_same(const struct named *a, const struct named *b)
{
    return check(&call_named_same_skeleton, of_lists(a, b));
}

static struct answer check_map(const struct named *a, const struct named *b, const struct bytes *map)
{
    struct input in = of_lists(a, b);
    in.bytes3 = map->byte;
    in.len3 = map->len;
    return check(&call_named_check_renumbering, in);
}

/* What is handed out keeps edges and atoms: the library's own judge, and letter by letter. */
static struct answer check_renumbering(const struct named *a, const struct named *b)
{
    struct input at = of_lists(a, b), *in = &at;
    struct answer answer = check(&call_named_renumbering, at);
    if (answer.number != 0 || answer.place == 0)
        return answer;
    struct bytes map = {.len = a->list.n};
    size_t pairs;
    zk_named_renumbering(LIST, LIST_2, map.byte, sizeof map.byte, &pairs);
    for (size_t v = 0; v < map.len; v++)
        claim(a->letters.byte[v] == b->letters.byte[map.byte[v] - 1], "a map that is handed out keeps the atoms");
    claim(check_map(a, b, &map).number == 0, "a map that is handed out is accepted");
    return answer;
}

static void skeletons(void)
{
    static const size_t wanted[] = {0, 3, 6, 18, 65, 258, 1140, 5436};
    static struct named_digits codes[most_named];
    for (unsigned n = 1; n <= 7; n++) {
        size_t count = all_named(n, codes);
        claim(count == wanted[n], "the named skeletons by size are 3, 6, 18, 65, 258, 1140, 5436");
        for (size_t i = 0; i < count && n <= 6; i++) {
            claim(check_digits(&codes[i]).number == 0, "a centred code is right");
            struct named a = list_of_digits(&codes[i]);
            for (unsigned root = 1; root <= n; root++) {
                struct named_digits code = rooted_of(&a, root);
                check_digits(&code);
            }
            struct bytes map;
            struct named b = copy_of(&a, &map);
            claim(check_codes(&b).number == 0, "a named skeleton is right");
            check_forms(&b);
            claim(check_map(&a, &b, &map).number == 0, "a copy's own map is accepted");
            claim(check_renumbering(&a, &b).place == n, "a copy is handed a map");
            for (size_t j = n <= 4 ? 0 : i < 3 ? 0 : i - 3; j < count && (n <= 4 || j < i + 3); j++) {
                struct named other = list_of_digits(&codes[j]);
                claim(check_same(&b, &other).place == (i == j), "two named skeletons are not the same");
                check_renumbering(&b, &other);
                check_map(&a, &other, &(struct bytes){.len = n, .byte = {1, 2, 3, 4, 5, 6}});
            }
        }
    }
}

/* ---- Random ones to 64, damaged ---- */

static void random_ones(void)
{
    for (unsigned n = 1; n <= 64; n++)
        for (unsigned round = 0; round < 12; round++) {
            struct named a = random_named(n);
            claim(check_codes(&a).number == 0, "random named atoms are right");
            check_forms(&a);
            struct list physical = random_physical(n);
            struct named b = with_letters(&physical, one_in(2) ? 1000 : n);
            check_forms(&b);
            struct named_digits code = one_in(2) ? centred_of(&a) : rooted_of(&a, 1 + below(n));
            claim(check_digits(&code).number == 0, "a code with letters is right");
            for (unsigned i = 0; i < 6; i++) {
                struct named_digits damaged = code;
                struct named letters = {.letters = code.letters};
                if (!one_in(3))
                    damage_letters(&letters);
                damaged.letters = letters.letters;
                if (!one_in(3))
                    damage_bytes(&damaged.digits, 5);
                if (damaged.letters.len < damaged.digits.len && one_in(2))
                    damaged.letters.byte[damaged.letters.len++] = 'C';
                if (one_in(2))
                    damaged.letters.len = damaged.digits.len < 300 ? damaged.digits.len : 300;
                check_digits(&damaged);
            }
        }
}

/* Lists with several refusals at once: in the list, in its size and in the letters, too many neighbours for four and for the atom. */
static void damaged(void)
{
    for (unsigned round = 0; round < 9000; round++) {
        struct named a = random_named(1 + (unsigned)below(one_in(6) ? 64 : 12));
        for (uint64_t times = below(3); times > 0; times--)
            damage_list(&a.list);
        for (uint64_t times = below(3); times > 0; times--)
            damage_letters(&a);
        if (one_in(3))
            overfill(&a.list);
        check_codes(&a);
        check_forms(&a);
    }
}

/* A list that has the refusal of a number, whatever else it has: it has a star about 2 with a chain behind it. */
static void refuse_with(struct named *a, unsigned number)
{
    size_t last = a->list.len;
    switch (number) {
    case 2:
        a->letters.byte[1] = 'X';
        break;
    case 3:
        a->list.n = 65;
        break;
    case 5:
        a->list.len--;
        break;
    case 6:
        a->list.ends[last - 1] = 0;
        break;
    case 7:
        a->list.ends[last - 3] = a->list.ends[last - 4];
        break;
    case 8:
        memcpy(a->list.ends + last - 6, a->list.ends, 2);
        break;
    case 9:
        memcpy(a->list.ends, (const uint8_t[]){2, 1, 2, 3, 2, 4, 2, 5, 2, 6}, 10);
        break;
    case 14: /* a numbering's: 12 stands between 10 and 11 */
        memcpy(a->list.ends + last - 4, (const uint8_t[]){10, 12, 12, 11}, 4);
        break;
    case 20:
        a->letters.byte[1] = 'O';
        break;
    case 21:
        a->letters.len--;
        break;
    default: /* an atom that is not carbon, and has the neighbours that it may have */
        a->letters.byte[7] = 'N';
    }
}

/* Every two, and every three, refusals that can meet in a list. The order is document 02's: the earlier one is given. */
static void refusals_that_meet(void)
{
    static const unsigned order[] = {2, 3, 5, 21, 6, 7, 8, 9, 20, 0, 14};
    enum { count = sizeof order / sizeof *order };
    for (unsigned i = 0; i < count; i++)
        for (unsigned j = i; j < count; j++)
            for (unsigned k = j; k < count; k++) {
                struct named a = {.list = {.n = 12}, .letters = {.len = 12}};
                memset(a.letters.byte, 'C', 12);
                for (unsigned v = 1; v <= 12; v++)
                    if (v != 2)
                        add_edge(&a.list, v < 5 ? 2 : v - 1, v);
                refuse_with(&a, order[k]);
                refuse_with(&a, order[j]);
                refuse_with(&a, order[i]);
                struct input in = of_list(&a);
                in.root = 1;
                unsigned wanted = order[i] == 0 ? 14 : order[i];
                claim(check(&call_named_cam, in).number == wanted, "of refusals that meet the first is given");
                claim(wanted == 14 || check(&call_named_check_edges, in).number == wanted, "of refusals that meet the first is given");
                check_codes(&a);
                check_forms(&a);
            }
}

/* The same of digits with letters: marks, size, letters not as many, 10, 20, more behind the end, no end, a larger sibling. */
static void refusals_in_codes(void)
{
    static const uint8_t digits[][8] = {{2, 1, 0, 1, 0}, {9, 0, 0, 0, 0}, {2, 0, 0, 0, 0}, {2, 1, 1, 1, 1}, {2, 0, 2, 0, 0}, {0, 0, 0, 0, 9}, {0, 0, 0, 0, 2}, {2, 0, 3, 0, 0}};
    static const char *const letters[] = {"CCCCC", "NCCCC", "OCCCC", "OCOCC", "CCOCC", "CCCCO", "CCNCC", "CXCCC", "CCCC", "CCCCCC", "CCCX", "OOOOO", "NNNNN", "CNCOC", "COCNC", ""};
    for (size_t i = 0; i < sizeof digits / sizeof *digits; i++)
        for (size_t len = 0; len <= 5; len += len == 0 ? 4 : 1)
            for (size_t j = 0; j < sizeof letters / sizeof *letters; j++) {
                struct named_digits code = {.digits = {.len = len}, .letters = {.len = strlen(letters[j])}};
                memcpy(code.digits.byte, digits[i], len);
                memcpy(code.letters.byte, letters[j], code.letters.len);
                check_digits(&code);
            }
}

/* A star whose middle is each atom: 9 before 20, and each at its edge. */
static void stars(void)
{
    for (unsigned k = 0; k < 3; k++)
        for (unsigned n = 1; n <= 9; n++) {
            struct named star = {.list = star_of(n), .letters = {.len = n}};
            memset(star.letters.byte, 'C', n);
            star.letters.byte[0] = (uint8_t) "CNO"[k];
            struct answer answer = check_codes(&star);
            unsigned most = 4 - k, number = n > 5 ? 9 : n > most + 1 ? 20 : 0;
            claim(answer.number == number, "five edges are 9, and fewer 20 where the atom may not have them");
            claim(number == 0 || answer.place == (number == 9 ? 5 : most + 1), "at the edge too many");
            check_forms(&star);
            struct named_digits code = {.digits = {.len = n, .byte = {(uint8_t)(n - 1)}}, .letters = star.letters};
            claim(check_digits(&code).number == (n > 5 ? 10 : n > most + 1 ? 20 : 0), "in a code 10 comes before 20");
        }
}

static void two_lists(void)
{
    for (unsigned round = 0; round < 2500; round++) {
        unsigned n = 1 + (unsigned)below(one_in(6) ? 64 : 10);
        struct named a = random_named(n);
        struct bytes own, map;
        struct named b = copy_of(&a, &own);
        claim(check_same(&a, &b).place == 1, "a renumbered copy is the same");
        claim(check_map(&a, &b, &own).number == 0, "a copy's own map is accepted");
        check_renumbering(&a, &b);
        map = own;
        if (n > 1)
            swap_bytes(&map.byte[below(n)], &map.byte[below(n)]);
        check_map(&a, &b, &map);
        if (one_in(2))
            map.byte[below(n)] = (uint8_t)below(n + 2);
        if (one_in(6))
            map.len = below(n + 2);
        check_map(&a, &b, &map);
        struct named near = b;
        near.letters.byte[below(n)] = (uint8_t) "CNO"[below(3)];
        check_same(&a, &near);
        check_renumbering(&a, &near);
        check_map(&a, &near, &own);
        struct named other = random_named(1 + (unsigned)below(10));
        check_same(&a, &other);
        check_map(&a, &other, &own);
        if (one_in(2))
            damage_letters(&a);
        if (one_in(2))
            damage_list(&b.list);
        if (one_in(2))
            damage_letters(&b);
        if (one_in(3))
            damage_list(&a.list);
        if (one_in(3))
            overfill(&b.list);
        check_same(&a, &b);
        check_renumbering(&a, &b);
        check_map(&a, &b, &map);
    }
}

#define MET_CODE(NAME, ...) CLAIM_MET(NAME, 0, 2, 3, 10, 11, 12, 13, __VA_ARGS__)
#define MET_LIST(NAME, ...) CLAIM_MET(NAME, 0, 2, 3, 5, 6, 7, 8, 9, __VA_ARGS__)

void piece_named(void)
{
    edition = 1;
    skeletons();
    stars();
    refusals_that_meet();
    refusals_in_codes();
    random_ones();
    damaged();
    two_lists();
    MET_CODE(named_check_code, 20, 21);
    MET_CODE(named_decode_code, 15, 20, 21);
    MET_CODE(named_decode_n_tuple, 14, 15, 20, 21);
    MET_CODE(named_decode_centred, 14, 15, 20, 21);
    MET_LIST(named_check_edges, 20, 21);
    MET_LIST(named_rooted_code, 15, 20, 21);
    MET_LIST(named_n_tuple_code, 15, 20, 21);
    MET_LIST(named_centred_code, 15, 20, 21);
    MET_LIST(named_same_skeleton, 20, 21);
    MET_LIST(named_renumbering, 15, 20, 21);
    MET_LIST(named_check_renumbering, 18, 19, 20, 21);
    MET_LIST(named_equal_vertices, 15, 20, 21);
    MET_LIST(named_pack, 14, 15, 20, 21);
    MET_LIST(named_whole, 14, 20, 21);
    MET_LIST(named_fraction, 14, 20, 21);
    MET_LIST(named_cam, 14, 15, 20, 21);
    MET_LIST(named_zero_a, 14, 20, 21);
    MET_LIST(named_a_zero, 14, 20, 21);
    MET_LIST(named_cam_by_code, 14, 15, 20, 21);
    MET_LIST(named_zero_a_by_code, 14, 20, 21);
    MET_LIST(named_a_zero_by_code, 14, 20, 21);
    MET_LIST(named_plain_line, 14, 15, 20, 21);
    MET_LIST(named_write_line, 15, 20, 21);
}

/* ---- Named lines ---- */

static struct answer check_line(const struct text *text)
{
    return check(&call_named_read_line, (struct input){.bytes = text->byte, .len = text->len});
}

static void append_line(struct text *text, const struct named *a)
{
    struct input at = of_list(a), *in = &at;
    text->len += oracle_named_write_line(LIST, text->byte + text->len, most_text - text->len).place;
}

static struct text random_text(unsigned lines, unsigned largest)
{
    struct text text = {.len = 0};
    for (unsigned i = 0; i < lines; i++) {
        struct named a = random_named(1 + (unsigned)below(largest));
        append_line(&text, &a);
    }
    return text;
}

static void check_whole_text(const struct text *text)
{
    static struct reading theirs;
    check_line(text);
    check_named_text(text, &theirs);
    check_named_short_room(text);
    check_named_listing(text->byte, text->len);
}

static void examples(void)
{
    static const char *const texts[] = {
        "", "\n", "1 0 C 1 0 0\n", "1 0 N 0 1 0\n", "1 0 O 0 0 1\n", "1 0 O 0 0 1", "1 0\n", "1 0 C 1 0\n", "1 0 C 1 0 0 0\n",
        "1 0 C 1 0 0 \n", " 1 0 C 1 0 0\n", "1  0 C 1 0 0\n", "1 0  1 0 0\n", "1 0 C 01 0 0\n", "1 0 C 1 00 0\n", "1 0 c 1 0 0\n",
        "1 0 C 1 0 0\r\n", "01 0 C 1 0 0\n", "0 0 C 1 0 0\n", "65 0 C 1 0 0\n", "2 0 C 1 0 0\n", "1 0 CC 1 0 0\n", "1 0 CC 2 0 0\n",
        "1 5 CC 2 0 0\n", "1 5 C 1 0 0\n", "1 4 O 0 0 1\n", "1 3 O 0 0 1\n", "1 1 O 0 0 1\n", "2 10 OC 1 0 1\n", "2 10 CO 1 0 1\n",
        "2 10 OC 0 1 1\n", "2 10 OC 1 1 0\n", "2 10 OC 1 0 18446744073709551617\n", "2 10 OC 18446744073709551617 0 1\n",
        "2 10 OC 1 18446744073709551616 1\n", "2 10 OC 1 0 257\n", "2 10 OC 1 0 4294967297\n", "2 10 OC 1 0 -1\n", "2 10 OC 1 0 +1\n",
        "6 210110 CNCCCC 5 1 0\n", "6 211010 CCNCCC 5 1 0\n", "6 211010 CCCCCC 6 0 0\n", "3 004 COC 2 0 1\n", "3 002 CCO 2 0 1\n",
        "3 200 CCC 3 0 0\n", "3 200 OCC 2 0 1\n", "4 3000 NCCC 3 1 0\n", "4 3000 OCCC 3 0 1\n", "5 40000 NCCCC 4 1 0\n", "5 50000 NCCCC 4 1 0\n",
        "3 200 CCN 2 1 0\n", "3 200 CNC 2 1 0\n", "3 200 CCO 2 0 1\n2 10 OC 1 0 1\n1 0 C 1 0 0", "8 32100100 CCCCCCCC 8 0 0\n8 32100100\n"};
    for (size_t i = 0; i < sizeof texts / sizeof *texts; i++) {
        struct text text = {.len = strlen(texts[i])};
        memcpy(text.byte, texts[i], text.len);
        check_whole_text(&text);
    }
}

/* A line from its parts, each of which may be wrong: another count, digits, letters or counts of letters. */
static void lines_of_parts(void)
{
    for (unsigned round = 0; round < 12000; round++) {
        struct named a = random_named(1 + (unsigned)below(one_in(8) ? 64 : 8));
        struct named_digits code = one_in(4) ? rooted_of(&a, 1 + below(a.list.n)) : centred_of(&a);
        struct named letters = {.letters = code.letters};
        if (one_in(3))
            damage_letters(&letters);
        if (one_in(3))
            damage_bytes(&code.digits, 5);
        unsigned tally[3] = {0};
        for (size_t i = 0; i < letters.letters.len; i++)
            for (unsigned k = 0; k < 3; k++)
                tally[k] += letters.letters.byte[i] == "CNO"[k];
        if (one_in(5))
            tally[below(3)] = (unsigned)below(12);
        struct text text;
        text.len = (size_t)snprintf((char *)text.byte, 8, "%u ", one_in(6) ? (unsigned)below(70) : (unsigned)a.list.n);
        for (size_t i = 0; i < code.digits.len; i++)
            text.byte[text.len++] = (uint8_t)('0' + code.digits.byte[i]);
        text.byte[text.len++] = ' ';
        memcpy(text.byte + text.len, letters.letters.byte, letters.letters.len);
        text.len += letters.letters.len;
        text.len += (size_t)snprintf((char *)text.byte + text.len, 60, " %u %u %s%u\n", tally[0], tally[1], one_in(12) ? "0" : "", tally[2]);
        check_line(&text);
    }
}

/* A written line is read, and the longest has 142 bytes. */
static void written(void)
{
    size_t longest = 0;
    for (unsigned n = 1; n <= 64; n++)
        for (unsigned round = 0; round < 20; round++) {
            struct named a = random_named(n);
            struct text text = {.len = 0};
            append_line(&text, &a);
            claim(check_line(&text).number == 0, "a written line is read");
            longest = text.len > longest ? text.len : longest;
        }
    claim(longest == ZK_NAMED_LINE, "the longest named line has 142 bytes");
}

static void texts(void)
{
    static const char spread[] = {'0', '1', '2', '3', '9', ' ', '\n', 'C', 'N', 'O', 'c', 'M', ',', 0};
    char every_byte[256];
    for (unsigned by = 0; by < 256; by++)
        every_byte[by] = (char)by;
    for (unsigned round = 0; round < 200; round++) {
        struct text text = random_text((unsigned)below(4), 1 + (unsigned)below(7));
        every_change(check_named_text, every_byte, sizeof every_byte, &text);
    }
    for (unsigned round = 0; round < 200; round++) {
        struct text text = random_text((unsigned)below(5), 1 + (unsigned)below(7));
        every_change(check_named_text, spread, sizeof spread, &text);
    }
    for (unsigned round = 0; round < 6; round++) {
        struct text text = random_text(1 + (unsigned)below(2), 30);
        every_change(check_named_text, spread, sizeof spread, &text);
    }
    for (unsigned round = 0; round < 150; round++) {
        struct text text = random_text((unsigned)below(20), one_in(4) ? 60 : 8);
        check_whole_text(&text);
        for (unsigned i = 0; i < 4 && text.len > 0; i++)
            text.byte[below(text.len)] = (uint8_t)(one_in(3) ? below(256) : (uint8_t) "0123 \nCNO"[below(9)]);
        check_whole_text(&text);
    }
}

void piece_named_lines(void)
{
    edition = 1;
    examples();
    lines_of_parts();
    written();
    texts();
    CLAIM_MET(named_read_line, 0, 1, 2, 3, 5, 10, 11, 12, 13, 14, 15, 20, 21);
}
