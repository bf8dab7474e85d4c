/* Skeletons with named atoms: letters, rows 2, 20 and 21, codes with letters, the verdict, maps, classes, and the forms that
 * take carbon only. */
#include <string.h>

#include "oracle_parts.h"

/* ---- Atoms ---- */

static const uint8_t letter_in_order[] = {'C', 'N', 'O'};

unsigned limit_of_atom(uint8_t atom)
{
    return atom == carbon ? 4 : atom == nitrogen ? 3 : 2;
}

bool is_letter(uint8_t byte)
{
    return byte == 'C' || byte == 'N' || byte == 'O';
}

uint8_t atom_of(uint8_t letter)
{
    return letter == 'O' ? oxygen : letter == 'N' ? nitrogen : carbon;
}

uint8_t letter_of(uint8_t atom)
{
    return letter_in_order[atom];
}

struct row row_2_letters(const uint8_t *letters, size_t count)
{
    for (size_t i = 0; i < count; i++)
        if (!is_letter(letters[i]))
            return row_at(2, 0);
    return row_none(2);
}

struct row row_21_letters(uint64_t wanted, size_t count)
{
    return row_if(21, count != wanted);
}

/* ---- Codes with letters ---- */

struct row row_20_digits(const uint8_t *digits, const uint8_t *letters, size_t count)
{
    for (size_t i = 1; i <= count; i++)
        if (digits[i - 1] > cap(limit_of_atom(atom_of(letters[i - 1])), i))
            return row_at(20, i);
    return row_none(20);
}

struct code named_code(const uint8_t *digits, const uint8_t *letters, size_t count)
{
    struct code code = {.length = count};
    for (size_t i = 0; i < count; i++) {
        code.digit[i] = digits[i];
        code.atom[i] = atom_of(letters[i]);
    }
    return code;
}

/* The part of a code from a vertex on, up to its end. */
static struct code part_at(const struct code *code, size_t from)
{
    struct code part = {.length = code_end(code->digit + from, code->length - from)};
    memcpy(part.digit, code->digit + from, part.length);
    memcpy(part.atom, code->atom + from, part.length);
    return part;
}

/* Every two neighbouring siblings of every vertex; the first place. The code has its right end. */
static struct row row_13_named(const struct code *code)
{
    struct row found = row_none(13);
    for (size_t vertex = 0; vertex < code->length; vertex++) {
        size_t child = vertex + 1;
        for (unsigned k = 1; k < code->digit[vertex]; k++) {
            struct code before = part_at(code, child);
            child += before.length;
            struct code here = part_at(code, child);
            if (larger(&here, &before) && (!found.applies || child + 1 < found.place))
                found = row_at(13, child + 1);
        }
    }
    return found;
}

struct answer refuse_named_digits(const uint8_t *digits, const uint8_t *letters, size_t count)
{
    struct answer refusal = LOWEST(row_10_digits(4, digits, count), row_20_digits(digits, letters, count),
                                   row_11_digits(digits, count), row_12_digits(digits, count));
    if (refusal.number != 0)
        return refusal;
    struct code code = named_code(digits, letters, count);
    return LOWEST(row_13_named(&code));
}

struct tree tree_of_named_code(const struct code *code)
{
    struct tree tree = tree_of_code(code->digit, code->length);
    memcpy(tree.atom + 1, code->atom, code->length);
    return tree;
}

struct answer deliver_named(struct answer refusal, const uint8_t *result, size_t length, const uint8_t *letters, size_t count,
                            uint8_t *out, size_t room, uint8_t *out_letters, size_t letters_room)
{
    if (refusal.number != 0)
        return refusal;
    if (room < length)
        return (struct answer){.number = 15, .place = length};
    if (letters_room < count)
        return (struct answer){.number = 15, .place = count};
    if (length > 0)
        memcpy(out, result, length);
    memcpy(out_letters, letters, count);
    return (struct answer){.number = 0, .place = length};
}

struct answer oracle_named_check_code(const uint8_t *code, size_t len, const uint8_t *letters, size_t letters_len)
{
    struct answer refusal = LOWEST(row_2_letters(letters, letters_len), row_if(3, len == 0 || len > most_vertices),
                                   row_21_letters(len, letters_len));
    return refusal.number != 0 ? refusal : refuse_named_digits(code, letters, len);
}

typedef struct code form(const struct tree *);

/* A code with letters read as a form, or as any rooted code where no form is asked for. */
static struct answer decode_named(form *of, const uint8_t *code, size_t len, const uint8_t *letters, size_t letters_len,
                                  uint8_t *out, size_t room, uint8_t *out_letters, size_t letters_room)
{
    uint8_t edges[2 * most_vertices];
    struct answer refusal = oracle_named_check_code(code, len, letters, letters_len);
    if (refusal.number != 0)
        return refusal;
    struct code given = named_code(code, letters, len);
    if (of != NULL) {
        struct tree tree = tree_of_named_code(&given);
        struct code asked = of(&tree);
        refusal = LOWEST(row_if(14, !same_code(&given, &asked)));
    }
    return deliver_named(refusal, edges, edges_of_code(code, len, edges), letters, len, out, room, out_letters, letters_room);
}

struct answer oracle_named_decode_code(const uint8_t *code, size_t len, const uint8_t *letters, size_t letters_len, uint8_t *out,
                                       size_t room, uint8_t *out_letters, size_t letters_room)
{
    return decode_named(NULL, code, len, letters, letters_len, out, room, out_letters, letters_room);
}

struct answer oracle_named_decode_n_tuple(const uint8_t *code, size_t len, const uint8_t *letters, size_t letters_len,
                                          uint8_t *out, size_t room, uint8_t *out_letters, size_t letters_room)
{
    return decode_named(n_tuple_code, code, len, letters, letters_len, out, room, out_letters, letters_room);
}

struct answer oracle_named_decode_centred(const uint8_t *code, size_t len, const uint8_t *letters, size_t letters_len,
                                          uint8_t *out, size_t room, uint8_t *out_letters, size_t letters_room)
{
    return decode_named(centred_code, code, len, letters, letters_len, out, room, out_letters, letters_room);
}

/* ---- Edge lists with letters ---- */

/* An end of the edge has as many earlier edges as its atom may have. The letters are one for each vertex. */
static struct row row_20_edges(const uint8_t *edges, size_t len, const uint8_t *letters)
{
    for (size_t e = 1; 2 * e <= len; e++)
        for (size_t end = 2 * e - 2; end < 2 * e; end++) {
            unsigned earlier = 0;
            for (size_t i = 0; i < 2 * (e - 1); i++)
                earlier += edges[i] == edges[end];
            if (earlier >= limit_of_atom(atom_of(letters[edges[end] - 1])))
                return row_at(20, e);
        }
    return row_none(20);
}

static struct answer refuse_named(uint64_t n, uint64_t largest, const uint8_t *edges, size_t len, const uint8_t *letters,
                                  size_t letters_len, uint64_t root)
{
    struct answer refusal = LOWEST(row_2_letters(letters, letters_len), row_3(n, largest), row_5(n, len),
                                   row_21_letters(n, letters_len), row_6(n, edges, len, root), row_7(edges, len),
                                   row_8(edges, len), row_9(4, edges, len));
    return refusal.number != 0 ? refusal : LOWEST(row_20_edges(edges, len, letters));
}

static struct tree named_tree(uint64_t n, const uint8_t *edges, const uint8_t *letters)
{
    struct tree tree = tree_of(n, edges);
    for (size_t v = 1; v <= n; v++)
        tree.atom[v] = atom_of(letters[v - 1]);
    return tree;
}

struct answer oracle_named_check_edges(uint64_t n, const uint8_t *edges, size_t len, const uint8_t *letters, size_t letters_len,
                                       uint64_t root)
{
    return refuse_named(n, most_vertices, edges, len, letters, letters_len, root);
}

static struct answer deliver_code(const struct code *code, uint8_t *out, size_t room, uint8_t *out_letters, size_t letters_room)
{
    uint8_t letters[most_vertices];
    for (size_t i = 0; i < code->length; i++)
        letters[i] = letter_of(code->atom[i]);
    struct answer none = {.number = 0};
    return telling(deliver_named(none, code->digit, code->length, letters, code->length, out, room, out_letters, letters_room),
                   code->pairs);
}

struct answer oracle_named_rooted_code(uint64_t n, const uint8_t *edges, size_t len, const uint8_t *letters, size_t letters_len,
                                       uint64_t root, uint8_t *out, size_t room, uint8_t *out_letters, size_t letters_room)
{
    struct answer refusal = oracle_named_check_edges(n, edges, len, letters, letters_len, root);
    if (refusal.number != 0)
        return refusal;
    struct tree tree = named_tree(n, edges, letters);
    struct code code = rooted_code(&tree, (unsigned)root);
    return deliver_code(&code, out, room, out_letters, letters_room);
}

static struct answer named_as(form *of, uint64_t n, const uint8_t *edges, size_t len, const uint8_t *letters, size_t letters_len,
                              uint8_t *out, size_t room, uint8_t *out_letters, size_t letters_room)
{
    struct answer refusal = oracle_named_check_edges(n, edges, len, letters, letters_len, no_root);
    if (refusal.number != 0)
        return refusal;
    struct tree tree = named_tree(n, edges, letters);
    struct code code = of(&tree);
    return deliver_code(&code, out, room, out_letters, letters_room);
}

struct answer oracle_named_n_tuple_code(uint64_t n, const uint8_t *edges, size_t len, const uint8_t *letters, size_t letters_len,
                                        uint8_t *out, size_t room, uint8_t *out_letters, size_t letters_room)
{
    return named_as(n_tuple_code, n, edges, len, letters, letters_len, out, room, out_letters, letters_room);
}

struct answer oracle_named_centred_code(uint64_t n, const uint8_t *edges, size_t len, const uint8_t *letters, size_t letters_len,
                                        uint8_t *out, size_t room, uint8_t *out_letters, size_t letters_room)
{
    return named_as(centred_code, n, edges, len, letters, letters_len, out, room, out_letters, letters_room);
}

struct answer oracle_named_equal_vertices(uint64_t n, const uint8_t *edges, size_t len, const uint8_t *letters,
                                          size_t letters_len, uint8_t *out, size_t room)
{
    struct answer refusal = oracle_named_check_edges(n, edges, len, letters, letters_len, no_root);
    if (refusal.number != 0)
        return refusal;
    struct tree as_lent = named_tree(n, edges, letters);
    struct code code = centred_code(&as_lent);
    struct tree tree = tree_of_named_code(&code);
    uint8_t class[most_vertices];
    classes_in(&tree, class);
    return telling(deliver(refusal, class, n, out, room), code.pairs);
}

/* ---- Two lists ---- */

static struct answer refuse_both(uint64_t n1, const uint8_t *edges1, size_t len1, const uint8_t *letters1, size_t letters_len1,
                                 uint64_t n2, const uint8_t *edges2, size_t len2, const uint8_t *letters2, size_t letters_len2)
{
    struct answer first = oracle_named_check_edges(n1, edges1, len1, letters1, letters_len1, no_root);
    struct answer second = oracle_named_check_edges(n2, edges2, len2, letters2, letters_len2, no_root);
    if (first.number != 0)
        return first;
    second.lists_before = second.number != 0;
    return second;
}

struct answer oracle_named_same_skeleton(uint64_t n1, const uint8_t *edges1, size_t len1, const uint8_t *letters1,
                                         size_t letters_len1, uint64_t n2, const uint8_t *edges2, size_t len2,
                                         const uint8_t *letters2, size_t letters_len2)
{
    struct answer refusal = refuse_both(n1, edges1, len1, letters1, letters_len1, n2, edges2, len2, letters2, letters_len2);
    if (refusal.number != 0 || n1 != n2)
        return refusal;
    struct tree one = named_tree(n1, edges1, letters1), other = named_tree(n2, edges2, letters2);
    struct code a = centred_code(&one), b = centred_code(&other);
    return telling((struct answer){.number = 0, .place = same_code(&a, &b) ? 1 : 0}, a.pairs + b.pairs);
}

struct answer oracle_named_renumbering(uint64_t n1, const uint8_t *edges1, size_t len1, const uint8_t *letters1,
                                       size_t letters_len1, uint64_t n2, const uint8_t *edges2, size_t len2,
                                       const uint8_t *letters2, size_t letters_len2, uint8_t *out, size_t room)
{
    struct answer verdict = oracle_named_same_skeleton(n1, edges1, len1, letters1, letters_len1, n2, edges2, len2, letters2,
                                                       letters_len2), none = {.number = 0};
    if (verdict.number != 0)
        return verdict;
    if (verdict.place == 0)
        return telling(none, verdict.pairs);
    struct tree one = named_tree(n1, edges1, letters1), other = named_tree(n2, edges2, letters2);
    uint8_t map[most_vertices];
    map_between(&one, &other, map);
    return of_map(telling(deliver(none, map, n1, out, room), verdict.pairs));
}

/* An entry outside, or used already, or another atom: the first such entry. */
static struct row row_18_named(uint64_t n, const uint8_t *map, size_t len, const uint8_t *letters1, const uint8_t *letters2)
{
    for (size_t p = 1; p <= len; p++)
        if (row_18(n, map, p).applies || letters1[p - 1] != letters2[map[p - 1] - 1])
            return row_at(18, p);
    return row_none(18);
}

struct answer oracle_named_check_renumbering(uint64_t n1, const uint8_t *edges1, size_t len1, const uint8_t *letters1,
                                             size_t letters_len1, uint64_t n2, const uint8_t *edges2, size_t len2,
                                             const uint8_t *letters2, size_t letters_len2, const uint8_t *map, size_t map_len)
{
    struct answer refusal = refuse_both(n1, edges1, len1, letters1, letters_len1, n2, edges2, len2, letters2, letters_len2);
    if (refusal.number == 0)
        refusal = of_map(LOWEST(row_if(5, n1 != n2 || map_len != n1)));
    if (refusal.number != 0)
        return refusal;
    return of_map(LOWEST(row_18_named(n1, map, map_len, letters1, letters2), row_19(edges1, len1, edges2, len2, map, map_len)));
}

/* ---- Carbon only ---- */

/* The refusals that come before a plain form's own 14 and 15: those of the list with the form's own largest size, and then an atom that is
 * not carbon. Behind them the plain call answers. */
static struct answer carbon_only(uint64_t n, uint64_t largest, const uint8_t *edges, size_t len, const uint8_t *letters,
                                 size_t letters_len, uint64_t root)
{
    struct answer refusal = refuse_named(n, largest, edges, len, letters, letters_len, root);
    if (refusal.number != 0)
        return refusal;
    for (size_t v = 1; v <= n; v++)
        if (letters[v - 1] != 'C')
            return LOWEST(row_at(14, v));
    return refusal;
}

#define CARBON_ONLY(LARGEST, ROOT, ...) \
    struct answer refusal = carbon_only(n, LARGEST, edges, len, letters, letters_len, ROOT); \
    return refusal.number != 0 ? refusal : __VA_ARGS__

struct answer oracle_named_pack(uint64_t n, const uint8_t *edges, size_t len, const uint8_t *letters, size_t letters_len,
                                uint64_t root, uint8_t *out, size_t room)
{
    CARBON_ONLY(64, root, oracle_pack(1, n, edges, len, root, out, room));
}

struct answer oracle_named_whole(uint64_t n, const uint8_t *edges, size_t len, const uint8_t *letters, size_t letters_len,
                                 uint64_t root, uint64_t *value)
{
    CARBON_ONLY(32, root, oracle_whole(1, n, edges, len, root, value));
}

struct answer oracle_named_fraction(uint64_t n, const uint8_t *edges, size_t len, const uint8_t *letters, size_t letters_len,
                                    uint64_t root, double *value)
{
    CARBON_ONLY(27, root, oracle_fraction(1, n, edges, len, root, value));
}

struct answer oracle_named_cam(uint64_t n, const uint8_t *edges, size_t len, const uint8_t *letters, size_t letters_len,
                               uint8_t *out, size_t room)
{
    CARBON_ONLY(64, no_root, oracle_cam(1, n, edges, len, out, room));
}

struct answer oracle_named_zero_a(uint64_t n, const uint8_t *edges, size_t len, const uint8_t *letters, size_t letters_len,
                                  uint64_t *value)
{
    CARBON_ONLY(21, no_root, oracle_zero_a(1, n, edges, len, value));
}

struct answer oracle_named_a_zero(uint64_t n, const uint8_t *edges, size_t len, const uint8_t *letters, size_t letters_len,
                                  uint64_t *value)
{
    CARBON_ONLY(11, no_root, oracle_a_zero(1, n, edges, len, value));
}

struct answer oracle_named_cam_by_code(uint64_t n, const uint8_t *edges, size_t len, const uint8_t *letters, size_t letters_len,
                                       uint8_t *out, size_t room)
{
    CARBON_ONLY(64, no_root, oracle_cam_by_code(1, n, edges, len, out, room));
}

struct answer oracle_named_zero_a_by_code(uint64_t n, const uint8_t *edges, size_t len, const uint8_t *letters,
                                          size_t letters_len, uint64_t *value)
{
    CARBON_ONLY(21, no_root, oracle_zero_a_by_code(1, n, edges, len, value));
}

struct answer oracle_named_a_zero_by_code(uint64_t n, const uint8_t *edges, size_t len, const uint8_t *letters,
                                          size_t letters_len, uint64_t *value)
{
    CARBON_ONLY(11, no_root, oracle_a_zero_by_code(1, n, edges, len, value));
}

struct answer oracle_named_plain_line(uint64_t n, const uint8_t *edges, size_t len, const uint8_t *letters, size_t letters_len,
                                      uint8_t *out, size_t room)
{
    CARBON_ONLY(64, no_root, oracle_write_line(1, n, edges, len, out, room));
}
