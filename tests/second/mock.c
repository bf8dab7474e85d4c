/* The oracle behind the library's names, so that the drivers can be tried without the library.
 *
 * `choose_wrong` makes one call, or all of them, answer wrongly in one way; `run --mock-wrong` shows that each is caught. */
#include <math.h>
#include <stdio.h>
#include <stdlib.h>
#include <string.h>

#include "oracle_parts.h"
#include "second.h"
#include "zurkhovel.h"

/* The piece that must catch it, and the wrong answer. */
#define WRONGS(X) \
    X(code, place_of_12)         /* one too high */ \
    X(code, ten_up_to_end)       /* 10 is not judged behind a digit code's end */ \
    X(code, writes_on_15)        /* the output is touched although it is too short */ \
    X(code, writes_behind)       /* a byte behind the result is touched */ \
    X(code, place_13_of_sibling) /* the place of the sibling before */ \
    X(code, place_not_added)     /* a refusal is 256 times its number alone */ \
    X(code, bytes_not_given)     /* a success is 0, however many bytes were written */ \
    X(code, edition_ignored)     /* edition 2 is taken as 1 */ \
    X(code, edition_as_byte)     /* the edition is taken modulo 256 */ \
    X(code, edition_by_default)  /* what is no edition is taken as 1 */ \
    X(code, edition_3)           /* is taken as 2 */ \
    X(code, nine_elsewhere)      /* a digit that is not the root's may be 9 too */ \
    X(edges, root_has_place)     /* a wrong root is 6 at 1 */ \
    X(edges, seven_before_six)   /* a loop comes before a wrong vertex number */ \
    X(edges, size_as_byte)       /* N is taken modulo 256 */ \
    X(edges, ninth_late)         /* the place of 9 is one too high */ \
    X(edges, joined_directly)    /* 8 sees only doubled edges */ \
    X(edges, difference_left)    /* the pair that differs is not counted */ \
    X(edges, leaves_left)        /* two leaves are not compared */ \
    X(edges, child_total_left)   /* what was looked at below a child is not counted */ \
    X(edges, pairs_on_15)        /* a refusal tells what was looked at before it */ \
    X(edges, pairs_untouched)    /* a refusal leaves the number as it was */ \
    X(edges, tenth_neighbour)    /* is taken in edition 2 */ \
    X(edges, twenty_two_last)    /* 22 comes behind the list's own refusals */ \
    X(form, either_middle)       /* the first of two middle vertices */ \
    X(form, n_tuple_by_centre)   /* the N-tuple code is rooted at the centre */ \
    X(form, list_forgotten)      /* 65,536 is not added for the second list */ \
    X(form, list_1_added)        /* 65,536 is added for the first list too */ \
    X(form, verdict_exchanged)   /* the verdict's 0 and 1 */ \
    X(form, sizes_unchecked)     /* different sizes are "not the same" before any refusal */ \
    X(form, no_14)               /* any right rooted code is taken */ \
    X(form, one_middle_counted)  /* of two middle vertices */ \
    X(form, best_root_counted)   /* of the roots of maximum degree only that of the code */ \
    X(form, finished_counted)    /* the codes at two middle vertices, compared with each other */ \
    X(form, first_list_counted)  /* and not the second */ \
    X(form, sizes_counted)       /* lists of different sizes */ \
    X(form, twenty_two_of_list)  /* 22 belongs to the second list */ \
    X(form, host_of_2)           /* the function that names no edition is of edition 2 */ \
    X(maps, map_not_added)       /* 131,072 is not added for the map */ \
    X(maps, map_turned)          /* from the second list to the first */ \
    X(maps, higher_root)         /* of two middle vertices with the centred code the higher number */ \
    X(maps, last_listed)         /* of equal siblings the one whose edge is listed last */ \
    X(maps, fifteen_always)      /* 15 also where there is no map */ \
    X(maps, repeat_at_first)     /* 18 at the first use of a number */ \
    X(maps, edge_of_second)      /* 19 at an edge of the second list */ \
    X(maps, one_way)             /* an edge is carried only as it is listed */ \
    X(maps, five_first)          /* the map's 5 comes before the second list's refusal */ \
    X(maps, map_first_counted)   /* the pairs of the first list alone */ \
    X(maps, no_map_uncounted)    /* where the lists are not the same, no pairs are told */ \
    X(maps, map_sizes_counted)   /* lists of different sizes tell pairs */ \
    X(maps, map_pairs_on_15)     /* a map without room tells what was looked at */ \
    X(bits, pairs_at_1)          /* the pairs at vertex 1 */ \
    X(bits, packed_pairs_on_15)  /* a packed form without room tells what was looked at */ \
    X(bits, spare_byte)          /* a zero byte too many is taken */ \
    X(bits, negative_zero)       /* is taken as zero */ \
    X(bits, cut_run_is_12)       /* a run that passes its cap at the end of the bits */ \
    X(bits, rest_dropped)        /* bits behind the 53rd do not count */ \
    X(bits, zero_bits_follow)    /* a whole number may have zeros behind its end */ \
    X(bits, limit_28)            /* fractions of size 28 */ \
    X(bits, value_on_refusal)    /* the lent place is set to 0 by a refusal */ \
    X(bits, ten_as_nine)         /* a run of ten ones is told as one of nine */ \
    X(bits, second_byte_lost)    /* a digit that fills two bytes puts out one */ \
    X(adjacency, entries_to_n)   /* 0A with i to N-1 */ \
    X(adjacency, limit_22)       /* 0A of size 22 is 4 */ \
    X(adjacency, not_physical_2) /* the place of 14 is always 2 */ \
    X(adjacency, a0_by_rows)     /* the edges of an A0 in another order */ \
    X(adjacency, cam_entry_high) /* 6 is not seen for i+1 */ \
    X(adjacency, by_code_uncounted) /* a form by code tells no pairs */ \
    X(adjacency, numbers_of_1)   /* a 0A is read in edition 1 */ \
    X(lines, line_uncounted)     /* a line tells none */ \
    X(lines, count_08)           /* a leading zero is taken */ \
    X(lines, at_of_unfinished)   /* an unfinished line is not passed over */ \
    X(lines, record_filled)      /* zeros behind a record */ \
    X(lines, first_line_only)    /* the reader refuses all but line one */ \
    X(lines, feed_and_return)    /* a carriage return before the line feed is taken */ \
    X(lines, unfinished_not_counted) /* an unfinished line is no refused one */ \
    X(lines, unfinished_not_listed)  /* nor has it a line of the listing */ \
    X(lines, longest_is_long)    /* 65,536 bytes are too many */ \
    X(lines, piece_skips)        /* a piece behind the first begins one byte late */ \
    X(lines, twenty_two_after_1) /* a line without its line feed is 1 in any edition */ \
    X(lines, reader_of_1)        /* the reader over a text is of edition 1 */ \
    X(lines, no_edition_no_lines) /* in no edition a text has no lines */ \
    X(vertices, classes_counted) /* comparing subtrees for their classes is counted */ \
    X(vertices, depth_and_subtree) /* document 01's rule */ \
    X(vertices, turning_forgotten) /* only renumberings that keep the root */ \
    X(vertices, parents_by_number) /* only children of one vertex are ever alike */ \
    X(vertices, halves_unread)   /* the skeleton turns over wherever a child of the root has half of the vertices */ \
    X(vertices, callers_order)   /* the class of each of the caller's vertices, in their order */ \
    X(vertices, classes_from_0) \
    X(named, atoms_before_digits) /* at each vertex the atom and then the digit */ \
    X(named, digits_then_atoms)  /* all digits, and then all atoms */ \
    X(named, atoms_turned)       /* O below N below C */ \
    X(named, atoms_ignored)      /* in the verdict */ \
    X(named, map_of_digits)      /* a map that puts an atom on another one is accepted */ \
    X(named, classes_of_digits)  /* renumberings need not keep the atoms */ \
    X(named, four_at_nitrogen)   /* N may have four neighbours */ \
    X(named, twenty_before_9)    /* 20 comes before 9 */ \
    X(named, twenty_at_vertex)   /* 20 at the vertex, not at the edge */ \
    X(named, root_as_others)     /* the root's digit may be no larger than the others' */ \
    X(named, twenty_up_to_end)   /* 20 is not judged behind a code's end */ \
    X(named, letters_before_2)   /* letters that are not N in number are 21 whatever they are */ \
    X(named, plain_line_of_any)  /* the plain line of other atoms is written */ \
    X(named, numbering_first)    /* the 14 of a numbering comes before that of an atom */ \
    X(named, atom_by_code)       /* 14 at the vertex of the centred code's numbering */ \
    X(named, letters_as_lent)    /* a code's letters in the caller's order */ \
    X(named, room_of_letters)    /* 15 is the letters' where both are too short */ \
    X(named, letters_on_15)      /* the letters are written although the digits have no room */ \
    X(named, pairs_of_digits)    /* two marks of equal digits are taken as equal */ \
    X(named_lines, counts_exchanged) /* N and O in the other order */ \
    X(named_lines, count_wrapped) /* a count is taken modulo 2^64 */ \
    X(named_lines, count_01)     /* a leading zero of a count is taken */ \
    X(named_lines, no_counts)    /* the counts are not looked at */ \
    X(named_lines, letters_filled) /* zeros behind a record's letters */ \
    X(named_lines, letters_at_front) /* all letters at the front of their area */ \
    X(named_lines, plain_taken)  /* the named reader takes plain lines */ \
    X(named_lines, listed_as_plain)

#define AS_CONSTANT(PIECE, NAME) NAME,
#define AS_STRINGS(PIECE, NAME) {#PIECE, #NAME},

static enum { WRONGS(AS_CONSTANT) nothing_wrong } wrong = nothing_wrong;

static const struct {
    const char *piece, *name;
} wrongs[] = {WRONGS(AS_STRINGS)};

int choose_wrong(const char *name)
{
    for (wrong = 0; wrong < nothing_wrong; wrong++)
        if (strcmp(name, wrongs[wrong].name) == 0)
            return 1;
    return 0;
}

void print_wrongs(void)
{
    for (size_t i = 0; i < nothing_wrong; i++)
        printf("%s %s\n", wrongs[i].piece, wrongs[i].name);
}

/* The answer in one whole number. */
static uint32_t give(struct answer answer)
{
    if (wrong == place_not_added && answer.number != 0)
        answer.place = 0;
    if (wrong == bytes_not_given && answer.number == 0)
        answer.place = 0;
    return (uint32_t)(256 * answer.number + answer.place) + 65536 * answer.lists_before;
}

/* The edition as a call understands it. */
static uint64_t named(uint64_t edition)
{
    if ((wrong == edition_ignored && edition == 2) || (wrong == edition_by_default && edition != 2))
        return 1;
    if (wrong == edition_3 && edition == 3)
        return 2;
    return wrong == edition_as_byte ? edition % 256 : edition;
}

/* ---- The pairs looked at, counted again from the digits of a code ---- */

static uint64_t pairs_of_parts(const uint8_t *a, size_t an, const uint8_t *b, size_t bn)
{
    if (wrong == leaves_left && an == 1 && bn == 1)
        return 0;
    for (size_t i = 0; i < an && i < bn; i++)
        if (a[i] != b[i])
            return i + (wrong != difference_left);
    return an < bn ? an : bn;
}

/* The parts of the children stand behind the first digit, each up to its end. */
static uint64_t pairs_in(const uint8_t *code)
{
    const uint8_t *part[most_neighbours];
    size_t length[most_neighbours];
    uint64_t pairs = 0;
    const uint8_t *at = code + 1;
    for (unsigned i = 0; i < code[0]; i++) {
        part[i] = at;
        length[i] = code_end(at, most_vertices);
        at += length[i];
        pairs += wrong == child_total_left ? 0 : pairs_in(part[i]);
        for (unsigned j = 0; j < i; j++)
            pairs += pairs_of_parts(part[i], length[i], part[j], length[j]);
    }
    return pairs;
}

static uint64_t rooted_pairs(size_t n, const uint8_t *edges, size_t root)
{
    struct tree tree = tree_of(n, edges);
    return pairs_in(rooted_code(&tree, (unsigned)root).digit);
}

static uint64_t centred_pairs(size_t n, const uint8_t *edges)
{
    struct tree tree = tree_of(n, edges);
    unsigned middle[2];
    unsigned middles = centre(&tree, middle);
    uint64_t pairs = rooted_pairs(n, edges, middle[0]);
    if (middles == 2 && wrong != one_middle_counted)
        pairs += rooted_pairs(n, edges, middle[1]);
    if (middles == 2 && wrong == finished_counted)
        pairs += n;
    return pairs;
}

static uint64_t n_tuple_pairs(size_t n, const uint8_t *edges)
{
    struct tree tree = tree_of(n, edges);
    struct code best = n_tuple_code(&tree);
    uint64_t pairs = 0;
    for (unsigned v = 1; v <= n; v++)
        if (tree.degree[v] == best.digit[0])
            pairs += rooted_pairs(n, edges, v);
    return wrong == best_root_counted ? pairs_in(best.digit) : pairs;
}

/* The answer of the call that does not tell them, with the pairs beside it. */
static uint32_t tell(uint32_t answer, uint64_t counted, size_t *pairs)
{
    if (!zk_refused(answer))
        *pairs = counted;
    else if (wrong != pairs_untouched)
        *pairs = 0;
    return answer;
}

/* Whether the call got as far as to code the list. */
static bool was_coded(uint32_t answer)
{
    return !zk_refused(answer) || zk_number(answer) == 15;
}

static struct answer wrong_code(struct answer answer, size_t edition, const uint8_t *code, size_t len)
{
    size_t end = code_end(code, len);
    if (wrong == place_of_12 && answer.number == 12)
        answer.place++;
    if (wrong == ten_up_to_end && answer.number == 10 && end != 0 && answer.place > end)
        answer = (struct answer){.number = 11, .place = end + 1};
    if (wrong == place_13_of_sibling && answer.number == 13)
        answer.place--;
    if (wrong == nine_elsewhere && edition == 2 && answer.number == 10 && answer.place > 1 && code[answer.place - 1] == 9)
        answer = LOWEST(row_11_digits(code, len), row_12_digits(code, len), row_13(code, len));
    return answer;
}

uint32_t zk_check_code(size_t edition, const uint8_t *code, size_t len)
{
    return give(wrong_code(oracle_check_code(named(edition), code, len), edition, code, len));
}

uint32_t zk_decode_code(size_t edition, const uint8_t *code, size_t len, uint8_t *out, size_t out_len)
{
    struct answer answer = oracle_decode_code(named(edition), code, len, out, out_len);
    if (wrong == writes_on_15 && answer.number == 15 && out_len > 0)
        out[0] = 1;
    if (wrong == writes_behind && answer.number == 0 && out_len > answer.place)
        out[answer.place] = 0;
    return give(wrong_code(answer, edition, code, len));
}

uint32_t zk_decode_n_tuple(size_t edition, const uint8_t *code, size_t len, uint8_t *out, size_t out_len)
{
    return give(oracle_decode_n_tuple(named(edition), code, len, out, out_len));
}

uint32_t zk_decode_centred(size_t edition, const uint8_t *code, size_t len, uint8_t *out, size_t out_len)
{
    if (wrong == no_14)
        return give(oracle_decode_code(named(edition), code, len, out, out_len));
    return give(oracle_decode_centred(named(edition), code, len, out, out_len));
}

/* Whether an edge has an earlier copy. */
static bool doubled(const uint8_t *edges, size_t e)
{
    const uint8_t *here = edges + 2 * e - 2;
    for (const uint8_t *there = edges; there < here; there += 2)
        if ((there[0] == here[0] && there[1] == here[1]) || (there[0] == here[1] && there[1] == here[0]))
            return true;
    return false;
}

static struct answer wrong_edges(struct answer answer, size_t edition, size_t n, const uint8_t *edges, size_t len, size_t root)
{
    if (wrong == twenty_two_last && answer.number == 22) {
        struct answer other = oracle_check_edges(1, n, edges, len, root);
        return other.number != 0 ? other : answer;
    }
    if (wrong == tenth_neighbour && edition == 2 && answer.number == 9)
        return LOWEST(row_9(10, edges, len));
    if (wrong == root_has_place && answer.number == 6 && answer.place == 0)
        answer.place = 1;
    if (wrong == seven_before_six && answer.number == 6)
        for (size_t e = 1; 2 * e <= len; e++)
            if (edges[2 * e - 2] == edges[2 * e - 1])
                return (struct answer){.number = 7, .place = e};
    if (wrong == ninth_late && answer.number == 9)
        answer.place++;
    if (wrong == joined_directly && answer.number == 8 && !doubled(edges, answer.place))
        answer.number = n > 0 ? 9 : 8;
    return answer;
}

uint32_t zk_check_edges(size_t edition, size_t n, const uint8_t *edges, size_t len, size_t root)
{
    if (wrong == size_as_byte)
        n %= 256;
    return give(wrong_edges(oracle_check_edges(named(edition), n, edges, len, root), edition, n, edges, len, root));
}

uint32_t zk_rooted_code(size_t edition, size_t n, const uint8_t *edges, size_t len, size_t root, uint8_t *out, size_t out_len)
{
    return give(oracle_rooted_code(named(edition), n, edges, len, root, out, out_len));
}

uint32_t zk_n_tuple_code(size_t edition, size_t n, const uint8_t *edges, size_t len, uint8_t *out, size_t out_len)
{
    if (wrong == n_tuple_by_centre)
        return give(oracle_centred_code(named(edition), n, edges, len, out, out_len));
    return give(oracle_n_tuple_code(named(edition), n, edges, len, out, out_len));
}

uint32_t zk_centred_code(size_t edition, size_t n, const uint8_t *edges, size_t len, uint8_t *out, size_t out_len)
{
    struct answer answer = oracle_centred_code(named(edition), n, edges, len, out, out_len);
    if (wrong == either_middle && answer.number == 0) {
        struct tree tree = tree_of(n, edges);
        unsigned middle[2];
        centre(&tree, middle);
        memcpy(out, rooted_code(&tree, middle[0]).digit, n);
    }
    return give(answer);
}

uint32_t zk_same_skeleton_edition(size_t edition, size_t n1, const uint8_t *e1, size_t l1, size_t n2, const uint8_t *e2, size_t l2)
{
    struct answer answer = oracle_same_skeleton(named(edition), n1, e1, l1, n2, e2, l2);
    if (wrong == list_forgotten)
        answer.lists_before = 0;
    if (wrong == twenty_two_of_list && answer.number == 22)
        answer.lists_before = 1;
    if (wrong == list_1_added)
        answer.lists_before = answer.number != 0;
    if (wrong == verdict_exchanged && answer.number == 0)
        answer.place = 1 - answer.place;
    if (wrong == sizes_unchecked && n1 != n2)
        answer = (struct answer){.number = 0};
    return give(answer);
}

uint32_t zk_same_skeleton(size_t n1, const uint8_t *e1, size_t l1, size_t n2, const uint8_t *e2, size_t l2)
{
    return zk_same_skeleton_edition(wrong == host_of_2 ? 2 : 1, n1, e1, l1, n2, e2, l2);
}

static struct answer wrong_map(struct answer answer)
{
    if (wrong == map_not_added && answer.lists_before == 2)
        answer.lists_before = 0;
    return answer;
}

uint32_t zk_renumbering(size_t edition, size_t n1, const uint8_t *e1, size_t l1, size_t n2, const uint8_t *e2, size_t l2, uint8_t *out, size_t out_len)
{
    struct answer answer = oracle_renumbering(named(edition), n1, e1, l1, n2, e2, l2, out, out_len);
    bool given = answer.number == 0 && answer.place > 0;
    if (wrong == fifteen_always && answer.number == 0 && answer.place == 0 && out_len < n1)
        answer = (struct answer){.number = 15, .place = n1, .lists_before = 2};
    if (wrong == map_turned && given) {
        uint8_t map[most_vertices];
        memcpy(map, out, n1);
        for (size_t v = 0; v < n1; v++)
            out[map[v] - 1] = (uint8_t)(v + 1);
    }
    if (wrong == last_listed && given) {
        uint8_t back[2 * most_vertices];
        for (size_t i = 0; i < l1; i++)
            back[i] = e1[l1 - 1 - i];
        oracle_renumbering(named(edition), n1, back, l1, n2, e2, l2, out, out_len);
    }
    if (wrong == higher_root && given) {
        uint8_t other[2 * most_vertices], map[most_vertices];
        for (size_t i = 0; i < l1; i++)
            other[i] = (uint8_t)(n1 + 1 - e1[i]);
        oracle_renumbering(named(edition), n1, other, l1, n2, e2, l2, map, n1);
        for (size_t v = 0; v < n1; v++)
            out[v] = map[n1 - 1 - v];
    }
    return give(wrong_map(answer));
}

/* Whether an edge of a list goes from u to v as it is listed. */
static bool listed(const uint8_t *edges, size_t len, unsigned u, unsigned v)
{
    for (size_t i = 0; i + 1 < len; i += 2)
        if (edges[i] == u && edges[i + 1] == v)
            return true;
    return false;
}

uint32_t zk_check_renumbering(size_t edition, size_t n1, const uint8_t *e1, size_t l1, size_t n2, const uint8_t *e2, size_t l2, const uint8_t *map, size_t len)
{
    struct answer answer = oracle_check_renumbering(named(edition), n1, e1, l1, n2, e2, l2, map, len);
    if (wrong == repeat_at_first && answer.number == 18)
        for (size_t p = 1; p < answer.place; p++)
            if (map[p - 1] == map[answer.place - 1])
                answer.place = p;
    if (wrong == edge_of_second && answer.number == 19)
        for (size_t e = 1; 2 * e <= l2; e++) {
            bool met = false;
            for (size_t i = 0; i < l1; i += 2) {
                unsigned u = map[e1[i] - 1], v = map[e1[i + 1] - 1];
                met |= (e2[2 * e - 2] == u && e2[2 * e - 1] == v) || (e2[2 * e - 2] == v && e2[2 * e - 1] == u);
            }
            if (!met) {
                answer.place = e;
                break;
            }
        }
    if (wrong == one_way && answer.number == 0)
        for (size_t e = 1; 2 * e <= l1; e++)
            if (!listed(e2, l2, map[e1[2 * e - 2] - 1], map[e1[2 * e - 1] - 1])) {
                answer = (struct answer){.number = 19, .place = e, .lists_before = 2};
                break;
            }
    if (wrong == five_first && answer.lists_before == 1 && (n1 != n2 || len != n1))
        answer = (struct answer){.number = 5, .lists_before = 2};
    return give(wrong_map(answer));
}

/* Once for each digit a byte is put out, which is enough for digits up to seven. */
static void pack_one_byte(const struct code *code, uint8_t *out)
{
    uint64_t held = 0;
    unsigned bits = 0;
    for (size_t i = 0; i < code->length; i++) {
        held = held << (code->digit[i] + 1) | ((2u << code->digit[i]) - 2);
        bits += code->digit[i] + 1u;
        if (bits >= 8)
            *out++ = (uint8_t)(held >> (bits - 8));
        bits %= 8;
    }
    if (bits > 0)
        *out = (uint8_t)(held << (8 - bits));
}

uint32_t zk_pack_edition(size_t edition, size_t n, const uint8_t *edges, size_t len, size_t root, uint8_t *out, size_t out_len)
{
    struct answer answer = oracle_pack(named(edition), n, edges, len, root, out, out_len);
    if (wrong == second_byte_lost && answer.number == 0) {
        struct tree tree = tree_of(n, edges);
        struct code code = rooted_code(&tree, (unsigned)root);
        pack_one_byte(&code, out);
    }
    return give(answer);
}

uint32_t zk_pack(size_t n, const uint8_t *edges, size_t len, size_t root, uint8_t *out, size_t out_len)
{
    return zk_pack_edition(1, n, edges, len, root, out, out_len);
}

uint32_t zk_unpack(size_t edition, const uint8_t *bytes, size_t len, uint8_t *out, size_t out_len)
{
    struct answer answer = oracle_unpack(named(edition), bytes, len, out, out_len);
    if (wrong == spare_byte && answer.number == 11 && len > 1 && bytes[len - 1] == 0)
        answer = oracle_unpack(named(edition), bytes, len - 1, out, out_len);
    if (wrong == ten_as_nine && answer.number == 10 && len > 1 && bytes[0] == 255 && bytes[1] >> 5 == 6) {
        uint8_t shorter[16];
        memcpy(shorter, bytes, len);
        shorter[1] ^= 64;
        answer = oracle_unpack(named(edition), shorter, len, out, out_len);
    }
    if (wrong == cut_run_is_12 && answer.number == 10 && bytes[len - 1] % 32 == 31)
        answer = (struct answer){.number = 12, .place = answer.place - 1};
    return give(answer);
}

uint32_t zk_whole(size_t edition, size_t n, const uint8_t *edges, size_t len, size_t root, uint64_t *value)
{
    struct answer answer = oracle_whole(named(edition), n, edges, len, root, value);
    if (wrong == value_on_refusal && answer.number != 0)
        *value = 0;
    return give(answer);
}

uint32_t zk_unwhole(size_t edition, size_t n, uint64_t value, uint8_t *out, size_t out_len)
{
    struct answer answer = oracle_unwhole(named(edition), n, value, out, out_len);
    if (wrong == zero_bits_follow && answer.number == 11 && value % 4 == 0)
        answer = oracle_unwhole(named(edition), n - 1, value / 4, out, out_len);
    return give(answer);
}

uint32_t zk_fraction(size_t edition, size_t n, const uint8_t *edges, size_t len, size_t root, double *value)
{
    if (wrong == limit_28 && n == 28 && oracle_check_edges(named(edition), n, edges, len, root).number == 0)
        return give((struct answer){.number = 0});
    return give(oracle_fraction(named(edition), n, edges, len, root, value));
}

uint32_t zk_unfraction(size_t edition, double x, uint8_t *out, size_t out_len)
{
    if (wrong == negative_zero && x == 0)
        x = 0;
    if (wrong == rest_dropped && x > 0 && x < 1)
        x = ldexp(floor(ldexp(x, 53)), -53);
    return give(oracle_unfraction(named(edition), x, out, out_len));
}

static struct answer wrong_physical(struct answer answer)
{
    if (wrong == not_physical_2 && answer.number == 14)
        answer.place = 2;
    return answer;
}

uint32_t zk_cam(size_t edition, size_t n, const uint8_t *edges, size_t len, uint8_t *out, size_t out_len)
{
    return give(wrong_physical(oracle_cam(named(edition), n, edges, len, out, out_len)));
}

uint32_t zk_cam_by_code(size_t edition, size_t n, const uint8_t *edges, size_t len, uint8_t *out, size_t out_len)
{
    return give(oracle_cam_by_code(named(edition), n, edges, len, out, out_len));
}

uint32_t zk_decode_cam(size_t edition, size_t n, const uint8_t *cam, size_t len, uint8_t *out, size_t out_len)
{
    struct answer answer = oracle_decode_cam(named(edition), n, cam, len, out, out_len);
    if (wrong == cam_entry_high && answer.number == 6 && cam[answer.place - 1] == answer.place + 1)
        answer.number = 7;
    return give(answer);
}

uint32_t zk_zero_a(size_t edition, size_t n, const uint8_t *edges, size_t len, uint64_t *value)
{
    struct answer answer = wrong_physical(oracle_zero_a(named(edition), n, edges, len, value));
    if (wrong == entries_to_n && answer.number == 0)
        *value *= n;
    return give(answer);
}

uint32_t zk_zero_a_by_code(size_t edition, size_t n, const uint8_t *edges, size_t len, uint64_t *value)
{
    return give(oracle_zero_a_by_code(named(edition), n, edges, len, value));
}

uint32_t zk_decode_zero_a(size_t edition, size_t n, uint64_t value, uint8_t *out, size_t out_len)
{
    struct answer answer = oracle_decode_zero_a(wrong == numbers_of_1 && edition == 2 ? 1 : named(edition), n, value, out, out_len);
    if (wrong == limit_22 && n == 22)
        answer.number = 4;
    return give(answer);
}

uint32_t zk_a_zero(size_t edition, size_t n, const uint8_t *edges, size_t len, uint64_t *value)
{
    return give(oracle_a_zero(named(edition), n, edges, len, value));
}

uint32_t zk_a_zero_by_code(size_t edition, size_t n, const uint8_t *edges, size_t len, uint64_t *value)
{
    return give(oracle_a_zero_by_code(named(edition), n, edges, len, value));
}

static int by_lower_end(const void *a, const void *b)
{
    return memcmp(a, b, 2);
}

uint32_t zk_decode_a_zero(size_t edition, size_t n, uint64_t value, uint8_t *out, size_t out_len)
{
    struct answer answer = oracle_decode_a_zero(named(edition), n, value, out, out_len);
    if (wrong == a0_by_rows && answer.number == 0)
        qsort(out, answer.place / 2, 2, by_lower_end);
    return give(answer);
}

uint32_t zk_read_line_edition(size_t edition, const uint8_t *text, size_t len, uint8_t *out, size_t out_len)
{
    struct answer answer = oracle_read_line(named(edition), text, len, out, out_len);
    if (wrong == count_08 && answer.number == 2 && len > 2 && text[0] == '0')
        answer = oracle_read_line(named(edition), text + 1, len - 1, out, out_len);
    if (wrong == twenty_two_after_1 && answer.number == 22 && memchr(text, '\n', len) == NULL)
        answer.number = 1;
    return give(answer);
}

uint32_t zk_read_line(const uint8_t *text, size_t len, uint8_t *out, size_t out_len)
{
    return zk_read_line_edition(1, text, len, out, out_len);
}

uint32_t zk_write_line_edition(size_t edition, size_t n, const uint8_t *edges, size_t len, uint8_t *out, size_t out_len)
{
    return give(oracle_write_line(named(edition), n, edges, len, out, out_len));
}

uint32_t zk_write_line(size_t n, const uint8_t *edges, size_t len, uint8_t *out, size_t out_len)
{
    return zk_write_line_edition(1, n, edges, len, out, out_len);
}

static void wrong_lines(size_t edition, const uint8_t *text, size_t len, uint8_t *records, uint8_t *numbers, size_t *places,
                        size_t lines)
{
    for (size_t i = 0; i < lines; i++) {
        if (wrong == record_filled && numbers[i] == 0)
            memset(records + 64 * i + places[i], 0, 64 - places[i]);
        if (wrong == first_line_only && i > 0 && numbers[i] == 0)
            numbers[i] = 2, places[i] = 0;
    }
    if (wrong == feed_and_return && lines == 1 && len > 4 && text[len - 2] == '\r') {
        uint8_t whole[4000];
        memcpy(whole, text, len - 2);
        whole[len - 2] = '\n';
        struct answer answer = oracle_read_line(named(edition), whole, len - 1, records, 64);
        numbers[0] = (uint8_t)answer.number;
        places[0] = answer.place;
    }
}

void zk_read_text(size_t edition, const uint8_t *text, size_t len, uint8_t *records, size_t records_len,
                  uint8_t *numbers, size_t numbers_len, size_t *places, size_t places_len,
                  size_t *lines, size_t *at)
{
    if (wrong == no_edition_no_lines && row_22(edition).applies)
        len = 0;
    oracle_read_text(wrong == reader_of_1 && edition == 2 ? 1 : named(edition), text, len, records, records_len, numbers, numbers_len, places, places_len, lines, at);
    if (wrong == at_of_unfinished && *at == len && len > 0 && text[len - 1] != '\n')
        *at -= 1;
    wrong_lines(edition, text, len, records, numbers, places, *lines);
}

void zk_count(const uint8_t *numbers, size_t len, size_t *read, size_t *refused)
{
    oracle_count(numbers, len, read, refused);
    if (wrong == unfinished_not_counted && len > 0 && numbers[len - 1] == 1)
        *refused -= 1;
}

size_t zk_list(const uint8_t *text, size_t len, size_t from, uint8_t *out, size_t out_len)
{
    if (wrong == longest_is_long && len == 65536)
        len++;
    if (wrong == piece_skips && from > 0)
        from++;
    if (wrong == unfinished_not_listed)
        while (len > 0 && text[len - 1] != '\n')
            len--;
    return oracle_list(text, len, from, out, out_len);
}

static bool same_part(const struct code *code, size_t a, size_t b)
{
    size_t a_length = code_end(code->digit + a, code->length - a);
    size_t b_length = code_end(code->digit + b, code->length - b);
    return order_of(code->digit + a, a_length, code->digit + b, b_length) == 1;
}

/* Classes by equal subtree codes and equal marks: of the depth, of the parent's class, or of the parent. */
static void by_marks(const struct code *code, uint8_t *class)
{
    uint8_t edges[2 * most_vertices], mark[most_vertices] = {0}, classes = 1;
    edges_of_code(code->digit, code->length, edges);
    class[0] = 1;
    for (size_t v = 1; v < code->length; v++) {
        size_t parent = edges[2 * (v - 1)] - 1u;
        mark[v] = wrong == depth_and_subtree ? mark[parent] + 1 : wrong == parents_by_number ? (uint8_t)(parent + 1) : class[parent];
        bool half = parent == 0 && 2 * code_end(code->digit + v, code->length - v) == code->length;
        class[v] = wrong == halves_unread && half ? class[0] : 0;
        for (size_t u = 1; u < v && class[v] == 0; u++)
            if (mark[u] == mark[v] && same_part(code, u, v))
                class[v] = class[u];
        if (class[v] == 0)
            class[v] = ++classes;
    }
}

/* The caller's vertices, numbered by first appearance among themselves. */
static void in_callers_order(const struct tree *tree, uint8_t *class)
{
    uint8_t classes = 0;
    for (unsigned v = 1; v <= tree->n; v++) {
        struct code code = rooted_code(tree, v);
        class[v - 1] = 0;
        for (unsigned u = 1; u < v && class[v - 1] == 0; u++) {
            struct code other = rooted_code(tree, u);
            if (same_digits(code.digit, code.length, &other))
                class[v - 1] = class[u - 1];
        }
        if (class[v - 1] == 0)
            class[v - 1] = ++classes;
    }
}

uint32_t zk_equal_vertices(size_t edition, size_t n, const uint8_t *edges, size_t len, uint8_t *out, size_t out_len)
{
    struct answer answer = oracle_equal_vertices(named(edition), n, edges, len, out, out_len);
    if (answer.number != 0)
        return give(answer);
    struct tree tree = tree_of(n, edges);
    struct code code = centred_code(&tree);
    if (wrong == classes_from_0)
        for (size_t i = 0; i < n; i++)
            out[i]--;
    if (wrong == depth_and_subtree || wrong == turning_forgotten || wrong == parents_by_number || wrong == halves_unread)
        by_marks(&code, out);
    if (wrong == callers_order)
        in_callers_order(&tree, out);
    return give(answer);
}

/* ---- The calls that tell the pairs ---- */

uint32_t zk_rooted_code_pairs(size_t edition, size_t n, const uint8_t *edges, size_t len, size_t root, uint8_t *out, size_t out_len, size_t *pairs)
{
    uint32_t answer = zk_rooted_code(edition, n, edges, len, root, out, out_len);
    uint64_t counted = was_coded(answer) ? rooted_pairs(n, edges, root) : 0;
    tell(answer, counted, pairs);
    if (wrong == pairs_on_15 && zk_number(answer) == 15)
        *pairs = counted;
    return answer;
}

uint32_t zk_n_tuple_code_pairs(size_t edition, size_t n, const uint8_t *edges, size_t len, uint8_t *out, size_t out_len, size_t *pairs)
{
    uint32_t answer = zk_n_tuple_code(edition, n, edges, len, out, out_len);
    return tell(answer, was_coded(answer) ? n_tuple_pairs(n, edges) : 0, pairs);
}

uint32_t zk_centred_code_pairs(size_t edition, size_t n, const uint8_t *edges, size_t len, uint8_t *out, size_t out_len, size_t *pairs)
{
    uint32_t answer = zk_centred_code(edition, n, edges, len, out, out_len);
    return tell(answer, was_coded(answer) ? centred_pairs(n, edges) : 0, pairs);
}

uint32_t zk_same_skeleton_pairs(size_t edition, size_t n1, const uint8_t *e1, size_t l1, size_t n2, const uint8_t *e2, size_t l2, size_t *pairs)
{
    uint32_t answer = zk_same_skeleton_edition(edition, n1, e1, l1, n2, e2, l2);
    uint64_t counted = 0;
    if (was_coded(answer) && (n1 == n2 || wrong == sizes_counted)) {
        counted = centred_pairs(n1, e1);
        if (wrong != first_list_counted)
            counted += centred_pairs(n2, e2);
    }
    return tell(answer, counted, pairs);
}

uint32_t zk_renumbering_pairs(size_t edition, size_t n1, const uint8_t *e1, size_t l1, size_t n2, const uint8_t *e2, size_t l2, uint8_t *out, size_t out_len, size_t *pairs)
{
    uint32_t answer = zk_renumbering(edition, n1, e1, l1, n2, e2, l2, out, out_len);
    uint64_t counted = 0;
    if (was_coded(answer) && (n1 == n2 || wrong == map_sizes_counted)) {
        counted = centred_pairs(n1, e1);
        if (wrong != map_first_counted)
            counted += centred_pairs(n2, e2);
    }
    tell(answer, wrong == no_map_uncounted && answer == 0 ? 0 : counted, pairs);
    if (wrong == map_pairs_on_15 && zk_number(answer) == 15)
        *pairs = counted;
    return answer;
}

uint32_t zk_pack_pairs(size_t edition, size_t n, const uint8_t *edges, size_t len, size_t root, uint8_t *out, size_t out_len, size_t *pairs)
{
    uint32_t answer = zk_pack_edition(edition, n, edges, len, root, out, out_len);
    uint64_t counted = was_coded(answer) ? rooted_pairs(n, edges, wrong == pairs_at_1 ? 1 : root) : 0;
    tell(answer, counted, pairs);
    if (wrong == packed_pairs_on_15 && zk_number(answer) == 15)
        *pairs = counted;
    return answer;
}

uint32_t zk_whole_pairs(size_t edition, size_t n, const uint8_t *edges, size_t len, size_t root, uint64_t *value, size_t *pairs)
{
    uint32_t answer = zk_whole(edition, n, edges, len, root, value);
    return tell(answer, was_coded(answer) ? rooted_pairs(n, edges, root) : 0, pairs);
}

uint32_t zk_fraction_pairs(size_t edition, size_t n, const uint8_t *edges, size_t len, size_t root, double *value, size_t *pairs)
{
    uint32_t answer = zk_fraction(edition, n, edges, len, root, value);
    return tell(answer, was_coded(answer) ? rooted_pairs(n, edges, root) : 0, pairs);
}

static uint32_t tell_by_code(uint32_t answer, size_t n, const uint8_t *edges, size_t *pairs)
{
    return tell(answer, was_coded(answer) && wrong != by_code_uncounted ? centred_pairs(n, edges) : 0, pairs);
}

uint32_t zk_cam_by_code_pairs(size_t edition, size_t n, const uint8_t *edges, size_t len, uint8_t *out, size_t out_len, size_t *pairs)
{
    return tell_by_code(zk_cam_by_code(edition, n, edges, len, out, out_len), n, edges, pairs);
}

uint32_t zk_zero_a_by_code_pairs(size_t edition, size_t n, const uint8_t *edges, size_t len, uint64_t *value, size_t *pairs)
{
    return tell_by_code(zk_zero_a_by_code(edition, n, edges, len, value), n, edges, pairs);
}

uint32_t zk_a_zero_by_code_pairs(size_t edition, size_t n, const uint8_t *edges, size_t len, uint64_t *value, size_t *pairs)
{
    return tell_by_code(zk_a_zero_by_code(edition, n, edges, len, value), n, edges, pairs);
}

uint32_t zk_equal_vertices_pairs(size_t edition, size_t n, const uint8_t *edges, size_t len, uint8_t *out, size_t out_len, size_t *pairs)
{
    uint32_t answer = zk_equal_vertices(edition, n, edges, len, out, out_len);
    uint64_t counted = was_coded(answer) ? centred_pairs(n, edges) : 0;
    return tell(answer, wrong == classes_counted ? counted + n - 1 : counted, pairs);
}

uint32_t zk_write_line_pairs(size_t edition, size_t n, const uint8_t *edges, size_t len, uint8_t *out, size_t out_len, size_t *pairs)
{
    uint32_t answer = zk_write_line_edition(edition, n, edges, len, out, out_len);
    return tell(answer, was_coded(answer) && wrong != line_uncounted ? centred_pairs(n, edges) : 0, pairs);
}

/* ---- Named atoms ---- */

/* Whether one code stands before another in a wrong order. */
static bool wrong_before(const struct code *a, const struct code *b)
{
    if (wrong == digits_then_atoms) {
        unsigned order = order_of(a->digit, a->length, b->digit, b->length);
        return order == 0 || (order == 1 && order_of(a->atom, a->length, b->atom, b->length) == 0);
    }
    for (size_t i = 0; i < a->length && i < b->length; i++) {
        if (wrong == atoms_before_digits && a->atom[i] != b->atom[i])
            return a->atom[i] < b->atom[i];
        if (a->digit[i] != b->digit[i])
            return a->digit[i] < b->digit[i];
        if (a->atom[i] != b->atom[i])
            return wrong == atoms_turned ? a->atom[i] > b->atom[i] : a->atom[i] < b->atom[i];
    }
    return false;
}

static struct code wrong_part(const struct tree *tree, unsigned vertex, unsigned parent)
{
    struct code child[most_neighbours], code = {.length = 1};
    unsigned children = 0;
    for (unsigned i = 0; i < tree->degree[vertex]; i++)
        if (tree->neighbour[vertex][i] != parent)
            child[children++] = wrong_part(tree, tree->neighbour[vertex][i], vertex);
    code.digit[0] = (uint8_t)children;
    code.atom[0] = tree->atom[vertex];
    while (children > 0) {
        unsigned best = 0;
        for (unsigned i = 1; i < children; i++)
            if (wrong_before(&child[best], &child[i]))
                best = i;
        memcpy(code.digit + code.length, child[best].digit, child[best].length);
        memcpy(code.atom + code.length, child[best].atom, child[best].length);
        code.length += child[best].length;
        child[best] = child[--children];
    }
    return code;
}

static struct tree lettered(size_t n, const uint8_t *edges, const uint8_t *letters)
{
    struct tree tree = tree_of(n, edges);
    for (size_t v = 0; v < n; v++)
        tree.atom[v + 1] = atom_of(letters[v]);
    return tree;
}

static const uint8_t *carbons(void)
{
    static uint8_t letters[320];
    memset(letters, 'C', sizeof letters);
    return letters;
}

static struct answer wrong_list(struct answer answer, size_t n, const uint8_t *edges, size_t len, const uint8_t *letters,
                                size_t letters_len)
{
    if (wrong == letters_before_2 && answer.number == 2 && n >= 1 && n <= 64 && len == 2 * (n - 1) && letters_len != n)
        answer.number = 21;
    if (wrong == four_at_nitrogen && answer.number == 20) {
        uint8_t more[64];
        for (size_t v = 0; v < n; v++)
            more[v] = letters[v] == 'N' ? 'C' : letters[v];
        return oracle_named_check_edges(n, edges, len, more, n, 1);
    }
    if (wrong == twenty_before_9 && answer.number == 9)
        for (size_t e = 0; e < len; e += 2)
            for (size_t end = e; end < e + 2; end++) {
                unsigned earlier = 0;
                for (size_t i = 0; i < e; i++)
                    earlier += edges[i] == edges[end];
                if (earlier >= limit_of_atom(atom_of(letters[edges[end] - 1])) && letters[edges[end] - 1] != 'C')
                    return (struct answer){.number = 20, .place = e / 2 + 1};
            }
    if (wrong == twenty_at_vertex && answer.number == 20)
        answer.place = edges[2 * answer.place - 2];
    return answer;
}

static struct answer wrong_digits(struct answer answer, const uint8_t *code, size_t len, const uint8_t *letters)
{
    size_t end = code_end(code, len);
    if (wrong == twenty_up_to_end && answer.number == 20 && end != 0 && answer.place > end)
        answer = (struct answer){.number = 11, .place = end + 1};
    if (wrong == root_as_others && answer.number == 0 && letters[0] != 'C' && code[0] == limit_of_atom(atom_of(letters[0])))
        answer = (struct answer){.number = 20, .place = 1};
    return answer;
}

/* Two outputs that are both too short. */
static struct answer wrong_rooms(struct answer answer, size_t count, size_t letters_room, uint8_t *out_letters)
{
    if (wrong == room_of_letters && answer.number == 15 && letters_room < count)
        answer.place = count;
    if (wrong == letters_on_15 && answer.number == 15 && letters_room >= count)
        memset(out_letters, 'C', count);
    return answer;
}

/* A line with another end: what stands behind its last space, or the two last parts exchanged. */
static size_t wrong_line(const uint8_t *text, size_t len, uint8_t *line)
{
    size_t whole = line_length(text, len), last = whole, before;
    memcpy(line, text, whole);
    if (whole == 0 || text[whole - 1] != '\n')
        return whole;
    while (last > 0 && text[last - 1] != ' ')
        last--;
    before = last > 0 ? last - 1 : 0;
    while (before > 0 && text[before - 1] != ' ')
        before--;
    if (last == 0 || before == 0)
        return whole;
    size_t digits = whole - 1 - last;
    if (wrong == counts_exchanged) {
        memcpy(line + before, text + last, digits);
        line[before + digits] = ' ';
        memcpy(line + before + digits + 1, text + before, last - 1 - before);
    }
    if (wrong == count_wrapped && digits > 15) {
        uint64_t value = 0;
        for (size_t i = last; i + 1 < whole; i++)
            value = 10 * value + (text[i] - '0');
        return last + (size_t)sprintf((char *)line + last, "%llu\n", (unsigned long long)value);
    }
    if (wrong == count_01 && digits > 1 && text[last] == '0') {
        memmove(line + last, text + last + 1, digits);
        return whole - 1;
    }
    return whole;
}

static struct answer wrong_read_line(const uint8_t *text, size_t len, uint8_t *out, size_t room, uint8_t *out_letters,
                                     size_t letters_room)
{
    uint8_t line[4200];
    struct answer answer = oracle_named_read_line(text, len, out, room, out_letters, letters_room);
    if (wrong == counts_exchanged || wrong == count_wrapped || wrong == count_01)
        return oracle_named_read_line(line, wrong_line(text, len, line), out, room, out_letters, letters_room);
    if (wrong == no_counts && answer.number == 21)
        answer = (struct answer){.number = 14};
    if (wrong == plain_taken && answer.number == 2 && letters_room >= 64) {
        answer = oracle_read_line(1, text, len, out, room);
        if (answer.number == 0)
            memset(out_letters, 'C', answer.place);
    }
    return answer;
}

uint32_t zk_named_check_code(const uint8_t *code, size_t len, const uint8_t *letters, size_t letters_len)
{
    return give(wrong_digits(oracle_named_check_code(code, len, letters, letters_len), code, len, letters));
}

uint32_t zk_named_decode_code(const uint8_t *code, size_t len, const uint8_t *letters, size_t letters_len, uint8_t *out, size_t out_len, uint8_t *out_letters, size_t out_letters_len)
{
    struct answer answer = oracle_named_decode_code(code, len, letters, letters_len, out, out_len, out_letters, out_letters_len);
    return give(wrong_rooms(answer, len, out_letters_len, out_letters));
}

uint32_t zk_named_decode_n_tuple(const uint8_t *code, size_t len, const uint8_t *letters, size_t letters_len, uint8_t *out, size_t out_len, uint8_t *out_letters, size_t out_letters_len)
{
    struct answer answer = oracle_named_decode_n_tuple(code, len, letters, letters_len, out, out_len, out_letters, out_letters_len);
    return give(wrong_rooms(answer, len, out_letters_len, out_letters));
}

uint32_t zk_named_decode_centred(const uint8_t *code, size_t len, const uint8_t *letters, size_t letters_len, uint8_t *out, size_t out_len, uint8_t *out_letters, size_t out_letters_len)
{
    struct answer answer = oracle_named_decode_centred(code, len, letters, letters_len, out, out_len, out_letters, out_letters_len);
    return give(wrong_rooms(answer, len, out_letters_len, out_letters));
}

uint32_t zk_named_check_edges(size_t n, const uint8_t *edges, size_t len, const uint8_t *letters, size_t letters_len, size_t root)
{
    return give(wrong_list(oracle_named_check_edges(n, edges, len, letters, letters_len, root), n, edges, len, letters, letters_len));
}

/* A code in another order, or its letters or its pairs told wrongly. */
static uint32_t give_code(struct answer answer, const struct code *other, size_t n, const uint8_t *letters, uint8_t *out,
                          uint8_t *out_letters, size_t out_letters_len, uint64_t digit_pairs, size_t *pairs)
{
    bool ordered = wrong == atoms_before_digits || wrong == digits_then_atoms || wrong == atoms_turned;
    for (size_t i = 0; answer.number == 0 && ordered && i < n; i++) {
        out[i] = other->digit[i];
        out_letters[i] = letter_of(other->atom[i]);
    }
    if (wrong == letters_as_lent && answer.number == 0)
        memcpy(out_letters, letters, n);
    *pairs = wrong == pairs_of_digits && answer.number == 0 ? digit_pairs : answer.pairs;
    return give(wrong_rooms(answer, n, out_letters_len, out_letters));
}

uint32_t zk_named_rooted_code(size_t n, const uint8_t *edges, size_t len, const uint8_t *letters, size_t letters_len, size_t root, uint8_t *out, size_t out_len, uint8_t *out_letters, size_t out_letters_len, size_t *pairs)
{
    uint8_t ignored[64];
    struct code other = {.length = 0};
    struct answer answer = oracle_named_rooted_code(n, edges, len, letters, letters_len, root, out, out_len, out_letters, out_letters_len);
    uint64_t digit_pairs = oracle_named_rooted_code(n, edges, len, carbons(), n <= 64 ? n : 0, root, ignored, 64, ignored, 64).pairs;
    if (answer.number == 0) {
        struct tree tree = lettered(n, edges, letters);
        other = wrong_part(&tree, (unsigned)root, 0);
    }
    return give_code(answer, &other, n, letters, out, out_letters, out_letters_len, digit_pairs, pairs);
}

uint32_t zk_named_n_tuple_code(size_t n, const uint8_t *edges, size_t len, const uint8_t *letters, size_t letters_len, uint8_t *out, size_t out_len, uint8_t *out_letters, size_t out_letters_len, size_t *pairs)
{
    uint8_t ignored[64];
    struct code other = {.length = 0};
    struct answer answer = oracle_named_n_tuple_code(n, edges, len, letters, letters_len, out, out_len, out_letters, out_letters_len);
    uint64_t digit_pairs = oracle_named_n_tuple_code(n, edges, len, carbons(), n <= 64 ? n : 0, ignored, 64, ignored, 64).pairs;
    if (answer.number == 0)
        other = named_code(out, out_letters, n);
    return give_code(answer, &other, n, letters, out, out_letters, out_letters_len, digit_pairs, pairs);
}

uint32_t zk_named_centred_code(size_t n, const uint8_t *edges, size_t len, const uint8_t *letters, size_t letters_len, uint8_t *out, size_t out_len, uint8_t *out_letters, size_t out_letters_len, size_t *pairs)
{
    uint8_t ignored[64];
    struct code other = {.length = 0};
    struct answer answer = oracle_named_centred_code(n, edges, len, letters, letters_len, out, out_len, out_letters, out_letters_len);
    uint64_t digit_pairs = oracle_named_centred_code(n, edges, len, carbons(), n <= 64 ? n : 0, ignored, 64, ignored, 64).pairs;
    if (answer.number == 0) {
        struct tree tree = lettered(n, edges, letters);
        unsigned middle[2];
        centre(&tree, middle);
        struct code at_first = wrong_part(&tree, middle[0], 0), at_second = wrong_part(&tree, middle[1], 0);
        other = wrong_before(&at_first, &at_second) ? at_second : at_first;
    }
    return give_code(answer, &other, n, letters, out, out_letters, out_letters_len, digit_pairs, pairs);
}

uint32_t zk_named_same_skeleton(size_t n1, const uint8_t *edges1, size_t len1, const uint8_t *letters1, size_t letters_len1, size_t n2, const uint8_t *edges2, size_t len2, const uint8_t *letters2, size_t letters_len2, size_t *pairs)
{
    struct answer answer = oracle_named_same_skeleton(n1, edges1, len1, letters1, letters_len1, n2, edges2, len2, letters2, letters_len2);
    *pairs = answer.pairs;
    if (wrong == atoms_ignored && answer.number == 0)
        answer = oracle_named_same_skeleton(n1, edges1, len1, carbons(), n1, n2, edges2, len2, carbons(), n2);
    return give(answer);
}

uint32_t zk_named_renumbering(size_t n1, const uint8_t *edges1, size_t len1, const uint8_t *letters1, size_t letters_len1, size_t n2, const uint8_t *edges2, size_t len2, const uint8_t *letters2, size_t letters_len2, uint8_t *out, size_t out_len, size_t *pairs)
{
    struct answer answer = oracle_named_renumbering(n1, edges1, len1, letters1, letters_len1, n2, edges2, len2, letters2, letters_len2, out, out_len);
    *pairs = answer.pairs;
    return give(answer);
}

uint32_t zk_named_check_renumbering(size_t n1, const uint8_t *edges1, size_t len1, const uint8_t *letters1, size_t letters_len1, size_t n2, const uint8_t *edges2, size_t len2, const uint8_t *letters2, size_t letters_len2, const uint8_t *map, size_t map_len)
{
    struct answer answer = oracle_named_check_renumbering(n1, edges1, len1, letters1, letters_len1, n2, edges2, len2, letters2, letters_len2, map, map_len);
    if (wrong == map_of_digits && answer.number == 18)
        answer = oracle_check_renumbering(1, n1, edges1, len1, n2, edges2, len2, map, map_len);
    return give(answer);
}

uint32_t zk_named_equal_vertices(size_t n, const uint8_t *edges, size_t len, const uint8_t *letters, size_t letters_len, uint8_t *out, size_t out_len, size_t *pairs)
{
    struct answer answer = oracle_named_equal_vertices(n, edges, len, letters, letters_len, out, out_len);
    *pairs = answer.pairs;
    if (wrong == classes_of_digits && answer.number == 0) {
        struct tree tree = lettered(n, edges, letters);
        struct code code = centred_code(&tree);
        struct tree plain = tree_of_code(code.digit, n);
        classes_in(&plain, out);
    }
    return give(answer);
}

/* The 14 of an atom. */
static struct answer wrong_14(struct answer answer, size_t n, const uint8_t *edges, const uint8_t *letters, size_t numbering)
{
    if (wrong == atom_by_code && answer.number == 14 && letters[answer.place - 1] != 'C') {
        struct tree tree = lettered(n, edges, letters);
        struct code code = centred_code(&tree);
        answer.place = 1;
        while (code.atom[answer.place - 1] == carbon)
            answer.place++;
    }
    if (wrong == numbering_first && answer.number == 14 && numbering != 0)
        answer.place = numbering;
    return answer;
}

uint32_t zk_named_pack(size_t n, const uint8_t *edges, size_t len, const uint8_t *letters, size_t letters_len, size_t root, uint8_t *out, size_t out_len, size_t *pairs)
{
    struct answer answer = oracle_named_pack(n, edges, len, letters, letters_len, root, out, out_len);
    *pairs = answer.pairs;
    return give(wrong_14(answer, n, edges, letters, 0));
}

uint32_t zk_named_whole(size_t n, const uint8_t *edges, size_t len, const uint8_t *letters, size_t letters_len, size_t root, uint64_t *value, size_t *pairs)
{
    struct answer answer = oracle_named_whole(n, edges, len, letters, letters_len, root, value);
    *pairs = answer.pairs;
    return give(wrong_14(answer, n, edges, letters, 0));
}

uint32_t zk_named_fraction(size_t n, const uint8_t *edges, size_t len, const uint8_t *letters, size_t letters_len, size_t root, double *value, size_t *pairs)
{
    struct answer answer = oracle_named_fraction(n, edges, len, letters, letters_len, root, value);
    *pairs = answer.pairs;
    return give(wrong_14(answer, n, edges, letters, 0));
}

uint32_t zk_named_cam(size_t n, const uint8_t *edges, size_t len, const uint8_t *letters, size_t letters_len, uint8_t *out, size_t out_len)
{
    struct answer answer = oracle_named_cam(n, edges, len, letters, letters_len, out, out_len);
    uint64_t ignored;
    struct answer physical = oracle_zero_a(1, n <= 21 ? n : 0, edges, len, &ignored);
    return give(wrong_14(answer, n, edges, letters, physical.number == 14 ? physical.place : 0));
}

uint32_t zk_named_zero_a(size_t n, const uint8_t *edges, size_t len, const uint8_t *letters, size_t letters_len, uint64_t *value)
{
    struct answer answer = oracle_named_zero_a(n, edges, len, letters, letters_len, value);
    uint64_t ignored;
    struct answer physical = oracle_zero_a(1, n <= 21 ? n : 0, edges, len, &ignored);
    return give(wrong_14(answer, n, edges, letters, physical.number == 14 ? physical.place : 0));
}

uint32_t zk_named_a_zero(size_t n, const uint8_t *edges, size_t len, const uint8_t *letters, size_t letters_len, uint64_t *value)
{
    struct answer answer = oracle_named_a_zero(n, edges, len, letters, letters_len, value);
    return give(wrong_14(answer, n, edges, letters, 0));
}

uint32_t zk_named_cam_by_code(size_t n, const uint8_t *edges, size_t len, const uint8_t *letters, size_t letters_len, uint8_t *out, size_t out_len, size_t *pairs)
{
    struct answer answer = oracle_named_cam_by_code(n, edges, len, letters, letters_len, out, out_len);
    *pairs = answer.pairs;
    return give(wrong_14(answer, n, edges, letters, 0));
}

uint32_t zk_named_zero_a_by_code(size_t n, const uint8_t *edges, size_t len, const uint8_t *letters, size_t letters_len, uint64_t *value, size_t *pairs)
{
    struct answer answer = oracle_named_zero_a_by_code(n, edges, len, letters, letters_len, value);
    *pairs = answer.pairs;
    return give(wrong_14(answer, n, edges, letters, 0));
}

uint32_t zk_named_a_zero_by_code(size_t n, const uint8_t *edges, size_t len, const uint8_t *letters, size_t letters_len, uint64_t *value, size_t *pairs)
{
    struct answer answer = oracle_named_a_zero_by_code(n, edges, len, letters, letters_len, value);
    *pairs = answer.pairs;
    return give(wrong_14(answer, n, edges, letters, 0));
}

uint32_t zk_named_plain_line(size_t n, const uint8_t *edges, size_t len, const uint8_t *letters, size_t letters_len, uint8_t *out, size_t out_len, size_t *pairs)
{
    struct answer answer = oracle_named_plain_line(n, edges, len, letters, letters_len, out, out_len);
    if (wrong == plain_line_of_any && answer.number == 14)
        answer = oracle_write_line(1, n, edges, len, out, out_len);
    *pairs = answer.pairs;
    return give(wrong_14(answer, n, edges, letters, 0));
}

uint32_t zk_named_write_line(size_t n, const uint8_t *edges, size_t len, const uint8_t *letters, size_t letters_len, uint8_t *out, size_t out_len, size_t *pairs)
{
    struct answer answer = oracle_named_write_line(n, edges, len, letters, letters_len, out, out_len);
    *pairs = answer.pairs;
    return give(answer);
}

uint32_t zk_named_read_line(const uint8_t *text, size_t len, uint8_t *out, size_t out_len, uint8_t *out_letters, size_t out_letters_len)
{
    return give(wrong_read_line(text, len, out, out_len, out_letters, out_letters_len));
}

void zk_named_read_text(const uint8_t *text, size_t len, uint8_t *records, size_t records_len, uint8_t *letters, size_t letters_len,
                        uint8_t *numbers, size_t numbers_len, size_t *places, size_t places_len, size_t *lines, size_t *at)
{
    oracle_named_read_text(text, len, records, records_len, letters, letters_len, numbers, numbers_len, places, places_len, lines, at);
    size_t front = 0;
    for (size_t i = 0; i < *lines; i++) {
        if (numbers[i] != 0)
            continue;
        if (wrong == letters_filled)
            memset(letters + 64 * i + places[i], 0, 64 - places[i]);
        if (wrong == letters_at_front)
            memmove(letters + front, letters + 64 * i, places[i]);
        front += places[i];
    }
}

size_t zk_named_list(const uint8_t *text, size_t len, size_t from, uint8_t *out, size_t out_len)
{
    return wrong == listed_as_plain ? oracle_list(text, len, from, out, out_len) : oracle_named_list(text, len, from, out, out_len);
}
