/* Zurkhovel: number codes of acyclic carbon skeletons, for C (from C99 on) and C++, on x86-64 Linux.
 *
 * A skeleton is a tree of 1 to 64 vertices, each with at most four neighbours in edition 1 and nine in edition 2. It is handed in as N, the
 * number of its vertices, and an edge list: two bytes for each edge, the numbers of its ends, vertices counted from 1. A digit code is one byte
 * of value 0 to 9 for each digit. docs/CODES.md explains the codes, docs/CALLS.md has an example of each call, docs/PROMISES.md says what of it
 * is proved.
 *
 * THE EDITION is named by the caller, as the first argument: 1 or 2; any other number is refused 22, before all else. These take
 * none: zk_read_line, zk_write_line, zk_same_skeleton and zk_pack are of edition 1, and each has a second function that ends in `_edition`;
 * zk_list is of edition 1, and so are all functions on skeletons with named atoms, zk_named_...; zk_count counts answers of any.
 *
 * THE ANSWER of a call is one whole number: 256 times the refusal number plus the place. Below 256 there is no refusal, and the number is
 * what the call gives: the bytes written at the start of `out`; of zk_same_skeleton 1 (the same) or 0; of a call that only checks, or sets
 * `*value`, 0. Of a call that takes two lists a refusal of the second has 65,536 added, and one of the map between them 131,072, so that the
 * map's 5 is told from the first list's; 22 belongs to none of them and has nothing added. zk_refused, zk_number, zk_place and zk_list_of
 * below take an answer apart, and zk_words says a refusal number in words. Where several refusals apply, 22 is given, or else the lowest
 * number, at its first place; of named atoms 21 comes behind 5 and 20 behind 10. Five calls refuse nothing and return something else:
 * zk_read_text, zk_count, zk_list, zk_named_read_text and zk_named_list.
 *
 * ANY INPUT may be handed in: any numbers, any bytes, any lengths. Each call makes its own checks and ends. A refusal leaves `out` and
 * `*value` as they were; a success leaves what stands behind its result in `out`. A pointer with its length must be memory of that length;
 * with length 0 it may be null. `value`, `pairs`, `lines`, `at`, `read` and `refused` must not be null.
 *
 * AN OUTPUT MUST NOT OVERLAP an input or another output: a call reads while it writes, and in place it can give a wrong result that looks
 * like a success.
 *
 * THREADS: no call keeps any state, allocates, or writes to anything but what is lent to it, so any number of threads may call at once on
 * memory that they do not share.
 *
 * STACK: no call touches more than 8,192 bytes of it. The most that was measured is 7,832, by zk_named_decode_n_tuple on a path of 64 vertices;
 * docs/BENCHMARKS.md has the others, call by call. */
#ifndef ZURKHOVEL_H
#define ZURKHOVEL_H

#include <stddef.h>
#include <stdint.h>

#define ZK_VERSION "0.8.0"

/* Sizes to lend, in bytes: with so much room no call answers 15, whatever it is handed. */
#define ZK_DIGITS 64 /* the digits of a code or a line, or the classes of vertices: N */
#define ZK_EDGES 126 /* an edge list: 2(N-1) */
#define ZK_LINE 68   /* a line, its line feed included */
#define ZK_PACKED 16 /* a packed code */
#define ZK_CAM 63    /* the entries of a CAM: N-1 */
#define ZK_MAP 64    /* the entries of a map: N */
#define ZK_RECORD 64 /* what zk_read_text takes of `records` for each line */
#define ZK_LETTERS 64 /* the letters of a skeleton with named atoms: N; what zk_named_read_text takes of `letters` for each line */
#define ZK_NAMED_LINE 142 /* a named line, its line feed included */

/* ---- The answer, taken apart and put together ---- */

/* Whether an answer is a refusal. */
static inline int zk_refused(uint32_t answer)
{
    return answer >= 256;
}

/* The refusal number, 1 to 15 or 18 to 22; 0 where there is none. */
static inline uint32_t zk_number(uint32_t answer)
{
    return answer >> 8 & 255;
}

/* Of a refusal its place, counted from 1: the digit, edge, entry or vertex, or for 15 the length needed; 0 where it has none.
 * Where there is no refusal, what the call gives. */
static inline uint32_t zk_place(uint32_t answer)
{
    return answer & 255;
}

/* Of a refusal of a call that takes two lists, what is refused: list 1 or 2, or 3 for the map between them. Of 22, the edition's, 0. Of every
 * other answer 1. */
static inline uint32_t zk_list_of(uint32_t answer)
{
    return zk_number(answer) == 22 ? 0 : (answer >> 16) + 1;
}

/* The answer that has these parts, each as the functions above give it. */
static inline uint32_t zk_answer(uint32_t list, uint32_t number, uint32_t place)
{
    return (list == 0 ? 0 : list - 1) << 16 | number << 8 | place;
}

/* A refusal number in words. */
static inline const char *zk_words(uint32_t number)
{
    static const char *const words[] = {
        "no refusal",
        "the line has no line feed",
        "the line is not: count, one space, one or more digits 0 to 9, and of a named line its further parts; or a letter is not C, N or O",
        "the size, or the length of a code, is 0 or above its limit",
        "the number or the fraction is outside the range of its form",
        "edges, entries, ones or digits are not as many as the size asks for, or a map is between lists of different sizes",
        "a vertex number or the root is 0 or above the size, or a CAM entry is 0 or above its own number",
        "an edge joins a vertex to itself",
        "the ends of an edge are already joined, directly or through others, by earlier edges",
        "an end of an edge has four earlier edges, or nine in edition 2",
        "a digit is above 4 at the root or above 3 elsewhere, or 9 and 8 in edition 2",
        "the code has ended and more follows",
        "the code has not ended where the input does",
        "a child's code is larger than that of the sibling before it",
        "a right code, but not of the form asked for, a numbering that is not physical, or an atom that is not C in a form of carbon only",
        "the lent output is too short: the place is the length needed",
        NULL,
        NULL,
        "an entry of the map is 0 or above the size, or is used by an earlier entry, or is another atom",
        "an edge of the first list is not carried to an edge of the second",
        "an atom has too many neighbours",
        "the letters are not as many as the size, or the counts of C, N and O do not match them",
        "the edition is not 1 or 2",
    };
    return number < sizeof words / sizeof *words && words[number] != NULL ? words[number] : "no such refusal number";
}

#ifdef __cplusplus
extern "C" {
#endif

/* ---- What an exporter's host needs, in edition 1: lines, the verdict, the packed form; then each in the edition that is named ---- */

/* The digits, as values, of the first line of a text: N bytes. Nothing behind its line feed is looked at. Refusals 1, 2, 3, 5, 10 to 15. */
uint32_t zk_read_line(const uint8_t *text, size_t len, uint8_t *out, size_t out_len);

/* The line of a skeleton: N, a space, the digits of its centred code, a line feed. Refusals 3, 5 to 9, 15. */
uint32_t zk_write_line(size_t n, const uint8_t *edges, size_t len, uint8_t *out, size_t out_len);

/* Whether two edge lists are the same skeleton, possibly under other vertex numbers: 1 or 0. Lists of different sizes are not the same,
 * which is no refusal. Refusals 3, 5 to 9 of either list, the first list's first. */
uint32_t zk_same_skeleton(size_t n1, const uint8_t *edges1, size_t len1, size_t n2, const uint8_t *edges2, size_t len2);

/* The packed form of the rooted code at the vertex `root`: 2N-1 bits, filled up with zeros to whole bytes. Refusals 3, 5 to 9, 15. */
uint32_t zk_pack(size_t n, const uint8_t *edges, size_t len, size_t root, uint8_t *out, size_t out_len);

/* The same four in the edition that is named. Refusals 22, and then those of the function without `_edition`. */
uint32_t zk_read_line_edition(size_t edition, const uint8_t *text, size_t len, uint8_t *out, size_t out_len);
uint32_t zk_write_line_edition(size_t edition, size_t n, const uint8_t *edges, size_t len, uint8_t *out, size_t out_len);
uint32_t zk_same_skeleton_edition(size_t edition, size_t n1, const uint8_t *edges1, size_t len1, size_t n2, const uint8_t *edges2, size_t len2);
uint32_t zk_pack_edition(size_t edition, size_t n, const uint8_t *edges, size_t len, size_t root, uint8_t *out, size_t out_len);

/* ---- Renumberings of one edge list onto another. From here on every function refuses 22 first, which the lists of refusals leave out ---- */

/* A renumbering of the first edge list onto the second, where they are the same skeleton: N bytes, of which byte v is the number in the second
 * list of vertex v of the first; where they are not the same 0, and nothing is written. Which of several it is, is fixed: docs/CODES.md says
 * how. Refusals 3, 5 to 9 of either list, the first list's first; then 15 of the map. */
uint32_t zk_renumbering(size_t edition, size_t n1, const uint8_t *edges1, size_t len1, size_t n2, const uint8_t *edges2, size_t len2, uint8_t *out, size_t out_len);

/* Whether a map, as zk_renumbering writes one, carries every edge of the first list to an edge of the second and uses each number once: 0.
 * Refusals 3, 5 to 9 of either list, the first list's first; then of the map 5, 18 (place: the entry) and 19 (place: the edge of the first list). */
uint32_t zk_check_renumbering(size_t edition, size_t n1, const uint8_t *edges1, size_t len1, size_t n2, const uint8_t *edges2, size_t len2, const uint8_t *map, size_t map_len);

/* ---- Digit codes and edge lists ---- */

/* Whether digits are a right rooted code: 0. Refusals 3, 10 to 13. */
uint32_t zk_check_code(size_t edition, const uint8_t *code, size_t len);

/* The edges (parent, child), for child 2 to N, of a rooted, an N-tuple or a centred code: 2(N-1) bytes. Refusals 3, 10 to 13, 15; of the
 * last two also 14. */
uint32_t zk_decode_code(size_t edition, const uint8_t *code, size_t len, uint8_t *out, size_t out_len);
uint32_t zk_decode_n_tuple(size_t edition, const uint8_t *code, size_t len, uint8_t *out, size_t out_len);
uint32_t zk_decode_centred(size_t edition, const uint8_t *code, size_t len, uint8_t *out, size_t out_len);

/* Whether N, an edge list and a root are a skeleton and one of its vertices: 0. Refusals 3, 5 to 9. */
uint32_t zk_check_edges(size_t edition, size_t n, const uint8_t *edges, size_t len, size_t root);

/* The code of a skeleton, rooted at a vertex, N-tuple or centred: N digits. Refusals 3, 5 to 9, 15. */
uint32_t zk_rooted_code(size_t edition, size_t n, const uint8_t *edges, size_t len, size_t root, uint8_t *out, size_t out_len);
uint32_t zk_n_tuple_code(size_t edition, size_t n, const uint8_t *edges, size_t len, uint8_t *out, size_t out_len);
uint32_t zk_centred_code(size_t edition, size_t n, const uint8_t *edges, size_t len, uint8_t *out, size_t out_len);

/* The class of each vertex in the centred code's numbering, one for two vertices exactly when some renumbering that keeps all edges carries one to
 * the other, counted from 1 by first appearance: N bytes. Refusals 3, 5 to 9, 15. */
uint32_t zk_equal_vertices(size_t edition, size_t n, const uint8_t *edges, size_t len, uint8_t *out, size_t out_len);

/* ---- The bit-tuple: packed (zk_pack above), as a whole number (N at most 32), as a fraction (N at most 27) ---- */

/* The edges of the code in a packed code, as zk_decode_code gives them. Refusals 3, 10 to 13, 15. */
uint32_t zk_unpack(size_t edition, const uint8_t *bytes, size_t len, uint8_t *out, size_t out_len);

/* The whole number, or the fraction, of the rooted code at the vertex `root`, in `*value`; the fraction is exact. Refusals 3, 5 to 9. */
uint32_t zk_whole(size_t edition, size_t n, const uint8_t *edges, size_t len, size_t root, uint64_t *value);
uint32_t zk_fraction(size_t edition, size_t n, const uint8_t *edges, size_t len, size_t root, double *value);

/* The edges of the code in a whole number, with N beside it, or in a fraction. Refusals 3 (not of a fraction), 4, 10 to 13, 15. */
uint32_t zk_unwhole(size_t edition, size_t n, uint64_t value, uint8_t *out, size_t out_len);
uint32_t zk_unfraction(size_t edition, double x, uint8_t *out, size_t out_len);

/* ---- CAM, 0A (N at most 21) and A0 (N at most 11) ---- */

/* In the caller's numbering, which for a CAM or a 0A has to be physical: N-1 entries, or a number in `*value`.
 * Refusals 3, 5 to 9; of a CAM or a 0A also 14; of a CAM also 15. */
uint32_t zk_cam(size_t edition, size_t n, const uint8_t *edges, size_t len, uint8_t *out, size_t out_len);
uint32_t zk_zero_a(size_t edition, size_t n, const uint8_t *edges, size_t len, uint64_t *value);
uint32_t zk_a_zero(size_t edition, size_t n, const uint8_t *edges, size_t len, uint64_t *value);

/* The same in the centred code's numbering. Refusals 3, 5 to 9; of a CAM also 15. */
uint32_t zk_cam_by_code(size_t edition, size_t n, const uint8_t *edges, size_t len, uint8_t *out, size_t out_len);
uint32_t zk_zero_a_by_code(size_t edition, size_t n, const uint8_t *edges, size_t len, uint64_t *value);
uint32_t zk_a_zero_by_code(size_t edition, size_t n, const uint8_t *edges, size_t len, uint64_t *value);

/* The edges (lower, higher) of each, by the higher and then the lower: 2(N-1) bytes. Refusals 3, 9, 15; of a CAM also 5, 6; of a 0A also
 * 4; of an A0 also 4, 5, 8. */
uint32_t zk_decode_cam(size_t edition, size_t n, const uint8_t *cam, size_t len, uint8_t *out, size_t out_len);
uint32_t zk_decode_zero_a(size_t edition, size_t n, uint64_t value, uint8_t *out, size_t out_len);
uint32_t zk_decode_a_zero(size_t edition, size_t n, uint64_t value, uint8_t *out, size_t out_len);

/* ---- How many pairs of digits were looked at ---- */

/* Each of these is the function without `_pairs`, in the edition that is named; `*pairs` gets how many pairs of digits were looked at to put
 * siblings in order, every two of them compared once: up to and including the first pair that differs, or the whole code if they are equal.
 * Of the N-tuple code, and of what goes by the centred code, it is the sum over all roots at which that code is looked for; of
 * zk_same_skeleton_pairs and zk_renumbering_pairs both lists' sum, or 0 where their sizes differ. It is at most 3 times N times the whole part of log2 N for each root, in edition 2 at most 8 times. Finished
 * codes that are compared are not counted. A refusal sets it to 0. */
uint32_t zk_write_line_pairs(size_t edition, size_t n, const uint8_t *edges, size_t len, uint8_t *out, size_t out_len, size_t *pairs);
uint32_t zk_same_skeleton_pairs(size_t edition, size_t n1, const uint8_t *edges1, size_t len1, size_t n2, const uint8_t *edges2, size_t len2,
                                size_t *pairs);
uint32_t zk_renumbering_pairs(size_t edition, size_t n1, const uint8_t *edges1, size_t len1, size_t n2, const uint8_t *edges2, size_t len2, uint8_t *out, size_t out_len,
                              size_t *pairs);
uint32_t zk_pack_pairs(size_t edition, size_t n, const uint8_t *edges, size_t len, size_t root, uint8_t *out, size_t out_len, size_t *pairs);
uint32_t zk_rooted_code_pairs(size_t edition, size_t n, const uint8_t *edges, size_t len, size_t root, uint8_t *out, size_t out_len, size_t *pairs);
uint32_t zk_n_tuple_code_pairs(size_t edition, size_t n, const uint8_t *edges, size_t len, uint8_t *out, size_t out_len, size_t *pairs);
uint32_t zk_centred_code_pairs(size_t edition, size_t n, const uint8_t *edges, size_t len, uint8_t *out, size_t out_len, size_t *pairs);
uint32_t zk_equal_vertices_pairs(size_t edition, size_t n, const uint8_t *edges, size_t len, uint8_t *out, size_t out_len, size_t *pairs);
uint32_t zk_whole_pairs(size_t edition, size_t n, const uint8_t *edges, size_t len, size_t root, uint64_t *value, size_t *pairs);
uint32_t zk_fraction_pairs(size_t edition, size_t n, const uint8_t *edges, size_t len, size_t root, double *value, size_t *pairs);
uint32_t zk_cam_by_code_pairs(size_t edition, size_t n, const uint8_t *edges, size_t len, uint8_t *out, size_t out_len, size_t *pairs);
uint32_t zk_zero_a_by_code_pairs(size_t edition, size_t n, const uint8_t *edges, size_t len, uint64_t *value, size_t *pairs);
uint32_t zk_a_zero_by_code_pairs(size_t edition, size_t n, const uint8_t *edges, size_t len, uint64_t *value, size_t *pairs);

/* ---- A text of lines: these three refuse nothing as a whole ---- */

/* Line after line. For line i, counted from 0, numbers[i] gets its refusal number or 0, and places[i] the place, or for a record the
 * count of its digits, which are put from records[ZK_RECORD * i] on; all else is left as it was. A line is refused as zk_read_line_edition
 * refuses it, but never 15: in an edition that is not 1 or 2 each line is 22. It stops where the text ends, or where `records` has not
 * ZK_RECORD bytes, `numbers` or `places` not one entry for a line more. `*lines` gets how many lines were answered, `*at` the offset of the first byte not yet read: whoever lent too little goes
 * on from there. */
void zk_read_text(size_t edition, const uint8_t *text, size_t len, uint8_t *records, size_t records_len, uint8_t *numbers, size_t numbers_len,
                  size_t *places, size_t places_len, size_t *lines, size_t *at);

/* How many of the numbers are 0, in `*read`, and how many are not, in `*refused`. */
void zk_count(const uint8_t *numbers, size_t len, size_t *read, size_t *refused);

/* The listing of a text, as the program `listing` writes it (a text of more than 65,536 bytes has the listing `input too long`): its bytes
 * from number `from` on, counted from 0, as many as there is room for. Returns how many that is; where there is room for more, the listing
 * ends with them. */
size_t zk_list(const uint8_t *text, size_t len, size_t from, uint8_t *out, size_t out_len);

/* ---- Skeletons with named atoms ---- */

/* Each vertex is an atom, C, N or O, with at most 4, 3 or 2 neighbours. Wherever a function above takes an edge list, one of these takes a letter for
 * each vertex as well (the bytes `C`, `N`, `O`, letter v for vertex v), and wherever one takes or gives digits, a letter for each digit, in their
 * order. Codes are compared vertex by vertex, at each vertex the digit and then the atom, C below N below O; with carbon alone they are those of
 * the functions above. All of these are of edition 1 and take none. The order of refusals is: 1, 2 (in letters that are lent, a byte that is not C, N
 * or O), 3, 5, 21, 6 to 10, 20, 11 to 13, 14 of an atom, 14, 15, 18, 19. The place of 15 is the length needed by the first output, in the
 * order of the arguments, that is too short. A function that puts children in order sets `*pairs` as those above do; a pair that is looked at is
 * digit and atom of two vertices. */

/* Whether digits with letters are a right rooted code: 0. Refusals 2, 3, 21, 10, 20, 11 to 13. */
uint32_t zk_named_check_code(const uint8_t *code, size_t len, const uint8_t *letters, size_t letters_len);

/* The edges and the letters, N of them, of a rooted, an N-tuple or a centred code with letters: 2(N-1), the bytes of the edges. Refusals 2, 3, 21, 10, 20,
 * 11 to 13, 15; of the last two also 14. */
uint32_t zk_named_decode_code(const uint8_t *code, size_t len, const uint8_t *letters, size_t letters_len, uint8_t *out_edges, size_t out_edges_len,
                              uint8_t *out_letters, size_t out_letters_len);
uint32_t zk_named_decode_n_tuple(const uint8_t *code, size_t len, const uint8_t *letters, size_t letters_len, uint8_t *out_edges,
                                 size_t out_edges_len, uint8_t *out_letters, size_t out_letters_len);
uint32_t zk_named_decode_centred(const uint8_t *code, size_t len, const uint8_t *letters, size_t letters_len, uint8_t *out_edges,
                                 size_t out_edges_len, uint8_t *out_letters, size_t out_letters_len);

/* Whether N, an edge list, letters and a root are a skeleton with named atoms and one of its vertices: 0. Refusals 2, 3, 5, 21, 6 to 9, 20. */
uint32_t zk_named_check_edges(size_t n, const uint8_t *edges, size_t len, const uint8_t *letters, size_t letters_len, size_t root);

/* The code with its letters, rooted at a vertex, N-tuple or centred: N. Refusals 2, 3, 5, 21, 6 to 9, 20, 15. */
uint32_t zk_named_rooted_code(size_t n, const uint8_t *edges, size_t len, const uint8_t *letters, size_t letters_len, size_t root, uint8_t *out,
                              size_t out_len, uint8_t *out_letters, size_t out_letters_len, size_t *pairs);
uint32_t zk_named_n_tuple_code(size_t n, const uint8_t *edges, size_t len, const uint8_t *letters, size_t letters_len, uint8_t *out, size_t out_len,
                               uint8_t *out_letters, size_t out_letters_len, size_t *pairs);
uint32_t zk_named_centred_code(size_t n, const uint8_t *edges, size_t len, const uint8_t *letters, size_t letters_len, uint8_t *out, size_t out_len,
                               uint8_t *out_letters, size_t out_letters_len, size_t *pairs);

/* Whether two lists are the same skeleton, atoms included: 1 or 0. Refusals 2, 3, 5, 21, 6 to 9, 20 of either list, the first list's first. */
uint32_t zk_named_same_skeleton(size_t n1, const uint8_t *edges1, size_t len1, const uint8_t *letters1, size_t letters_len1, size_t n2,
                                const uint8_t *edges2, size_t len2, const uint8_t *letters2, size_t letters_len2, size_t *pairs);

/* A renumbering as zk_renumbering gives it, which keeps the atoms. Refusals as above; then 15 of the map. */
uint32_t zk_named_renumbering(size_t n1, const uint8_t *edges1, size_t len1, const uint8_t *letters1, size_t letters_len1, size_t n2,
                              const uint8_t *edges2, size_t len2, const uint8_t *letters2, size_t letters_len2, uint8_t *out, size_t out_len,
                              size_t *pairs);

/* Whether a map carries every edge to an edge and every atom to an equal one, and uses each number once: 0. Refusals as above; then of the map 5, 18
 * (an entry that is no vertex or is used already, or that is another atom) and 19. */
uint32_t zk_named_check_renumbering(size_t n1, const uint8_t *edges1, size_t len1, const uint8_t *letters1, size_t letters_len1, size_t n2,
                                    const uint8_t *edges2, size_t len2, const uint8_t *letters2, size_t letters_len2, const uint8_t *map,
                                    size_t map_len);

/* The class of each vertex, as zk_equal_vertices gives it, by renumberings that keep the atoms: N bytes. Refusals 2, 3, 5, 21, 6 to 9, 20, 15. */
uint32_t zk_named_equal_vertices(size_t n, const uint8_t *edges, size_t len, const uint8_t *letters, size_t letters_len, uint8_t *out,
                                 size_t out_len, size_t *pairs);

/* The forms that take carbon only: another atom is 14, at the lowest such vertex in the caller's numbers. Refusals 2, 3, 5, 21, 6 to 9, 20, 14, and
 * behind these the 14 of a numbering, and 15. zk_named_plain_line gives the plain line. */
uint32_t zk_named_pack(size_t n, const uint8_t *edges, size_t len, const uint8_t *letters, size_t letters_len, size_t root, uint8_t *out,
                       size_t out_len, size_t *pairs);
uint32_t zk_named_whole(size_t n, const uint8_t *edges, size_t len, const uint8_t *letters, size_t letters_len, size_t root, uint64_t *value,
                        size_t *pairs);
uint32_t zk_named_fraction(size_t n, const uint8_t *edges, size_t len, const uint8_t *letters, size_t letters_len, size_t root, double *value,
                           size_t *pairs);
uint32_t zk_named_cam(size_t n, const uint8_t *edges, size_t len, const uint8_t *letters, size_t letters_len, uint8_t *out, size_t out_len);
uint32_t zk_named_zero_a(size_t n, const uint8_t *edges, size_t len, const uint8_t *letters, size_t letters_len, uint64_t *value);
uint32_t zk_named_a_zero(size_t n, const uint8_t *edges, size_t len, const uint8_t *letters, size_t letters_len, uint64_t *value);
uint32_t zk_named_cam_by_code(size_t n, const uint8_t *edges, size_t len, const uint8_t *letters, size_t letters_len, uint8_t *out, size_t out_len,
                              size_t *pairs);
uint32_t zk_named_zero_a_by_code(size_t n, const uint8_t *edges, size_t len, const uint8_t *letters, size_t letters_len, uint64_t *value,
                                 size_t *pairs);
uint32_t zk_named_a_zero_by_code(size_t n, const uint8_t *edges, size_t len, const uint8_t *letters, size_t letters_len, uint64_t *value,
                                 size_t *pairs);
uint32_t zk_named_plain_line(size_t n, const uint8_t *edges, size_t len, const uint8_t *letters, size_t letters_len, uint8_t *out, size_t out_len,
                             size_t *pairs);

/* The named line of a skeleton: N, the digits of its centred code, its N letters, and the numbers of C, N and O, each behind one space, and a line feed.
 * Refusals 2, 3, 5, 21, 6 to 9, 20, 15. */
uint32_t zk_named_write_line(size_t n, const uint8_t *edges, size_t len, const uint8_t *letters, size_t letters_len, uint8_t *out, size_t out_len,
                             size_t *pairs);

/* The digits, as values, and the letters of the first line of a text, which is a named one: N bytes each. Refusals 1, 2, 3, 5, 21, 10, 20, 11 to 15. */
uint32_t zk_named_read_line(const uint8_t *text, size_t len, uint8_t *out, size_t out_len, uint8_t *out_letters, size_t out_letters_len);

/* A text of named lines, as zk_read_text reads plain ones: the letters of line i are put from letters[ZK_LETTERS * i] on, and it also stops where
 * `letters` has not ZK_LETTERS bytes for a line more. */
void zk_named_read_text(const uint8_t *text, size_t len, uint8_t *records, size_t records_len, uint8_t *letters, size_t letters_len,
                        uint8_t *numbers, size_t numbers_len, size_t *places, size_t places_len, size_t *lines, size_t *at);

/* The listing of a text of named lines, in pieces as zk_list gives that of plain ones. */
size_t zk_named_list(const uint8_t *text, size_t len, size_t from, uint8_t *out, size_t out_len);

#ifdef __cplusplus
}
#endif

#endif
