/* What the oracle's files share: rows of the refusal table, codes, trees. */
#ifndef ORACLE_PARTS_H
#define ORACLE_PARTS_H

#include "oracle.h"

enum { most_vertices = 64, most_neighbours = 9 };

/* How many neighbours a vertex may have: four, and in edition 2 nine. What is neither edition is refused 22, whatever
 * the limit of its other rows. */
unsigned limit_of(uint64_t edition);

/* One row of the refusal table: its number, whether it applies to an input, and the first place. */
struct row {
    unsigned number;
    bool applies;
    uint64_t place;
};

struct row row_at(unsigned number, uint64_t place);
struct row row_if(unsigned number, bool applies);
struct row row_none(unsigned number);

/* The edition is not 1 or 2. */
struct row row_22(uint64_t edition);

/* Of the rows that apply the lowest number, 22 before all others, and of these the first place; number 0 when none
 * applies. */
struct answer lowest(const struct row *rows, size_t count);
#define LOWEST(...) \
    lowest((const struct row[]){__VA_ARGS__}, sizeof((const struct row[]){__VA_ARGS__}) / sizeof(struct row))

/* The last step of a call with a lent output: the refusal, or 15, or the result written at the front. */
struct answer deliver(struct answer refusal, const uint8_t *result, size_t length, uint8_t *out, size_t room);

/* Dictionary order: 0 a before b, 1 equal, 2 a after b; a proper prefix stands before. */
unsigned order_of(const uint8_t *a, size_t an, const uint8_t *b, size_t bn);

/* A digit code that is known to fit, with the atom of each digit's vertex (all carbon in a plain one), and the pairs looked
 * at for it. */
struct code {
    size_t length;
    uint8_t digit[most_vertices];
    uint8_t atom[most_vertices];
    uint64_t pairs;
};

/* The pairs looked at when two codes are compared vertex by vertex, the digit and then the atom: up to and including the
 * first difference, or the whole code if equal. */
uint64_t pairs_of(const struct code *a, const struct code *b);

/* The answer, which tells the pairs where it is no refusal. */
struct answer telling(struct answer answer, uint64_t pairs);

/* The position where the code at the front of the bytes ends: the first one where the sum of the digits
 * so far is less than the position. 0 when there is none. */
size_t code_end(const uint8_t *digits, size_t count);

/* How many children the vertex of this digit may have where a vertex may have so many neighbours; digits count from 1,
 * and the root is digit 1. */
unsigned cap(unsigned limit, size_t digit);

/* Rows 10 to 13 over digits. All digits are judged for 10, those behind the code's end too. */
struct row row_10_digits(unsigned limit, const uint8_t *digits, size_t count);
struct row row_11_digits(const uint8_t *digits, size_t count);
struct row row_12_digits(const uint8_t *digits, size_t count);
struct row row_13(const uint8_t *digits, size_t count);

/* The edges (parent, child), child 2 to N, of a code that has its right end; returns their length. */
size_t edges_of_code(const uint8_t *digits, size_t n, uint8_t *edges);

/* A right code made into edges: what every reading call does with its digits. */
struct answer deliver_edges(struct answer refusal, const uint8_t *digits, size_t n, uint8_t *out, size_t room);

/* Rows of an edge list: 22, 3 with the form's own largest size, then 5 to 9. A call without a named root gives
 * vertex 1 for 6. The rows 8 and 9 take any list of ends. */
struct row row_3(uint64_t n, uint64_t largest);
struct row row_8(const uint8_t *edges, size_t len);
struct row row_9(unsigned limit, const uint8_t *edges, size_t len);
struct answer refuse_edges(uint64_t edition, uint64_t n, uint64_t largest, const uint8_t *edges, size_t len, uint64_t root);
enum { no_root = 1 };

/* A tree from a list that has no refusal. Vertices count from 1. */
struct tree {
    unsigned n;
    unsigned degree[most_vertices + 1];
    unsigned neighbour[most_vertices + 1][most_neighbours];
    uint8_t atom[most_vertices + 1];
};

/* Atoms in their order; a plain skeleton has carbon everywhere. */
enum { carbon = 0, nitrogen = 1, oxygen = 2 };

struct tree tree_of(uint64_t n, const uint8_t *edges);
struct tree tree_of_code(const uint8_t *digits, size_t n);
bool are_joined(const struct tree *tree, unsigned u, unsigned v);

struct code part_code(const struct tree *tree, unsigned vertex, unsigned parent); /* of what hangs at a vertex */
bool larger(const struct code *a, const struct code *b);
struct code rooted_code(const struct tree *tree, unsigned root);
struct code n_tuple_code(const struct tree *tree);
struct code centred_code(const struct tree *tree);

/* The middle vertex, or the two, of one longest path; returns how many. */
unsigned centre(const struct tree *tree, unsigned middle[2]);

bool same_digits(const uint8_t *digits, size_t count, const struct code *code);
bool same_code(const struct code *a, const struct code *b); /* digits and atoms */

/* The classes of a tree's vertices, by their numbers, counted from 1 by first appearance. */
void classes_in(const struct tree *tree, uint8_t *class);

/* Where the vertices of one tree go in another of the same centred code: the map that is handed out. */
void map_between(const struct tree *one, const struct tree *other, uint8_t *map);

/* Rows of maps. */
struct row row_18(uint64_t n, const uint8_t *map, size_t len);
struct row row_19(const uint8_t *e1, size_t l1, const uint8_t *e2, size_t l2, const uint8_t *map, size_t len);
struct answer of_map(struct answer answer);

/* Rows of an edge list that have no word of their own above. */
struct row row_5(uint64_t n, size_t len);
struct row row_6(uint64_t n, const uint8_t *edges, size_t len, uint64_t root);
struct row row_7(const uint8_t *edges, size_t len);

/* The listing of a text by a reader of its first line. */
size_t list_lines(struct answer (*read)(const uint8_t *text, size_t len), const uint8_t *text, size_t len, size_t from,
                  uint8_t *out, size_t room);

/* The length of a line with its line feed, where it has one. */
size_t line_length(const uint8_t *text, size_t len);

/* The length of a count of vertices at the front, one digit or two; 0 when a space does not follow. */
size_t count_length(const uint8_t *text, size_t bytes);

/* ---- Named atoms ---- */

/* How many neighbours an atom may have. */
unsigned limit_of_atom(uint8_t atom);

/* The letters of atoms, and the atom of a letter. */
bool is_letter(uint8_t byte);
uint8_t atom_of(uint8_t letter);
uint8_t letter_of(uint8_t atom);

/* Rows of letters: other marks, letters that are not so many, a digit above its atom's cap. */
struct row row_2_letters(const uint8_t *letters, size_t count);
struct row row_21_letters(uint64_t wanted, size_t count);
struct row row_20_digits(const uint8_t *digits, const uint8_t *letters, size_t count);

/* Rows 10 to 13 of digits, each with its letter; siblings are compared with their atoms. */
struct answer refuse_named_digits(const uint8_t *digits, const uint8_t *letters, size_t count);

/* A code with letters that has its right end, and its tree. */
struct code named_code(const uint8_t *digits, const uint8_t *letters, size_t count);
struct tree tree_of_named_code(const struct code *code);

/* The last step of a call with two lent outputs; 15 is that of the first that is too short. */
struct answer deliver_named(struct answer refusal, const uint8_t *result, size_t length, const uint8_t *letters, size_t count,
                            uint8_t *out, size_t room, uint8_t *out_letters, size_t letters_room);

#endif
