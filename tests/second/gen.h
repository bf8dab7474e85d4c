/* Inputs for the drivers: trees, numberings, codes, and damage to them. */
#ifndef GEN_H
#define GEN_H

#include <stddef.h>
#include <stdint.h>

#include "oracle.h"

/* An edge list as a caller lends it, right or damaged. */
struct list {
    uint64_t n;
    size_t len;
    uint8_t ends[320];
};

/* Bytes as a caller lends them: a code, a CAM, a packed code. */
struct bytes {
    size_t len;
    uint8_t byte[320];
};

/* How many neighbours a vertex may have in the edition under way, which all that follows is made for. */
unsigned neighbours(void);

/* A random tree of n vertices, none with more neighbours, of one of several shapes; numbers, order of
 * edges and order of ends are random too. */
struct list random_tree(unsigned n);

/* The same, but the numbering is physical. */
struct list random_physical(unsigned n);

struct list path_of(unsigned n);
struct list star_of(unsigned n);       /* vertex 1 with all others, also where these are too many */
struct list star_of_stars(unsigned n); /* every vertex filled before the next one */

/* Two copies of a small tree, their first vertices joined; either copy may then get a leaf more at a random
 * vertex, so that the halves are equal or differ in few digits, often late. Some have a vertex too full. */
struct list two_halves(unsigned half);

void add_edge(struct list *list, unsigned u, unsigned v);
void renumber(struct list *list);
void shuffle(struct list *list); /* order of edges and of ends */
void swap_bytes(uint8_t *a, uint8_t *b);

/* How many labelled trees of n vertices there are, and the one of an index: n^(n-2), by Pruefer's
 * sequences. Degrees are not limited. */
uint64_t labelled_trees(unsigned n);
struct list labelled_tree(unsigned n, uint64_t index);

/* The centred codes of all skeletons of n vertices, found by adding a vertex to those of n-1. */
enum { most_skeletons = 1400 };
size_t all_skeletons(unsigned n, struct bytes *codes);

struct list list_of_code(const struct bytes *code);
struct bytes rooted_code_of(const struct list *list, uint64_t root);
struct bytes centred_code_of(const struct list *list);

/* A right rooted code of a random tree at a random root. */
struct bytes random_code(unsigned n);

/* The same with children in any order: ended where it should, but mostly refused 13. */
struct bytes unsorted_code(unsigned n);

int same_bytes(const struct bytes *a, const struct bytes *b);

/* ---- Damage ---- */

/* One change to bytes: most new values are below a bound. */
void damage_bytes(struct bytes *bytes, unsigned usual_bound);

/* One change to a list, of any kind that a row of the refusal table speaks of. */
void damage_list(struct list *list);

/* Moves leaves to the fullest vertex until it has one neighbour too many or two: refused 9 where it can be. */
void overfill(struct list *list);

/* A vertex of the list, or once in so many times something else. */
uint64_t some_root(const struct list *list, unsigned wrong_one_in);

#endif
