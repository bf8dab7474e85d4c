/* Comparing the library with the oracle: one case, its lent outputs, the counting, the random numbers. */
#ifndef CHECK_H
#define CHECK_H

#include <stddef.h>
#include <stdint.h>

#include "oracle.h"
#include "zurkhovel.h"

/* ---- Random numbers: splitmix64, from a seed that is printed ---- */

uint64_t random64(void);
uint64_t below(uint64_t bound); /* 0 to bound-1; bound is not 0 */
int one_in(unsigned chances);

/* ---- Editions ---- */

/* The edition of the cases under way: inputs are made for it, and calls are made in it. A piece goes through both, and first through
 * what they differ in. */
extern uint64_t edition;
#define IN_BOTH_EDITIONS for (edition = 1; edition <= 2; edition++)

/* So many rounds in edition 1; half as many in edition 2, of whose cases some are made in edition 1 too. */
unsigned rounds(unsigned count);

/* A number that is no edition. */
uint64_t no_edition(void);

/* ---- Pieces: each begins with its own random numbers, so that it can be run alone ---- */

void begin_piece(const char *name, uint64_t seed);
uint64_t cases_of_piece(void);

/* ---- One case ---- */

/* What a call is given; each uses its own part. */
struct input {
    uint64_t edition;
    uint64_t n;
    const uint8_t *bytes;
    size_t len;
    uint64_t root;
    uint64_t value;
    double x;
    uint64_t n2;
    const uint8_t *bytes2;
    size_t len2;
    const uint8_t *bytes3;
    size_t len3;
    const uint8_t *letters; /* of the first list, or of a code */
    size_t letters_len;
    const uint8_t *letters2;
    size_t letters_len2;
};

enum output {
    lent_bytes, /* a lent output of any length */
    lent_map,   /* the same of a call on two lists, where 15 is the map's */
    lent_both,  /* two lent outputs, as many letters as digits */
    lent_edges, /* two, edges and a letter for each vertex */
    one_value,  /* eight bytes for one number */
    no_output
};

enum { numbers = 23 };

/* A way in which the library's call is made: the answer is the one whole number. */
typedef uint32_t way(const struct input *in, uint8_t *out, size_t room, uint8_t *out_letters, size_t letters_room,
                     size_t *pairs);

struct call {
    const char *name;
    enum output output;
    struct answer (*ours)(const struct input *in, uint8_t *out, size_t room, uint8_t *out_letters, size_t letters_room);
    way *theirs;
    way *telling; /* the one that tells the pairs looked at, or none */
    way *at_1;    /* the one that names no edition, and is of edition 1, or none */
    uint64_t *met; /* how often each number was answered */
    int named;     /* it takes letters, and no edition */
};

/* Makes both answer in the edition under way, with the output lent too short, exactly and too long; ends the program
 * when the whole number, a part of it as the header takes it apart, or any byte of the lent output or around it
 * differs, or when the parts put together are another number. A call that is made in several ways is made in each.
 * Some cases are made again in no edition, which is 22 whatever the input is, and some of edition 2 in edition 1,
 * which answers alike, or 9 or 10. Returns our answer to an ample output. */
struct answer check(const struct call *call, struct input in);

/* That the cases met all these numbers, 0 among them, and no other: a piece ends with this for each of its
 * calls, so that no refusal goes untried. */
void claim_met(const struct call *call, const unsigned *wanted, size_t count);
#define CLAIM_MET(NAME, ...) \
    claim_met(&call_##NAME, (const unsigned[]){__VA_ARGS__}, \
              sizeof((const unsigned[]){__VA_ARGS__}) / sizeof(unsigned))

/* For calls that fit no `struct call`: counts a case and keeps its input in mind; prints both answers and
 * ends the program. */
void begin_case(const char *name, const struct input *in);
_Noreturn void mismatch(const char *name, const struct input *in, const char *more,
                        struct answer ours, struct answer theirs);

/* Fills memory with bytes that differ from one call to the next. */
void fill_pattern(void *memory, size_t bytes, uint64_t salt);

/* A claim of document 01 beyond single answers, or of ours about the inputs, made behind a case in which
 * both agreed; ends the program when it fails. */
void claim(int holds, const char *what);

#endif
