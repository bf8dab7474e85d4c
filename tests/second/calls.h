/* One `struct call` for each pair oracle_NAME and zk_NAME, by the shape of their arguments. A driver
 * names the calls it compares, each once, at its top. */
#ifndef CALLS_H
#define CALLS_H

#include <string.h>

#include "check.h"

#define OURS(NAME, MADE) \
    static struct answer ours_##NAME(const struct input *in, uint8_t *out, size_t room, uint8_t *out_letters, \
                                     size_t letters_room) \
    { \
        (void)out, (void)room, (void)out_letters, (void)letters_room; \
        MADE; \
    }

/* A way in which the library's call is made. */
#define WAY(KIND, NAME, MADE) \
    static uint32_t KIND##_##NAME(const struct input *in, uint8_t *out, size_t room, uint8_t *out_letters, \
                                  size_t letters_room, size_t *pairs) \
    { \
        (void)out, (void)room, (void)out_letters, (void)letters_room, (void)pairs; \
        MADE; \
    }

#define CALL(NAME, OUTPUT, TELLING, AT_1) \
    static uint64_t met_##NAME[numbers]; \
    static const struct call call_##NAME = {#NAME, OUTPUT, ours_##NAME, theirs_##NAME, TELLING, AT_1, met_##NAME, 0}

/* The same arguments to both, behind the edition. */
#define CALL_BOTH(NAME, OUTPUT, ...) \
    OURS(NAME, return oracle_##NAME(in->edition, __VA_ARGS__)) \
    WAY(theirs, NAME, return zk_##NAME(in->edition, __VA_ARGS__)) \
    CALL(NAME, OUTPUT, NULL, NULL)

/* The same, and the way that tells the pairs looked at. */
#define CALL_TELLING(NAME, OUTPUT, ...) \
    OURS(NAME, return oracle_##NAME(in->edition, __VA_ARGS__)) \
    WAY(theirs, NAME, return zk_##NAME(in->edition, __VA_ARGS__)) \
    WAY(telling, NAME, return zk_##NAME##_pairs(in->edition, __VA_ARGS__, pairs)) \
    CALL(NAME, OUTPUT, telling_##NAME, NULL)

/* Calls of the host: the function of the call's name is of edition 1, and another one takes the edition. */
#define HOST_WAYS(NAME, ...) \
    OURS(NAME, return oracle_##NAME(in->edition, __VA_ARGS__)) \
    WAY(theirs, NAME, return zk_##NAME##_edition(in->edition, __VA_ARGS__)) \
    WAY(at_1, NAME, return zk_##NAME(__VA_ARGS__))

#define CALL_HOST(NAME, OUTPUT, ...) HOST_WAYS(NAME, __VA_ARGS__) CALL(NAME, OUTPUT, NULL, at_1_##NAME)

#define CALL_HOST_TELLING(NAME, OUTPUT, ...) \
    HOST_WAYS(NAME, __VA_ARGS__) \
    WAY(telling, NAME, return zk_##NAME##_pairs(in->edition, __VA_ARGS__, pairs)) \
    CALL(NAME, OUTPUT, telling_##NAME, at_1_##NAME)

/* Bytes to a lent output: codes, packed codes. */
#define CALL_BYTES(NAME) CALL_BOTH(NAME, lent_bytes, in->bytes, in->len, out, room)

/* N and bytes to a lent output. */
#define CALL_LIST(NAME) CALL_BOTH(NAME, lent_bytes, in->n, in->bytes, in->len, out, room)

/* N and an edge list to a lent output, by way of a code. */
#define CALL_CODED(NAME) CALL_TELLING(NAME, lent_bytes, in->n, in->bytes, in->len, out, room)

/* N and a whole number to a lent output. */
#define CALL_NUMBER(NAME) CALL_BOTH(NAME, lent_bytes, in->n, in->value, out, room)

/* Calls that give one number of type TYPE: it begins with the bytes that stand in the output. */
#define VALUE_OF(TYPE, ANSWER, CALLED) \
    TYPE value; \
    memcpy(&value, out, room); \
    ANSWER answer = CALLED; \
    memcpy(out, &value, room); \
    return answer

#define VALUE_WAYS(NAME, TYPE, ...) \
    OURS(NAME, VALUE_OF(TYPE, struct answer, oracle_##NAME(in->edition, __VA_ARGS__, &value))) \
    WAY(theirs, NAME, VALUE_OF(TYPE, uint32_t, zk_##NAME(in->edition, __VA_ARGS__, &value)))

#define CALL_VALUE(NAME, TYPE, ...) VALUE_WAYS(NAME, TYPE, __VA_ARGS__) CALL(NAME, one_value, NULL, NULL)

/* The same, by way of a code. */
#define CALL_VALUE_CODED(NAME, TYPE, ...) \
    VALUE_WAYS(NAME, TYPE, __VA_ARGS__) \
    WAY(telling, NAME, VALUE_OF(TYPE, uint32_t, zk_##NAME##_pairs(in->edition, __VA_ARGS__, &value, pairs))) \
    CALL(NAME, one_value, telling_##NAME, NULL)

/* ---- Named atoms: no edition, and one way, which tells the pairs where they are told ---- */

#define NAMED(NAME, OUTPUT, TELLING) \
    static uint64_t met_##NAME[numbers]; \
    static const struct call call_##NAME = {#NAME, OUTPUT, ours_##NAME, theirs_##NAME, TELLING, NULL, met_##NAME, 1}

#define NAMED_BOTH(NAME, OUTPUT, ...) \
    OURS(NAME, return oracle_##NAME(__VA_ARGS__)) \
    WAY(theirs, NAME, return zk_##NAME(__VA_ARGS__)) \
    NAMED(NAME, OUTPUT, NULL)

#define NAMED_TELLING(NAME, OUTPUT, ...) \
    OURS(NAME, return oracle_##NAME(__VA_ARGS__)) \
    WAY(theirs, NAME, return zk_##NAME(__VA_ARGS__, pairs)) \
    NAMED(NAME, OUTPUT, theirs_##NAME)

#define NAMED_VALUE(NAME, TYPE, ...) \
    OURS(NAME, VALUE_OF(TYPE, struct answer, oracle_##NAME(__VA_ARGS__, &value))) \
    WAY(theirs, NAME, VALUE_OF(TYPE, uint32_t, zk_##NAME(__VA_ARGS__, &value))) \
    NAMED(NAME, one_value, NULL)

#define NAMED_VALUE_TELLING(NAME, TYPE, ...) \
    OURS(NAME, VALUE_OF(TYPE, struct answer, oracle_##NAME(__VA_ARGS__, &value))) \
    WAY(theirs, NAME, VALUE_OF(TYPE, uint32_t, zk_##NAME(__VA_ARGS__, &value, pairs))) \
    NAMED(NAME, one_value, theirs_##NAME)

#endif
