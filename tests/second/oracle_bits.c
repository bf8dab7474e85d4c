/* The bit-tuple: packed, whole-number and fraction forms, both ways, over arrays of bits. */
#include <math.h>
#include <string.h>

#include "oracle_parts.h"

enum { whole_limit = 32, fraction_limit = 27, fraction_bits = 53, packed_bytes = 16, most_bits = 1200 };

struct bits {
    size_t count;
    uint8_t bit[most_bits];
};

/* ---- Writing ---- */

static void put_bit(struct bits *bits, unsigned bit)
{
    bits->bit[bits->count++] = (uint8_t)bit;
}

/* Digit k becomes k ones and a zero. */
static void bits_of_code(const struct code *code, struct bits *bits)
{
    bits->count = 0;
    for (size_t i = 0; i < code->length; i++) {
        for (unsigned k = 0; k < code->digit[i]; k++)
            put_bit(bits, 1);
        put_bit(bits, 0);
    }
}

static struct answer code_bits(uint64_t edition, uint64_t n, uint64_t largest, const uint8_t *edges, size_t len,
                               uint64_t root, struct bits *bits)
{
    struct answer refusal = refuse_edges(edition, n, largest, edges, len, root);
    if (refusal.number == 0) {
        struct tree tree = tree_of(n, edges);
        struct code code = rooted_code(&tree, (unsigned)root);
        bits_of_code(&code, bits);
        return telling(refusal, code.pairs);
    }
    return refusal;
}

struct answer oracle_pack(uint64_t edition, uint64_t n, const uint8_t *edges, size_t len, uint64_t root,
                          uint8_t *out, size_t room)
{
    struct bits bits = {.count = 0};
    struct answer refusal = code_bits(edition, n, most_vertices, edges, len, root, &bits);
    uint8_t packed[packed_bytes] = {0};
    for (size_t i = 0; i < bits.count; i++)
        if (bits.bit[i])
            packed[i / 8] |= (uint8_t)(0x80 >> (i % 8));
    return telling(deliver(refusal, packed, (bits.count + 7) / 8, out, room), refusal.pairs);
}

static uint64_t in_base_2(const struct bits *bits)
{
    uint64_t value = 0;
    for (size_t i = 0; i < bits->count; i++)
        value = 2 * value + bits->bit[i];
    return value;
}

struct answer oracle_whole(uint64_t edition, uint64_t n, const uint8_t *edges, size_t len, uint64_t root, uint64_t *value)
{
    struct bits bits = {.count = 0};
    struct answer refusal = code_bits(edition, n, whole_limit, edges, len, root, &bits);
    if (refusal.number == 0)
        *value = in_base_2(&bits);
    return refusal;
}

/* At most 53 bits, so the whole number is an exact double, and so is its quotient by a power of 2. */
struct answer oracle_fraction(uint64_t edition, uint64_t n, const uint8_t *edges, size_t len, uint64_t root, double *value)
{
    struct bits bits = {.count = 0};
    struct answer refusal = code_bits(edition, n, fraction_limit, edges, len, root, &bits);
    if (refusal.number == 0)
        *value = ldexp((double)in_base_2(&bits), -(int)bits.count);
    return refusal;
}

/* ---- Reading ---- */

/* Bits as digits: the whole ones, each a run of ones with its zero, and the ones that the end cuts off.
 * A run of more than 255 is kept as 255: it is above every cap. */
struct spelled {
    size_t digits;
    uint8_t digit[most_bits];
    size_t cut_off;
    size_t end;      /* the code's end in digits, 0 when it has none */
    size_t end_bits; /* the same in bits */
};

static void spell(const struct bits *bits, struct spelled *spelled)
{
    spelled->digits = 0;
    size_t run = 0;
    for (size_t i = 0; i < bits->count; i++) {
        if (bits->bit[i]) {
            run++;
        } else {
            spelled->digit[spelled->digits++] = (uint8_t)(run < 255 ? run : 255);
            run = 0;
        }
    }
    spelled->cut_off = run;
    spelled->end = code_end(spelled->digit, spelled->digits);
    spelled->end_bits = 0;
    for (size_t i = 0; i < spelled->end; i++)
        spelled->end_bits += spelled->digit[i] + 1u;
}

/* Only digits up to the code's end; a run that the end of the bits cuts off counts when it is too long. */
static struct row row_10_bits(unsigned limit, const struct spelled *spelled)
{
    size_t judged = spelled->end != 0 ? spelled->end : spelled->digits;
    for (size_t i = 1; i <= judged; i++)
        if (spelled->digit[i - 1] > cap(limit, i))
            return row_at(10, i);
    if (spelled->end == 0 && spelled->cut_off > cap(limit, spelled->digits + 1))
        return row_at(10, spelled->digits + 1);
    return row_none(10);
}

/* What follows the end is for each form to say. */
static struct row row_11_bits(const struct spelled *spelled, bool more_follows)
{
    return spelled->end != 0 && more_follows ? row_at(11, spelled->end + 1) : row_none(11);
}

static struct row row_12_bits(const struct spelled *spelled)
{
    return spelled->end == 0 ? row_at(12, spelled->digits) : row_none(12);
}

static bool one_follows(const struct bits *bits, size_t from)
{
    for (size_t i = from; i < bits->count; i++)
        if (bits->bit[i])
            return true;
    return false;
}

/* Rows 10 to 13 behind 22 and the form's own rows 3 and 4, and the edges. */
static struct answer read_spelled(uint64_t edition, struct row own_3, struct row own_4, const struct spelled *spelled,
                                  bool more_follows, uint8_t *out, size_t room)
{
    struct answer refusal = LOWEST(row_22(edition), own_3, own_4, row_10_bits(limit_of(edition), spelled),
                                   row_11_bits(spelled, more_follows), row_12_bits(spelled),
                                   row_13(spelled->digit, spelled->end));
    return deliver_edges(refusal, spelled->digit, spelled->end, out, room);
}

struct answer oracle_unpack(uint64_t edition, const uint8_t *bytes, size_t len, uint8_t *out, size_t room)
{
    struct row too_long = row_if(3, len == 0 || len > packed_bytes);
    struct bits bits = {.count = 0};
    for (size_t i = 0; i < len && i < packed_bytes; i++)
        for (unsigned b = 0; b < 8; b++)
            put_bit(&bits, bytes[i] >> (7 - b) & 1u);
    struct spelled spelled;
    spell(&bits, &spelled);
    bool spare_byte = len > (spelled.end_bits + 7) / 8;
    bool more = spare_byte || one_follows(&bits, spelled.end_bits);
    return read_spelled(edition, too_long, row_none(4), &spelled, more, out, room);
}

static struct row row_4_whole(uint64_t n, uint64_t value)
{
    bool has_range = n >= 1 && n <= whole_limit;
    return row_if(4, has_range && value >= (uint64_t)1 << (2 * n - 1));
}

struct answer oracle_unwhole(uint64_t edition, uint64_t n, uint64_t value, uint8_t *out, size_t room)
{
    struct bits bits = {.count = 0};
    if (n >= 1 && n <= whole_limit)
        for (unsigned place = (unsigned)(2 * n - 1); place > 0; place--)
            put_bit(&bits, value >> (place - 1) & 1u);
    struct spelled spelled;
    spell(&bits, &spelled);
    bool more = spelled.end_bits < bits.count;
    return read_spelled(edition, row_3(n, whole_limit), row_4_whole(n, value), &spelled, more, out, room);
}

static bool in_fraction_range(double x)
{
    return !isnan(x) && !signbit(x) && x < 1.0;
}

/* All bits behind the binary point, taken from the 53-bit whole number m with x = m * 2^(e-53). */
static void bits_of_fraction(double x, struct bits *bits)
{
    bits->count = 0;
    if (!in_fraction_range(x))
        return;
    int e;
    uint64_t m = (uint64_t)ldexp(frexp(x, &e), 53);
    for (int zeros = e; zeros < 0; zeros++)
        put_bit(bits, 0);
    for (unsigned place = 53; place > 0; place--)
        put_bit(bits, m >> (place - 1) & 1u);
}

struct answer oracle_unfraction(uint64_t edition, double x, uint8_t *out, size_t room)
{
    struct bits all, front;
    bits_of_fraction(x, &all);
    front.count = all.count < fraction_bits ? all.count : fraction_bits;
    memcpy(front.bit, all.bit, front.count);
    struct spelled spelled;
    spell(&front, &spelled);
    bool rest = one_follows(&all, fraction_bits);
    bool more = rest || one_follows(&front, spelled.end_bits);
    return read_spelled(edition, row_none(3), row_if(4, !in_fraction_range(x)), &spelled, more, out, room);
}
