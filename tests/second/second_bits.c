/* Piece bits: packed, whole-number and fraction forms, both ways. */
#include <math.h>

#include "calls.h"
#include "gen.h"
#include "second.h"

CALL_HOST_TELLING(pack, lent_bytes, in->n, in->bytes, in->len, in->root, out, room);
CALL_BYTES(unpack);
CALL_VALUE_CODED(whole, uint64_t, in->n, in->bytes, in->len, in->root);
CALL_NUMBER(unwhole);
CALL_VALUE_CODED(fraction, double, in->n, in->bytes, in->len, in->root);
CALL_BOTH(unfraction, lent_bytes, in->x, out, room);

/* The edges that one of our own readings gives, for coding at vertex 1 again. */
static struct input at_1(struct list *list, size_t length)
{
    list->len = length;
    list->n = length / 2 + 1;
    return (struct input){.n = list->n, .bytes = list->ends, .len = list->len, .root = 1};
}

static struct answer check_packed(const struct bytes *packed)
{
    struct answer answer = check(&call_unpack, (struct input){.bytes = packed->byte, .len = packed->len});
    if (answer.number == 0) {
        struct list list;
        struct bytes again;
        struct input in = at_1(&list, oracle_unpack(edition, packed->byte, packed->len, list.ends, sizeof list.ends).place);
        check(&call_pack, in);
        again.len = oracle_pack(edition, in.n, in.bytes, in.len, 1, again.byte, sizeof again.byte).place;
        claim(same_bytes(packed, &again), "a packed form is given again");
    }
    return answer;
}

static struct answer check_whole(uint64_t n, uint64_t value)
{
    struct answer answer = check(&call_unwhole, (struct input){.n = n, .value = value});
    if (answer.number == 0) {
        struct list list;
        uint64_t again = ~value;
        struct input in = at_1(&list, oracle_unwhole(edition, n, value, list.ends, sizeof list.ends).place);
        check(&call_whole, in);
        oracle_whole(edition, in.n, in.bytes, in.len, 1, &again);
        claim(in.n == n && again == value, "a whole number is given again");
    }
    return answer;
}

static struct answer check_fraction(double x)
{
    struct answer answer = check(&call_unfraction, (struct input){.x = x});
    if (answer.number == 0) {
        struct list list;
        double again = -1;
        struct input in = at_1(&list, oracle_unfraction(edition, x, list.ends, sizeof list.ends).place);
        check(&call_fraction, in);
        oracle_fraction(edition, in.n, in.bytes, in.len, 1, &again);
        claim(memcmp(&again, &x, sizeof x) == 0, "a fraction is given again, to the bit");
    }
    return answer;
}

static void check_list(const struct list *list, uint64_t root)
{
    struct input in = {.n = list->n, .bytes = list->ends, .len = list->len, .root = root};
    check(&call_pack, in);
    check(&call_whole, in);
    check(&call_fraction, in);
}

/* Every packed code of up to two bytes. */
static void short_packed(void)
{
    struct bytes packed = {.len = 0};
    check_packed(&packed);
    for (unsigned value = 0; value < 65536; value++) {
        packed = (struct bytes){.len = 2, .byte = {(uint8_t)(value >> 8), (uint8_t)value}};
        check_packed(&packed);
        packed.len = 1;
        if (value % 256 == 0)
            check_packed(&packed);
    }
}

/* Bits with about one 1 in two, ended and filled or not, of every length in bytes. */
static void random_packed(void)
{
    for (size_t length = 0; length <= 20; length++)
        for (unsigned round = 0; round < rounds(1500); round++) {
            struct bytes packed = {.len = length};
            for (size_t i = 0; i < length; i++)
                packed.byte[i] = (uint8_t)(one_in(3) ? random64() & random64() : random64());
            check_packed(&packed);
        }
    struct bytes longest = {.len = 300};
    check_packed(&longest);
    check_packed(&(struct bytes){.len = 16, .byte = {0xee, 0xee, 0xee, 0xee, 0xee, 0xee, 0xee, 0xee, 0xee, 0xee,
                                                     0xee, 0xee, 0xee, 0xee, 0xee, 0xee}});
}

/* Every whole number of N up to 8 with some above its range, and N from 0 to 40 and beyond. */
static void wholes(void)
{
    for (unsigned n = 1; n <= 8; n++) {
        uint64_t bound = (uint64_t)1 << (2 * n - 1);
        for (uint64_t value = 0; value < bound + 20; value++)
            check_whole(n, value);
    }
    for (unsigned n = 0; n <= 40; n++)
        for (unsigned round = 0; round < rounds(500); round++) {
            check_whole(n, random64() >> below(64));
            uint64_t bound = n >= 1 && n <= 32 ? (uint64_t)1 << (2 * n - 1) : 0;
            check_whole(n, bound - 1 - below(20));
            check_whole(n, bound + below(20));
            check_whole(n, bound - bound / 8 + below(bound / 16 + 1));
        }
    const uint64_t sizes[] = {64, 65, 255, 256, 257, (uint64_t)1 << 32, ((uint64_t)1 << 32) + 8, UINT64_MAX};
    for (size_t i = 0; i < sizeof sizes / sizeof *sizes; i++) {
        check_whole(sizes[i], 0);
        check_whole(sizes[i], 30344);
        check_whole(sizes[i], UINT64_MAX);
    }
}

static void flip_bit(struct bytes *packed)
{
    if (packed->len > 0)
        packed->byte[below(packed->len)] ^= (uint8_t)(1u << below(8));
}

/* The packed form of a list, whole and damaged. */
static void damaged_packed(const struct list *list, uint64_t root)
{
    struct bytes packed;
    packed.len = oracle_pack(edition, list->n, list->ends, list->len, root, packed.byte, sizeof packed.byte).place;
    claim(check_packed(&packed).number == 0, "a packed form is right");
    for (unsigned round = 0; round < 6; round++) {
        struct bytes one = packed;
        flip_bit(&one);
        check_packed(&one);
        damage_bytes(&one, 256);
        check_packed(&one);
    }
    struct bytes spare = packed;
    spare.byte[spare.len++] = (uint8_t)(one_in(2) ? 0 : below(256));
    check_packed(&spare);
    packed.len--;
    check_packed(&packed);
}

static void damaged_whole(const struct list *list, uint64_t root)
{
    uint64_t value;
    if (oracle_whole(edition, list->n, list->ends, list->len, root, &value).number != 0)
        return;
    claim(check_whole(list->n, value).number == 0, "a whole number is right");
    check_whole(list->n + 1, value);
    check_whole(list->n - 1, value);
    for (unsigned round = 0; round < 6; round++)
        check_whole(list->n, value ^ (uint64_t)1 << below(2 * list->n));
    check_whole(list->n + 1, 2 * value);
    check_whole(list->n + 1, 4 * value);
}

static void neighbourhood(double x)
{
    check_fraction(x);
    check_fraction(nextafter(x, 2));
    check_fraction(nextafter(x, -2));
}

static void damaged_fraction(const struct list *list, uint64_t root)
{
    double x;
    if (oracle_fraction(edition, list->n, list->ends, list->len, root, &x).number != 0)
        return;
    claim(check_fraction(x).number == 0, "a fraction is right");
    neighbourhood(x);
    for (unsigned round = 0; round < 6; round++)
        check_fraction(x + (one_in(2) ? 1 : -1) * ldexp(1, -(int)(1 + below(55))));
}

static void random_and_damaged(void)
{
    for (unsigned n = 1; n <= 64; n++)
        for (unsigned round = 0; round < rounds(n <= 33 ? 60 : 30); round++) {
            struct list list = random_tree(n);
            uint64_t root = 1 + below(n);
            check_list(&list, root);
            damaged_packed(&list, root);
            damaged_whole(&list, root);
            damaged_fraction(&list, root);
            check_list(&list, some_root(&list, 2));
            damage_list(&list);
            check_list(&list, some_root(&list, 8));
        }
}

/* k / 2^20 for every k, or in edition 2 for every fourth, and the neighbours of every k / 2^11. */
static void fraction_grid(void)
{
    for (unsigned k = 0; k <= 1u << 20; k += edition == 1 ? 1 : 4)
        check_fraction(k / 1048576.0);
    for (unsigned k = 0; k <= 1u << 11; k++)
        neighbourhood(k / 2048.0);
}

static double of_bits(uint64_t bits)
{
    double x;
    memcpy(&x, &bits, sizeof x);
    return x;
}

static void special_fractions(void)
{
    const double values[] = {0.0, -0.0, NAN, -NAN, INFINITY, -INFINITY, 1.0, -1.0, 2.0, 0.5, 0.25, -0.5, 1e300,
                             -1e300, 5e-324, -5e-324, 2.2250738585072014e-308, 1.7976931348623157e308};
    for (size_t i = 0; i < sizeof values / sizeof *values; i++)
        neighbourhood(values[i]);
    for (int e = -1080; e <= 10; e++) {
        neighbourhood(ldexp(1, e));
        neighbourhood(-ldexp(1, e));
        neighbourhood(1 - ldexp(1, e));
        neighbourhood(0.5 + ldexp(1, e));
    }
    /* any bits at all: NaNs with every kind of payload, subnormals, huge numbers */
    for (unsigned round = 0; round < rounds(20000); round++)
        check_fraction(of_bits(random64()));
    for (unsigned round = 0; round < rounds(5000); round++) {
        check_fraction(of_bits(random64() >> 12));
        check_fraction(of_bits(random64() >> 12 | (uint64_t)0x7ff << 52));
        check_fraction(of_bits(random64() >> 12 | (uint64_t)0xfff << 52));
    }
    /* 53 significant bits from one half up, where runs are short enough to get far */
    for (unsigned round = 0; round < rounds(60000); round++) {
        uint64_t bits = random64() & (one_in(2) ? random64() | random64() : UINT64_MAX);
        if (one_in(2))
            bits &= UINT64_MAX << below(53);
        check_fraction(of_bits((uint64_t)0x3fe << 52 | (bits & 0xfffffffffffffu)));
    }
}

/* ---- Bits made from digits, as bytes 0 and 1 ---- */

static void put_digit(struct bytes *bits, unsigned digit)
{
    for (unsigned k = 0; k < digit; k++)
        bits->byte[bits->len++] = 1;
    bits->byte[bits->len++] = 0;
}

/* The first bits of these as each form that can carry so many. */
static void check_bits(const struct bytes *bits, size_t count)
{
    struct bytes packed = {.len = (count + 7) / 8};
    uint64_t value = 0;
    for (size_t i = 0; i < count; i++) {
        packed.byte[i / 8] |= (uint8_t)(bits->byte[i] << (7 - i % 8));
        value = 2 * value + bits->byte[i];
    }
    check_packed(&packed);
    if (count % 2 == 1 && count <= 63)
        check_whole((count + 1) / 2, value);
    if (count <= 53)
        check_fraction(ldexp((double)value, -(int)count));
}

/* Trees with their children in any order. */
static void unsorted(void)
{
    for (unsigned n = 1; n <= 64; n++)
        for (unsigned round = 0; round < rounds(60); round++) {
            struct bytes code = unsorted_code(n), bits = {.len = 0};
            for (size_t i = 0; i < code.len; i++)
                put_digit(&bits, code.byte[i]);
            check_bits(&bits, bits.len);
        }
}

/* Digits from 1 up, mostly within their caps, cut off anywhere: 12, and 10 where a cut-off run is long. */
static void never_ended(void)
{
    for (unsigned round = 0; round < rounds(6000); round++) {
        struct bytes bits = {.len = 0};
        unsigned limit = neighbours(), most = 1 + (unsigned)below(limit - 1);
        put_digit(&bits, 1 + (unsigned)below(limit));
        while (bits.len < 130)
            put_digit(&bits, one_in(60) ? limit + (unsigned)below(9) : 1 + (unsigned)below(most));
        check_bits(&bits, 128);
        check_bits(&bits, 53);
        check_bits(&bits, 1 + 2 * below(32));
        check_bits(&bits, 8 * (1 + below(16)));
        size_t cut = 1 + below(120);
        for (size_t i = 0; i < limit + 1 + below(2); i++)
            bits.byte[cut + i] = 1;
        check_bits(&bits, cut + 1 + below(limit + 2));
        for (size_t i = 54 - limit; i < 53; i++)
            bits.byte[i] = 1;
        check_bits(&bits, 53);
    }
}

/* A run of every length up to 12 behind every number of bits up to 16, with its zero or cut off at each of its ones, and
 * with leaves behind it. */
static void runs(void)
{
    for (unsigned before = 0; before <= 16; before++)
        for (unsigned run = 0; run <= 12; run++) {
            struct bytes bits = {.len = 0};
            for (unsigned left = before; left > 1;) {
                unsigned digit = left == 3 ? 2 : 1;
                put_digit(&bits, digit);
                left -= digit + 1;
            }
            if (before == 1)
                put_digit(&bits, 0);
            size_t start = bits.len;
            put_digit(&bits, run);
            for (size_t count = start; count <= bits.len + run + 2; count++)
                check_bits(&bits, count);
        }
}

/* 255 128 0 is nine ones, and then ten zeros for the root's end and nine leaves; of 255 192 the run has ten. */
static void stars(void)
{
    struct list star = star_of(10);
    check_list(&star, 1);
    struct answer nine = check_packed(&(struct bytes){.len = 3, .byte = {255, 128, 0}});
    struct answer ten = check_packed(&(struct bytes){.len = 2, .byte = {255, 192}});
    claim(ten.number == 10 && ten.place == 1, "a run of ten ones is 10 at 1");
    claim(edition == 1 ? nine.number == 10 && nine.place == 1 : nine.number == 0 && nine.place == 18,
          "a run of nine is the star of ten in edition 2, and 10 at 1 in edition 1");
}

void piece_bits(void)
{
    IN_BOTH_EDITIONS {
        stars();
        runs();
    }
    IN_BOTH_EDITIONS {
        short_packed();
        random_packed();
        wholes();
        random_and_damaged();
        fraction_grid();
        special_fractions();
        unsorted();
        never_ended();
    }
    CLAIM_MET(pack, 0, 3, 5, 6, 7, 8, 9, 15, 22);
    CLAIM_MET(unpack, 0, 3, 10, 11, 12, 13, 15, 22);
    CLAIM_MET(whole, 0, 3, 5, 6, 7, 8, 9, 22);
    CLAIM_MET(unwhole, 0, 3, 4, 10, 11, 12, 13, 15, 22);
    CLAIM_MET(fraction, 0, 3, 5, 6, 7, 8, 9, 22);
    CLAIM_MET(unfraction, 0, 4, 10, 11, 12, 13, 15, 22);
}
