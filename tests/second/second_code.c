/* Piece code: checking and decoding of rooted codes. */
#include "calls.h"
#include "gen.h"
#include "second.h"

CALL_BOTH(check_code, no_output, in->bytes, in->len);
CALL_BYTES(decode_code);

static struct answer check_both(const struct bytes *code)
{
    struct input in = {.bytes = code->byte, .len = code->len};
    check(&call_check_code, in);
    return check(&call_decode_code, in);
}

/* Every string of up to 7 digits 0 to 5, or in edition 2 of up to 5 digits 0 to 10. */
static void short_strings(void)
{
    unsigned longest = edition == 1 ? 7 : 5, digits = neighbours() + 2;
    for (unsigned length = 0, count = 1; length <= longest; length++, count *= digits)
        for (unsigned index = 0; index < count; index++) {
            struct bytes code = {.len = length};
            unsigned left = index;
            for (unsigned i = 0; i < length; i++, left /= digits)
                code.byte[i] = (uint8_t)(left % digits);
            check_both(&code);
        }
}

/* A vertex with k leaves, as the root and below a root: the root's digit may be as many as it has neighbours, any other
 * one less. */
static void stars(void)
{
    for (unsigned k = 0; k <= 12; k++) {
        struct bytes at_root = {.len = k + 1, .byte = {(uint8_t)k}}, below_root = {.len = k + 2, .byte = {1, (uint8_t)k}};
        struct answer first = check_both(&at_root), second = check_both(&below_root);
        claim(first.number == (k > neighbours() ? 10 : 0), "a root's digit above its cap is 10");
        claim(first.number == 0 || first.place == 1, "at the root");
        claim(second.number == (k + 1 > neighbours() ? 10 : 0), "another digit above its cap is 10");
        claim(second.number == 0 || second.place == 2, "at the digit");
    }
}

static void right_and_damaged(void)
{
    for (unsigned n = 1; n <= 64; n++)
        for (unsigned round = 0; round < rounds(100); round++) {
            struct bytes code = random_code(n);
            claim(check_both(&code).number == 0, "a rooted code is right");
            struct bytes once = code;
            damage_bytes(&once, neighbours() + 1);
            check_both(&once);
            struct bytes twice = once;
            damage_bytes(&twice, neighbours() + 1);
            check_both(&twice);
            for (unsigned i = 0; i < 5; i++) {
                struct bytes one_digit = code;
                one_digit.byte[below(n)] = (uint8_t)below(neighbours());
                check_both(&one_digit);
            }
        }
}

/* A digit moved from one place to another keeps the sum: ends are met early or siblings out of order. */
static void moved_digits(void)
{
    for (unsigned round = 0; round < rounds(30000); round++) {
        struct bytes code = random_code(2 + (unsigned)below(20));
        size_t from = below(code.len), to = below(code.len);
        uint8_t kept = code.byte[from];
        memmove(code.byte + from, code.byte + from + 1, code.len - from - 1);
        memmove(code.byte + to + 1, code.byte + to, code.len - to - 1);
        code.byte[to] = kept;
        check_both(&code);
    }
}

/* Siblings out of order, anywhere in codes of every size. */
static void unsorted(void)
{
    for (unsigned n = 1; n <= 64; n++)
        for (unsigned round = 0; round < rounds(150); round++) {
            struct bytes code = unsorted_code(n);
            check_both(&code);
        }
}

/* Codes of a length at a limit: a right one lengthened or cut, and bytes of any value. */
static void lengths(void)
{
    const size_t lent[] = {0, 1, 2, 63, 64, 65, 66, 128, 255, 256, 257, 300};
    for (size_t l = 0; l < sizeof lent / sizeof *lent; l++)
        for (unsigned round = 0; round < rounds(400); round++) {
            struct bytes code = random_code(1 + (unsigned)below(64));
            for (size_t i = code.len; i < lent[l]; i++)
                code.byte[i] = (uint8_t)(one_in(3) ? below(256) : 0);
            code.len = lent[l];
            check_both(&code);
            struct bytes path = {.len = lent[l]};
            for (size_t i = 0; i < lent[l]; i++)
                path.byte[i] = (uint8_t)(i + 1 < lent[l]);
            if (one_in(2))
                damage_bytes(&path, 4);
            check_both(&path);
        }
    for (unsigned value = 0; value < 256; value++)
        for (size_t at = 0; at < 8; at++) {
            struct bytes code = {.len = 8, .byte = {3, 2, 1, 0, 0, 1, 0, 0}};
            code.byte[at] = (uint8_t)value;
            check_both(&code);
        }
}

void piece_code(void)
{
    IN_BOTH_EDITIONS
        stars();
    IN_BOTH_EDITIONS {
        short_strings();
        right_and_damaged();
        moved_digits();
        unsorted();
        lengths();
    }
    CLAIM_MET(check_code, 0, 3, 10, 11, 12, 13, 22);
    CLAIM_MET(decode_code, 0, 3, 10, 11, 12, 13, 15, 22);
}
