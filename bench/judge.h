/* What is asked of the digits of a line: for text.c, and for named.c, whose digits are marks. Each file has its own copy, and says
 * what SHIFT is: how many of a mark's lowest bits hold the atom, 0 or 2; the digit is what is above them. */
#ifndef JUDGE_H
#define JUDGE_H

#include "careful.h"
#include <string.h>

/* How many neighbours the vertex of a mark may have. */
static inline unsigned most_of(unsigned limit, uint8_t mark) {
    return SHIFT ? limit - (mark & 3) : limit;
}

/* The code at the other middle vertex, the child that starts at x and ends before e, is larger than c. */
static int other_larger(const uint8_t *c, size_t n, size_t x, size_t e) {
    uint8_t rest[SIZE], other[SIZE];
    size_t m = 0, k = 0, at = x + 1;
    rest[m++] = (uint8_t)(c[0] - (1 << SHIFT));
    memcpy(rest + m, c + 1, x - 1);
    m += x - 1;
    memcpy(rest + m, c + e, n - e);
    m += n - e;
    other[k++] = (uint8_t)(c[x] + (1 << SHIFT));
    for (unsigned j = 0; j < (unsigned)c[x] >> SHIFT; j++) {
        size_t end = at, open = 1;
        while (open) {
            open = open + (c[end] >> SHIFT) - 1;
            end++;
        }
        size_t len = end - at;
        if (digits_compare(rest, c + at, m < len ? m : len) > 0)
            break;
        memcpy(other + k, c + at, len);
        k += len;
        at = end;
    }
    memcpy(other + k, rest, m);
    k += m;
    memcpy(other + k, c + at, e - at);
    return digits_compare(c, other, n) < 0;
}

/* Rows 10 to 14 and 20 of n digits or marks, in one pass from the last: 0 for a centred code, 14 for a right code that is not one, 10 for any other. */
static uint32_t judge(unsigned limit, const uint8_t *c, size_t n) {
    uint8_t start[SIZE + 1], height[SIZE + 1];
    size_t top = SIZE; /* a stack that grows down: the codes behind the digit, nearest first */
    start[SIZE] = (uint8_t)n;
    for (size_t i = n; i-- > 0;) {
        unsigned k = c[i] >> SHIFT, h = 0, most = most_of(limit, c[i]);
        if (k > (i ? most - 1 : most) || k > SIZE - top)
            return 10;
        for (unsigned j = 0; j < k; j++) {
            if (height[top + j] > h)
                h = height[top + j];
            if (j) {
                size_t a = start[top + j - 1], b = start[top + j], e = start[top + j + 1];
                size_t x = b - a, y = e - b;
                if (digits_compare(c + a, c + b, x < y ? x : y) < 0)
                    return 10;
            }
        }
        if (i == 0) {
            if (SIZE - top != k)
                return 10;
            unsigned second = 0, at = 0;
            for (unsigned j = 0; j < k; j++)
                if (height[top + j] == h) {
                    at = j;
                    break;
                }
            for (unsigned j = 0; j < k; j++)
                if (j != at && height[top + j] > second)
                    second = height[top + j];
            if (h == second)
                return 0;
            if (h != second + 1)
                return 14;
            return other_larger(c, n, start[top + at], start[top + at + 1]) ? 14 : 0;
        }
        top = top + k - 1;
        start[top] = (uint8_t)i;
        height[top] = (uint8_t)(h + 1);
    }
    return 10;
}

/* The number and the place of digits or marks that are no right code. */
static uint32_t why(unsigned limit, const uint8_t *c, size_t n, uint64_t *place) {
    uint8_t end[SIZE + 1];
    size_t open = 1, larger = n;
    for (size_t i = 0; i < n; i++)
        if ((unsigned)c[i] >> SHIFT > (i ? limit - 1 : limit)) {
            *place = i + 1;
            return 10;
        }
    for (size_t i = 0; i < n; i++)
        if ((unsigned)c[i] >> SHIFT > most_of(limit, c[i]) - (i > 0)) {
            *place = i + 1;
            return 20;
        }
    for (size_t i = 0; i < n; i++) {
        open = open + (c[i] >> SHIFT) - 1;
        if (open == 0 && i + 1 < n) {
            *place = i + 2;
            return 11;
        }
    }
    if (open) {
        *place = n;
        return 12;
    }
    for (size_t i = n; i-- > 0;) {
        size_t a = i + 1;
        unsigned k = c[i] >> SHIFT;
        for (unsigned j = 0; j < k; j++) {
            size_t b = end[a];
            if (j + 1u < k && b < larger) {
                size_t x = b - a, y = end[b] - b;
                if (digits_compare(c + a, c + b, x < y ? x : y) < 0)
                    larger = b;
            }
            a = b;
        }
        end[i] = (uint8_t)a;
    }
    *place = larger + 1;
    return 13;
}

#endif
