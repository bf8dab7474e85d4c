/* Lines: reading one, writing one. */
#define SHIFT 0
#include "judge.h"

static uint32_t read_line(size_t edition, const uint8_t *t, size_t len, uint8_t *out, size_t out_len, uint64_t *place) {
    unsigned limit = limit_of(edition);
    uint8_t c[SIZE];
    size_t at = 1, n, end;
    *place = 0;
    if (limit == 0)
        return 22;
    const uint8_t *feed = memchr(t, 10, len);
    if (!feed)
        return 1;
    end = (size_t)(feed - t);
    if (end < 3 || t[0] < '0' || t[0] > '9')
        return 2;
    n = t[0] - '0';
    if (t[1] != ' ') {
        if (n == 0 || t[1] < '0' || t[1] > '9')
            return 2;
        n = 10 * n + (t[1] - '0');
        at = 2;
    }
    if (t[at] != ' ' || at + 1 == end)
        return 2;
    for (size_t i = at + 1; i < end; i++) {
        uint8_t d = (uint8_t)(t[i] - '0');
        if (d > 9)
            return 2;
        if (i - at - 1 < SIZE)
            c[i - at - 1] = d;
    }
    if (n == 0 || n > SIZE)
        return 3;
    if (end - at - 1 != n)
        return 5;
    uint32_t refused = judge(limit, c, n);
    if (refused)
        return refused == 14 ? 14 : why(limit, c, n, place);
    *place = n;
    if (out_len < n)
        return 15;
    memcpy(out, c, n);
    return 0;
}

static uint32_t write_line(size_t edition, size_t n, const uint8_t *edges, size_t len, uint8_t *out, size_t out_len, size_t *pairs, uint64_t *place) {
    struct tree t;
    uint8_t code[SIZE];
    uint32_t refused = tree_read(edition, &t, n, edges, len, 1, place);
    *pairs = 0;
    if (refused)
        return refused;
    *place = n + (n < 10 ? 3 : 4);
    if (out_len < *place)
        return 15;
    *pairs = code_centred(&t, code);
    if (n >= 10)
        *out++ = (uint8_t)('0' + n / 10);
    *out++ = (uint8_t)('0' + n % 10);
    *out++ = ' ';
    for (unsigned i = 0; i < n; i++)
        *out++ = (uint8_t)('0' + code[i]);
    *out = '\n';
    return 0;
}

uint32_t c_read_line(size_t edition, const uint8_t *text, size_t len, uint8_t *out, size_t out_len) {
    uint64_t place;
    uint32_t number = read_line(edition, text, len, out, out_len, &place);
    return answered(number, place);
}

uint32_t c_write_line(size_t edition, size_t n, const uint8_t *edges, size_t len, uint8_t *out, size_t out_len, size_t *pairs) {
    uint64_t place;
    uint32_t number = write_line(edition, n, edges, len, out, out_len, pairs, &place);
    return answered(number, place);
}
