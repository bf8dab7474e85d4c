/* Digit codes: dictionary order, the code's end, rows 3 and 10 to 13, decoding. */
#include "oracle_parts.h"

unsigned order_of(const uint8_t *a, size_t an, const uint8_t *b, size_t bn)
{
    size_t i = 0;
    while (i < an && i < bn && a[i] == b[i])
        i++;
    if (i == an && i == bn)
        return 1;
    if (i == an)
        return 0;
    if (i == bn)
        return 2;
    return a[i] < b[i] ? 0 : 2;
}

size_t code_end(const uint8_t *digits, size_t count)
{
    uint64_t sum = 0;
    for (size_t position = 1; position <= count; position++) {
        sum += digits[position - 1];
        if (sum < position)
            return position;
    }
    return 0;
}

unsigned cap(unsigned limit, size_t digit)
{
    return digit == 1 ? limit : limit - 1;
}

static struct row row_3_code(size_t count)
{
    return row_if(3, count == 0 || count > most_vertices);
}

struct row row_10_digits(unsigned limit, const uint8_t *digits, size_t count)
{
    for (size_t i = 1; i <= count; i++)
        if (digits[i - 1] > cap(limit, i))
            return row_at(10, i);
    return row_none(10);
}

struct row row_11_digits(const uint8_t *digits, size_t count)
{
    size_t end = code_end(digits, count);
    return end != 0 && end < count ? row_at(11, end + 1) : row_none(11);
}

struct row row_12_digits(const uint8_t *digits, size_t count)
{
    return code_end(digits, count) == 0 ? row_at(12, count) : row_none(12);
}

/* Looks at every pair of neighbouring siblings of every vertex, and keeps the first place. */
struct row row_13(const uint8_t *digits, size_t count)
{
    struct row found = row_none(13);
    size_t end = code_end(digits, count);
    for (size_t vertex = 0; vertex < end; vertex++) {
        size_t child = vertex + 1;
        for (unsigned k = 1; k < digits[vertex]; k++) {
            size_t length = code_end(digits + child, end - child);
            size_t next = child + length;
            size_t next_length = code_end(digits + next, end - next);
            bool larger = order_of(digits + next, next_length, digits + child, length) == 2;
            if (larger && (!found.applies || next + 1 < found.place))
                found = row_at(13, next + 1);
            child = next;
        }
    }
    return found;
}

struct answer oracle_check_code(uint64_t edition, const uint8_t *code, size_t len)
{
    return LOWEST(row_22(edition), row_3_code(len), row_10_digits(limit_of(edition), code, len), row_11_digits(code, len),
                  row_12_digits(code, len), row_13(code, len));
}

size_t edges_of_code(const uint8_t *digits, size_t n, uint8_t *edges)
{
    for (size_t vertex = 0; vertex < n; vertex++) {
        size_t child = vertex + 1;
        for (unsigned k = 0; k < digits[vertex]; k++) {
            edges[2 * (child - 1)] = (uint8_t)(vertex + 1);
            edges[2 * (child - 1) + 1] = (uint8_t)(child + 1);
            child += code_end(digits + child, n - child);
        }
    }
    return 2 * (n - 1);
}

struct answer deliver_edges(struct answer refusal, const uint8_t *digits, size_t n, uint8_t *out, size_t room)
{
    uint8_t edges[2 * most_vertices];
    size_t length = refusal.number == 0 ? edges_of_code(digits, n, edges) : 0;
    return deliver(refusal, edges, length, out, room);
}

struct answer oracle_decode_code(uint64_t edition, const uint8_t *code, size_t len, uint8_t *out, size_t room)
{
    return deliver_edges(oracle_check_code(edition, code, len), code, len, out, room);
}
