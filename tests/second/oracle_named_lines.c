/* Named lines: one line both ways, the reader over a text, the listing. */
#include <stdio.h>
#include <string.h>

#include "oracle_parts.h"

enum { line_feed = 10, record_bytes = 64, most_parts = 6 };

/* A stretch of a line between spaces. */
struct part {
    const uint8_t *byte;
    size_t length;
};

/* The parts of a line that single spaces set apart; returns how many there are, one more than spaces. At most six are kept. */
static size_t take_parts(const uint8_t *line, size_t bytes, struct part *parts)
{
    size_t count = 1, from = 0;
    for (size_t i = 0; i <= bytes; i++)
        if (i == bytes || line[i] == ' ') {
            if (count <= most_parts)
                parts[count - 1] = (struct part){line + from, i - from};
            count += i < bytes;
            from = i + 1;
        }
    return count;
}

static bool all_digits(struct part part)
{
    for (size_t i = 0; i < part.length; i++)
        if (part.byte[i] < '0' || part.byte[i] > '9')
            return false;
    return part.length > 0;
}

/* A number of any length, without leading zeros. */
static bool is_number(struct part part)
{
    return all_digits(part) && (part.length == 1 || part.byte[0] != '0');
}

/* Whether a part is this number, written out. */
static bool says(struct part part, size_t number)
{
    char written[24];
    size_t length = (size_t)snprintf(written, sizeof written, "%zu", number);
    return part.length == length && memcmp(part.byte, written, length) == 0;
}

static size_t tally(struct part letters, uint8_t letter)
{
    size_t count = 0;
    for (size_t i = 0; i < letters.length; i++)
        count += letters.byte[i] == letter;
    return count;
}

/* Count, digits, letters, and the numbers of C, N and O. */
static bool right_form(const uint8_t *line, size_t bytes, struct part *parts)
{
    if (take_parts(line, bytes, parts) != most_parts)
        return false;
    return count_length(line, bytes) == parts[0].length && parts[0].length > 0 && all_digits(parts[1]) && parts[2].length > 0 &&
           !row_2_letters(parts[2].byte, parts[2].length).applies && is_number(parts[3]) && is_number(parts[4]) && is_number(parts[5]);
}

struct answer oracle_named_read_line(const uint8_t *text, size_t len, uint8_t *out, size_t room, uint8_t *out_letters,
                                     size_t letters_room)
{
    struct part part[most_parts];
    size_t whole = line_length(text, len);
    bool finished = whole > 0 && text[whole - 1] == line_feed;
    struct answer refusal = LOWEST(row_if(1, !finished), row_if(2, finished && !right_form(text, whole - 1, part)));
    if (refusal.number != 0)
        return refusal;
    uint64_t n = 0;
    for (size_t i = 0; i < part[0].length; i++)
        n = 10 * n + (part[0].byte[i] - '0');
    bool match = part[2].length == n && says(part[3], tally(part[2], 'C')) && says(part[4], tally(part[2], 'N')) &&
                 says(part[5], tally(part[2], 'O'));
    refusal = LOWEST(row_3(n, most_vertices), row_if(5, part[1].length != n), row_if(21, !match));
    if (refusal.number != 0)
        return refusal;
    uint8_t digits[most_vertices];
    for (size_t i = 0; i < n; i++)
        digits[i] = (uint8_t)(part[1].byte[i] - '0');
    refusal = refuse_named_digits(digits, part[2].byte, n);
    if (refusal.number != 0)
        return refusal;
    struct code code = named_code(digits, part[2].byte, n);
    struct tree tree = tree_of_named_code(&code);
    struct code centred = centred_code(&tree);
    return deliver_named(LOWEST(row_if(14, !same_code(&code, &centred))), digits, n, part[2].byte, n, out, room, out_letters,
                         letters_room);
}

struct answer oracle_named_write_line(uint64_t n, const uint8_t *edges, size_t len, const uint8_t *letters, size_t letters_len,
                                      uint8_t *out, size_t room)
{
    uint8_t digits[most_vertices], ordered[most_vertices];
    struct answer coded = oracle_named_centred_code(n, edges, len, letters, letters_len, digits, sizeof digits, ordered,
                                                    sizeof ordered);
    if (coded.number != 0)
        return coded;
    for (size_t i = 0; i < n; i++)
        digits[i] += '0';
    char line[200];
    struct part all = {ordered, n};
    int length = snprintf(line, sizeof line, "%u %.*s %.*s %zu %zu %zu\n", (unsigned)n, (int)n, (const char *)digits, (int)n,
                          (const char *)ordered, tally(all, 'C'), tally(all, 'N'), tally(all, 'O'));
    struct answer none = {.number = 0};
    return telling(deliver(none, (const uint8_t *)line, (size_t)length, out, room), coded.pairs);
}

void oracle_named_read_text(const uint8_t *text, size_t len, uint8_t *records, size_t records_len, uint8_t *letters,
                            size_t letters_len, uint8_t *numbers, size_t numbers_len, size_t *places, size_t places_len,
                            size_t *lines, size_t *at)
{
    size_t from = 0, i = 0;
    while (from < len && (i + 1) * record_bytes <= records_len && (i + 1) * record_bytes <= letters_len && i + 1 <= numbers_len &&
           i + 1 <= places_len) {
        struct answer answer = oracle_named_read_line(text + from, len - from, records + i * record_bytes, record_bytes,
                                                      letters + i * record_bytes, record_bytes);
        numbers[i] = (uint8_t)answer.number;
        places[i] = answer.place;
        from += line_length(text + from, len - from);
        i++;
    }
    *lines = i;
    *at = from;
}

static struct answer read_listed(const uint8_t *text, size_t len)
{
    uint8_t digits[record_bytes], letters[record_bytes];
    return oracle_named_read_line(text, len, digits, sizeof digits, letters, sizeof letters);
}

size_t oracle_named_list(const uint8_t *text, size_t len, size_t from, uint8_t *out, size_t room)
{
    return list_lines(read_listed, text, len, from, out, room);
}
