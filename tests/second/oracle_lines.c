/* Lines: one line both ways, and the reader over a text. */
#include <stdarg.h>
#include <stdio.h>
#include <string.h>

#include "oracle_parts.h"

enum { line_feed = 10, record_bytes = 64, most_input = 65536 };

/* A text up to its first line feed, taken apart. */
struct line {
    bool finished;
    size_t bytes;         /* without the line feed */
    bool right_form;      /* count, one space, one or more digits */
    uint64_t n;           /* the count */
    size_t digits;
    const uint8_t *digit; /* as characters */
};

static bool is_digit(uint8_t byte)
{
    return byte >= '0' && byte <= '9';
}

size_t count_length(const uint8_t *text, size_t bytes)
{
    if (bytes >= 2 && is_digit(text[0]) && text[1] == ' ')
        return 1;
    if (bytes >= 3 && is_digit(text[0]) && text[0] != '0' && is_digit(text[1]) && text[2] == ' ')
        return 2;
    return 0;
}

static struct line take_line(const uint8_t *text, size_t len)
{
    struct line line = {.finished = false, .bytes = len, .right_form = false};
    for (size_t i = 0; i < len && !line.finished; i++)
        if (text[i] == line_feed) {
            line.finished = true;
            line.bytes = i;
        }
    size_t count = count_length(text, line.bytes);
    for (size_t i = 0; i < count; i++)
        line.n = 10 * line.n + (text[i] - '0');
    if (count > 0) {
        line.digit = text + count + 1;
        line.digits = line.bytes - count - 1;
        line.right_form = line.digits > 0;
        for (size_t i = 0; i < line.digits; i++)
            line.right_form = line.right_form && is_digit(line.digit[i]);
    }
    return line;
}

/* Rows 3, 5 and 10 to 14 speak of a line of the right form. The digits that are judged are at most 64:
 * with more, 3 or 5 is met. */
static struct answer refuse_line(uint64_t edition, const struct line *line, struct code *code)
{
    struct answer form = LOWEST(row_22(edition), row_if(1, !line->finished), row_if(2, !line->right_form));
    if (form.number != 0)
        return form;
    code->length = line->digits < most_vertices ? line->digits : most_vertices;
    for (size_t i = 0; i < code->length; i++)
        code->digit[i] = (uint8_t)(line->digit[i] - '0');
    struct answer refusal = LOWEST(row_3(line->n, most_vertices), row_if(5, line->digits != line->n),
                                   row_10_digits(limit_of(edition), code->digit, code->length),
                                   row_11_digits(code->digit, code->length),
                                   row_12_digits(code->digit, code->length),
                                   row_13(code->digit, code->length));
    if (refusal.number != 0)
        return refusal;
    struct tree tree = tree_of_code(code->digit, code->length);
    struct code centred = centred_code(&tree);
    return LOWEST(row_if(14, !same_digits(code->digit, code->length, &centred)));
}

struct answer oracle_read_line(uint64_t edition, const uint8_t *text, size_t len, uint8_t *out, size_t room)
{
    struct line line = take_line(text, len);
    struct code code = {.length = 0};
    struct answer refusal = refuse_line(edition, &line, &code);
    return deliver(refusal, code.digit, code.length, out, room);
}

struct answer oracle_write_line(uint64_t edition, uint64_t n, const uint8_t *edges, size_t len, uint8_t *out, size_t room)
{
    struct answer refusal = oracle_check_edges(edition, n, edges, len, no_root);
    if (refusal.number != 0)
        return refusal;
    struct tree tree = tree_of(n, edges);
    struct code code = centred_code(&tree);
    char line[2 + 1 + most_vertices + 1 + 1];
    size_t at = (size_t)snprintf(line, sizeof line, "%u ", tree.n);
    for (size_t i = 0; i < code.length; i++)
        line[at++] = (char)('0' + code.digit[i]);
    line[at++] = line_feed;
    return telling(deliver(refusal, (const uint8_t *)line, at, out, room), code.pairs);
}

void oracle_read_text(uint64_t edition, const uint8_t *text, size_t len, uint8_t *records, size_t records_len,
                      uint8_t *numbers, size_t numbers_len, size_t *places, size_t places_len,
                      size_t *lines, size_t *at)
{
    size_t from = 0, i = 0;
    while (from < len && (i + 1) * record_bytes <= records_len && i + 1 <= numbers_len && i + 1 <= places_len) {
        struct answer answer = oracle_read_line(edition, text + from, len - from, records + i * record_bytes, record_bytes);
        numbers[i] = (uint8_t)answer.number;
        places[i] = answer.place;
        from += line_length(text + from, len - from);
        i++;
    }
    *lines = i;
    *at = from;
}

void oracle_count(const uint8_t *numbers, size_t len, size_t *read, size_t *refused)
{
    *read = *refused = 0;
    for (size_t i = 0; i < len; i++)
        *(numbers[i] == 0 ? read : refused) += 1;
}

/* What is printed, byte by byte: those from number `from` on go to the output while it has room. */
struct print {
    size_t from, at, room, written;
    uint8_t *out;
};

static void print(struct print *print, const char *form, ...)
{
    char bytes[80];
    va_list arguments;
    va_start(arguments, form);
    int count = vsnprintf(bytes, sizeof bytes, form, arguments);
    va_end(arguments);
    for (int i = 0; i < count; i++, print->at++)
        if (print->at >= print->from && print->written < print->room)
            print->out[print->written++] = (uint8_t)bytes[i];
}

size_t line_length(const uint8_t *text, size_t len)
{
    struct line line = take_line(text, len);
    return line.bytes + (line.finished ? 1 : 0);
}

size_t list_lines(struct answer (*read)(const uint8_t *text, size_t len), const uint8_t *text, size_t len, size_t from,
                  uint8_t *out, size_t room)
{
    struct print to = {.from = from, .room = room, .out = out};
    unsigned line_number = 0, records = 0;
    if (len > most_input) {
        print(&to, "input too long\n");
        return to.written;
    }
    for (size_t at = 0; at < len;) {
        struct answer answer = read(text + at, len - at);
        line_number++;
        records += answer.number == 0;
        print(&to, "%u %u %u\n", line_number, answer.number, answer.number == 0 ? 0 : (unsigned)answer.place);
        at += line_length(text + at, len - at);
    }
    print(&to, "read %u refused %u\n", records, line_number - records);
    return to.written;
}

/* The listing is of edition 1. */
static struct answer read_listed(const uint8_t *text, size_t len)
{
    uint8_t digits[record_bytes];
    return oracle_read_line(1, text, len, digits, sizeof digits);
}

size_t oracle_list(const uint8_t *text, size_t len, size_t from, uint8_t *out, size_t room)
{
    return list_lines(read_listed, text, len, from, out, room);
}
