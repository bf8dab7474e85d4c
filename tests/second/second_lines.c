/* Piece lines: one line both ways, the reader over a text, and what it promises about damaged texts. */
#include <stdio.h>
#include <stdlib.h>

#include "calls.h"
#include "gen.h"
#include "second.h"
#include "texts.h"

CALL_HOST(read_line, lent_bytes, in->bytes, in->len, out, room);
CALL_HOST_TELLING(write_line, lent_bytes, in->n, in->bytes, in->len, out, room);

/* A line that is read is written again by the edges of its digits. */
static void check_written_again(const struct text *text)
{
    struct bytes code, again;
    code.len = oracle_read_line(edition, text->byte, text->len, code.byte, sizeof code.byte).place;
    struct list list = list_of_code(&code);
    struct input in = {.n = list.n, .bytes = list.ends, .len = list.len};
    check(&call_write_line, in);
    again.len = oracle_write_line(edition, list.n, list.ends, list.len, again.byte, sizeof again.byte).place;
    claim(again.len <= text->len && memcmp(again.byte, text->byte, again.len) == 0, "a line is written again");
}

static struct answer check_line(const struct text *text)
{
    struct answer answer = check(&call_read_line, (struct input){.bytes = text->byte, .len = text->len});
    if (answer.number == 0)
        check_written_again(text);
    return answer;
}

static struct text text_of(const char *written)
{
    struct text text = {.len = strlen(written)};
    memcpy(text.byte, written, text.len);
    return text;
}

/* ---- Single lines ---- */

static void examples(void)
{
    static const char *const texts[] = {
        "8 32100100\n6 220010\n6 311000\n6 2200,10\n3 20\n1 0", "", "\n", "1 0\n", "1 0", "0 0\n", "00 0\n",
        "08 32100100\n", "100 0\n", "1 0\n1 0\n", "1  0\n", " 1 0\n", "1 0 \n", "1 0\r\n", "1\n", "1 \n", " \n",
        "+1 0\n", "2 10\n", "2 1\n", "2 100\n", "3 200\n", "4 1200\n", "4 2010\n", "3 007\n", "2 00\n", "2 20\n",
        "2 50\n", "6 140000\n", "7 3110100\n", "7 2210010\n", "64 0\n", "65 0\n", "99 0\n", "65 \n", "1 9\n", "0 9\n",
        "6 500000\n", "10 9000000000\n", "11 90000000000\n", "11 91000000000\n", "11 18100000000\n", "12 190000000000\n",
        "10 9000000000\n5 40000\n6 500000\n10 9000000000"};
    static struct reading theirs;
    for (size_t i = 0; i < sizeof texts / sizeof *texts; i++) {
        struct text text = text_of(texts[i]);
        check_line(&text);
        check_text(&text, &theirs);
        check_short_room(&text);
        check_listing(text.byte, text.len);
        for (size_t room = 1; room < 40; room++)
            check_pieces(text.byte, text.len, room);
    }
}

/* Every text of up to 5 bytes over a small alphabet. */
static void short_texts(void)
{
    static const char alphabet[] = "012 \n,9";
    static struct reading theirs;
    for (unsigned length = 0, count = 1; length <= 5; length++, count *= 7)
        for (unsigned index = 0; index < count; index++) {
            struct text text;
            text.len = length;
            unsigned left = index;
            for (unsigned i = 0; i < length; i++, left /= 7)
                text.byte[i] = (uint8_t)alphabet[left % 7];
            check_line(&text);
            check_text(&text, &theirs);
            if (one_in(10))
                check_listing(text.byte, text.len);
        }
}

static void append_line(struct text *text, const struct list *list)
{
    text->len += oracle_write_line(edition, list->n, list->ends, list->len, text->byte + text->len, most_text - text->len).place;
}

/* Right lists written, damaged lists refused, and lines with other digits and counts read. */
static void written(void)
{
    for (unsigned n = 1; n <= 64; n++)
        for (unsigned round = 0; round < rounds(40); round++) {
            struct list list = random_tree(n);
            struct input in = {.n = list.n, .bytes = list.ends, .len = list.len};
            claim(check(&call_write_line, in).number == 0, "a random tree is right");
            struct text text = {.len = 0};
            append_line(&text, &list);
            claim(check_line(&text).number == 0, "a written line is read");
            damage_list(&list);
            check(&call_write_line, (struct input){.n = list.n, .bytes = list.ends, .len = list.len});
            struct bytes code = one_in(2) ? random_code(n) : unsorted_code(n);
            if (one_in(2))
                damage_bytes(&code, neighbours() + 1);
            text.len = (size_t)snprintf((char *)text.byte, 8, "%u ", one_in(4) ? (unsigned)below(120) : (unsigned)code.len);
            for (size_t i = 0; i < code.len; i++)
                text.byte[text.len++] = (uint8_t)('0' + code.byte[i]);
            text.byte[text.len++] = '\n';
            check_line(&text);
        }
}

/* ---- Texts ---- */

static struct text random_text(unsigned lines, unsigned largest)
{
    struct text text = {.len = 0};
    for (unsigned i = 0; i < lines; i++) {
        struct list list = random_tree(1 + (unsigned)below(largest));
        append_line(&text, &list);
    }
    return text;
}

/* Bytes that a change puts in. */
static const char spread[] = {'0', '1', '2', '3', '4', '8', '9', ' ', '\n', '\r', ',', '/', ':', 0, (char)255};

static void single_changes(void)
{
    for (unsigned round = 0; round < rounds(260); round++) {
        struct text text = random_text((unsigned)below(6), 1 + (unsigned)below(neighbours() + 5));
        every_change(check_text, spread, sizeof spread, &text);
    }
    for (unsigned round = 0; round < rounds(40); round++) {
        struct text text = random_text(1 + (unsigned)below(3), 25);
        every_change(check_text, spread, sizeof spread, &text);
    }
    struct list list = random_tree(64);
    struct text text = random_text(1, 64);
    append_line(&text, &list);
    every_change(check_text, spread, sizeof spread, &text);
}

/* A stretch replaced by anything: lines that end before it, and lines behind the first line feed after it,
 * are answered as in the clean text. */
static void larger_damage(void)
{
    static const char likely[] = "0012345 \n\n89";
    static struct reading clean, damaged;
    for (unsigned round = 0; round < rounds(12000); round++) {
        struct text text = random_text((unsigned)below(9), one_in(10) ? 64 : 8), changed = text;
        size_t from = below(text.len + 1), lost = below(text.len - from + 1);
        uint8_t by[40];
        size_t by_count = below(sizeof by);
        for (size_t i = 0; i < by_count; i++)
            by[i] = (uint8_t)(one_in(8) ? below(256) : (uint8_t)likely[below(sizeof likely - 1)]);
        replace_stretch(&changed, from, lost, by, by_count);
        check_text(&text, &clean);
        check_text(&changed, &damaged);
        check_short_room(&changed);
        check_line(&changed);

        size_t before = 0, after = 0, feeds = 0;
        for (size_t i = 0; i < from; i++)
            before += text.byte[i] == '\n';
        for (size_t i = from + lost; i < text.len; i++)
            feeds += text.byte[i] == '\n';
        after = feeds > 0 ? feeds - 1 : 0;
        claim(damaged.lines >= before + after, "lines around the damage are there");
        for (size_t i = 0; i < before; i++)
            claim(same_line(&clean, i, &damaged, i), "lines before the damage are answered as before");
        for (size_t i = 1; i <= after; i++)
            claim(same_line(&clean, clean.lines - i, &damaged, damaged.lines - i),
                  "lines behind the damage are answered as before");
    }
}

/* Many lines, to the reader's full length here. */
static void long_texts(void)
{
    static struct reading theirs;
    for (unsigned round = 0; round < rounds(50); round++) {
        struct text text = random_text(60, 50);
        check_text(&text, &theirs);
        check_short_room(&text);
        check_listing(text.byte, text.len);
        for (unsigned i = 0; i < 5; i++)
            text.byte[below(text.len)] = (uint8_t)below(256);
        check_text(&text, &theirs);
        check_short_room(&text);
        check_listing(text.byte, text.len);
        check_pieces(text.byte, text.len, 1 + below(300));
    }
}

/* Around the longest input: lines, damaged in places, or line feeds alone. */
static void listings(void)
{
    static uint8_t text[65536 + 3];
    for (unsigned round = 0; round < rounds(3); round++) {
        size_t len = 0;
        while (len < sizeof text) {
            struct text some = random_text(60, round == 0 ? 1 : 50);
            if (one_in(2))
                some.byte[below(some.len)] = (uint8_t)below(256);
            size_t count = some.len < sizeof text - len ? some.len : sizeof text - len;
            memcpy(text + len, some.byte, count);
            len += count;
        }
        if (round == 2)
            memset(text, '\n', sizeof text);
        for (len = sizeof text - 5; len <= sizeof text; len++)
            check_listing(text, len);
        check_pieces(text, 65536, 65536);
        check_pieces(text, 65536, 10007);
        check_pieces(text, 65537, 7);
    }
}

/* Numbers that no reading gives, too. */
static void counts(void)
{
    for (unsigned round = 0; round < 1000; round++) {
        uint8_t numbers[300];
        size_t len = below(sizeof numbers + 1);
        for (size_t i = 0; i < len; i++)
            numbers[i] = (uint8_t)(one_in(2) ? 0 : below(256));
        check_count(numbers, len);
    }
}

void piece_lines(void)
{
    IN_BOTH_EDITIONS
        examples();
    IN_BOTH_EDITIONS {
        short_texts();
        written();
        single_changes();
        larger_damage();
        long_texts();
        listings();
    }
    counts();
    CLAIM_MET(read_line, 0, 1, 2, 3, 5, 10, 11, 12, 13, 14, 15, 22);
    CLAIM_MET(write_line, 0, 3, 5, 6, 7, 8, 9, 15, 22);
}
