#include "texts.h"

#include <stdio.h>
#include <string.h>

enum { most_listing = 1 << 20 };

static const size_t unset = 0xdeadbeefdeadbeefu;

struct room {
    size_t records, numbers, places; /* records in bytes, the others in lines */
    int named;
    size_t letters; /* in bytes, of named lines */
};

static size_t lines_in(const struct text *text)
{
    size_t lines = 0;
    for (size_t i = 0; i < text->len; i++)
        lines += text->byte[i] == '\n';
    return lines + (text->len > 0 && text->byte[text->len - 1] != '\n');
}

static void fill(struct reading *reading, struct room room, uint64_t salt)
{
    reading->lines = reading->at = unset;
    fill_pattern(reading->numbers, room.numbers + 1, salt);
    fill_pattern(reading->places, (room.places + 1) * sizeof(size_t), salt);
    fill_pattern(reading->records, room.records + record, salt);
    if (room.named)
        fill_pattern(reading->letters, room.letters + record, salt + 11);
}

static int same_reading(const struct reading *a, const struct reading *b, struct room room)
{
    return a->lines == b->lines && a->at == b->at && memcmp(a->numbers, b->numbers, room.numbers + 1) == 0 &&
           memcmp(a->places, b->places, (room.places + 1) * sizeof(size_t)) == 0 &&
           memcmp(a->records, b->records, room.records + record) == 0 &&
           (!room.named || memcmp(a->letters, b->letters, room.letters + record) == 0);
}

void check_count(const uint8_t *numbers, size_t len)
{
    size_t read, refused, their_read = unset, their_refused = unset;
    struct input in = {.bytes = numbers, .len = len};
    begin_case("count", &in);
    oracle_count(numbers, len, &read, &refused);
    zk_count(numbers, len, &their_read, &their_refused);
    if (read != their_read || refused != their_refused)
        mismatch("count", &in, "below are read and refused", (struct answer){.number = (unsigned)read, .place = refused},
                 (struct answer){.number = (unsigned)their_read, .place = their_refused});
}

/* Both read the text in an edition and into the same room; `theirs` is left for further claims. */
static void check_room(uint64_t in_edition, const struct text *text, struct room room, struct reading *theirs)
{
    static struct reading ours;
    static uint64_t salt;
    struct input in = {.edition = in_edition, .bytes = text->byte, .len = text->len};
    const char *name = room.named ? "named_read_text" : "read_text";
    begin_case(name, &in);
    fill(&ours, room, ++salt);
    fill(theirs, room, salt);
    if (room.named) {
        oracle_named_read_text(text->byte, text->len, ours.records, room.records, ours.letters, room.letters, ours.numbers,
                               room.numbers, ours.places, room.places, &ours.lines, &ours.at);
        zk_named_read_text(text->byte, text->len, theirs->records, room.records, theirs->letters, room.letters, theirs->numbers,
                           room.numbers, theirs->places, room.places, &theirs->lines, &theirs->at);
    } else {
        oracle_read_text(in_edition, text->byte, text->len, ours.records, room.records, ours.numbers, room.numbers, ours.places,
                         room.places, &ours.lines, &ours.at);
        zk_read_text(in_edition, text->byte, text->len, theirs->records, room.records, theirs->numbers, room.numbers,
                     theirs->places, room.places, &theirs->lines, &theirs->at);
    }
    if (same_reading(&ours, theirs, room)) {
        check_count(theirs->numbers, theirs->lines);
        return;
    }
    char more[160];
    size_t line = 0;
    while (line < ours.lines && line < theirs->lines && ours.numbers[line] == theirs->numbers[line] &&
           ours.places[line] == theirs->places[line])
        line++;
    snprintf(more, sizeof more,
             "lent %zu, %zu, %zu; below are lines and at; numbers or places differ first in line %zu",
             room.records, room.numbers, room.places, line + 1);
    mismatch(name, &in, more, (struct answer){.number = (unsigned)ours.lines, .place = ours.at},
             (struct answer){.number = (unsigned)theirs->lines, .place = theirs->at});
}

void check_text(const struct text *text, struct reading *theirs)
{
    static struct reading other;
    size_t lines = lines_in(text) + below(3);
    struct room room = {.records = record * lines + below(record), .numbers = lines, .places = lines};
    check_room(edition, text, room, theirs);
    if (edition == 2 && one_in(3)) {
        check_room(1, text, room, &other);
        claim(other.lines == theirs->lines && other.at == theirs->at, "both editions read as many lines");
        for (size_t i = 0; i < other.lines; i++)
            claim(other.numbers[i] == 10 || same_line(&other, i, theirs, i), "edition 1 answers a line as edition 2 does, or 10");
    }
    if (one_in(20)) {
        check_room(no_edition(), text, room, &other);
        claim(other.lines == theirs->lines && other.at == theirs->at, "in no edition as many lines are read");
        for (size_t i = 0; i < other.lines; i++)
            claim(other.numbers[i] == 22 && other.places[i] == 0, "in no edition every line is 22");
    }
}

void check_short_room(const struct text *text)
{
    static struct reading theirs;
    size_t lines = lines_in(text) + 2;
    struct room room = {.records = record * lines, .numbers = lines, .places = lines};
    if (!one_in(3))
        room.records = below(room.records);
    if (one_in(2))
        room.numbers = below(lines);
    if (one_in(2))
        room.places = below(lines);
    check_room(one_in(20) ? no_edition() : edition, text, room, &theirs);
}

void check_named_text(const struct text *text, struct reading *theirs)
{
    size_t lines = lines_in(text) + below(3);
    struct room room = {record * lines + below(record), lines, lines, 1, record * lines + below(record)};
    check_room(1, text, room, theirs);
}

void check_named_short_room(const struct text *text)
{
    static struct reading theirs;
    size_t lines = lines_in(text) + 2;
    struct room room = {record * lines, lines, lines, 1, record * lines};
    size_t *lent[] = {&room.records, &room.numbers, &room.places, &room.letters};
    size_t *some = lent[below(4)];
    *some = below(*some);
    if (one_in(2))
        room.letters = below(room.letters + 1);
    check_room(1, text, room, &theirs);
}

/* A listing, by the oracle and by the library. */
typedef size_t lists(const uint8_t *text, size_t len, size_t from, uint8_t *out, size_t room);
struct lister {
    const char *name;
    lists *ours, *theirs;
};
static const struct lister plain_list = {"list", oracle_list, zk_list}, named_list = {"named_list", oracle_named_list, zk_named_list};

/* Both write one piece; returns how many bytes. */
static size_t check_piece(const struct lister *lister, const uint8_t *text, size_t len, size_t from, size_t room, uint8_t *theirs)
{
    static uint8_t ours[most_listing + record];
    static uint64_t salt;
    struct input in = {.bytes = text, .len = len};
    begin_case(lister->name, &in);
    fill_pattern(ours, room + record, ++salt);
    fill_pattern(theirs, room + record, salt);
    size_t count = lister->ours(text, len, from, ours, room);
    size_t their_count = lister->theirs(text, len, from, theirs, room);
    if (count != their_count || memcmp(ours, theirs, room + record) != 0) {
        char more[120];
        snprintf(more, sizeof more, "%zu bytes in all; from byte %zu on, lent %zu; below are the bytes written", len, from, room);
        mismatch(lister->name, &in, more, (struct answer){.place = count}, (struct answer){.place = their_count});
    }
    return count;
}

static void check_lister(const struct lister *lister, const uint8_t *text, size_t len)
{
    static uint8_t theirs[most_listing + record];
    size_t room = 16 * len + record < most_listing ? 16 * len + record : most_listing;
    size_t whole = check_piece(lister, text, len, 0, room, theirs);
    claim(whole < room, "a listing has an end");
    check_piece(lister, text, len, 0, whole, theirs);
    check_piece(lister, text, len, 0, whole - 1, theirs);
    check_piece(lister, text, len, whole - below(3), 1, theirs);
    check_piece(lister, text, len, below(whole + 2), below(whole + 2), theirs);
}

void check_listing(const uint8_t *text, size_t len)
{
    check_lister(&plain_list, text, len);
}

void check_named_listing(const uint8_t *text, size_t len)
{
    check_lister(&named_list, text, len);
}

void check_pieces(const uint8_t *text, size_t len, size_t room)
{
    static uint8_t whole[most_listing + record], theirs[most_listing + record];
    size_t bytes = oracle_list(text, len, 0, whole, most_listing), from = 0, count;
    do {
        count = check_piece(&plain_list, text, len, from, room, theirs);
        claim(from + count <= bytes && memcmp(whole + from, theirs, count) == 0, "pieces are the listing");
        from += count;
    } while (count == room);
    claim(from == bytes, "the last piece ends the listing");
}

int same_line(const struct reading *a, size_t i, const struct reading *b, size_t j)
{
    size_t digits = a->numbers[i] == 0 ? a->places[i] : 0;
    return a->numbers[i] == b->numbers[j] && a->places[i] == b->places[j] &&
           memcmp(a->records + record * i, b->records + record * j, digits) == 0 &&
           memcmp(a->letters + record * i, b->letters + record * j, digits) == 0;
}

/* One byte changed: at least one refusal, only records that were written, in order, and at most two lost. */
static void claim_single(const struct reading *clean, const struct reading *damaged)
{
    uint64_t refused = 0, accepted = 0, next = 0;
    for (uint64_t i = 0; i < damaged->lines; i++) {
        if (damaged->numbers[i] != 0) {
            refused++;
            continue;
        }
        accepted++;
        while (next < clean->lines && !same_line(clean, next, damaged, i))
            next++;
        claim(next < clean->lines, "a damaged text gives only records that were written, in order");
        next++;
    }
    claim(refused >= 1, "a text with one byte changed has a refused line");
    claim(accepted + 2 >= clean->lines, "one byte changed loses at most two records");
}

void replace_stretch(struct text *text, size_t from, size_t count, const uint8_t *by, size_t by_count)
{
    memmove(text->byte + from + by_count, text->byte + from + count, text->len - from - count);
    memcpy(text->byte + from, by, by_count);
    text->len = text->len - count + by_count;
}

static void check_change(reads *read, const struct text *text, const struct reading *clean, size_t at, size_t lost,
                         const uint8_t *by, size_t by_count)
{
    static struct reading damaged;
    static struct text changed;
    changed.len = text->len;
    memcpy(changed.byte, text->byte, text->len);
    replace_stretch(&changed, at, lost, by, by_count);
    read(&changed, &damaged);
    claim_single(clean, &damaged);
}

void every_change(reads *read, const char *bytes, size_t count, const struct text *text)
{
    static struct reading clean;
    read(text, &clean);
    for (uint64_t i = 0; i < clean.lines; i++)
        claim(clean.numbers[i] == 0, "a clean text is all records");
    for (size_t at = 0; at <= text->len; at++) {
        uint8_t random_byte = (uint8_t)below(256);
        if (at < text->len)
            check_change(read, text, &clean, at, 1, &random_byte, 0);
        for (size_t k = 0; k <= count; k++) {
            uint8_t by = k < count ? (uint8_t)bytes[k] : random_byte;
            check_change(read, text, &clean, at, 0, &by, 1);
            if (at < text->len && text->byte[at] != by)
                check_change(read, text, &clean, at, 1, &by, 1);
        }
    }
}
