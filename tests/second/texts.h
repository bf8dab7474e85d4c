/* Texts of several lines, and the reader over them compared. */
#ifndef TEXTS_H
#define TEXTS_H

#include "check.h"

enum { most_text = 4000, most_lines = 400, record = 64 };

struct text {
    size_t len;
    uint8_t byte[most_text];
};

/* What the reader over a text was lent and has answered; a row more than is ever lent, as a guard. */
struct reading {
    size_t lines, at;
    uint8_t numbers[most_lines + 1];
    size_t places[most_lines + 1];
    uint8_t records[record * (most_lines + 1)];
    uint8_t letters[record * (most_lines + 1)]; /* of named lines */
};

/* What reads a text: check_text or check_named_text. */
typedef void reads(const struct text *text, struct reading *theirs);

/* Both count the answers' numbers. */
void check_count(const uint8_t *numbers, size_t len);

/* Both read the text in the edition under way, with room for all its lines; `theirs` is left for further claims. Some texts are
 * read again in no edition, where every line is 22, and some of edition 2 in edition 1, where a line is answered
 * alike, or 10. */
void check_text(const struct text *text, struct reading *theirs);

/* Both read a text of named lines. */
void check_named_text(const struct text *text, struct reading *theirs);
void check_named_short_room(const struct text *text);

/* Every place of a clean text: its byte lost, replaced, and preceded by each of these bytes and by a random one. At least one
 * line is refused, only records that were written are given, in order, and at most two are lost. */
void every_change(reads *read, const char *bytes, size_t count, const struct text *text);

/* The same with room for some lines only, in any of the three outputs. */
void check_short_room(const struct text *text);

/* Both list the text, which is of edition 1 always: from its start with all the room that is needed, less and more, and any one piece of it. */
void check_listing(const uint8_t *text, size_t len);
void check_named_listing(const uint8_t *text, size_t len);

/* The same in pieces of so many bytes, each from where the one before it ended. */
void check_pieces(const uint8_t *text, size_t len, size_t room);

/* So many bytes from a place on replaced by others. */
void replace_stretch(struct text *text, size_t from, size_t count, const uint8_t *by, size_t by_count);

/* Whether line i of one reading and line j of another are answered alike, digits and letters included; of plain lines the letters are never written. */
int same_line(const struct reading *a, size_t i, const struct reading *b, size_t j);

#endif
