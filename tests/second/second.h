/* The pieces: each compares its calls on its own inputs and returns only when all agreed. */
#ifndef SECOND_H
#define SECOND_H

void piece_code(void);
void piece_edges(void);
void piece_form(void);
void piece_bits(void);
void piece_adjacency(void);
void piece_lines(void);
void piece_vertices(void);
void piece_maps(void);
void piece_named(void);
void piece_named_lines(void);

/* The wrong answers of mock.c: makes the calls answer wrongly in the way of this name, false where there is
 * none; and writes, a line for each, the piece that must catch it and its name. */
int choose_wrong(const char *name);
void print_wrongs(void);

#endif
