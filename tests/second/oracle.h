/* The second program's own answers: every call of document 01, and the requests' calls, written from those pages alone.
 *
 * Each call returns number and place: number 0 is success, and its place is then the count of bytes
 * written at the front of `out` (0 where nothing is written), or for the verdict 1 (same) or 0. A refusal
 * writes nothing. A call that codes a tree also tells the pairs of digits looked at (document 02, wish 6), and 0
 * where it refuses. The names and arguments are those of include/zurkhovel.h. The edition (wish 8) comes first; counting
 * numbers needs none, and the listing is of edition 1.
 */
#ifndef ORACLE_H
#define ORACLE_H

#include <stdbool.h>
#include <stddef.h>
#include <stdint.h>

struct answer {
    unsigned number;
    uint64_t place;
    unsigned lists_before; /* of a refusal: 0 the first list's, 1 the second's, 2 the map's of two lists */
    uint64_t pairs;        /* of digits looked at where siblings were put in order */
};

struct answer oracle_check_code(uint64_t edition, const uint8_t *code, size_t len);
struct answer oracle_decode_code(uint64_t edition, const uint8_t *code, size_t len, uint8_t *out, size_t room);
struct answer oracle_decode_n_tuple(uint64_t edition, const uint8_t *code, size_t len, uint8_t *out, size_t room);
struct answer oracle_decode_centred(uint64_t edition, const uint8_t *code, size_t len, uint8_t *out, size_t room);

struct answer oracle_check_edges(uint64_t edition, uint64_t n, const uint8_t *edges, size_t len, uint64_t root);
struct answer oracle_rooted_code(uint64_t edition, uint64_t n, const uint8_t *edges, size_t len, uint64_t root,
                                 uint8_t *out, size_t room);
struct answer oracle_n_tuple_code(uint64_t edition, uint64_t n, const uint8_t *edges, size_t len, uint8_t *out, size_t room);
struct answer oracle_centred_code(uint64_t edition, uint64_t n, const uint8_t *edges, size_t len, uint8_t *out, size_t room);

struct answer oracle_same_skeleton(uint64_t edition, uint64_t n1, const uint8_t *e1, size_t l1,
                                   uint64_t n2, const uint8_t *e2, size_t l2);

struct answer oracle_renumbering(uint64_t edition, uint64_t n1, const uint8_t *e1, size_t l1, uint64_t n2, const uint8_t *e2, size_t l2,
                                 uint8_t *out, size_t room);
struct answer oracle_check_renumbering(uint64_t edition, uint64_t n1, const uint8_t *e1, size_t l1, uint64_t n2, const uint8_t *e2, size_t l2,
                                       const uint8_t *map, size_t len);

struct answer oracle_pack(uint64_t edition, uint64_t n, const uint8_t *edges, size_t len, uint64_t root,
                          uint8_t *out, size_t room);
struct answer oracle_unpack(uint64_t edition, const uint8_t *bytes, size_t len, uint8_t *out, size_t room);
struct answer oracle_whole(uint64_t edition, uint64_t n, const uint8_t *edges, size_t len, uint64_t root, uint64_t *value);
struct answer oracle_unwhole(uint64_t edition, uint64_t n, uint64_t value, uint8_t *out, size_t room);
struct answer oracle_fraction(uint64_t edition, uint64_t n, const uint8_t *edges, size_t len, uint64_t root, double *value);
struct answer oracle_unfraction(uint64_t edition, double x, uint8_t *out, size_t room);

struct answer oracle_cam(uint64_t edition, uint64_t n, const uint8_t *edges, size_t len, uint8_t *out, size_t room);
struct answer oracle_cam_by_code(uint64_t edition, uint64_t n, const uint8_t *edges, size_t len, uint8_t *out, size_t room);
struct answer oracle_decode_cam(uint64_t edition, uint64_t n, const uint8_t *cam, size_t len, uint8_t *out, size_t room);
struct answer oracle_zero_a(uint64_t edition, uint64_t n, const uint8_t *edges, size_t len, uint64_t *value);
struct answer oracle_zero_a_by_code(uint64_t edition, uint64_t n, const uint8_t *edges, size_t len, uint64_t *value);
struct answer oracle_decode_zero_a(uint64_t edition, uint64_t n, uint64_t value, uint8_t *out, size_t room);
struct answer oracle_a_zero(uint64_t edition, uint64_t n, const uint8_t *edges, size_t len, uint64_t *value);
struct answer oracle_a_zero_by_code(uint64_t edition, uint64_t n, const uint8_t *edges, size_t len, uint64_t *value);
struct answer oracle_decode_a_zero(uint64_t edition, uint64_t n, uint64_t value, uint8_t *out, size_t room);

struct answer oracle_read_line(uint64_t edition, const uint8_t *text, size_t len, uint8_t *out, size_t room);
struct answer oracle_write_line(uint64_t edition, uint64_t n, const uint8_t *edges, size_t len, uint8_t *out, size_t room);
void oracle_read_text(uint64_t edition, const uint8_t *text, size_t len, uint8_t *records, size_t records_len,
                      uint8_t *numbers, size_t numbers_len, size_t *places, size_t places_len,
                      size_t *lines, size_t *at);

void oracle_count(const uint8_t *numbers, size_t len, size_t *read, size_t *refused);

size_t oracle_list(const uint8_t *text, size_t len, size_t from, uint8_t *out, size_t room);

struct answer oracle_equal_vertices(uint64_t edition, uint64_t n, const uint8_t *edges, size_t len, uint8_t *out, size_t room);

/* Skeletons with named atoms (wish 7): letter v is the atom of vertex v, and beside digits that of digit v. They know no edition. */
struct answer oracle_named_check_code(const uint8_t *code, size_t len, const uint8_t *letters, size_t letters_len);
struct answer oracle_named_decode_code(const uint8_t *code, size_t len, const uint8_t *letters, size_t letters_len,
                                       uint8_t *out, size_t room, uint8_t *out_letters, size_t letters_room);
struct answer oracle_named_decode_n_tuple(const uint8_t *code, size_t len, const uint8_t *letters, size_t letters_len,
                                          uint8_t *out, size_t room, uint8_t *out_letters, size_t letters_room);
struct answer oracle_named_decode_centred(const uint8_t *code, size_t len, const uint8_t *letters, size_t letters_len,
                                          uint8_t *out, size_t room, uint8_t *out_letters, size_t letters_room);
struct answer oracle_named_check_edges(uint64_t n, const uint8_t *edges, size_t len, const uint8_t *letters,
                                       size_t letters_len, uint64_t root);
struct answer oracle_named_rooted_code(uint64_t n, const uint8_t *edges, size_t len, const uint8_t *letters,
                                       size_t letters_len, uint64_t root, uint8_t *out, size_t room, uint8_t *out_letters,
                                       size_t letters_room);
struct answer oracle_named_n_tuple_code(uint64_t n, const uint8_t *edges, size_t len, const uint8_t *letters,
                                        size_t letters_len, uint8_t *out, size_t room, uint8_t *out_letters,
                                        size_t letters_room);
struct answer oracle_named_centred_code(uint64_t n, const uint8_t *edges, size_t len, const uint8_t *letters,
                                        size_t letters_len, uint8_t *out, size_t room, uint8_t *out_letters,
                                        size_t letters_room);
struct answer oracle_named_same_skeleton(uint64_t n1, const uint8_t *edges1, size_t len1, const uint8_t *letters1,
                                         size_t letters_len1, uint64_t n2, const uint8_t *edges2, size_t len2,
                                         const uint8_t *letters2, size_t letters_len2);
struct answer oracle_named_renumbering(uint64_t n1, const uint8_t *edges1, size_t len1, const uint8_t *letters1,
                                       size_t letters_len1, uint64_t n2, const uint8_t *edges2, size_t len2,
                                       const uint8_t *letters2, size_t letters_len2, uint8_t *out, size_t room);
struct answer oracle_named_check_renumbering(uint64_t n1, const uint8_t *edges1, size_t len1, const uint8_t *letters1,
                                             size_t letters_len1, uint64_t n2, const uint8_t *edges2, size_t len2,
                                             const uint8_t *letters2, size_t letters_len2, const uint8_t *map,
                                             size_t map_len);
struct answer oracle_named_equal_vertices(uint64_t n, const uint8_t *edges, size_t len, const uint8_t *letters,
                                          size_t letters_len, uint8_t *out, size_t room);
struct answer oracle_named_pack(uint64_t n, const uint8_t *edges, size_t len, const uint8_t *letters, size_t letters_len,
                                uint64_t root, uint8_t *out, size_t room);
struct answer oracle_named_whole(uint64_t n, const uint8_t *edges, size_t len, const uint8_t *letters, size_t letters_len,
                                 uint64_t root, uint64_t *value);
struct answer oracle_named_fraction(uint64_t n, const uint8_t *edges, size_t len, const uint8_t *letters,
                                    size_t letters_len, uint64_t root, double *value);
struct answer oracle_named_cam(uint64_t n, const uint8_t *edges, size_t len, const uint8_t *letters, size_t letters_len,
                               uint8_t *out, size_t room);
struct answer oracle_named_zero_a(uint64_t n, const uint8_t *edges, size_t len, const uint8_t *letters, size_t letters_len,
                                  uint64_t *value);
struct answer oracle_named_a_zero(uint64_t n, const uint8_t *edges, size_t len, const uint8_t *letters, size_t letters_len,
                                  uint64_t *value);
struct answer oracle_named_cam_by_code(uint64_t n, const uint8_t *edges, size_t len, const uint8_t *letters,
                                       size_t letters_len, uint8_t *out, size_t room);
struct answer oracle_named_zero_a_by_code(uint64_t n, const uint8_t *edges, size_t len, const uint8_t *letters,
                                          size_t letters_len, uint64_t *value);
struct answer oracle_named_a_zero_by_code(uint64_t n, const uint8_t *edges, size_t len, const uint8_t *letters,
                                          size_t letters_len, uint64_t *value);
struct answer oracle_named_plain_line(uint64_t n, const uint8_t *edges, size_t len, const uint8_t *letters,
                                      size_t letters_len, uint8_t *out, size_t room);
struct answer oracle_named_write_line(uint64_t n, const uint8_t *edges, size_t len, const uint8_t *letters,
                                      size_t letters_len, uint8_t *out, size_t room);
struct answer oracle_named_read_line(const uint8_t *text, size_t len, uint8_t *out, size_t room, uint8_t *out_letters,
                                     size_t letters_room);
void oracle_named_read_text(const uint8_t *text, size_t len, uint8_t *records, size_t records_len, uint8_t *letters,
                            size_t letters_len, uint8_t *numbers, size_t numbers_len, size_t *places, size_t places_len,
                            size_t *lines, size_t *at);
size_t oracle_named_list(const uint8_t *text, size_t len, size_t from, uint8_t *out, size_t room);

#endif
