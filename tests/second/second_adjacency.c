/* Piece adjacency: CAM, 0A and A0, in the caller's numbering, by code, and back. */
#include "calls.h"
#include "gen.h"
#include "second.h"

CALL_LIST(cam);
CALL_CODED(cam_by_code);
CALL_LIST(decode_cam);
CALL_VALUE(zero_a, uint64_t, in->n, in->bytes, in->len);
CALL_VALUE_CODED(zero_a_by_code, uint64_t, in->n, in->bytes, in->len);
CALL_NUMBER(decode_zero_a);
CALL_VALUE(a_zero, uint64_t, in->n, in->bytes, in->len);
CALL_VALUE_CODED(a_zero_by_code, uint64_t, in->n, in->bytes, in->len);
CALL_NUMBER(decode_a_zero);

static void check_list(const struct list *list)
{
    struct input in = {.n = list->n, .bytes = list->ends, .len = list->len};
    check(&call_cam, in);
    check(&call_cam_by_code, in);
    check(&call_zero_a, in);
    check(&call_zero_a_by_code, in);
    check(&call_a_zero, in);
    check(&call_a_zero_by_code, in);
}

static struct answer check_cam(uint64_t n, const struct bytes *cam)
{
    struct answer answer = check(&call_decode_cam, (struct input){.n = n, .bytes = cam->byte, .len = cam->len});
    if (answer.number == 0) {
        struct list list = {.n = n, .len = answer.place};
        struct bytes again;
        oracle_decode_cam(edition, n, cam->byte, cam->len, list.ends, sizeof list.ends);
        check(&call_cam, (struct input){.n = n, .bytes = list.ends, .len = list.len});
        again.len = oracle_cam(edition, n, list.ends, list.len, again.byte, sizeof again.byte).place;
        claim(same_bytes(cam, &again), "a CAM is given again");
    }
    return answer;
}

typedef struct answer reading_number(uint64_t edition, uint64_t n, uint64_t value, uint8_t *out, size_t room);
typedef struct answer coding_number(uint64_t edition, uint64_t n, const uint8_t *edges, size_t len, uint64_t *value);

/* A number that is read is given again by its edges, in their own numbering. */
static struct answer check_number(const struct call *reads, reading_number *read, const struct call *codes,
                                  coding_number *code, uint64_t n, uint64_t value)
{
    struct answer answer = check(reads, (struct input){.n = n, .value = value});
    if (answer.number == 0) {
        struct list list = {.n = n, .len = answer.place};
        uint64_t again = ~value;
        read(edition, n, value, list.ends, sizeof list.ends);
        check(codes, (struct input){.n = n, .bytes = list.ends, .len = list.len});
        code(edition, n, list.ends, list.len, &again);
        claim(again == value, "a number is given again");
    }
    return answer;
}

static struct answer check_0a(uint64_t n, uint64_t value)
{
    return check_number(&call_decode_zero_a, oracle_decode_zero_a, &call_zero_a, oracle_zero_a, n, value);
}

static struct answer check_a0(uint64_t n, uint64_t value)
{
    return check_number(&call_decode_a_zero, oracle_decode_a_zero, &call_a_zero, oracle_a_zero, n, value);
}

/* The numbers and the CAM of a right list are read back, then with a little damage. */
static void there_and_back(const struct list *list)
{
    uint64_t value;
    struct bytes cam;
    check_list(list);
    struct answer answer = oracle_cam(edition, list->n, list->ends, list->len, cam.byte, sizeof cam.byte);
    if (answer.number == 0) {
        cam.len = answer.place;
        claim(check_cam(list->n, &cam).number == 0, "a CAM is right");
        damage_bytes(&cam, (unsigned)list->n + 2);
        check_cam(list->n, &cam);
    }
    if (oracle_zero_a(edition, list->n, list->ends, list->len, &value).number == 0) {
        claim(check_0a(list->n, value).number == 0, "a 0A is right");
        check_0a(list->n, value + below(9) - 4);
        check_0a(list->n + 1, value);
    }
    if (oracle_a_zero(edition, list->n, list->ends, list->len, &value).number == 0) {
        claim(check_a0(list->n, value).number == 0, "an A0 is right");
        check_a0(list->n, value ^ (uint64_t)1 << below(56));
        check_a0(list->n, value ^ (uint64_t)1 << below(56) ^ (uint64_t)1 << below(56));
        check_a0(list->n + 1, value);
    }
}

/* Every labelled tree of up to 6 vertices: physical numberings and all others. */
static void labelled(void)
{
    for (unsigned n = 1; n <= 6; n++)
        for (uint64_t index = 0; index < labelled_trees(n); index++) {
            struct list list = labelled_tree(n, index);
            shuffle(&list);
            there_and_back(&list);
        }
}

static void random_lists(void)
{
    for (unsigned n = 1; n <= 64; n++)
        for (unsigned round = 0; round < rounds(n <= 22 ? 150 : 40); round++) {
            struct list list = one_in(2) ? random_tree(n) : random_physical(n);
            there_and_back(&list);
            damage_list(&list);
            check_list(&list);
        }
}

static uint64_t factorial(uint64_t k)
{
    return k < 2 ? 1 : k * factorial(k - 1);
}

/* Every 0A of N up to 8 with some above; larger N at random and at both ends of the range. */
static void numbers_0a(void)
{
    for (unsigned n = 1; n <= 8; n++)
        for (uint64_t value = 0; value < factorial(n - 1) + 10; value++)
            check_0a(n, value);
    for (unsigned n = 0; n <= 30; n++)
        for (unsigned round = 0; round < rounds(300); round++) {
            uint64_t bound = n >= 1 && n <= 21 ? factorial(n - 1) : 1000;
            check_0a(n, below(bound));
            check_0a(n, bound - 1 - below(bound < 20 ? bound : 20));
            check_0a(n, bound + below(20));
            check_0a(n, random64());
        }
}

/* A number of `count` ones among the N(N-1)/2 bits. */
static uint64_t some_ones(unsigned n, unsigned count)
{
    uint64_t value = 0;
    unsigned bits = n * (n - 1) / 2;
    while (count > 0 && bits > 0) {
        uint64_t bit = (uint64_t)1 << below(bits);
        if ((value & bit) == 0)
            value |= bit, count--;
    }
    return value;
}

/* Every A0 of N up to 5 with some above; larger N at random, mostly with N-1 ones. */
static void numbers_a0(void)
{
    for (unsigned n = 1; n <= 5; n++)
        for (uint64_t value = 0; value < ((uint64_t)1 << (n * (n - 1) / 2)) + 10; value++)
            check_a0(n, value);
    for (unsigned n = 1; n <= 11; n++)
        for (unsigned round = 0; round < rounds(2500); round++) {
            uint64_t bound = (uint64_t)1 << (n * (n - 1) / 2);
            check_a0(n, some_ones(n, n - 1));
            check_a0(n, random64() % bound);
            if (n > 2)
                check_a0(n, some_ones(n, n - 2));
            check_a0(n, bound - 1 + below(3));
            check_a0(n, random64());
        }
    for (unsigned n = 0; n <= 20; n++) {
        check_a0(n, 0);
        check_a0(n, UINT64_MAX);
    }
}

/* CAMs of every size, in edition 2 of every fifth: with entries of 0, i+1 and 255 at every place, and with random ones. */
static void cams(void)
{
    for (unsigned n = 1; n <= 66; n += edition == 1 ? 1 : 5) {
        struct bytes path = {.len = n - 1};
        for (unsigned i = 1; i < n; i++)
            path.byte[i - 1] = (uint8_t)i;
        check_cam(n, &path);
        for (unsigned i = 1; i < n; i++) {
            const uint8_t entries[] = {0, (uint8_t)(i + 1), 255, 1};
            for (size_t k = 0; k < sizeof entries; k++) {
                struct bytes cam = path;
                cam.byte[i - 1] = entries[k];
                check_cam(n, &cam);
            }
        }
        for (unsigned round = 0; round < rounds(60); round++) {
            struct bytes cam = {.len = n - 1};
            for (unsigned i = 1; i < n; i++)
                cam.byte[i - 1] = (uint8_t)(1 + below(i) * !one_in(6));
            check_cam(n, &cam);
            damage_bytes(&cam, n + 2);
            check_cam(n, &cam);
            check_cam(n + 1, &cam);
        }
    }
}

/* Sizes at the limits and beyond, and stars that pass the most neighbours. */
static void limits(void)
{
    const uint64_t sizes[] = {0, 10, 11, 12, 20, 21, 22, 63, 64, 65, 66, 255, 256, 257, UINT64_MAX};
    for (size_t s = 0; s < sizeof sizes / sizeof *sizes; s++) {
        struct list list = path_of(sizes[s] >= 1 && sizes[s] <= 66 ? (unsigned)sizes[s] : 12);
        list.n = sizes[s];
        check_list(&list);
        struct bytes cam = {.len = list.len / 2};
        for (size_t i = 0; i < cam.len; i++)
            cam.byte[i] = list.ends[2 * i];
        check_cam(sizes[s], &cam);
        check_0a(sizes[s], 0);
        check_0a(sizes[s], 545);
        check_a0(sizes[s], 1646688);
        check_a0(sizes[s], 0);
    }
    for (unsigned n = 2; n <= 64; n++) {
        struct list star = star_of(n);
        struct bytes cam = {.len = n - 1};
        memset(cam.byte, 1, cam.len);
        check_list(&star);
        check_cam(n, &cam);
        if (n <= 21)
            check_0a(n, 0);
        if (n <= 11) {
            uint64_t a0 = 0;
            for (unsigned i = 1; i < n; i++)
                a0 = (a0 << i) + 1;
            check_a0(n, a0);
        }
    }
}

void piece_adjacency(void)
{
    IN_BOTH_EDITIONS
        limits();
    IN_BOTH_EDITIONS {
        labelled();
        random_lists();
        numbers_0a();
        numbers_a0();
        cams();
    }
    CLAIM_MET(cam, 0, 3, 5, 6, 7, 8, 9, 14, 15, 22);
    CLAIM_MET(cam_by_code, 0, 3, 5, 6, 7, 8, 9, 15, 22);
    CLAIM_MET(decode_cam, 0, 3, 5, 6, 9, 15, 22);
    CLAIM_MET(zero_a, 0, 3, 5, 6, 7, 8, 9, 14, 22);
    CLAIM_MET(zero_a_by_code, 0, 3, 5, 6, 7, 8, 9, 22);
    CLAIM_MET(decode_zero_a, 0, 3, 4, 9, 15, 22);
    CLAIM_MET(a_zero, 0, 3, 5, 6, 7, 8, 9, 22);
    CLAIM_MET(a_zero_by_code, 0, 3, 5, 6, 7, 8, 9, 22);
    CLAIM_MET(decode_a_zero, 0, 3, 4, 5, 8, 9, 15, 22);
}
