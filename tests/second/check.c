#include "check.h"

#include <inttypes.h>
#include <signal.h>
#include <stdio.h>
#include <stdlib.h>
#include <string.h>

enum { guard = 32, most_lent = 300 };

uint64_t edition;

static uint64_t state, seed_of_run, cases;
static const char *piece;

/* The case under way, with its bytes kept: for a report when a call crashes or a claim fails. */
enum { most_input = 4096 };
static const char *name_now = "";
static struct input input_now;
static uint8_t kept[most_input], kept2[most_input], kept3[most_input], kept4[most_input], kept5[most_input];

uint64_t random64(void)
{
    uint64_t z = state += 0x9e3779b97f4a7c15u;
    z = (z ^ (z >> 30)) * 0xbf58476d1ce4e5b9u;
    z = (z ^ (z >> 27)) * 0x94d049bb133111ebu;
    return z ^ (z >> 31);
}

uint64_t below(uint64_t bound)
{
    return random64() % bound;
}

int one_in(unsigned chances)
{
    return below(chances) == 0;
}

unsigned rounds(unsigned count)
{
    return edition == 1 ? count : (count + 1) / 2;
}

uint64_t no_edition(void)
{
    const uint64_t wrong[] = {0, 3, 4, 9, 255, 256, 257, 258, (uint64_t)1 << 32, ((uint64_t)1 << 32) + 1,
                              ((uint64_t)1 << 63) + 2, UINT64_MAX - 1, UINT64_MAX};
    return wrong[below(sizeof wrong / sizeof *wrong)];
}

static void crashed(int signal)
{
    struct answer none = {.number = 0};
    char more[60];
    snprintf(more, sizeof more, "the call crashed with signal %d; no answers", signal);
    mismatch(name_now, &input_now, more, none, none);
}

void begin_case(const char *name, const struct input *in)
{
    cases++;
    name_now = name;
    input_now = *in;
    input_now.len = in->len < most_input ? in->len : most_input;
    input_now.bytes = memcpy(kept, in->bytes, input_now.len);
    if (in->bytes2 != NULL)
        input_now.bytes2 = memcpy(kept2, in->bytes2, in->len2);
    if (in->bytes3 != NULL)
        input_now.bytes3 = memcpy(kept3, in->bytes3, in->len3);
    if (in->letters != NULL)
        input_now.letters = memcpy(kept4, in->letters, in->letters_len);
    if (in->letters2 != NULL)
        input_now.letters2 = memcpy(kept5, in->letters2, in->letters_len2);
}

void begin_piece(const char *name, uint64_t seed)
{
    signal(SIGSEGV, crashed);
    signal(SIGILL, crashed);
    signal(SIGFPE, crashed);
    signal(SIGBUS, crashed);
    piece = name;
    seed_of_run = state = seed;
    for (; *name != '\0'; name++)
        state = random64() + (uint8_t)*name;
    cases = 0;
}

uint64_t cases_of_piece(void)
{
    return cases;
}

static void print_bytes(const char *what, const uint8_t *bytes, size_t len)
{
    printf("  %s, %zu bytes:", what, len);
    for (size_t i = 0; i < len; i++)
        printf(" %u", bytes[i]);
    printf("\n");
}

static void print_input(const struct input *in)
{
    printf("  edition %" PRIu64 ", n %" PRIu64 ", root %" PRIu64 ", value %" PRIu64 ", x %a\n", in->edition, in->n, in->root, in->value, in->x);
    print_bytes("input", in->bytes, in->len);
    if (in->bytes2 != NULL) {
        printf("  n of the second list %" PRIu64 "\n", in->n2);
        print_bytes("second list", in->bytes2, in->len2);
    }
    if (in->bytes3 != NULL)
        print_bytes("map", in->bytes3, in->len3);
    if (in->letters != NULL)
        print_bytes("letters", in->letters, in->letters_len);
    if (in->letters2 != NULL)
        print_bytes("letters of the second list", in->letters2, in->letters_len2);
}

static void print_head(const char *what, const char *name)
{
    printf("%s in zk_%s: piece %s, case %" PRIu64 ", seed %" PRIu64 "\n", what, name, piece, cases, seed_of_run);
}

static const char *whose(struct answer answer)
{
    static const char *const words[] = {"", " of the second list", " of the map"};
    return answer.lists_before < 3 ? words[answer.lists_before] : " of a list that there is not";
}

_Noreturn void mismatch(const char *name, const struct input *in, const char *more,
                        struct answer ours, struct answer theirs)
{
    print_head("MISMATCH", name);
    print_input(in);
    printf("  %s\n", more);
    printf("  ours   %u at %" PRIu64 "%s\n", ours.number, ours.place, whose(ours));
    printf("  theirs %u at %" PRIu64 "%s\n", theirs.number, theirs.place, whose(theirs));
    exit(1);
}

void claim(int holds, const char *what)
{
    if (!holds) {
        print_head("A CLAIM FAILS, though both agree,", name_now);
        printf("  it is: %s\n", what);
        print_input(&input_now);
        exit(1);
    }
}

void claim_met(const struct call *call, const unsigned *wanted, size_t count)
{
    char listed[300] = "";
    size_t used = 0;
    for (unsigned number = 0; number < numbers; number++) {
        int is_wanted = 0;
        for (size_t i = 0; i < count; i++)
            is_wanted |= wanted[i] == number;
        if (call->met[number] > 0)
            used += (size_t)snprintf(listed + used, sizeof listed - used, " %u:%" PRIu64, number, call->met[number]);
        if (is_wanted != (call->met[number] > 0)) {
            printf("  %-14s%s\n", call->name, listed);
            claim(0, "the cases meet every refusal of the call, and no other");
        }
    }
    printf("  %-14s%s\n", call->name, listed);
}

void fill_pattern(void *memory, size_t bytes, uint64_t salt)
{
    uint8_t *byte = memory;
    for (size_t i = 0; i < bytes; i++)
        byte[i] = (uint8_t)(0x5a + salt + 37 * i);
}

static int equal(struct answer a, struct answer b)
{
    return a.number == b.number && a.place == b.place && a.lists_before == b.lists_before;
}

/* The whole number of an answer, from the words: 256 times the number plus the place, and 65,536 more for
 * the second list, 131,072 for the map. */
static uint64_t whole_number(struct answer answer)
{
    return 256 * (uint64_t)answer.number + answer.place + 65536 * (uint64_t)answer.lists_before;
}

/* A whole number as the header takes it apart. Of 22 no list is named, and none stands before it. */
static struct answer taken_apart(uint32_t whole)
{
    uint32_t list = zk_list_of(whole);
    return (struct answer){.number = zk_number(whole), .place = zk_place(whole), .lists_before = list == 0 ? 0 : list - 1};
}

struct lent {
    uint8_t byte[guard + most_lent + guard];
};

static void compare(const struct call *call, const struct input *in, size_t room,
                    struct answer ours, const struct lent *wanted, uint32_t whole, const struct lent *got)
{
    char more[120];
    struct answer theirs = taken_apart(whole);
    snprintf(more, sizeof more, "output lent: %zu bytes; the whole number is %" PRIu32, room, whole);
    if (whole != whole_number(ours) || !equal(ours, theirs))
        mismatch(call->name, in, more, ours, theirs);
    claim(zk_answer(zk_list_of(whole), zk_number(whole), zk_place(whole)) == whole && zk_refused(whole) == (ours.number != 0),
          "an answer taken apart and put together again is the same");
    claim((zk_list_of(whole) == 0) == (ours.number == 22), "22 and no other refusal is of no list");
    call->met[ours.number]++;
    for (size_t i = 0; i < sizeof wanted->byte; i++)
        if (wanted->byte[i] != got->byte[i]) {
            snprintf(more, sizeof more, "output lent: %zu bytes; byte %d is %u in ours, %u in theirs", room,
                     (int)i - guard, wanted->byte[i], got->byte[i]);
            mismatch(call->name, in, more, ours, theirs);
        }
}

/* The call in one way: the same answer and the same bytes; the way that tells the pairs sets the number, whatever
 * stood in its place, and the others leave it. */
static void compare_way(const struct call *call, way *made, const struct input *in, size_t room, struct answer ours,
                        const struct lent *wanted, const struct lent *before)
{
    struct lent got = *before;
    size_t stood = ours.pairs + 1 + below(9), pairs = stood;
    uint32_t whole = made(in, got.byte + guard, room, NULL, 0, &pairs);
    compare(call, in, room, ours, wanted, whole, &got);
    if (pairs != (made == call->telling ? ours.pairs : stood)) {
        char more[120];
        snprintf(more, sizeof more, "output lent: %zu bytes; pairs are %" PRIu64 " in ours, %zu in theirs", room, ours.pairs, pairs);
        mismatch(call->name, in, more, ours, taken_apart(whole));
    }
}

/* All ways begin with the same bytes in memory. */
static void compare_ways(const struct call *call, const struct input *in, size_t room, struct answer ours,
                         const struct lent *wanted, const struct lent *before)
{
    compare_way(call, call->theirs, in, room, ours, wanted, before);
    if (call->telling != NULL && call->telling != call->theirs)
        compare_way(call, call->telling, in, room, ours, wanted, before);
    if (call->at_1 != NULL && in->edition == 1)
        compare_way(call, call->at_1, in, room, ours, wanted, before);
}

/* One number, or nothing. */
static struct answer check_value(const struct call *call, const struct input *in, size_t room, uint8_t *result)
{
    static uint64_t salt;
    struct lent wanted, before;
    fill_pattern(&wanted, sizeof wanted, ++salt);
    before = wanted;
    struct answer ours = call->ours(in, wanted.byte + guard, room, NULL, 0);
    compare_ways(call, in, room, ours, &wanted, &before);
    memcpy(result, wanted.byte + guard, room);
    return ours;
}

/* What must be in the lent output follows from the result and the room: all of the pattern, or the
 * result and behind it the pattern. */
static void check_room(const struct call *call, const struct input *in, size_t room,
                       struct answer ample, const uint8_t *result)
{
    static uint64_t salt;
    struct lent wanted, before;
    fill_pattern(&wanted, sizeof wanted, ++salt);
    before = wanted;
    struct answer ours = ample;
    if (ample.number == 0 && room < ample.place)
        ours = (struct answer){.number = 15, .place = ample.place, .lists_before = call->output == lent_map ? 2 : 0};
    else if (ample.number == 0)
        memcpy(wanted.byte + guard, result, ample.place);
    compare_ways(call, in, room, ours, &wanted, &before);
}

/* Two lent outputs of these lengths, of which 15 is told as the oracle tells it. */
static void check_rooms(const struct call *call, const struct input *in, size_t room, size_t letters_room)
{
    static uint64_t salt;
    struct lent wanted, got, letters, got_letters;
    fill_pattern(&wanted, sizeof wanted, ++salt);
    fill_pattern(&letters, sizeof letters, salt + 11);
    got = wanted;
    got_letters = letters;
    struct answer ours = call->ours(in, wanted.byte + guard, room, letters.byte + guard, letters_room);
    size_t stood = ours.pairs + 1 + below(9), pairs = stood;
    uint32_t whole = call->theirs(in, got.byte + guard, room, got_letters.byte + guard, letters_room, &pairs);
    compare(call, in, room, ours, &wanted, whole, &got);
    if (memcmp(&letters, &got_letters, sizeof letters) != 0)
        mismatch(call->name, in, "the letters differ", ours, taken_apart(whole));
    if (pairs != (call->telling != NULL ? ours.pairs : stood))
        mismatch(call->name, in, "the pairs differ", ours, taken_apart(whole));
}

static struct answer check_two_outputs(const struct call *call, const struct input *in, uint8_t *result)
{
    uint8_t letters[most_lent];
    struct answer ample = call->ours(in, result, most_lent, letters, most_lent);
    size_t needed = ample.place, count = call->output == lent_edges ? needed / 2 + 1 : needed;
    if (ample.number != 0) {
        check_rooms(call, in, 0, 0);
        check_rooms(call, in, below(most_lent + 1), below(most_lent + 1));
        return ample;
    }
    if (needed > 0) {
        check_rooms(call, in, needed - 1, count);
        check_rooms(call, in, below(needed), below(count));
    }
    check_rooms(call, in, needed, count - 1);
    check_rooms(call, in, needed, count);
    check_rooms(call, in, needed + 1 + below(most_lent - needed), count + 1 + below(most_lent - count));
    return ample;
}

/* One case in the edition of the input; `result` gets what we give into an ample output. */
static struct answer check_case(const struct call *call, const struct input *in, uint8_t *result)
{
    begin_case(call->name, in);
    if (call->output == no_output)
        return check_value(call, in, 0, result);
    if (call->output == one_value)
        return check_value(call, in, sizeof(uint64_t), result);

    if (call->output == lent_both || call->output == lent_edges)
        return check_two_outputs(call, in, result);

    struct answer ample = call->ours(in, result, most_lent, NULL, 0);
    if (ample.number != 0) {
        check_room(call, in, 0, ample, result);
        check_room(call, in, below(most_lent + 1), ample, result);
        return ample;
    }
    size_t needed = ample.place;
    if (needed > 0) {
        check_room(call, in, needed - 1, ample, result);
        check_room(call, in, one_in(4) ? 0 : below(needed), ample, result);
    }
    check_room(call, in, needed, ample, result);
    check_room(call, in, needed + 1 + below(most_lent - needed), ample, result);
    return ample;
}

/* The tables of the editions differ in 9 and 10 alone. */
static void check_in_1(const struct call *call, struct input in, struct answer in_2, const uint8_t *result_in_2)
{
    uint8_t result[most_lent];
    in.edition = 1;
    struct answer in_1 = check_case(call, &in, result);
    if (in_1.number == 9 || in_1.number == 10)
        return;
    claim(equal(in_1, in_2), "edition 1 answers as edition 2 does, or 9 or 10");
    size_t given = call->output == one_value ? sizeof(uint64_t) : call->output == no_output ? 0 : in_2.place;
    claim(in_2.number != 0 || memcmp(result, result_in_2, given) == 0, "edition 1 gives what edition 2 does");
}

struct answer check(const struct call *call, struct input in)
{
    static const uint8_t nothing[1];
    uint8_t result[most_lent], none[most_lent];
    if (in.bytes == NULL)
        in.bytes = nothing;
    in.edition = edition;
    struct answer answer = check_case(call, &in, result);
    if (call->named)
        return answer;
    if (edition == 2 && one_in(3))
        check_in_1(call, in, answer, result);
    if (one_in(20)) {
        in.edition = no_edition();
        claim(check_case(call, &in, none).number == 22, "what is no edition is refused 22");
    }
    return answer;
}
