/* The refusal table: 22 comes before all others, 21 behind 5 and 20 behind 10; then the lowest number wins, then its first place; 15 comes last
 * of all. */
#include <string.h>

#include "oracle_parts.h"

struct row row_at(unsigned number, uint64_t place)
{
    return (struct row){.number = number, .applies = true, .place = place};
}

struct row row_if(unsigned number, bool applies)
{
    return (struct row){.number = number, .applies = applies, .place = 0};
}

struct row row_none(unsigned number)
{
    return row_if(number, false);
}

unsigned limit_of(uint64_t edition)
{
    return edition == 2 ? 9 : 4;
}

struct row row_22(uint64_t edition)
{
    return row_if(22, edition != 1 && edition != 2);
}

static unsigned rank(unsigned number)
{
    return number == 22 ? 0 : number == 21 ? 2 * 5 + 1 : number == 20 ? 2 * 10 + 1 : 2 * number;
}

struct answer lowest(const struct row *rows, size_t count)
{
    struct answer best = {.number = 0};
    for (size_t i = 0; i < count; i++) {
        if (!rows[i].applies)
            continue;
        bool lower = best.number == 0 || rank(rows[i].number) < rank(best.number);
        bool earlier = rows[i].number == best.number && rows[i].place < best.place;
        if (lower || earlier)
            best = (struct answer){.number = rows[i].number, .place = rows[i].place};
    }
    return best;
}

struct answer deliver(struct answer refusal, const uint8_t *result, size_t length, uint8_t *out, size_t room)
{
    if (refusal.number != 0)
        return refusal;
    if (room < length)
        return (struct answer){.number = 15, .place = length};
    if (length > 0)
        memcpy(out, result, length);
    return (struct answer){.number = 0, .place = length};
}
