/* kt_ladder: the ladders of paper 01, the longest and none, in every room. */
#include "kt_test.h"

#include <string.h>

#define LADDER_BYTES (KT_VERSION_LENGTH * KT_LADDER_LENGTH)
#define BEHIND 8

/* Lends `room` of marked bytes from the second on, and checks the answer and every byte. */
static void ladder_in(uint32_t version, const uint32_t *wanted, size_t count, size_t room, const char *what)
{
    uint8_t lent[LADDER_BYTES + BEHIND + 2], after[LADDER_BYTES + BEHIND + 2];
    memset(lent, MARK, sizeof lent);
    memset(after, MARK, sizeof after);
    int fits = room >= KT_VERSION_LENGTH * count;
    for (size_t i = 0; fits && i < count; i++)
        for (size_t j = 0; j < KT_VERSION_LENGTH; j++)
            after[1 + KT_VERSION_LENGTH * i + j] = (uint8_t)(wanted[i] >> (24 - 8 * j));
    uint64_t answer = kt_ladder(version, lent + 1, room);
    expect(answer == (fits ? count : 0), what);
    expect(memcmp(lent, after, sizeof lent) == 0, what);
}

/* Every room from none to some bytes more than are enough for any ladder. */
static void ladder(uint32_t version, const uint32_t *wanted, size_t count, const char *what)
{
    for (size_t room = 0; room <= LADDER_BYTES + BEHIND; room++)
        ladder_in(version, wanted, count, room, what);
}

void ladders(void)
{
    static const uint32_t zero[] = { 0, 1 }, one[] = { 0, 1, 3, 2 };
    static const uint32_t three[] = { 0, 1, 3, 7, 5, 4 }, five[] = { 0, 1, 3, 7, 5, 6 };
    uint32_t longest[KT_LADDER_LENGTH];
    size_t count = 0;
    ladder(0, zero, 2, "the ladder of 0");
    ladder(1, one, 4, "the ladder of 1");
    ladder(3, three, 6, "the ladder of 3");
    ladder(5, five, 6, "the ladder of 5");

    /* Of 2^32 - 2: 0, 1, 3 up to 2^32 - 1, then up to it from 2^31 - 1 by halves. */
    for (unsigned bits = 0; bits <= 32; bits++)
        longest[count++] = (uint32_t)((UINT64_C(1) << bits) - 1);
    for (unsigned bits = 31; bits > 0; bits--)
        longest[count++] = UINT32_MAX - (UINT32_C(1) << (bits - 1));
    expect(count == KT_LADDER_LENGTH, "the length of the longest ladder");
    ladder(UINT32_MAX - 1, longest, count, "the ladder of 2^32 - 2");
    ladder(UINT32_MAX, longest, 0, "no ladder of 2^32 - 1");
}
