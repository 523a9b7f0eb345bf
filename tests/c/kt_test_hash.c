/* kt_sha256: published digests, in every room. */
#include "kt_test.h"

#include <string.h>

/* The digests of "" and "abc", and of 64 zero bytes (NIST's examples for FIPS 180-4). */
static const uint8_t EMPTY[KT_DIGEST_LENGTH] = {
    0xe3, 0xb0, 0xc4, 0x42, 0x98, 0xfc, 0x1c, 0x14, 0x9a, 0xfb, 0xf4, 0xc8, 0x99, 0x6f, 0xb9, 0x24,
    0x27, 0xae, 0x41, 0xe4, 0x64, 0x9b, 0x93, 0x4c, 0xa4, 0x95, 0x99, 0x1b, 0x78, 0x52, 0xb8, 0x55,
};
static const uint8_t ABC[KT_DIGEST_LENGTH] = {
    0xba, 0x78, 0x16, 0xbf, 0x8f, 0x01, 0xcf, 0xea, 0x41, 0x41, 0x40, 0xde, 0x5d, 0xae, 0x22, 0x23,
    0xb0, 0x03, 0x61, 0xa3, 0x96, 0x17, 0x7a, 0x9c, 0xb4, 0x10, 0xff, 0x61, 0xf2, 0x00, 0x15, 0xad,
};
static const uint8_t ZEROS_64[KT_DIGEST_LENGTH] = {
    0xf5, 0xa5, 0xfd, 0x42, 0xd1, 0x6a, 0x20, 0x30, 0x27, 0x98, 0xef, 0x6e, 0xd3, 0x09, 0x97, 0x9b,
    0x43, 0x00, 0x3d, 0x23, 0x20, 0xd9, 0xf0, 0xe8, 0xea, 0x98, 0x31, 0xa9, 0x27, 0x59, 0xfb, 0x4b,
};

#define ROOM 48

/* Lends `room` of ROOM marked bytes from the second on, and checks the answer and every byte. */
static void digest(const uint8_t *message, size_t length, const uint8_t *wanted, size_t room, const char *what)
{
    uint8_t lent[ROOM + 2], after[ROOM + 2];
    memset(lent, MARK, sizeof lent);
    memset(after, MARK, sizeof after);
    if (room >= KT_DIGEST_LENGTH)
        memcpy(after + 1, wanted, KT_DIGEST_LENGTH);
    uint64_t answer = kt_sha256(message, length, lent + 1, room);
    expect(answer == (room >= KT_DIGEST_LENGTH ? KT_DIGEST_LENGTH : 0), what);
    expect(memcmp(lent, after, sizeof lent) == 0, what);
}

void sha256(void)
{
    static const uint8_t zeros[64];
    uint8_t none[1] = { MARK };
    for (size_t room = 0; room <= ROOM; room++) {
        digest(zeros, 0, EMPTY, room, "the digest of nothing");
        digest((const uint8_t *)"abc", 3, ABC, room, "the digest of abc");
        digest(zeros, sizeof zeros, ZEROS_64, room, "the digest of 64 zeros");
    }
    expect(kt_sha256(zeros, sizeof zeros, none, 0) == 0, "no room at all");
    expect(none[0] == MARK, "a byte that was not lent");
}
