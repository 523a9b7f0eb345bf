/*
 * A stand-in for the security chip. THIS IS NO SIGNATURE: the key stands below for everyone to read, and whoever has it can
 * sign whatever he likes. It is for the bench and for nothing else.
 *
 * A bench signature is the SHA-256 digest of the key's bytes followed by the text.
 */
#include "chip.h"

#include <kt.h>
#include <string.h>

static const char KEY[] = "bench key, known to all";
#define KEY_LENGTH (sizeof KEY - 1)

int chip_approves(const uint8_t *text, size_t text_length, const uint8_t *signature, size_t signature_length)
{
    uint8_t message[KEY_LENGTH + KT_SIGNED_TEXT_LIMIT], digest[KT_DIGEST_LENGTH];
    if (text_length > KT_SIGNED_TEXT_LIMIT || signature_length != KT_DIGEST_LENGTH)
        return 0;
    memcpy(message, KEY, KEY_LENGTH);
    memcpy(message + KEY_LENGTH, text, text_length);
    kt_sha256(message, KEY_LENGTH + text_length, digest, sizeof digest);
    return memcmp(digest, signature, sizeof digest) == 0;
}
