/*
 * The library's calls, made on inputs that come over standard input: the C side of the comparison.
 *
 * A request is a line of numbers, then the bytes they count:
 *   call kind clock offset filling, then eight lengths: response, configuration, state, identifier,
 *   VRF outputs, signed text, first lent bytes, second lent bytes
 * followed by the bytes of the first six. The first lent bytes are a search's output, the buffer of the
 * signed text, the versions or the digest; the second are for the new state's text. What is lent is
 * filled beforehand, byte i with filling + 31 i. The reply is the answer as eight bytes, low byte first,
 * and all lent bytes. It ends the process with a message if the library has changed a byte
 * that was not lent to it.
 */
#include <inttypes.h>
#include <stdint.h>
#include <stdio.h>
#include <stdlib.h>
#include <string.h>

#include "kt.h"

enum { CALL_SEARCH, CALL_MONITOR, CALL_SIGNED_TEXT, CALL_LADDER, CALL_SHA256 };
enum { RESPONSE, CONFIGURATION, STATE, IDENTIFIER, VRF_OUTPUTS, SIGNED_TEXT, GIVEN, FIRST = GIVEN, SECOND, STRINGS };

/* The bytes on both sides of a string that nobody may touch. */
#define GUARD 64

struct request {
    unsigned call;
    uint32_t kind;
    uint64_t clock;
    uint64_t offset;
    unsigned filling;
    size_t length[STRINGS];
    uint8_t *memory[STRINGS]; /* guard, string, guard */
    uint8_t *before[STRINGS]; /* a copy of it all */
};

static void stop(const char *what)
{
    fprintf(stderr, "serve: %s\n", what);
    exit(1);
}

static uint8_t *string(const struct request *r, int i)
{
    return r->memory[i] + GUARD;
}

static uint8_t *room(size_t length)
{
    uint8_t *bytes = malloc(length);
    if (bytes == NULL)
        stop("no memory");
    return bytes;
}

/* Reads the numbers of a request; 0 where there is none. */
static int read_numbers(struct request *r)
{
    int count = scanf("%u %" SCNu32 " %" SCNu64 " %" SCNu64 " %u", &r->call, &r->kind, &r->clock, &r->offset, &r->filling);
    if (count == EOF)
        return 0;
    if (count != 5)
        stop("a request without its numbers");
    for (int i = 0; i < STRINGS; i++)
        if (scanf("%zu", &r->length[i]) != 1)
            stop("a request without its lengths");
    if (getchar() != '\n')
        stop("a request without the end of its line");
    return 1;
}

static void read_strings(struct request *r)
{
    for (int i = 0; i < STRINGS; i++) {
        size_t all = r->length[i] + 2 * GUARD;
        r->memory[i] = room(all);
        memset(r->memory[i], 0xa5, all);
        if (i < GIVEN) {
            if (fread(string(r, i), 1, r->length[i], stdin) != r->length[i])
                stop("a request without its bytes");
        } else {
            for (size_t j = 0; j < r->length[i]; j++)
                string(r, i)[j] = (uint8_t)(r->filling + 31 * j);
        }
        r->before[i] = room(all);
        memcpy(r->before[i], r->memory[i], all);
    }
}

#define GIVE(i) string(r, i), r->length[i]

static uint64_t answer(const struct request *r)
{
    switch (r->call) {
    case CALL_SEARCH:
        return kt_search(GIVE(RESPONSE), GIVE(CONFIGURATION), GIVE(STATE), GIVE(IDENTIFIER), r->clock,
                         GIVE(VRF_OUTPUTS), GIVE(SIGNED_TEXT), GIVE(FIRST), GIVE(SECOND));
    case CALL_MONITOR:
        return kt_monitor(GIVE(RESPONSE), GIVE(CONFIGURATION), GIVE(STATE), GIVE(IDENTIFIER), r->clock,
                          GIVE(VRF_OUTPUTS), GIVE(SIGNED_TEXT), GIVE(SECOND));
    case CALL_SIGNED_TEXT:
        return kt_signed_text(r->kind, GIVE(RESPONSE), GIVE(CONFIGURATION), GIVE(STATE), GIVE(IDENTIFIER), r->clock,
                              GIVE(VRF_OUTPUTS), GIVE(FIRST), r->offset);
    case CALL_LADDER:
        return kt_ladder(r->kind, GIVE(FIRST));
    case CALL_SHA256:
        return kt_sha256(GIVE(RESPONSE), GIVE(FIRST));
    default:
        stop("an unknown call");
        return 0;
    }
}

/* Only lent bytes may have changed: not the six inputs, and nothing on either side of any string. */
static void check_unlent(const struct request *r)
{
    for (int i = 0; i < STRINGS; i++) {
        size_t end = GUARD + r->length[i];
        if (i < GIVEN && memcmp(r->memory[i], r->before[i], end + GUARD) != 0)
            stop("an input, or a byte beside it, has changed");
        if (memcmp(r->memory[i], r->before[i], GUARD) != 0 || memcmp(r->memory[i] + end, r->before[i] + end, GUARD) != 0)
            stop("a byte beside the lent ones has changed");
    }
}

static void reply(const struct request *r, uint64_t word)
{
    for (int shift = 0; shift < 64; shift += 8)
        putchar((int)(word >> shift & 0xff));
    for (int i = FIRST; i < STRINGS; i++)
        if (fwrite(string(r, i), 1, r->length[i], stdout) != r->length[i])
            stop("no reply could be written");
    if (fflush(stdout) != 0)
        stop("no reply could be written");
}

int main(void)
{
    struct request r;
    while (read_numbers(&r)) {
        read_strings(&r);
        uint64_t word = answer(&r);
        check_unlent(&r);
        reply(&r, word);
        for (int i = 0; i < STRINGS; i++) {
            free(r.memory[i]);
            free(r.before[i]);
        }
    }
    return 0;
}
