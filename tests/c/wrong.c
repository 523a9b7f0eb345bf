/*
 * Faults for the comparison to find. Linked before a library with the linker's --wrap, each function calls the
 * library's own and then goes wrong in the way that the environment variable FAULT names.
 */
#include <stdint.h>
#include <stdlib.h>
#include <string.h>

#include "kt.h"

/* What the calls are given, as parameters, and handed on. */
#define INPUTS                                                                                             \
    const uint8_t *response, size_t response_length, const uint8_t *configuration,                         \
        size_t configuration_length, const uint8_t *state, size_t state_length, const uint8_t *identifier, \
        size_t identifier_length, uint64_t clock, const uint8_t *vrf_outputs, size_t vrf_outputs_length
#define SIGNED const uint8_t *signed_text, size_t signed_text_length
#define OUTPUT uint8_t *output, size_t output_length
#define NEW_STATE uint8_t *new_state, size_t new_state_length

#define GIVEN                                                                                          \
    response, response_length, configuration, configuration_length, state, state_length, identifier, \
        identifier_length, clock, vrf_outputs, vrf_outputs_length

uint64_t __real_kt_search(INPUTS, SIGNED, OUTPUT, NEW_STATE);
uint64_t __real_kt_monitor(INPUTS, SIGNED, NEW_STATE);
uint64_t __real_kt_signed_text(uint32_t kind, INPUTS, OUTPUT, uint64_t offset);
uint64_t __real_kt_ladder(uint32_t version, OUTPUT);

uint64_t __wrap_kt_search(INPUTS, SIGNED, OUTPUT, NEW_STATE);
uint64_t __wrap_kt_monitor(INPUTS, SIGNED, NEW_STATE);
uint64_t __wrap_kt_signed_text(uint32_t kind, INPUTS, OUTPUT, uint64_t offset);
uint64_t __wrap_kt_ladder(uint32_t version, OUTPUT);

static int fault(const char *name)
{
    const char *chosen = getenv("FAULT");
    return chosen != NULL && strcmp(chosen, name) == 0;
}

uint64_t __wrap_kt_search(INPUTS, SIGNED, OUTPUT, NEW_STATE)
{
    uint64_t answer = __real_kt_search(GIVEN, signed_text, signed_text_length, output, output_length, new_state, new_state_length);
    int number = KT_NUMBER(answer);
    size_t written = KT_VALUE_LENGTH(answer);
    if (fault("byte after the value") && number == KT_ACCEPTED && output_length > written)
        output[written] ^= 1;
    if (fault("output on refusal") && number != KT_ACCEPTED && output_length > 0)
        output[0] ^= 1;
    if (fault("byte before the output") && number == KT_REFUSED_LINES)
        *(output - 1) ^= 1;
    if (fault("another number") && number == KT_REFUSED_ROOM)
        return KT_REFUSED_SIGNED_TEXT;
    return answer;
}

uint64_t __wrap_kt_monitor(INPUTS, SIGNED, NEW_STATE)
{
    uint64_t answer = __real_kt_monitor(GIVEN, signed_text, signed_text_length, new_state, new_state_length);
    int number = KT_NUMBER(answer);
    size_t written = KT_STATE_LENGTH(answer);
    if (fault("byte after the new state") && number == KT_ACCEPTED && new_state_length > written)
        new_state[written] ^= 1;
    if (fault("new state on refusal") && number == KT_REFUSED_SHAPE)
        new_state[0] ^= 1;
    if (fault("input changed") && number == KT_REFUSED_FULL_SUBTREE)
        *(uint8_t *)(uintptr_t)state ^= 1;
    return answer;
}

uint64_t __wrap_kt_signed_text(uint32_t kind, INPUTS, OUTPUT, uint64_t offset)
{
    uint64_t answer = __real_kt_signed_text(kind, GIVEN, output, output_length, offset);
    if (fault("byte before the offset") && answer > KT_REFUSED_ROOM && offset > 0)
        output[offset - 1] ^= 1;
    if (fault("no room passed over") && answer == KT_REFUSED_ROOM)
        return KT_SIGNED_TEXT_LEAST;
    return answer;
}

uint64_t __wrap_kt_ladder(uint32_t version, OUTPUT)
{
    uint64_t answer = __real_kt_ladder(version, output, output_length);
    if (fault("last version of a ladder") && answer == KT_LADDER_LENGTH)
        output[KT_VERSION_LENGTH * KT_LADDER_LENGTH - 1] ^= 1;
    return answer;
}
