/* kt_signed_text, on the examples: the text is that of their file `signed`. */
#include "kt_test.h"

#include <string.h>

#define BEHIND 8
#define ROOM (KT_SIGNED_TEXT_LIMIT + BEHIND)

/* The bytes lent, and one on each side that is not. */
static uint8_t lent[ROOM + 2], after[ROOM + 2];
static uint8_t *const buffer = lent + 1;

/* The kind of the example that is called, and another. */
static uint32_t kind, other_kind;

/* Lends `room` marked bytes and checks the answer and every byte: the text stands from the offset on, or nothing is written. */
static void text_in(uint32_t asked, size_t room, uint64_t offset, uint64_t answer, const char *what)
{
    memset(lent, MARK, sizeof lent);
    memset(after, MARK, sizeof after);
    if (answer >= KT_SIGNED_TEXT_LEAST)
        memcpy(after + 1 + offset, example.signed_text.bytes, example.signed_text.length);
    expect(kt_signed_text(asked, GIVEN, buffer, room, offset) == answer, what);
    expect(memcmp(lent, after, sizeof lent) == 0, what);
}

/* The text of the example, wherever there is room for it. */
static void text_at(size_t room, uint64_t offset)
{
    size_t length = example.signed_text.length;
    int fits = room >= length && offset <= room - length;
    text_in(kind, room, offset, fits ? length : KT_REFUSED_ROOM, "a signed text");
}

/* The text is refused, whether or not there is room for it. */
static void refused(uint32_t asked, int number, const char *what)
{
    text_in(asked, ROOM, 0, (uint64_t)number, what);
    text_in(asked, ROOM, 7, (uint64_t)number, what);
    text_in(asked, 0, UINT64_MAX, (uint64_t)number, what);
}

/* Every room from none to more than enough at some offsets, and offsets in and far behind the buffer. */
static void rooms(void)
{
    static const size_t offsets[] = { 0, 1, 31, 72, 200 };
    size_t length = example.signed_text.length;
    for (size_t i = 0; i < sizeof offsets / sizeof *offsets; i++)
        for (size_t room = 0; room <= offsets[i] + length + BEHIND; room++)
            text_at(room, offsets[i]);
    for (uint64_t offset = 0; offset <= length + 2 * BEHIND; offset++) {
        text_at(length + BEHIND, offset);
        text_at(0, offset);
        text_at(ROOM, UINT64_MAX - offset);
        text_at(ROOM, ROOM - BEHIND + offset);
        text_at(ROOM, (UINT64_C(1) << 32) + offset);
        text_at(ROOM, (UINT64_C(1) << 63) + offset);
    }
}

/* The call of the example accepts the text that stands in the buffer. */
static void accepted_with(size_t offset)
{
    static uint8_t output[KT_VALUE_LIMIT], new_state[KT_STATE_TEXT_LENGTH];
    size_t length = example.signed_text.length;
    text_at(ROOM, offset);
    uint64_t answer = kind == KT_KIND_SEARCH
                          ? kt_search(GIVEN, buffer + offset, length, output, sizeof output, new_state, sizeof new_state)
                          : kt_monitor(GIVEN, buffer + offset, length, new_state, sizeof new_state);
    expect(KT_NUMBER(answer) == KT_ACCEPTED, "the call with the signed text");
}

/* The size and the root at the end of a text, and the bytes of the shortest configuration. */
#define HEAD_LENGTH (8 + KT_DIGEST_LENGTH)
#define SHORTEST (KT_SIGNED_TEXT_LEAST - HEAD_LENGTH)

/* Another configuration, with a signature key of so many zeros, and its text. All clocks keep its bounds. */
static void with_key_of(size_t key)
{
    const uint8_t start[] = { 0, 1, 1, (uint8_t)(key >> 8), (uint8_t)key };
    struct file *text = &example.signed_text, *configuration = &example.configuration;
    uint8_t head[HEAD_LENGTH];
    memcpy(head, text->bytes + text->length - HEAD_LENGTH, HEAD_LENGTH);
    memset(configuration, 0, sizeof *configuration);
    memcpy(configuration->bytes, start, sizeof start);
    memset(configuration->bytes + sizeof start + key + 2, 0xff, 16);
    configuration->length = SHORTEST + key;
    *text = *configuration;
    memcpy(text->bytes + text->length, head, HEAD_LENGTH);
    text->length += HEAD_LENGTH;
}

/* The shortest configuration, the longest, and one byte more. */
static void lengths(void)
{
    with_key_of(0);
    expect(example.signed_text.length == KT_SIGNED_TEXT_LEAST, "the least length of a signed text");
    accepted_with(BEHIND);
    example.configuration.length--;
    refused(kind, KT_REFUSED_CONFIGURATION, "a signed text for a configuration that is too short");
    with_key_of(KT_CONFIGURATION_LIMIT - SHORTEST);
    expect(example.signed_text.length == KT_SIGNED_TEXT_LIMIT, "the greatest length of a signed text");
    accepted_with(BEHIND);
    with_key_of(KT_CONFIGURATION_LIMIT - SHORTEST + 1);
    refused(kind, KT_REFUSED_LENGTH, "a signed text for a configuration that is too long");
}

static void text_with_another_identifier(void)
{
    text_in(kind, ROOM, 0, KT_REFUSED_REQUEST, "a signed text with another identifier");
}

/* Kinds that are not the response's, among them those that have its number in their low bits. */
static void kinds(void)
{
    static const uint32_t none[] = { 2, 3, 1 << 8, 1 << 16, UINT32_MAX - 1, UINT32_MAX };
    refused(other_kind, KT_REFUSED_REQUEST, "a signed text for the other kind");
    for (size_t i = 0; i < sizeof none / sizeof *none; i++)
        refused(none[i], KT_REFUSED_REQUEST, "a signed text for a number that is no kind");
    refused(kind + (UINT32_C(1) << 31), KT_REFUSED_REQUEST, "a signed text for a number that is no kind");
    example.response.length--;
    refused(2, KT_REFUSED_LINES, "a broken response for a number that is no kind");
    example.response.length++;
}

/* What stands before the text of a refused response is not touched, and numbers come in their order. */
static void refusals(void)
{
    uint64_t clock = example.clock;
    size_t length = example.state.length;
    with_other_identifiers(text_with_another_identifier);
    example.clock = UINT64_MAX;
    refused(kind, KT_REFUSED_TIME, "a signed text with another clock");
    example.clock = clock;
    example.state.length = 0;
    refused(kind, KT_REFUSED_STATE, "a signed text without a state");
    example.state.length = KT_STATE_TEXT_LENGTH;
    refused(kind, KT_REFUSED_STATE, "a signed text with a broken state of the greatest length");
    example.state.length = KT_STATE_TEXT_LENGTH + 1;
    refused(kind, KT_REFUSED_LENGTH, "a signed text with a state that is too long");
    example.state.length = length;
}

static void texts_of(const char *name, const char *word)
{
    kind = strcmp(word, "search") == 0 ? KT_KIND_SEARCH : KT_KIND_MONITOR;
    other_kind = KT_KIND_SEARCH + KT_KIND_MONITOR - kind;
    read_example(name, word);
    rooms();
    accepted_with(0);
    accepted_with(5);
    kinds();
    refusals();
    lengths();
}

void signed_texts(void)
{
    texts_of("search", "search");
    texts_of("monitoring", "monitor");
    kind = KT_KIND_SEARCH;
    read_example("foreign-identifier", "search");
    refused(kind, KT_REFUSED_REQUEST, "a signed text for the neighbour's response");
    read_example("forged-history", "search");
    refused(kind, KT_REFUSED_FULL_SUBTREE, "a signed text for a forged history");
}
