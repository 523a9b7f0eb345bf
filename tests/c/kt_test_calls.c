/* kt_search and kt_monitor, on the examples. */
#include "kt_test.h"

#include <string.h>

static uint8_t output[KT_VALUE_LIMIT], output_after[KT_VALUE_LIMIT];
static uint8_t new_state[KT_STATE_TEXT_LENGTH], new_state_after[KT_STATE_TEXT_LENGTH];

/* All bytes marked, and what they must be after an acceptance, or a refusal. */
static void mark(int accepted)
{
    memset(output, MARK, sizeof output);
    memset(output_after, MARK, sizeof output_after);
    memset(new_state, MARK, sizeof new_state);
    memset(new_state_after, MARK, sizeof new_state_after);
    if (accepted) {
        memcpy(output_after, example.value.bytes, example.value.length);
        memcpy(new_state_after, example.new_state.bytes, example.new_state.length);
    }
}

/* Checks an answer and every byte. */
static void answered(uint64_t answer, int number, const char *what)
{
    int accepted = number == KT_ACCEPTED;
    expect(KT_NUMBER(answer) == number, what);
    expect(KT_VALUE_LENGTH(answer) == (accepted ? example.value.length : 0), what);
    expect(KT_STATE_LENGTH(answer) == (accepted ? example.new_state.length : 0), what);
    expect(memcmp(output, output_after, sizeof output) == 0, what);
    expect(memcmp(new_state, new_state_after, sizeof new_state) == 0, what);
}

/* Lends so many of the marked bytes. */
static void search(int number, size_t output_room, size_t state_room, const char *what)
{
    mark(number == KT_ACCEPTED);
    answered(kt_search(GIVEN, SIGNED, output, output_room, new_state, state_room), number, what);
}

static void monitor(int number, size_t state_room, const char *what)
{
    mark(number == KT_ACCEPTED);
    answered(kt_monitor(GIVEN, SIGNED, new_state, state_room), number, what);
}

static void search_with_another_identifier(void)
{
    search(KT_REFUSED_REQUEST, KT_VALUE_LIMIT, KT_STATE_TEXT_LENGTH, "a search with another identifier");
}

static void monitor_with_another_identifier(void)
{
    monitor(KT_REFUSED_REQUEST, KT_STATE_TEXT_LENGTH, "monitoring with another identifier");
}

/* The search of the examples. */
void searches(void)
{
    read_accepted_example("search", "search");
    search(KT_ACCEPTED, KT_VALUE_LIMIT, KT_STATE_TEXT_LENGTH, "a search");
    search(KT_ACCEPTED, example.value.length, KT_STATE_TEXT_LENGTH, "a search with just enough room for the value");
    search(KT_REFUSED_ROOM, example.value.length - 1, KT_STATE_TEXT_LENGTH, "a search with too little room for the value");
    search(KT_REFUSED_LENGTH, KT_VALUE_LIMIT, KT_STATE_TEXT_LENGTH - 1, "a search with too little room for the new state");
    with_other_identifiers(search_with_another_identifier);
    monitor(KT_REFUSED_REQUEST, KT_STATE_TEXT_LENGTH, "a search's response to monitoring");
}

/* The monitoring of the examples: it yields no value. */
void monitorings(void)
{
    read_accepted_example("monitoring", "monitor");
    monitor(KT_ACCEPTED, KT_STATE_TEXT_LENGTH, "monitoring");
    monitor(KT_REFUSED_LENGTH, KT_STATE_TEXT_LENGTH - 1, "monitoring with too little room for the new state");
    with_other_identifiers(monitor_with_another_identifier);
    search(KT_REFUSED_REQUEST, KT_VALUE_LIMIT, KT_STATE_TEXT_LENGTH, "a monitoring response to a search");
}
