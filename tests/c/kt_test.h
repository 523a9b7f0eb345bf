/* What the tests of kt.h share. Lent bytes are marked beforehand, so that each one can be looked at afterwards. */
#ifndef KT_TEST_H
#define KT_TEST_H

#include <kt.h>

#define MARK 0xa5

/* Says what does not hold, and counts it. */
void expect(int holds, const char *what);

struct file {
    size_t length;
    uint8_t bytes[KT_STATE_TEXT_LENGTH + 1];
};

/* A call, and what it yields if it is accepted. Monitoring yields no value: its length is 0. */
struct example {
    struct file response, configuration, state, vrf_outputs, signed_text, value, new_state;
    uint8_t identifier[KT_IDENTIFIER_LENGTH];
    uint64_t clock;
};

/* The example that is called, and what all calls are given of it. */
extern struct example example;
#define GIVEN                                                                                        \
    example.response.bytes, example.response.length, example.configuration.bytes,                    \
        example.configuration.length, example.state.bytes, example.state.length, example.identifier, \
        sizeof example.identifier, example.clock, example.vrf_outputs.bytes, example.vrf_outputs.length
#define SIGNED example.signed_text.bytes, example.signed_text.length

/* Reads the example of a name, whose kind is the word; the program is run from the top of the repository. */
void read_example(const char *name, const char *word);

/* The same where the example is accepted, with what it yields. */
void read_accepted_example(const char *name, const char *word);

/* Makes a call with each identifier that is off by one bit. */
void with_other_identifiers(void (*call)(void));

/* The tests. */
void sha256(void);
void ladders(void);
void searches(void);
void monitorings(void);
void signed_texts(void);

#endif
