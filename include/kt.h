/*
 * kt.h: the C interface of the boot checker's library, libkt.a.
 *
 * Every byte string is passed as a pointer and its length in bytes. The library
 * allocates nothing, keeps nothing between calls and writes only to the bytes
 * that are lent to it for output, as each function below says.
 *
 * What a caller owes, and nobody checks:
 *   - no pointer is null, not even with the length 0, and each points to as many
 *     bytes as its length says;
 *   - the bytes lent for output overlap no other bytes passed to the same call;
 *   - no other thread writes the bytes passed, or reads those lent for output,
 *     during a call.
 * Nothing else has to be checked first: every function takes bytes of any length
 * and any content, and returns.
 */
#ifndef KT_H
#define KT_H

#include <stddef.h>
#include <stdint.h>

#ifdef __cplusplus
extern "C" {
#endif

/* The bytes of a SHA-256 digest. */
#define KT_DIGEST_LENGTH 32

/*
 * The SHA-256 digest (FIPS 180-4) of a message of any length.
 *
 * With digest_length of KT_DIGEST_LENGTH or more: writes the digest to the first
 * KT_DIGEST_LENGTH bytes of digest, leaves the bytes after them as they are, and
 * answers KT_DIGEST_LENGTH. With fewer: writes nothing and answers 0.
 */
uint64_t kt_sha256(const uint8_t *message, size_t message_length,
                   uint8_t *digest, size_t digest_length);

/* The bytes of a version, and the most versions that a ladder has: 256 bytes are always enough for one. */
#define KT_VERSION_LENGTH 4
#define KT_LADDER_LENGTH 64

/*
 * The binary ladder of a version: the versions that a search for it looks up, in
 * their order. The version 2^32 - 1 has none, since its ladder would have versions
 * of more than 32 bits.
 *
 * With versions_length of KT_VERSION_LENGTH bytes or more for each version of the
 * ladder: writes them to the first bytes of versions, each as KT_VERSION_LENGTH
 * bytes, the highest byte first, leaves the bytes after them as they are, and
 * answers how many versions they are, at most KT_LADDER_LENGTH. With fewer, and
 * for 2^32 - 1: writes nothing and answers 0.
 */
uint64_t kt_ladder(uint32_t version, uint8_t *versions, size_t versions_length);

/*
 * Searches, monitoring and signed texts.
 *
 * No signature and no VRF proof is verified here: the caller's security chip does that,
 * with the keys of the configuration. So each response of the log takes three steps:
 *   1. kt_signed_text makes the other checks and writes the text that the log must have
 *      signed. Nothing is accepted yet.
 *   2. The chip verifies the log's signature of that text, and the proof of every VRF
 *      output given.
 *   3. If all of them are right, kt_search or kt_monitor is given the same inputs and that
 *      text, and yields the new state and the value.
 * Without the second step an acceptance means nothing. agent/agent.c takes all three.
 *
 * The limits of what a call is given, in bytes. KT_VALUE_LIMIT bytes of output are
 * always enough. A state's text has at most KT_STATE_TEXT_LENGTH bytes, and the
 * bytes lent for a new one must be as many, however short it turns out. A signed text
 * has KT_SIGNED_TEXT_LEAST to KT_SIGNED_TEXT_LIMIT bytes.
 */
#define KT_RESPONSE_LIMIT 1048576
#define KT_CONFIGURATION_LIMIT 2048
#define KT_STATE_TEXT_LENGTH 8192
#define KT_IDENTIFIER_LENGTH 16
#define KT_VRF_OUTPUT_LENGTH 32
#define KT_VRF_RECORD_LENGTH (KT_VERSION_LENGTH + KT_VRF_OUTPUT_LENGTH)
#define KT_VRF_OUTPUTS_LIMIT 36864
#define KT_SIGNED_TEXT_LEAST 72
#define KT_SIGNED_TEXT_LIMIT 2088
#define KT_LABEL_LIMIT 255
#define KT_VALUE_LIMIT 1024

/* The largest log, the greatest version, the most entries of a monitoring map and the most siblings in a lookup. */
#define KT_TREE_SIZE_LIMIT (UINT64_C(1) << 40)
#define KT_GREATEST_VERSION (UINT32_MAX - 1)
#define KT_MAP_LIMIT 48
#define KT_SIBLING_LIMIT 255

/* The kinds of a call, where it is given as a number. */
#define KT_KIND_SEARCH 0
#define KT_KIND_MONITOR 1

/*
 * The three parts of an answer of kt_search and kt_monitor: KT_ACCEPTED or the number of
 * a refusal, and how many bytes of the value and of the new state's text were written.
 * Monitoring yields no value: its length is 0. They are not for kt_signed_text, which
 * answers a plain number.
 */
#define KT_NUMBER(answer) ((int)((uint64_t)(answer) & 0xff))
#define KT_VALUE_LENGTH(answer) ((size_t)((uint64_t)(answer) >> 8 & 0xffffff))
#define KT_STATE_LENGTH(answer) ((size_t)((uint64_t)(answer) >> 32))

/* Where several refusals apply, the one with the lowest number is answered. */
enum {
    KT_ACCEPTED = 0,
    /* An input is longer than its limit, the identifier has another length, or too few bytes are lent for the new state. */
    KT_REFUSED_LENGTH = 1,
    /* The configuration cannot be decoded, or is for another cipher suite or deployment mode. */
    KT_REFUSED_CONFIGURATION = 2,
    /* The state's text is not that of a valid state. */
    KT_REFUSED_STATE = 3,
    /* The VRF outputs are not whole records, or their versions do not rise. */
    KT_REFUSED_VRF_OUTPUTS = 4,
    /* The response is not made of the right lines, or a field of it is malformed. */
    KT_REFUSED_LINES = 5,
    /* The response is for another kind of call, another identifier or another label, or the number given is that of no kind. */
    KT_REFUSED_REQUEST = 6,
    /* The log is empty, larger than KT_TREE_SIZE_LIMIT, or smaller than the one in the state. */
    KT_REFUSED_TREE_SIZE = 7,
    /* In a search, the version found is above KT_GREATEST_VERSION, or older than one in the monitoring map. */
    KT_REFUSED_TARGET = 8,
    /* Steps, commitments, entries, lookups or nodes are more, fewer or other than this call needs. */
    KT_REFUSED_SHAPE = 9,
    /* A version that is looked up has no VRF output among those given. */
    KT_REFUSED_MISSING_OUTPUT = 10,
    /* Times go backwards, contradict the time in the state, or end too far ahead of the clock or behind it. */
    KT_REFUSED_TIME = 11,
    /* A lookup does not hash to the prefix root of its entry, or the other leaf that it shows cannot stand there. */
    KT_REFUSED_LOOKUP = 12,
    /* The lookups do not show that the version found is there and is the greatest; in monitoring, that their versions are there. */
    KT_REFUSED_LADDER = 13,
    /* The log contradicts the one in the state: a full subtree has another value. */
    KT_REFUSED_FULL_SUBTREE = 14,
    /* The signed text is not that of this configuration, tree size and root. Never answered by kt_signed_text. */
    KT_REFUSED_SIGNED_TEXT = 15,
    /*
     * kt_search: the value is longer than the output bytes, or the monitoring map would have more than KT_MAP_LIMIT entries.
     * kt_signed_text: the text does not fit into the buffer from the offset on.
     */
    KT_REFUSED_ROOM = 16
};

/*
 * Judges a log's response to a search for the greatest version of a label.
 *
 *   response       the text that came back
 *   configuration  the log's encoded Configuration
 *   state          the text that the last accepted call for this label wrote. The first
 *                  call is given one line: the word size, the fields 0 and 0, and the
 *                  label of at most KT_LABEL_LIMIT bytes in lower-case hex (- if it is
 *                  empty), with one tab before each field and byte 0x0A at the end
 *   identifier     the KT_IDENTIFIER_LENGTH bytes that were sent with the request
 *   clock          the time now, in milliseconds, counted as the log counts
 *   vrf_outputs    records of KT_VRF_RECORD_LENGTH bytes, by rising version: a version of
 *                  KT_VERSION_LENGTH bytes, the highest byte first, and its VRF output
 *   signed_text    the bytes that the log has signed for this tree head, from kt_signed_text
 *   output         lent for the value
 *   new_state      lent for the new state's text
 *
 * Accepts exactly when none of the refusals applies. Then it writes the value to the
 * first bytes of output and the new state's text to the first bytes of new_state,
 * leaves the bytes after them as they are, and answers KT_ACCEPTED with both lengths;
 * the caller keeps the new text in place of the old. A refusal writes nothing, and its
 * answer is its number alone: both lengths are 0, and the old text stays good.
 *
 * The time grows with the length of what is given, some 12 ns a byte at most on a
 * common computer, and a call takes less than 50 KiB of stack (both measured with the
 * library as an older kit built it).
 */
uint64_t kt_search(const uint8_t *response, size_t response_length,
                   const uint8_t *configuration, size_t configuration_length,
                   const uint8_t *state, size_t state_length,
                   const uint8_t *identifier, size_t identifier_length,
                   uint64_t clock,
                   const uint8_t *vrf_outputs, size_t vrf_outputs_length,
                   const uint8_t *signed_text, size_t signed_text_length,
                   uint8_t *output, size_t output_length,
                   uint8_t *new_state, size_t new_state_length);

/*
 * Judges a log's response to monitoring: that the versions which earlier searches found
 * are still there, at the entries of the log since. What is given and what is owed are
 * as for kt_search; there is no value.
 *
 * Accepts exactly when none of the refusals applies; KT_REFUSED_TARGET and
 * KT_REFUSED_ROOM never do. Then it writes the new state's text to the first bytes of
 * new_state, leaves the bytes after them as they are, and answers KT_ACCEPTED with its
 * length; every entry of the new monitoring map stands on the frontier of the log, and
 * there are no more of them than before. A refusal writes nothing, and its answer is
 * its number alone.
 *
 * Time and stack are as for kt_search.
 */
uint64_t kt_monitor(const uint8_t *response, size_t response_length,
                    const uint8_t *configuration, size_t configuration_length,
                    const uint8_t *state, size_t state_length,
                    const uint8_t *identifier, size_t identifier_length,
                    uint64_t clock,
                    const uint8_t *vrf_outputs, size_t vrf_outputs_length,
                    const uint8_t *signed_text, size_t signed_text_length,
                    uint8_t *new_state, size_t new_state_length);

/*
 * The text that the log must have signed with a response to a search (KT_KIND_SEARCH) or to
 * monitoring (KT_KIND_MONITOR): TreeHeadTBS, which is the configuration as given, the size of
 * the log in 8 bytes, the highest byte first, and the root of its tree in KT_DIGEST_LENGTH
 * bytes. What is given is as for kt_search, without a signed text; no bytes are lent for a
 * value or a new state.
 *
 *   kind           KT_KIND_SEARCH or KT_KIND_MONITOR
 *   buffer         lent for the text
 *   offset         how many bytes of the buffer stand before the text
 *
 * If none of the refusals up to KT_REFUSED_FULL_SUBTREE applies and the text fits into the
 * buffer from the offset on: writes it there, leaves the bytes before and after it as they
 * are, and answers its length, at least KT_SIGNED_TEXT_LEAST. Else it writes nothing and
 * answers the number of the refusal, which is less. It never answers KT_ACCEPTED. Any offset
 * may be given: one at the end of the buffer or past it leaves no room, KT_REFUSED_ROOM.
 * KT_SIGNED_TEXT_LIMIT bytes from the offset on are always enough.
 *
 * Given the same and this text, and KT_STATE_TEXT_LENGTH bytes for the new state, kt_monitor
 * accepts; so does kt_search, unless KT_REFUSED_ROOM applies to it.
 *
 * Time and stack are as for kt_search.
 */
uint64_t kt_signed_text(uint32_t kind,
                        const uint8_t *response, size_t response_length,
                        const uint8_t *configuration, size_t configuration_length,
                        const uint8_t *state, size_t state_length,
                        const uint8_t *identifier, size_t identifier_length,
                        uint64_t clock,
                        const uint8_t *vrf_outputs, size_t vrf_outputs_length,
                        uint8_t *buffer, size_t buffer_length,
                        uint64_t offset);

#ifdef __cplusplus
}
#endif

#endif
