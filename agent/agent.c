/*
 * A boot agent: judges one answer of the log and keeps what follows from it.
 *
 *     agent KEPT LABEL ANSWER
 *
 * KEPT is the agent's own folder for this label: `state` is the text that the last acceptance wrote (none before the
 * first), `value` what the last search found. LABEL is what it asks for; the state remembers it. ANSWER is a folder with
 * what came back, `response` and `signature`; the log's `settings`; the VRF outputs that the chip has verified, `sheet`; and
 * `request`: the kind, the identifier in hex and the clock, parted by tabs, in one line.
 *
 * It prints one line. The exit status is 0 where the answer is accepted, 1 where it is refused, which leaves KEPT as it is,
 * and 2 where a file cannot be read or written, which leaves each file of KEPT as it is or new. Called otherwise, or with a
 * label of more than 255 bytes, it prints only the usage, on standard error; the exit status is 2.
 */
#define _POSIX_C_SOURCE 200809L

#include "chip.h"

#include <kt.h>

#include <errno.h>
#include <fcntl.h>
#include <inttypes.h>
#include <stdio.h>
#include <string.h>
#include <unistd.h>

enum { ACCEPTED = 0, REFUSED = 1, TROUBLE = 2 };

#define PATH_LIMIT 1024
#define REQUEST_LIMIT 128

/* What a refusal means, by its number. */
static const char *const SENTENCES[] = {
    "",
    "A file is missing, cannot be read or is too long, or the request's identifier does not have 16 bytes.",
    "The settings file is damaged, or it is for a kind of log that this checker does not know.",
    "The state file is damaged: it does not hold a valid state.",
    "The sheet file is damaged: its records are not whole, or their versions do not rise.",
    "The response is damaged or cut short: a line or a field of it is not as it must be.",
    "The response belongs to another request or another label, or the request line is broken.",
    "The log is empty, too large, or smaller than when it was last accepted: this may be an old answer.",
    "The version found is older than one found before, or larger than a version can be.",
    "The response does not show what was asked for: parts are missing, added or not the right ones.",
    "The sheet has no record for a version that the response uses.",
    "The log's times go back, contradict the kept time, or are too far from the clock: check the clock.",
    "A lookup in the response does not prove what it says.",
    "The lookups do not prove that the version is the newest, or that versions found before are still there.",
    "The log's past is not the one that was accepted before: keep all files and report it.",
    "The signed text does not belong to this response and these settings: keep all files and report it.",
    "No room for one more pair, 48 are kept already: run monitoring, then search again.",
};

/*
 * A file that is read. It has one byte more than is allowed, so that one that is too long is seen: by the library, which
 * refuses it, for the request by read_request, for the signature by the chip.
 */
struct file {
    uint8_t *bytes;
    size_t room, length;
};
#define FILE_OF(limit) { (uint8_t[(limit) + 1]){ 0 }, (limit) + 1, 0 }

static struct file response = FILE_OF(KT_RESPONSE_LIMIT), configuration = FILE_OF(KT_CONFIGURATION_LIMIT);
static struct file state = FILE_OF(KT_STATE_TEXT_LENGTH), vrf_outputs = FILE_OF(KT_VRF_OUTPUTS_LIMIT);
static struct file signature = FILE_OF(CHIP_SIGNATURE_LIMIT), request = FILE_OF(REQUEST_LIMIT);

/* What was asked. */
static uint32_t kind;
static uint8_t identifier[KT_IDENTIFIER_LENGTH];
static uint64_t clock_now;

/* What the library writes. */
static uint8_t signed_text[KT_SIGNED_TEXT_LIMIT], value[KT_VALUE_LIMIT], new_state[KT_STATE_TEXT_LENGTH];

static int trouble(const char *doing, const char *name)
{
    printf("trouble: cannot %s %s: %s\n", doing, name, errno != 0 ? strerror(errno) : "not as it must be");
    return TROUBLE;
}

static int refused(int number)
{
    printf("refused %d: %s\n", number, SENTENCES[number]);
    return REFUSED;
}

/* The path of a file in a folder; 0 if it is too long. */
static int path_of(char path[PATH_LIMIT], const char *folder, const char *name, const char *ending)
{
    int length = snprintf(path, PATH_LIMIT, "%s/%s%s", folder, name, ending);
    errno = ENAMETOOLONG;
    return 0 <= length && length < PATH_LIMIT;
}

/* Reads a whole file, or as much of it as shows that it is too long; 0 if it cannot be read. */
static int read_file(struct file *file, const char *folder, const char *name)
{
    char path[PATH_LIMIT];
    if (!path_of(path, folder, name, ""))
        return 0;
    FILE *from = fopen(path, "rb");
    if (from == NULL)
        return 0;
    errno = 0;
    file->length = fread(file->bytes, 1, file->room, from);
    int read = !ferror(from);
    return fclose(from) == 0 && read;
}

/* Makes a renaming in a folder last. */
static int sync_folder(const char *folder)
{
    int opened = open(folder, O_RDONLY);
    if (opened < 0)
        return 0;
    int synced = fsync(opened) == 0;
    return close(opened) == 0 && synced;
}

/* Puts a file in the place of an old one: whole under another name, then renamed, so that a power cut leaves one of the two. */
static int keep(const char *folder, const char *name, const uint8_t *bytes, size_t length)
{
    char path[PATH_LIMIT], part[PATH_LIMIT];
    if (!path_of(path, folder, name, "") || !path_of(part, folder, name, ".part"))
        return 0;
    FILE *to = fopen(part, "wb");
    if (to == NULL)
        return 0;
    int written = fwrite(bytes, 1, length, to) == length && fflush(to) == 0 && fsync(fileno(to)) == 0;
    if (fclose(to) != 0 || !written)
        return 0;
    return rename(part, path) == 0 && sync_folder(folder);
}

/* The state before the first acceptance. */
static void make_state(const char *label)
{
    char *at = (char *)state.bytes;
    at += sprintf(at, "size\t0\t0\t%s", *label == 0 ? "-" : "");
    for (; *label != 0; label++)
        at += sprintf(at, "%02x", (unsigned char)*label);
    *at++ = '\n';
    state.length = (size_t)(at - (char *)state.bytes);
}

/*
 * What was asked; 0 if the line is broken. A real agent needs no such file: it has drawn the identifier at random, has sent
 * it and has kept it in memory, and it reads its own clock.
 */
static int read_request(const char *folder)
{
    char word[8] = "", hex[2 * KT_IDENTIFIER_LENGTH + 1] = "", end = 0;
    if (!read_file(&request, folder, "request") || request.length == request.room)
        return 0;
    const char *line = (const char *)request.bytes;
    int fields = sscanf(line, "%7[a-z]\t%32[0-9a-f]\t%" SCNu64 "%c", word, hex, &clock_now, &end);
    if (fields != 4 || end != '\n' || strlen(hex) != 2 * KT_IDENTIFIER_LENGTH)
        return 0;
    for (size_t i = 0; i < KT_IDENTIFIER_LENGTH; i++)
        if (sscanf(hex + 2 * i, "%2" SCNx8, &identifier[i]) != 1)
            return 0;
    kind = strcmp(word, "search") == 0 ? KT_KIND_SEARCH : KT_KIND_MONITOR;
    return kind == KT_KIND_SEARCH || strcmp(word, "monitor") == 0;
}

/* The size of the log, which stands in its signed text before the root. */
static uint64_t tree_size(size_t text_length)
{
    uint64_t size = 0;
    for (size_t i = text_length - KT_DIGEST_LENGTH - 8; i < text_length - KT_DIGEST_LENGTH; i++)
        size = size << 8 | signed_text[i];
    return size;
}

#define GIVEN                                                                                                       \
    response.bytes, response.length, configuration.bytes, configuration.length, state.bytes, state.length,         \
        identifier, sizeof identifier, clock_now, vrf_outputs.bytes, vrf_outputs.length

/* The three steps of kt.h, and then the files. */
static int judge(const char *kept)
{
    size_t length = (size_t)kt_signed_text(kind, GIVEN, signed_text, sizeof signed_text, 0);
    if (length < KT_SIGNED_TEXT_LEAST)
        return refused((int)length);

    if (!chip_approves(signed_text, length, signature.bytes, signature.length)) {
        puts("refused: the chip does not approve the log's signature");
        return REFUSED;
    }

    uint64_t answer =
        kind == KT_KIND_SEARCH
            ? kt_search(GIVEN, signed_text, length, value, sizeof value, new_state, sizeof new_state)
            : kt_monitor(GIVEN, signed_text, length, new_state, sizeof new_state);
    if (KT_NUMBER(answer) != KT_ACCEPTED)
        return refused(KT_NUMBER(answer));

    /* The state last: a power cut before it leaves the old one, and the next search finds the value again. */
    if (kind == KT_KIND_SEARCH && !keep(kept, "value", value, KT_VALUE_LENGTH(answer)))
        return trouble("keep", "value");
    if (!keep(kept, "state", new_state, KT_STATE_LENGTH(answer)))
        return trouble("keep", "state");
    printf("accepted: %s, tree size %" PRIu64 "\n", kind == KT_KIND_SEARCH ? "search" : "monitor", tree_size(length));
    return ACCEPTED;
}

/* Reads all files and judges them. */
static int run(const char *kept, const char *label, const char *answer)
{
    if (!read_file(&state, kept, "state")) {
        if (errno != ENOENT)
            return trouble("read", "state");
        make_state(label);
    }
    if (!read_request(answer))
        return trouble("read", "request");
    if (!read_file(&response, answer, "response"))
        return trouble("read", "response");
    if (!read_file(&configuration, answer, "settings"))
        return trouble("read", "settings");
    if (!read_file(&vrf_outputs, answer, "sheet"))
        return trouble("read", "sheet");
    if (!read_file(&signature, answer, "signature"))
        return trouble("read", "signature");
    return judge(kept);
}

int main(int count, char **words)
{
    if (count != 4 || strlen(words[2]) > KT_LABEL_LIMIT) {
        fputs("usage: agent KEPT LABEL ANSWER, with a label of at most 255 bytes\n", stderr);
        return TROUBLE;
    }
    int status = run(words[1], words[2], words[3]);
    return fflush(stdout) == 0 ? status : TROUBLE;
}
