/* The example folders, as calls. */
#include "kt_test.h"

#include <inttypes.h>
#include <stdio.h>
#include <stdlib.h>
#include <string.h>

struct example example;

/* A file of an example. */
static struct file contents(const char *name, const char *file_name)
{
    struct file all = { 0, { 0 } };
    char path[64];
    snprintf(path, sizeof path, "examples/%s/%s", name, file_name);
    FILE *file = fopen(path, "rb");
    if (file != NULL)
        all.length = fread(all.bytes, 1, sizeof all.bytes, file);
    if (file == NULL || ferror(file) || all.length == sizeof all.bytes) {
        fprintf(stderr, "kt_test: %s cannot be read\n", path);
        exit(1);
    }
    fclose(file);
    return all;
}

/* What is asked: a word, the identifier in hex and the clock. */
static void read_request(const char *name, const char *word)
{
    struct file request = contents(name, "request");
    char kind[16] = "", hex[2 * KT_IDENTIFIER_LENGTH + 1] = "";
    int read = sscanf((const char *)request.bytes, "%15[a-z]\t%32[0-9a-f]\t%" SCNu64, kind, hex, &example.clock);
    expect(read == 3 && strcmp(kind, word) == 0, "the request of the example");
    for (size_t i = 0; i < KT_IDENTIFIER_LENGTH; i++)
        expect(sscanf(hex + 2 * i, "%2" SCNx8, &example.identifier[i]) == 1, "the identifier of the example");
}

void read_example(const char *name, const char *word)
{
    memset(&example, 0, sizeof example);
    example.response = contents(name, "response");
    example.configuration = contents(name, "settings");
    example.state = contents(name, "state");
    example.vrf_outputs = contents(name, "sheet");
    example.signed_text = contents(name, "signed");
    read_request(name, word);
}

void read_accepted_example(const char *name, const char *word)
{
    read_example(name, word);
    example.new_state = contents(name, "state.new");
    if (strcmp(word, "search") == 0)
        example.value = contents(name, "value");
}

void with_other_identifiers(void (*call)(void))
{
    for (size_t bit = 0; bit < 8 * sizeof example.identifier; bit++) {
        uint8_t flipped = (uint8_t)(1 << bit % 8);
        example.identifier[bit / 8] ^= flipped;
        call();
        example.identifier[bit / 8] ^= flipped;
    }
}
