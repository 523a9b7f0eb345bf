/* Prints the SHA-256 digest of a file, computed by the proved library. */
#include <kt.h>

#include <stdio.h>
#include <stdlib.h>

/* The whole file, or NULL where it cannot be read. */
static uint8_t *contents(const char *path, size_t *length)
{
    FILE *file = fopen(path, "rb");
    uint8_t *bytes = NULL;
    size_t room = 0;
    *length = 0;
    while (file != NULL) {
        if (room == *length) {
            room = 2 * room + 4096;
            uint8_t *more = realloc(bytes, room);
            if (more == NULL)
                break;
            bytes = more;
        }
        size_t got = fread(bytes + *length, 1, room - *length, file);
        *length += got;
        if (got == 0 && feof(file)) {
            fclose(file);
            return bytes;
        }
        if (got == 0)
            break;
    }
    if (file != NULL)
        fclose(file);
    free(bytes);
    return NULL;
}

int main(int count, char **words)
{
    if (count != 2) {
        fprintf(stderr, "usage: digest FILE\n");
        return 2;
    }
    size_t length;
    uint8_t *bytes = contents(words[1], &length);
    if (bytes == NULL) {
        perror(words[1]);
        return 1;
    }
    uint8_t digest[KT_DIGEST_LENGTH];
    kt_sha256(bytes, length, digest, sizeof digest);
    for (size_t i = 0; i < sizeof digest; i++)
        printf("%02x", digest[i]);
    printf("  %s\n", words[1]);
    free(bytes);
    return 0;
}
