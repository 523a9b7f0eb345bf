/* Calls the static library as a C program does, and checks each promise of kt.h that a call can show. */
#include "kt_test.h"

#include <stdio.h>

static int failures = 0;

void expect(int holds, const char *what)
{
    if (!holds) {
        fprintf(stderr, "kt_test: %s\n", what);
        failures++;
    }
}

int main(void)
{
    sha256();
    ladders();
    searches();
    monitorings();
    signed_texts();
    if (failures == 0)
        puts("kt_test: all as kt.h says");
    return failures != 0;
}
