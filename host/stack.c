/*
 * stack MOST FILE..: how much stack a call takes, over all files; fails where it is more than MOST bytes.
 * The stack below this frame is painted before each call, and looked over afterwards.
 */
#include <stdint.h>
#include <stdio.h>
#include <stdlib.h>

#include "pstore.h"

enum { REGION = 6 * 1024 * 1024, PAINT = 0x5A, NEAR = 512 };

static uint8_t file[PSTORE_FILE + 1000];
static uint8_t out[PSTORE_ROOM];

/* The call with the caller's frame at the end of the painted region. */
static size_t measure(size_t length)
{
    volatile uint8_t *end = (volatile uint8_t *)__builtin_frame_address(0) - NEAR;
    volatile uint8_t *start = end - REGION;
    volatile uint8_t *p;

    for (p = start; p < end; p++) {
        *p = PAINT;
    }
    (void)pstore_list(file, length, out, sizeof out);
    for (p = start; p < end && *p == PAINT; p++) {
    }
    return (size_t)(end - p) + NEAR;
}

int main(int count, char **words)
{
    size_t most = 0;
    int i;
    if (count < 3) {
        fprintf(stderr, "usage: stack MOST FILE..\n");
        return 2;
    }
    for (i = 2; i < count; i++) {
        FILE *f = fopen(words[i], "rb");
        size_t used;
        if (f == NULL) {
            fprintf(stderr, "%s cannot be read\n", words[i]);
            return 2;
        }
        used = measure(fread(file, 1, sizeof file, f));
        fclose(f);
        if (used > most) {
            most = used;
        }
    }
    printf("%lu bytes of stack\n", (unsigned long)most);
    return most > strtoul(words[1], NULL, 10);
}
