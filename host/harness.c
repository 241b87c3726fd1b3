/*
 * The C caller.
 *   harness check FILE..   each file, and files made here, with buffers of many lengths and guard bytes around them
 *   harness serve          files on standard input, each after its length in four bytes, the lowest first;
 *                          for each the answer in eight bytes, the lowest first, and the listing
 */
#include <stdint.h>
#include <stdio.h>
#include <stdlib.h>
#include <string.h>

#include "pstore.h"

enum { GUARD = 64, PAINT = 0xA5 };

static unsigned long tried;

static void fail(const char *what, const char *name, size_t room)
{
    fprintf(stderr, "%s: %s, with room for %lu bytes\n", name, what, (unsigned long)room);
    exit(1);
}

static void *space(size_t n)
{
    void *p = malloc(n == 0 ? 1 : n);
    if (p == NULL) {
        fprintf(stderr, "no memory\n");
        exit(1);
    }
    return p;
}

/* Are the n bytes at p as they were painted? */
static int painted(const uint8_t *p, size_t n)
{
    size_t i;
    for (i = 0; i < n; i++) {
        if (p[i] != PAINT) {
            return 0;
        }
    }
    return 1;
}

/* One call with a painted buffer of room bytes between guards. The listing, where there is one, is left at the start of listing. */
static int64_t call(const char *name, const uint8_t *file, size_t length, uint8_t *listing, size_t room)
{
    uint8_t *all = space(room + 2 * GUARD);
    uint8_t *out = all + GUARD;
    uint8_t *given = space(length);
    int64_t r;
    size_t used;

    memcpy(given, file, length);
    memset(all, PAINT, room + 2 * GUARD);
    r = pstore_list(given, length, out, room);
    tried++;
    used = r > 0 ? (size_t)r : 0;
    if (used > room) {
        fail("the answer is more than there is room for", name, room);
    }
    if (memcmp(given, file, length) != 0) {
        fail("the file was written to", name, room);
    }
    if (!painted(all, GUARD) || !painted(out + room, GUARD)) {
        fail("a byte outside the buffer was written", name, room);
    }
    if (!painted(out + used, room - used)) {
        fail("a byte past the listing, or of a refused file's buffer, was written", name, room);
    }
    memcpy(listing, out, used);
    free(given);
    free(all);
    return r;
}

/* With room for every file, then with every length near the needed one. */
static void check(const char *name, const uint8_t *file, size_t length)
{
    uint8_t *whole = space(PSTORE_ROOM);
    uint8_t *again = space(PSTORE_ROOM);
    int64_t r = call(name, file, length, whole, PSTORE_ROOM);
    size_t needed = r > 0 ? (size_t)r : 0;
    size_t low = needed > 12 ? needed - 12 : 0;
    size_t room;

    for (room = low; room <= needed + 12; room++) {
        int64_t q = call(name, file, length, again, room);
        int64_t due = r < 0 ? r : room < needed ? -9 : r;
        if (q != due) {
            fail("another answer than with room enough", name, room);
        }
        if (q > 0 && memcmp(whole, again, needed) != 0) {
            fail("another listing than with room enough", name, room);
        }
    }
    if (call(name, file, length, again, 0) != (r < 0 ? r : needed > 0 ? -9 : 0)) {
        fail("another answer than with room enough", name, 0);
    }
    free(again);
    free(whole);
}

static void expect(const char *name, const uint8_t *file, size_t length, int64_t due)
{
    uint8_t *listing = space(PSTORE_ROOM);
    if (call(name, file, length, listing, PSTORE_ROOM) != due) {
        fail("not the answer that is due", name, PSTORE_ROOM);
    }
    free(listing);
    check(name, file, length);
}

/* Files at the limits: no bytes, one too many, and a schedule that fills a file to its last byte. */
static void limits(void)
{
    static const uint8_t setup[] = {
        0x01, 0, 4, 0, 0, 0, 5, 0x02, 0, 9, 1, 0, 0, 0, 0, 0, 0, 0, 1, 0x0F, 0, 0};
    uint8_t *file = space(PSTORE_FILE + 1);
    uint8_t *listing = space(PSTORE_ROOM);
    size_t i;

    expect("empty", file, 0, -2);
    if (pstore_list(NULL, 0, NULL, 0) != -2) {
        fail("not the answer that is due", "null and empty", 0);
    }
    memset(file, 0, PSTORE_FILE + 1);
    expect("60,000 zeros", file, PSTORE_FILE, -3);
    expect("60,001 zeros", file, PSTORE_FILE + 1, -1);
    memcpy(file, setup, sizeof setup);
    for (i = sizeof setup; i + 4 <= PSTORE_FILE; i += 4) {
        file[i] = 0x12;
        file[i + 1] = 0;
        file[i + 2] = 1;
        file[i + 3] = 0;
    }
    expect("a schedule cut in its last record", file, PSTORE_FILE, -2);
    expect("a long schedule with one byte too many", file, PSTORE_FILE + 1, -1);
    if (call("a long schedule", file, i, listing, PSTORE_ROOM) <= 0) {
        fail("no listing", "a long schedule", PSTORE_ROOM);
    }
    check("a schedule of a hundred steps", file, sizeof setup + 400);
    free(listing);
    free(file);
}

static size_t read_file(const char *name, uint8_t *into, size_t room)
{
    FILE *f = fopen(name, "rb");
    size_t n;
    if (f == NULL) {
        fail("it cannot be read", name, 0);
    }
    n = fread(into, 1, room, f);
    fclose(f);
    return n;
}

static int serve(void)
{
    uint8_t *file = space(PSTORE_FILE + 1000);
    uint8_t *out = space(PSTORE_ROOM);
    uint8_t head[8];

    while (fread(head, 1, 4, stdin) == 4) {
        size_t length = head[0] | (size_t)head[1] << 8 | (size_t)head[2] << 16 | (size_t)head[3] << 24;
        uint64_t r;
        int64_t answer;
        int i;
        if (length > PSTORE_FILE + 1000 || fread(file, 1, length, stdin) != length) {
            return 1;
        }
        answer = pstore_list(file, length, out, PSTORE_ROOM);
        r = (uint64_t)answer;
        for (i = 0; i < 8; i++) {
            head[i] = (uint8_t)(r >> (8 * i));
        }
        fwrite(head, 1, 8, stdout);
        if (answer > 0) {
            fwrite(out, 1, (size_t)answer, stdout);
        }
        fflush(stdout);
    }
    return 0;
}

int main(int count, char **words)
{
    int i;
    if (count == 2 && strcmp(words[1], "serve") == 0) {
        return serve();
    }
    if (count >= 2 && strcmp(words[1], "check") == 0) {
        uint8_t *file = space(PSTORE_FILE + 1000);
        limits();
        for (i = 2; i < count; i++) {
            check(words[i], file, read_file(words[i], file, PSTORE_FILE + 1000));
        }
        free(file);
        printf("%d files and those at the limits, %lu calls: answers, listings and guards as they must be\n", count - 2, tried);
        return 0;
    }
    fprintf(stderr, "usage: harness check FILE.. | harness serve\n");
    return 2;
}
