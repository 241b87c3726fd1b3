/*
 * pstore: what a schedule of a partially replicated store commits and aborts.
 *
 * A file holds tables (keys, groups of sites, transactions) and a schedule of steps; README.md has its
 * format. The listing has one line for each step, each transaction and each key that a site holds.
 */
#ifndef PSTORE_H
#define PSTORE_H

#include <stddef.h>
#include <stdint.h>

#ifdef __cplusplus
extern "C" {
#endif

/* A buffer of so many bytes holds the listing of every file. */
#define PSTORE_ROOM 774912

/* The most bytes that a file may have. */
#define PSTORE_FILE 60000

/*
 * Writes the listing of the file_length bytes at file into the out_length bytes at out and returns its
 * length, which is not negative. Bytes of out past the listing stay as they were; no zero byte is added.
 *
 * Where there is no listing it returns minus one of these, and out stays as it was:
 *    1  the file has over 60,000 bytes
 *    2  fewer than 3 bytes where a record must start, or a body that is cut short
 *    3  a tag that is not allowed at its place
 *    4  a record of the wrong length
 *    5  a count or a number out of range
 *    6  a key twice among the reads, or twice among the writes, of one transaction
 *    7  at END, a key that no group holds
 *    9  out is too short for the listing
 * A fault of the file comes before 9. Steps that the protocol refuses are no fault of the file: the
 * listing says so in their lines.
 *
 * file and out may be null where their length is 0; they must not overlap. Any bytes may be handed in.
 * The function keeps nothing between calls, takes no memory from the heap and opens nothing, so calls
 * from several threads need no lock. With an out of less than PSTORE_ROOM bytes the schedule is run
 * twice, the first time for its length. A call takes at most 256 KB of stack (measured: 145,352 bytes).
 */
int64_t pstore_list(const uint8_t *file, size_t file_length, uint8_t *out, size_t out_length);

#ifdef __cplusplus
}
#endif

#endif
