/* record.h: the record of a run, in pieces, each a file. A piece is a stream into memory, and a thread writes what is
 * new to the file, so that no pass waits for a disk: the next piece begins at once, in a second buffer. What could not
 * be written, or not before the piece after the next began, ends the record, and not the run. */
#ifndef RECORD_H
#define RECORD_H
#include <sched.h>
#include <stdbool.h>
#include <stdint.h>
#include <stdio.h>

#define RECORD_MOST ((uint64_t)1 << 26) /* what caladan_sim reads, in bytes: the table, a line of dashes, and a piece */
enum { RECORD_END_PASSES = 256 };       /* the most passes while a piece ends */

typedef struct record record;

/* A record in a new folder of its own in `folder`, NAME-1 or the first number that is free, with the table in it.
 * `bytes`: about the most of a piece, for passes of so many threads; what writes runs on the processors `writers`, if
 * there are any. Ends the process where it cannot be begun. */
record *record_open(const char *folder, const char *name, const char *table, uint64_t bytes, unsigned threads,
                    const cpu_set_t *writers);
const char *record_path(const record *r);
FILE *record_file(record *r);
bool record_is_full(const record *r);
/* Each of these: false, and it is said, where nothing is recorded any more. */
bool record_begin_piece(record *r, uint64_t number);
bool record_end_piece(record *r, uint64_t passes);
bool record_keeps_up(record *r);
/* Waits until all whole pieces are written, also of a record that has ended before; some seconds at most. False: the
 * record is not whole, and it was said. */
bool record_close(record *r);
#endif
