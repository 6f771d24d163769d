/* The lease broker's run, its report and the names of its numbers, for programs in C. Link target/staticlib/libembed.a, which
 * examples/c/run writes; docs/EMBEDDING.md says how, and what a call costs.
 *
 * Each call answers every argument that keeps the following, and no contract holds of one that doesn't: nothing tests it.
 * - A pointer that stands before a length is valid for that many bytes. With the length 0 it is not looked at, and may be null.
 * - counts and written are not null, and aligned as their types want.
 * - No two arguments overlap, and nothing else writes to them before the call returns. A trace is only read.
 * - A length is below 2^63, as every object's is.
 * - The stack has room for the call: docs/EMBEDDING.md gives the figures.
 * What stands in out, counts and written before the call is never read: they need not be set. A call writes the bytes that it tells of
 * and no others. It keeps no pointer, no store and no other state: calls on separate arguments may run at the same time. */
#ifndef LEASE_BROKER_H
#define LEASE_BROKER_H

#include <stddef.h>
#include <stdint.h>

#ifdef __cplusplus
extern "C" {
#endif

/* The numbers with which a command is answered (0 to 10) or a run stopped (0, 11 and 12; a report also 7). */
enum lease_broker_number {
    LEASE_BROKER_DONE = 0,
    LEASE_BROKER_UNKNOWN = 1,
    LEASE_BROKER_REVOKED = 2,
    LEASE_BROKER_CONFLICT = 3,
    LEASE_BROKER_RELIED = 4,
    LEASE_BROKER_VISIBLE = 5,
    LEASE_BROKER_RELEASED = 6,
    LEASE_BROKER_CAPACITY = 7,
    LEASE_BROKER_INVALID_STATE = 8,
    LEASE_BROKER_BAD_TABLE = 9,
    LEASE_BROKER_ABSENT = 10,
    LEASE_BROKER_BAD_LINE = 11,
    LEASE_BROKER_NO_ROOM = 12
};

/* The room that must be left before each block of a trace; no answer is longer. */
#define LEASE_BROKER_ANSWER_ROOM 96

/* The room that holds every name. */
#define LEASE_BROKER_NAME_ROOM 12

/* The longest trace that a report runs, and the room that holds every report. */
#define LEASE_BROKER_LONGEST 65536
#define LEASE_BROKER_REPORT_ROOM 65600

/* How far a run came. */
struct lease_broker_counts {
    uint64_t blocks;  /* blocks done; a command that is refused is a block done too: it has an answer */
    uint64_t read;    /* bytes read, up to the start of the block that stopped the run */
    uint64_t written; /* bytes written, from the start of out */
};

/* Runs a trace of command blocks from an empty store without domain, and writes the answers into out, one after the other. Answers the
 * stop number. Before each block:
 *    0 (Done)     the trace is at its end; an empty trace stops here, whatever the room;
 *   12 (NoRoom)   else fewer than 96 bytes of out are left; an out of 0 to 95 bytes gets this for any trace that isn't empty;
 *   11 (BadLine)  else the block is wrong, or unfinished: the line feed that ends its last line counts.
 * No other number stops it. Where it stops, nothing is carried out and nothing written: counts tells of the blocks before. The bytes of out after
 * counts->written stay as they were. The store is gone when the call returns; a trace that stopped is run again from its start. */
uint64_t lease_broker_run(const uint8_t *trace, size_t trace_len, uint8_t *out, size_t out_len, struct lease_broker_counts *counts);

/* Writes the report of a trace into out, as the program `broker` prints it: the answers of a run with 65,536 bytes of room for them, and
 * the line stop=NUMBER NAME. Answers the number that the line tells, and sets written to the report's length:
 *    0, 11, 12    as lease_broker_run stops, with the answers so far;
 *    7 (Capacity) the trace is longer than 65,536 bytes: nothing is run, and the report is this line alone;
 *   12 and written 0: out is shorter than 65,600 bytes: nothing is run, and out is left as it is.
 * The bytes of out after the report stay as they were. */
uint64_t lease_broker_report(const uint8_t *trace, size_t trace_len, uint8_t *out, size_t out_len, uint64_t *written);

/* Writes the name of a number into out, with no 0 after it, and answers its length: 0 is Done, 1 to 12 have the names of the refusals,
 * any other number is unnamed. An out shorter than 12 bytes is left as it is, and answered 0. Bytes after the name stay as they were. */
uint64_t lease_broker_name(uint64_t number, uint8_t *out, size_t out_len);

#ifdef __cplusplus
}
#endif

#endif
