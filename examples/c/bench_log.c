/* A bench log: traces of boxes, run by the lease broker's library, and what a program makes of the answers. A reclaim that is answered 0
 * hands over a handle, and a replace the earlier one: the key at that place is to be erased. A run that stopped before the trace's end has
 * left handles where they were: the box is kept back. The library erases nothing itself. Then calls with bad arguments, and what they get. */
#include "lease_broker.h"

#include <inttypes.h>
#include <stdbool.h>
#include <stdio.h>
#include <string.h>

/* A publication, a lease on it, and its end: revoked, drained, reclaimed. */
static const char whole_case[] =
    "op=publish\nowner=4\ngeneration=0\nport=7\npayload=900\n"
    "op=acquire\nid=0\nowner=5\ngeneration=1\n"
    "op=revoke\nid=0\n"
    "op=reclaim\nid=0\n"
    "op=release\nlease=0\n"
    "op=reclaim\nid=0\n"
    "op=count\n";

/* A handle is replaced; the later one is revoked, and stays: the lease is not back. */
static const char lease_out[] =
    "op=publish\nowner=4\ngeneration=0\nport=7\npayload=900\n"
    "op=replace\nid=0\nowner=4\ngeneration=0\npayload=901\n"
    "op=acquire\nid=0\nowner=5\ngeneration=1\n"
    "op=revoke\nid=0\n"
    "op=reclaim\nid=0\n"
    "op=count\n";

/* The room of this log. One byte more than a report needs, so that a byte is left that nobody may write. */
static uint8_t out[LEASE_BROKER_REPORT_ROOM + 1];
static uint8_t too_long[LEASE_BROKER_LONGEST + 1];

enum { UNWRITTEN = '#' };

static const uint8_t *bytes(const char *text) { return (const uint8_t *)text; }

static void clear_out(void) { memset(out, UNWRITTEN, sizeof out); }

/* Whether all of out after its first n bytes is as clear_out left it. */
static bool rest_is_unwritten(uint64_t n)
{
    for (size_t i = n; i < sizeof out; i++) {
        if (out[i] != UNWRITTEN) {
            return false;
        }
    }
    return true;
}

static void print_name(uint64_t number)
{
    uint8_t name[LEASE_BROKER_NAME_ROOM];
    uint64_t length = lease_broker_name(number, name, sizeof name);
    printf("%" PRIu64 " %.*s", number, (int)length, (const char *)name);
}

static void print_end(uint64_t stop, const struct lease_broker_counts *counts)
{
    printf("stop=");
    print_name(stop);
    printf(" blocks=%" PRIu64 " read=%" PRIu64 " written=%" PRIu64 ", %s\n", counts->blocks, counts->read, counts->written,
           rest_is_unwritten(counts->written) ? "the rest of the output untouched" : "BYTES AFTER THE ANSWERS CHANGED");
}

/* Runs a trace into the first `room` bytes of out, and prints how it ended. */
static uint64_t run(const char *trace, size_t room, struct lease_broker_counts *counts)
{
    clear_out();
    uint64_t stop = lease_broker_run(bytes(trace), strlen(trace), out, room, counts);
    print_end(stop, counts);
    return stop;
}

/* The start of the next op line's word, from a place in a trace on. The caller sees to it that there is one. */
static const char *next_op(const char *at)
{
    while (strncmp(at, "op=", 3) != 0) {
        at = strchr(at, '\n') + 1;
    }
    return at + 3;
}

/* The number in a line KEY=NUMBER, where it has that key. */
static bool has_key(const char *line, const char *key, uint64_t *value)
{
    size_t n = strlen(key);
    return strncmp(line, key, n) == 0 && line[n] == '=' && sscanf(line + n + 1, "%" SCNu64, value) == 1;
}

/* Whether a payload in the answer to this op word is a handle that the broker gives up. */
static bool hands_over(const char *op) { return strncmp(op, "reclaim\n", 8) == 0 || strncmp(op, "replace\n", 8) == 0; }

/* Prints the answers in out, each beside its command: the n-th answer is that of the trace's n-th op line. Says what is to be erased, and
 * answers the count if the last command done was one, and otherwise anything but 0. */
static uint64_t print_answers(const char *trace, uint64_t written)
{
    static char text[sizeof out + 1];
    memcpy(text, out, written);
    text[written] = 0;

    const char *op = trace;
    uint64_t left = UINT64_MAX;
    for (char *line = text; *line != 0; line = strchr(line, '\n') + 1) {
        int length = (int)strcspn(line, "\n");
        uint64_t value = 0;
        if (has_key(line, "answer", &value)) {
            op = next_op(op);
            left = UINT64_MAX;
            printf("  %.*s: ", (int)strcspn(op, "\n"), op);
            print_name(value);
            printf("\n");
            continue;
        }
        printf("    %.*s\n", length, line);
        if (hands_over(op) && has_key(line, "payload", &value)) {
            printf("    to erase: the key at %" PRIu64 "\n", value);
        }
        if (has_key(line, "count", &value)) {
            left = value;
        }
    }
    return left;
}

/* The log of one box. Where the room was too small the trace is run again from its start, with twice the room. */
static void log_box(const char *title, const char *trace, size_t room)
{
    struct lease_broker_counts counts;
    printf("%s, %zu bytes of room\n", title, room);
    uint64_t stop = run(trace, room, &counts);
    uint64_t left = print_answers(trace, counts.written);
    while (stop == LEASE_BROKER_NO_ROOM && room <= sizeof out / 2) {
        room *= 2;
        printf("not at the end: the box is kept back. Again, with %zu bytes of room\n", room);
        stop = run(trace, room, &counts);
        left = print_answers(trace, counts.written);
    }
    printf("%s\n\n", stop == LEASE_BROKER_DONE && left == 0 ? "nothing is retained: once all of the above is erased, the box may go"
                                                           : "the box is kept back");
}

static void print_report(const char *title, const uint8_t *trace, size_t length, size_t room)
{
    uint64_t written = 77;
    clear_out();
    uint64_t stop = lease_broker_report(trace, length, out, room, &written);
    printf("%s: answered ", title);
    print_name(stop);
    printf(", %" PRIu64 " bytes, %s\n", written, rest_is_unwritten(written) ? "the rest of the output untouched" : "BYTES AFTER THE REPORT CHANGED");
    fwrite(out, 1, written, stdout);
}

static void bad_use(void)
{
    struct lease_broker_counts counts;

    printf("no trace and no output, both pointers null\n  ");
    clear_out();
    print_end(lease_broker_run(NULL, 0, NULL, 0, &counts), &counts);
    printf("a trace, and an output of 0 bytes at a null pointer\n  ");
    print_end(lease_broker_run(bytes("op=count\n"), 9, NULL, 0, &counts), &counts);
    printf("95 bytes of room, and 96\n  ");
    run("op=count\n", 95, &counts);
    printf("  ");
    run("op=count\n", 96, &counts);
    printf("no last line feed\n  ");
    run("op=count", 96, &counts);
    printf("no block at all: 95 bytes of room, and 96\n  ");
    run("noise", 95, &counts);
    printf("  ");
    run("noise", 96, &counts);
    printf("a port of 4294967296, after a block that is right\n  ");
    run("op=count\nop=resolve\nport=4294967296\n", 4096, &counts);

    printf("a name into 11 bytes, and into 12\n  ");
    clear_out();
    uint64_t length = lease_broker_name(LEASE_BROKER_INVALID_STATE, out, 11);
    printf("%" PRIu64 " bytes, %s\n  ", length, rest_is_unwritten(length) ? "the output untouched" : "BYTES CHANGED");
    length = lease_broker_name(LEASE_BROKER_INVALID_STATE, out, 12);
    printf("%" PRIu64 " bytes, %s\n", length, rest_is_unwritten(length) ? "the rest of the output untouched" : "BYTES AFTER THE NAME CHANGED");

    memset(too_long, 'x', sizeof too_long);
    print_report("a report into 65599 bytes", bytes(whole_case), strlen(whole_case), LEASE_BROKER_REPORT_ROOM - 1);
    print_report("a report on 65537 bytes of trace", too_long, sizeof too_long, LEASE_BROKER_REPORT_ROOM);
    print_report("a report on 65536 bytes that are no blocks", too_long, sizeof too_long - 1, LEASE_BROKER_REPORT_ROOM);
}

int main(void)
{
    log_box("whole case", whole_case, 4096);
    log_box("whole case", whole_case, 128);
    log_box("a lease that is not back", lease_out, 4096);
    print_report("the whole case's report", bytes(whole_case), strlen(whole_case), LEASE_BROKER_REPORT_ROOM);
    printf("\n");
    bad_use();

    printf("\nthe names:");
    for (uint64_t number = 0; number <= LEASE_BROKER_NO_ROOM + 1; number++) {
        printf(number == 0 ? " " : ", ");
        print_name(number);
    }
    printf(", ");
    print_name(UINT64_MAX);
    printf("\n");
    return 0;
}
