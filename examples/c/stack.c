/* The stack that each call of the library needs. A thread gets a stack that is filled with a pattern, makes the call, and looks for the
 * lowest byte that is not the pattern any more: what lies between that byte and the caller's frame, the call has used. */
#define _POSIX_C_SOURCE 200809L
#include "lease_broker.h"

#include <pthread.h>
#include <stdio.h>
#include <stdlib.h>
#include <string.h>

/* Each command once, with numbers of 20 digits to write: no call goes deeper than the digits of an answer. */
static const char trace[] =
    "op=publish\nowner=4\ngeneration=0\nport=7\npayload=18446744073709551615\n"
    "op=adopt\nid=0\nowner=4\ngeneration=1\n"
    "op=acquire\nid=0\nowner=5\ngeneration=1\n"
    "op=read\nlease=0\n"
    "op=observe\nid=0\n"
    "op=resolve\nport=7\n"
    "op=replace\nid=0\nowner=4\ngeneration=1\npayload=18446744073709551614\n"
    "op=revoke\nid=0\n"
    "op=release\nlease=0\n"
    "op=reclaim\nid=0\n"
    "op=count\n";

enum { SIZE = 1 << 20, PATTERN = 0xa5 };
static _Alignas(4096) uint8_t stack[SIZE];
static uint8_t out[LEASE_BROKER_REPORT_ROOM];
static size_t used;

static void no_call(void) {}

static void run(void)
{
    struct lease_broker_counts counts;
    uint64_t stop = lease_broker_run((const uint8_t *)trace, sizeof trace - 1, out, sizeof out, &counts);
    if (stop != LEASE_BROKER_DONE || counts.blocks != 11) {
        abort();
    }
}

static void report(void)
{
    uint64_t written = 0;
    if (lease_broker_report((const uint8_t *)trace, sizeof trace - 1, out, sizeof out, &written) != LEASE_BROKER_DONE) {
        abort();
    }
}

static void name(void)
{
    if (lease_broker_name(LEASE_BROKER_INVALID_STATE, out, sizeof out) != LEASE_BROKER_NAME_ROOM) {
        abort();
    }
}

static void (*volatile call)(void);

static void *measured(void *unused)
{
    volatile uint8_t here = 0;
    call();
    size_t lowest = 0;
    while (stack[lowest] == PATTERN) {
        lowest++;
    }
    used = (size_t)((uintptr_t)&here - (uintptr_t)&stack[lowest]);
    return unused;
}

static void measure(const char *title, void (*what)(void))
{
    pthread_attr_t attributes;
    pthread_t thread;
    memset(stack, PATTERN, sizeof stack);
    call = what;
    if (pthread_attr_init(&attributes) != 0 || pthread_attr_setstack(&attributes, stack, sizeof stack) != 0
        || pthread_create(&thread, &attributes, measured, NULL) != 0 || pthread_join(thread, NULL) != 0) {
        abort();
    }
    printf("%s: %zu bytes\n", title, used);
}

int main(void)
{
    run(); /* so that the dynamic linker's work, done at the first call of memcpy, is not measured */
    measure("no call", no_call);
    measure("lease_broker_run", run);
    measure("lease_broker_report", report);
    measure("lease_broker_name", name);
    return 0;
}
