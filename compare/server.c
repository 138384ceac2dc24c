/*
 * The library behind a pipe, for a comparison on a machine for which the library is not compiled:
 * this program is for x86-64, and an emulator runs it. The other end is src/remote.rs.
 *
 * A frame on standard input is one call: its number in one octet, the arguments that go by value as
 * their octets in memory, the areas that are only read, the areas that may be written. The answer on
 * standard output is the struct that the call answers and then, for each area that may be written,
 * the octets that the call has changed. Numbers are of 4 octets, the least significant first.
 *
 * An area in a frame is its length, then from where on and how many octets follow, then those octets:
 * just the ones that are new. Both ends remember what each area last held, for most of a store stays
 * as it was. An area in an answer is from where on, how many, and the octets.
 *
 * It ends with the input, or with a message and status 2 where a frame cannot be understood or a call
 * has written what it was not lent to write.
 */
#include <stdint.h>
#include <stdio.h>
#include <stdlib.h>
#include <string.h>

#include "egrynnol.h"

#define MOST 65536   /* octets of an area at most */
#define GUARD 64     /* octets on both sides of an area, which no call may write */
#define FILL 0xA5    /* what an area holds at first, here and at the other end */
#define STEP 512     /* octets that are compared at a time */
#define BUFFER 131072

enum call { OPENING, ARRIVAL, CLOCK, RELEASE, DELIVERY, SENDING };

/* Now, and before the call. The area lent is the octets from GUARD on. */
struct area {
    size_t length;
    uint8_t now[GUARD + MOST + GUARD];
    uint8_t before[GUARD + MOST + GUARD];
};

/* An area for each argument, so that what it held last is most likely what it will hold next. */
static struct area summary, registry, store, report, parameter, origin, destination, data, area;

/* Nothing more is written, so that no answer of a call that went wrong gets out. */
static void fail(const char *why)
{
    fprintf(stderr, "server: %s\n", why);
    _Exit(2);
}

static void take(void *to, size_t length)
{
    if (fread(to, 1, length, stdin) != length)
        fail("the input ends inside a frame");
}

static uint32_t take_number(void)
{
    uint32_t number;
    take(&number, sizeof number);
    return number;
}

/* What cannot be written is seen where the answer is flushed. */
static void give(const void *from, size_t length)
{
    fwrite(from, 1, length, stdout);
}

static void give_number(size_t number)
{
    uint32_t narrow = (uint32_t)number;
    give(&narrow, sizeof narrow);
}

static void fill(struct area *a)
{
    memset(a->now, FILL, sizeof a->now);
    memset(a->before, FILL, sizeof a->before);
}

/* The new octets of an area; where it starts, which is never NULL. */
static uint8_t *lend(struct area *a)
{
    size_t length = take_number(), from = take_number(), count = take_number();
    if (length > MOST)
        fail("an area is too long");
    if (from > length || count > length - from)
        fail("new octets outside of their area");
    take(a->now + GUARD + from, count);
    memcpy(a->before + GUARD + from, a->now + GUARD + from, count);
    a->length = length;
    return a->now + GUARD;
}

/* The same for the summary, which has one length. The octets lie as its numbers have to. */
static egrynnol_summary *lend_summary(void)
{
    void *numbers = lend(&summary);
    if (summary.length != sizeof(egrynnol_summary))
        fail("the summary has another length");
    return numbers;
}

/* Two stretches of STEP octets. The whole store is gone through after each call that is lent it, and
 * under an emulator memcmp takes longer than this. */
static int same(const uint8_t *left, const uint8_t *right)
{
    uint64_t difference = 0;
    for (size_t i = 0; i < STEP; i += sizeof difference) {
        uint64_t l, r;
        memcpy(&l, left + i, sizeof l);
        memcpy(&r, right + i, sizeof r);
        difference |= l ^ r;
    }
    return difference == 0;
}

/* The first octet that a call has changed, guards included, and the end of the changed ones. */
static size_t changed(const struct area *a, size_t *first)
{
    size_t from = 0, to = GUARD + a->length + GUARD;
    while (to - from >= STEP && same(a->before + from, a->now + from))
        from += STEP;
    while (from < to && a->before[from] == a->now[from])
        from++;
    while (to - from >= STEP && same(a->before + to - STEP, a->now + to - STEP))
        to -= STEP;
    while (from < to && a->before[to - 1] == a->now[to - 1])
        to--;
    *first = from;
    return to;
}

/* After the call: an area that was lent to be read. */
static void keep(const struct area *a)
{
    size_t from, to = changed(a, &from);
    if (from < to)
        fail("a call has written to an area that it may only read, or beside it");
}

/* After the call: an area that was lent to be written. */
static void give_back(struct area *a)
{
    size_t from, to = changed(a, &from);
    if (from == to)
        from = to = GUARD;
    if (from < GUARD || to > GUARD + a->length)
        fail("a call has written beside an area");
    memcpy(a->before + from, a->now + from, to - from);
    give_number(from - GUARD);
    give_number(to - from);
    give(a->now + from, to - from);
}

static void make_opening(void)
{
    uint32_t timer = take_number(), clock = take_number();
    uint8_t *records = lend(&registry);
    egrynnol_summary *rows = lend_summary();
    egrynnol_opened answer = egrynnol_opening(rows, records, registry.length, timer, clock);
    give(&answer, sizeof answer);
    keep(&registry);
    give_back(&summary);
}

static void make_arrival(void)
{
    egrynnol_table table;
    uint16_t association;
    take(&table, sizeof table);
    uint32_t time = take_number();
    take(&association, sizeof association);
    uint8_t *p = lend(&parameter);
    egrynnol_summary *rows = lend_summary();
    uint8_t *s = lend(&store), *r = lend(&report);
    egrynnol_received answer =
        egrynnol_arrival(table, rows, s, store.length, r, report.length, time, association, p, parameter.length);
    give(&answer, sizeof answer);
    keep(&parameter);
    give_back(&summary);
    give_back(&store);
    give_back(&report);
}

static void make_clock(void)
{
    egrynnol_table table;
    take(&table, sizeof table);
    uint32_t time = take_number();
    egrynnol_summary *rows = lend_summary();
    uint8_t *r = lend(&report);
    egrynnol_swept answer = egrynnol_clock(table, rows, r, report.length, time);
    give(&answer, sizeof answer);
    give_back(&summary);
    give_back(&report);
}

static void make_release(void)
{
    egrynnol_table table;
    uint16_t association;
    take(&table, sizeof table);
    take(&association, sizeof association);
    egrynnol_summary *rows = lend_summary();
    uint8_t *r = lend(&report);
    egrynnol_swept answer = egrynnol_release(table, rows, r, report.length, association);
    give(&answer, sizeof answer);
    give_back(&summary);
    give_back(&report);
}

static void make_delivery(void)
{
    egrynnol_decision decision;
    take(&decision, sizeof decision);
    uint8_t *p = lend(&parameter), *s = lend(&store);
    egrynnol_part answer = egrynnol_delivery(decision, p, parameter.length, s, store.length);
    give(&answer, sizeof answer);
    keep(&parameter);
    keep(&store);
}

static void make_sending(void)
{
    egrynnol_table table;
    egrynnol_request request;
    take(&table, sizeof table);
    take(&request, sizeof request);
    uint8_t *o = lend(&origin), *d = lend(&destination), *n = lend(&data), *a = lend(&area);
    egrynnol_sent answer = egrynnol_sending(table, request, o, origin.length, d, destination.length,
                                            n, data.length, a, area.length);
    give(&answer, sizeof answer);
    keep(&origin);
    keep(&destination);
    keep(&data);
    give_back(&area);
}

static void make(int call)
{
    switch (call) {
    case OPENING: make_opening(); break;
    case ARRIVAL: make_arrival(); break;
    case CLOCK: make_clock(); break;
    case RELEASE: make_release(); break;
    case DELIVERY: make_delivery(); break;
    case SENDING: make_sending(); break;
    default: fail("no call has this number");
    }
}

int main(void)
{
    struct area *areas[] = {&summary, &registry, &store, &report, &parameter,
                            &origin, &destination, &data, &area};
    for (size_t i = 0; i < sizeof areas / sizeof areas[0]; i++)
        fill(areas[i]);
    setvbuf(stdin, NULL, _IOFBF, BUFFER);
    setvbuf(stdout, NULL, _IOFBF, BUFFER);
    for (int call = getchar(); call != EOF; call = getchar()) {
        make(call);
        if (fflush(stdout) != 0 || ferror(stdout))
            fail("the answer cannot be written");
    }
    if (ferror(stdin))
        fail("the input cannot be read");
    return 0;
}
