/*
 * The inline functions of egrynnol.h, which no proof covers: every name, every field of a record, the
 * header's length beside what sending writes, a delivery for every kind of decision, and the row of an
 * association. Also what the header says of the lengths of lent areas, of both addresses in places and in
 * records, of the octet that a refused parameter is refused for, of an arrival's two parts, and of a summary
 * and a table that the host hands over.
 * Prints one line; the first thing that is not as expected ends it with status 1.
 */
#include <stdio.h>
#include <stdlib.h>
#include <string.h>

#include "egrynnol.h"

#define CHECK(truth) check((truth), #truth, __LINE__)

static egrynnol_summary summary;
static uint8_t store[EGRYNNOL_STORE];
static uint8_t report[EGRYNNOL_REPORT_ARRIVAL + 1]; /* an octet more than any call writes */

static void check(int truth, const char *what, int line)
{
    if (!truth) {
        fprintf(stderr, "header.c:%d: not so: %s\n", line, what);
        exit(1);
    }
}

/* Known numbers have names of their own, and every other number has the one answer. */
static void names(const char *(*name)(unsigned), unsigned first, unsigned last)
{
    unsigned a, b;

    for (a = first; a <= last; a++) {
        CHECK(name(a)[0] != '\0' && strcmp(name(a), "unknown") != 0);
        for (b = first; b < a; b++)
            CHECK(strcmp(name(a), name(b)) != 0);
    }
    for (a = last + 1; a <= 256; a++)
        CHECK(strcmp(name(a), "unknown") == 0);
    CHECK(strcmp(name(~0u), "unknown") == 0);
}

static void all_names(void)
{
    names(egrynnol_refusal_name, EGRYNNOL_GOOD, EGRYNNOL_REFUSAL_PADDED);
    names(egrynnol_cause_name, 0, EGRYNNOL_CAUSE_RELEASE);
    names(egrynnol_decision_name, EGRYNNOL_REFUSED, EGRYNNOL_LOST);
    CHECK(strcmp(egrynnol_refusal_name(EGRYNNOL_REFUSAL_FULL), "no place free") == 0);
    CHECK(strcmp(egrynnol_refusal_name(EGRYNNOL_REFUSAL_TABLE), "table or summary not sound") == 0);
    CHECK(EGRYNNOL_REFUSAL_ROW == 21 && strcmp(egrynnol_refusal_name(21), "no row for the association") == 0);
    CHECK(EGRYNNOL_REFUSAL_TOTAL == 22 && strcmp(egrynnol_refusal_name(22), "total too large") == 0);
    CHECK(EGRYNNOL_REFUSAL_PADDED == 23 && strcmp(egrynnol_refusal_name(23), "context padded") == 0);
    CHECK(strcmp(egrynnol_cause_name(EGRYNNOL_CAUSE_TIMER), "timer") == 0);
    CHECK(strcmp(egrynnol_decision_name(EGRYNNOL_DELIVERED_STORE), "delivered from the store") == 0);
}

static void versions(void)
{
    char text[40];

    sprintf(text, "%d.%d.%d", EGRYNNOL_VERSION_MAJOR, EGRYNNOL_VERSION_MINOR, EGRYNNOL_VERSION_PATCH);
    CHECK(strcmp(text, EGRYNNOL_VERSION_STRING) == 0);
    CHECK(EGRYNNOL_VERSION == EGRYNNOL_VERSION_MAJOR * 1000000 + EGRYNNOL_VERSION_MINOR * 1000 + EGRYNNOL_VERSION_PATCH);
    sprintf(text, "egrynnol_%d_clock", EGRYNNOL_INTERFACE);
    CHECK(strcmp(text, EGRYNNOL_SYMBOL("clock")) == 0);
}

/* Every octet of a record has a number of its own, and the record before it others. */
static void records(void)
{
    egrynnol_record record;
    unsigned k;

    for (k = 0; k < 2 * EGRYNNOL_RECORD; k++)
        report[k] = (uint8_t)(200 - k);
    record = egrynnol_record_at(report, 1);
    CHECK(record.kind == 147);
    CHECK(record.association == 146 * 256 + 145);
    CHECK(record.context == 144 * 256 + 143);
    CHECK(record.reference == 142);
    CHECK(record.instruction == 141);
    CHECK(record.cause == 140);
    CHECK(record.segments == 139);
    CHECK(record.octets == 138 * 256 + 137);
    CHECK(record.origin_length == 136);
    CHECK(memcmp(record.origin, report + 65, EGRYNNOL_ADDRESS) == 0);
    CHECK(record.destination_length == 115);
    CHECK(memcmp(record.destination, report + 86, EGRYNNOL_ADDRESS) == 0);
    CHECK(egrynnol_record_at(report, 0).kind == 200);
}

static egrynnol_table opened_with(unsigned kind, unsigned context)
{
    uint8_t registry[EGRYNNOL_REGISTRY_RECORD];
    egrynnol_opened opened;

    registry[0] = (uint8_t)kind;
    registry[1] = (uint8_t)(context / 256);
    registry[2] = (uint8_t)(context % 256);
    opened = egrynnol_opening(&summary, registry, sizeof registry, 100, 0);
    CHECK(opened.refusal == EGRYNNOL_GOOD);
    return opened.table;
}

/* Three octets of data as one segment: the header and three octets. */
static void header_length(unsigned kind, unsigned context, size_t origin_length, size_t destination_length)
{
    static const uint8_t data[3] = {1, 2, 3}, address[EGRYNNOL_ADDRESS] = {0};
    uint8_t area[EGRYNNOL_PARAMETER];
    egrynnol_request request;
    egrynnol_sent sent;
    size_t h = egrynnol_header_length(kind, context, origin_length, destination_length);

    request.context = (uint16_t)context;
    request.instruction = 0;
    request.reference = 0;
    request.room1 = h + 3;
    request.room = EGRYNNOL_PARAMETER;
    request.number = 0;
    sent = egrynnol_sending(opened_with(kind, context), request, address, origin_length, address, destination_length,
                            data, sizeof data, area, sizeof area);
    CHECK(sent.refusal == EGRYNNOL_GOOD && sent.count == 1 && sent.length == h + 3);
    request.room1 = h + 2;
    sent = egrynnol_sending(opened_with(kind, context), request, address, origin_length, address, destination_length,
                            data, sizeof data, area, sizeof area);
    CHECK(sent.refusal == EGRYNNOL_GOOD && sent.count == 2 && sent.length == h + 2);
}

static void header_lengths(void)
{
    static const unsigned contexts[] = {1, 3, 127, 128, 300, EGRYNNOL_CONTEXT_MOST};
    size_t i, o, d;

    for (i = 0; i < sizeof contexts / sizeof contexts[0]; i++) {
        header_length(EGRYNNOL_KIND_1998, contexts[i], 0, 0);
        for (o = 0; o <= EGRYNNOL_ADDRESS; o += 5)
            for (d = 0; d <= EGRYNNOL_ADDRESS; d += 10)
                header_length(EGRYNNOL_KIND_2000, contexts[i], o, d);
    }
}

static egrynnol_received arrives_at(uint32_t time, uint16_t association, egrynnol_table *table,
                                    const uint8_t *parameter, size_t length)
{
    egrynnol_received received = egrynnol_arrival(*table, &summary, store, sizeof store, report, sizeof report,
                                                  time, association, parameter, length);

    *table = received.table;
    return received;
}

/* The same while no time passes: the clock's work is none. */
static egrynnol_received arrives_on(uint16_t association, egrynnol_table *table, const uint8_t *parameter, size_t length)
{
    egrynnol_received received = arrives_at(table->clock, association, table, parameter, length);

    CHECK(received.timeouts == 0 && received.records <= (received.refusal == EGRYNNOL_GOOD ? 1 : 0));
    return received;
}

static egrynnol_received arrives(egrynnol_table *table, const uint8_t *parameter, size_t length)
{
    return arrives_on(9, table, parameter, length);
}

static egrynnol_taken take(egrynnol_received received, const uint8_t *parameter, size_t length)
{
    return egrynnol_take(received.decision, parameter, length, store, sizeof store);
}

static void deliveries(void)
{
    static const uint8_t whole[] = {0x83, 0x80, 0xC0, 0xAA, 0xBB};
    static const uint8_t first[] = {0x83, 0x81, 0x41, 0x85, 0xAA};
    static const uint8_t last[] = {0x83, 0x80, 0x00, 0x85, 0xBB};
    static const uint8_t other[] = {0x83, 0x81, 0x41, 0x86, 0xCC};
    static const uint8_t joined[] = {0xAA, 0xBB}, nothing[1] = {0};
    egrynnol_table table = opened_with(EGRYNNOL_KIND_1998, 3);
    egrynnol_received received;
    egrynnol_taken taken;
    egrynnol_decision made_up = {1, 2, 3, 9, 4};

    received = arrives(&table, whole, sizeof whole);
    taken = take(received, whole, sizeof whole);
    CHECK(received.decision.kind == EGRYNNOL_DELIVERED_PARAMETER && taken.octets == whole + 3 && taken.length == 2);

    received = arrives(&table, other, sizeof other);
    CHECK(received.decision.kind == EGRYNNOL_SAVED && take(received, other, sizeof other).length == 0);
    received = arrives(&table, first, sizeof first);
    CHECK(received.decision.kind == EGRYNNOL_SAVED && received.decision.place == 1);
    received = arrives(&table, last, sizeof last);
    taken = take(received, last, sizeof last);
    CHECK(received.decision.kind == EGRYNNOL_DELIVERED_STORE && taken.octets == store + EGRYNNOL_DATA);
    CHECK(taken.length == sizeof joined && memcmp(taken.octets, joined, sizeof joined) == 0);
    CHECK(egrynnol_record_at(report, 0).instruction == 1 && egrynnol_record_at(report, 0).octets == 2);

    received = arrives(&table, last, sizeof last);
    CHECK(received.decision.kind == EGRYNNOL_LOST && take(received, last, sizeof last).length == 0);
    received = arrives(&table, nothing, 0);
    taken = take(received, nothing, 0);
    CHECK(received.decision.kind == EGRYNNOL_REFUSED && taken.length == 0 && taken.octets == nothing);
    CHECK(egrynnol_take(made_up, whole, sizeof whole, store, sizeof store).length == 0);
}

/* The least lengths of the report, by their numbers: an octet less is 3. */
static void report_lengths(void)
{
    static const uint8_t whole[] = {0x83, 0x80, 0xC0, 0xAA};
    egrynnol_table table = opened_with(EGRYNNOL_KIND_1998, 3);

    CHECK(egrynnol_arrival(table, &summary, store, sizeof store, report, 900, 0, 9, whole, sizeof whole).refusal == EGRYNNOL_REFUSAL_REPORT);
    CHECK(egrynnol_arrival(table, &summary, store, sizeof store, report, 901, 0, 9, whole, sizeof whole).refusal == EGRYNNOL_GOOD);
    CHECK(egrynnol_clock(table, &summary, report, 847, 1).refusal == EGRYNNOL_REFUSAL_REPORT);
    CHECK(egrynnol_clock(table, &summary, report, 848, 1).refusal == EGRYNNOL_GOOD);
    CHECK(egrynnol_release(table, &summary, report, 847, 9).refusal == EGRYNNOL_REFUSAL_REPORT);
    CHECK(egrynnol_release(table, &summary, report, 848, 9).refusal == EGRYNNOL_GOOD);
}

/* A parameter, the number that it is refused with, and where. */
struct bad {
    uint8_t octets[8];
    uint8_t length;
    uint8_t refusal;
    uint16_t position;
};

/* One after the other, while no time passes. */
static void blames(egrynnol_table *table, const struct bad *list, size_t count)
{
    size_t k;

    for (k = 0; k < count; k++) {
        egrynnol_received received = arrives(table, list[k].octets, list[k].length);

        CHECK(received.refusal == list[k].refusal && received.decision.kind == EGRYNNOL_REFUSED);
        CHECK(received.position == list[k].position);
    }
}

/* Each refusal that blames an octet, wherever that can be: with a context in one octet and in two. */
static void positions(void)
{
    static const struct bad one[] = {
        {{0}, 0, 5, 0}, {{0x84}, 1, 5, 1}, {{0x05}, 1, 5, 1}, {{0x84, 0x80}, 2, 5, 2}, {{0x84, 0x80, 0x41}, 3, 5, 3},
        {{0x84, 0x80, 0xC0}, 3, 5, 3}, {{0x84, 0x80, 0xC0, 3, 1, 2}, 6, 5, 6}, {{0x84, 0x80, 0xC0, 0}, 4, 5, 4},
        {{0x84, 0x80, 0xC0, 0, 4, 1, 2}, 7, 5, 7},
        {{0x05, 0x05}, 2, 6, 1}, {{0x84, 0x00}, 2, 6, 1}, {{0x84, 0x80, 0x41, 0x05}, 4, 6, 3},
        {{0x84, 0x80, 0x40, 0x85}, 4, 7, 2}, {{0x84, 0x80, 0xC1}, 3, 7, 2},
        {{0x85}, 1, 8, 0}, {{0x05, 0x81}, 2, 8, 1},
        {{0x84, 0x80, 0xC0, 21}, 4, 9, 3}, {{0x84, 0x80, 0x41, 0x85, 255}, 5, 9, 4}, {{0x84, 0x80, 0xC0, 1, 7, 21}, 6, 9, 5},
        {{0x04, 0x80}, 2, 23, 1}, {{0x00, 0x80}, 2, 23, 1}};
    static const struct bad two[] = {
        {{0x2C, 0x82}, 2, 5, 2}, {{0x2C, 0x82, 0x80}, 3, 5, 3}, {{0x2C, 0x82, 0x00}, 3, 6, 2},
        {{0x2C, 0x82, 0x80, 0x41, 0x05}, 5, 6, 4}, {{0x2C, 0x82, 0x80, 0x40, 0x85}, 5, 7, 3}, {{0x2C, 0x82, 0x80, 0x80}, 4, 7, 3},
        {{0x2C, 0x82, 0x80, 0xC0, 21}, 5, 9, 4}, {{0x2C, 0x82, 0x80, 0x41, 0x85, 0, 21}, 7, 9, 6}};
    egrynnol_table table = opened_with(EGRYNNOL_KIND_2000, 4);

    CHECK(sizeof(egrynnol_received) == 1040 && offsetof(egrynnol_received, position) == 1034 && EGRYNNOL_NOWHERE == 65535);
    CHECK(offsetof(egrynnol_received, timeouts) == 1036);
    blames(&table, one, sizeof one / sizeof one[0]);
    table = opened_with(EGRYNNOL_KIND_2000, 300);
    blames(&table, two, sizeof two / sizeof two[0]);
}

/* Whether a segment is answered with this number, and blames no octet. */
static int nowhere(egrynnol_received received, unsigned refusal)
{
    return received.refusal == refusal && received.position == EGRYNNOL_NOWHERE;
}

/* Saved, delivered and lost; and each refusal that a segment can meet and that blames no octet, though the parameter is bad. */
static void no_position(void)
{
    static const uint8_t whole[] = {0x83, 0x80, 0xC0, 0xAA}, last[] = {0x83, 0x80, 0x00, 0x85}, bad[1] = {0};
    static const uint8_t long_one[EGRYNNOL_PARAMETER + 1] = {0x83, 0x00};
    uint8_t first[] = {0x83, 0x80, 0x41, 0x80};
    egrynnol_table table, none;

    memset(&none, 0, sizeof none);
    table = opened_with(EGRYNNOL_KIND_1998, 3);
    CHECK(nowhere(arrives(&none, bad, 0), EGRYNNOL_REFUSAL_TABLE));
    CHECK(nowhere(egrynnol_arrival(table, &summary, store, EGRYNNOL_STORE - 1, report, sizeof report, 0, 9, bad, 0), EGRYNNOL_REFUSAL_STORE));
    CHECK(nowhere(egrynnol_arrival(table, &summary, store, sizeof store, report, 900, 0, 9, bad, 0), EGRYNNOL_REFUSAL_REPORT));
    CHECK(nowhere(egrynnol_arrival(table, &summary, store, sizeof store, report, sizeof report, 0x80000000u, 9, bad, 0), EGRYNNOL_REFUSAL_STEP));
    CHECK(nowhere(arrives(&table, long_one, sizeof long_one), EGRYNNOL_REFUSAL_PARAMETER));
    CHECK(arrives(&table, long_one, sizeof long_one - 1).position == 1);
    CHECK(nowhere(arrives(&table, whole, sizeof whole), EGRYNNOL_GOOD));
    CHECK(nowhere(arrives(&table, last, sizeof last), EGRYNNOL_GOOD));
    for (; first[3] < 0x80 + EGRYNNOL_PLACES; first[3]++)
        CHECK(nowhere(arrives(&table, first, sizeof first), EGRYNNOL_GOOD));
    CHECK(nowhere(arrives(&table, first, sizeof first), EGRYNNOL_REFUSAL_FULL));
    summary.taken_segments[0] = EGRYNNOL_TOTAL_MOST;
    CHECK(nowhere(arrives(&table, whole, sizeof whole), EGRYNNOL_REFUSAL_TOTAL));
}

/* Whether an address of a place or of a record has these octets, and zeros behind them. */
static int address_is(const uint8_t *octets, unsigned length, const uint8_t *wanted, unsigned wanted_length)
{
    unsigned k;

    for (k = 0; k < EGRYNNOL_ADDRESS; k++)
        if (octets[k] != (k < wanted_length ? wanted[k] : 0))
            return 0;
    return length == wanted_length;
}

/* Whether the first record of the report is of this kind and cause, from 31 to this destination. */
static int record_between(unsigned kind, unsigned cause, const uint8_t *destination, unsigned length)
{
    static const uint8_t origin[] = {0x31};
    egrynnol_record record = egrynnol_record_at(report, 0);

    return record.kind == kind && record.cause == cause && address_is(record.origin, record.origin_length, origin, 1)
        && address_is(record.destination, record.destination_length, destination, length);
}

static int place_between(const egrynnol_table *table, size_t place, const uint8_t *destination, unsigned length)
{
    static const uint8_t origin[] = {0x31};
    const egrynnol_key *key = &table->places[place].key;

    return key->association == 9 && key->context == 4 && key->reference == 5
        && address_is(key->origin.octets, key->origin.length, origin, 1)
        && address_is(key->destination.octets, key->destination.length, destination, length);
}

/* What a release of nobody answers where one octet of the table is another. */
static unsigned judged_table(egrynnol_table *table, uint8_t *octet, uint8_t other)
{
    uint8_t before = *octet;
    egrynnol_swept swept;

    *octet = other;
    swept = egrynnol_release(*table, &summary, report, sizeof report, 8);
    CHECK(swept.records == 0);
    *octet = before;
    return swept.refusal;
}

/* One origin and one reference towards 00 07 and 07: two places, which the host could look at, and two deliveries.
 * A last segment towards 07 00, which nobody began, is lost and leaves both open. */
static void destinations(void)
{
    static const uint8_t two_first[] = {0x84, 0x80, 0x41, 0x85, 1, 0x31, 2, 0x00, 0x07, 0xAA};
    static const uint8_t one_first[] = {0x84, 0x80, 0x41, 0x85, 1, 0x31, 1, 0x07, 0xBB};
    static const uint8_t other_last[] = {0x84, 0x80, 0x00, 0x85, 1, 0x31, 2, 0x07, 0x00, 0xEE};
    static const uint8_t two_last[] = {0x84, 0x80, 0x00, 0x85, 1, 0x31, 2, 0x00, 0x07, 0xCC};
    static const uint8_t one_last[] = {0x84, 0x80, 0x00, 0x85, 1, 0x31, 1, 0x07, 0xDD};
    static const uint8_t whole[] = {0x84, 0x80, 0xC0, 1, 0x31, 2, 0x07, 0x00};
    static const uint8_t two[] = {0x00, 0x07}, one[] = {0x07}, other[] = {0x07, 0x00};
    static const uint8_t two_joined[] = {0xAA, 0xCC}, one_joined[] = {0xBB, 0xDD};
    egrynnol_table table = opened_with(EGRYNNOL_KIND_2000, 4);
    egrynnol_address *address;
    egrynnol_received received;
    egrynnol_taken taken;

    CHECK(arrives(&table, two_first, sizeof two_first).decision.place == 0 && place_between(&table, 0, two, 2));
    received = arrives(&table, one_first, sizeof one_first);
    CHECK(received.decision.kind == EGRYNNOL_SAVED && received.decision.place == 1 && place_between(&table, 1, one, 1));

    received = arrives(&table, other_last, sizeof other_last);
    CHECK(received.decision.kind == EGRYNNOL_LOST && received.decision.place == EGRYNNOL_NO_PLACE);
    CHECK(record_between(EGRYNNOL_KIND_LOST, EGRYNNOL_CAUSE_NOT_OPEN, other, 2));
    received = arrives(&table, whole, sizeof whole);
    CHECK(received.decision.kind == EGRYNNOL_DELIVERED_PARAMETER && record_between(EGRYNNOL_KIND_DELIVERED, 0, other, 2));

    /* a destination is judged as an origin is, in a place that is open and in one that is not */
    address = &table.places[0].key.destination;
    CHECK(judged_table(&table, &address->length, 2) == EGRYNNOL_GOOD);
    CHECK(judged_table(&table, &address->length, 20) == EGRYNNOL_GOOD);
    CHECK(judged_table(&table, &address->length, 21) == EGRYNNOL_REFUSAL_TABLE);
    CHECK(judged_table(&table, &address->length, 1) == EGRYNNOL_REFUSAL_TABLE);
    CHECK(judged_table(&table, &address->octets[1], 8) == EGRYNNOL_GOOD);
    CHECK(judged_table(&table, &address->octets[19], 1) == EGRYNNOL_REFUSAL_TABLE);
    address = &table.places[15].key.destination;
    CHECK(judged_table(&table, &address->length, 1) == EGRYNNOL_REFUSAL_TABLE);
    CHECK(judged_table(&table, &address->octets[0], 1) == EGRYNNOL_REFUSAL_TABLE);
    /* one key in two places */
    address = &table.places[1].key.destination;
    *address = table.places[0].key.destination;
    CHECK(judged_table(&table, &address->length, 2) == EGRYNNOL_REFUSAL_TABLE);
    CHECK(judged_table(&table, &address->octets[1], 8) == EGRYNNOL_GOOD);
    memset(address, 0, sizeof *address);
    address->octets[0] = 0x07;
    address->length = 1;

    received = arrives(&table, two_last, sizeof two_last);
    taken = take(received, two_last, sizeof two_last);
    CHECK(taken.length == 2 && memcmp(taken.octets, two_joined, 2) == 0 && record_between(EGRYNNOL_KIND_DELIVERED, 0, two, 2));
    received = arrives(&table, one_last, sizeof one_last);
    taken = take(received, one_last, sizeof one_last);
    CHECK(taken.length == 2 && memcmp(taken.octets, one_joined, 2) == 0 && record_between(EGRYNNOL_KIND_DELIVERED, 0, one, 1));
}

/* A context of 1998 has neither address: in a place and in a record both are empty. */
static void no_addresses(void)
{
    static const uint8_t first[] = {0x83, 0x80, 0x41, 0x85, 0xAA};
    egrynnol_table table = opened_with(EGRYNNOL_KIND_1998, 3);
    egrynnol_address *address = &table.places[0].key.destination;
    egrynnol_record record;
    egrynnol_swept swept;

    memset(report, 0x5A, sizeof report);
    CHECK(arrives(&table, first, sizeof first).decision.kind == EGRYNNOL_SAVED);
    CHECK(address_is(address->octets, address->length, first, 0));
    CHECK(judged_table(&table, &address->length, 1) == EGRYNNOL_REFUSAL_TABLE);
    CHECK(judged_table(&table, &address->octets[0], 1) == EGRYNNOL_REFUSAL_TABLE);
    swept = egrynnol_release(table, &summary, report, sizeof report, 9);
    record = egrynnol_record_at(report, 0);
    CHECK(swept.records == 1 && record.kind == EGRYNNOL_KIND_LOST && record.cause == EGRYNNOL_CAUSE_RELEASE);
    CHECK(address_is(record.origin, record.origin_length, first, 0));
    CHECK(address_is(record.destination, record.destination_length, first, 0));
    CHECK(report[EGRYNNOL_RECORD] == 0x5A);
}

/* The row that egrynnol_row_of has to answer for each association, told column by column. */
static void row_is(uint16_t association, size_t row)
{
    CHECK(egrynnol_row_of(&summary, association) == row);
    CHECK(row == EGRYNNOL_ROWS || (summary.mark[row] == 1 && summary.association[row] == association));
}

/* In a summary that was written by hand: the first row and the last one, and association 0 beside rows that are
 * not used, which are all zero. */
static void rows_by_hand(void)
{
    memset(&summary, 0, sizeof summary);
    row_is(0, EGRYNNOL_ROWS);
    row_is(9, EGRYNNOL_ROWS);
    summary.mark[0] = 1;
    summary.association[0] = 65535;
    summary.mark[EGRYNNOL_ROWS - 1] = 1;
    summary.association[EGRYNNOL_ROWS - 1] = 9;
    row_is(65535, 0);
    row_is(9, EGRYNNOL_ROWS - 1);
    row_is(0, EGRYNNOL_ROWS);
    summary.mark[20] = 1;
    row_is(0, 20);
    summary.association[0] = 65536 + 9;
    row_is(9, EGRYNNOL_ROWS - 1);
}

/* Row i as six numbers beside these. */
static int row_says(size_t i, unsigned ts, unsigned to, unsigned ds, unsigned d, unsigned ls, unsigned l)
{
    return summary.taken_segments[i] == ts && summary.taken_octets[i] == to && summary.delivered_segments[i] == ds
        && summary.delivered_octets[i] == d && summary.lost_segments[i] == ls && summary.lost_octets[i] == l;
}

/* As the calls make them: a row each, to the last one; then 21, and after an opening none. */
static void rows_by_calls(void)
{
    static const uint8_t whole[] = {0x83, 0x80, 0xC0, 0xAA, 0xBB};
    static const uint8_t first[] = {0x83, 0x81, 0x41, 0x85, 0xAA, 0xBB, 0xCC};
    egrynnol_table table = opened_with(EGRYNNOL_KIND_1998, 3);
    egrynnol_swept swept;
    egrynnol_summary before;
    uint16_t k;

    for (k = 0; k < EGRYNNOL_ROWS; k++) {
        row_is((uint16_t)(1000 - k), EGRYNNOL_ROWS);
        CHECK(arrives_on((uint16_t)(1000 - k), &table, whole, sizeof whole).refusal == EGRYNNOL_GOOD);
        row_is((uint16_t)(1000 - k), k);
        CHECK(row_says(k, 1, 2, 1, 2, 0, 0));
    }
    before = summary;
    CHECK(nowhere(arrives_on(9, &table, whole, sizeof whole), EGRYNNOL_REFUSAL_ROW));
    CHECK(memcmp(&before, &summary, sizeof summary) == 0);
    row_is(9, EGRYNNOL_ROWS);

    CHECK(arrives_on(1000, &table, first, sizeof first).refusal == EGRYNNOL_GOOD && row_says(0, 2, 5, 1, 2, 0, 0));
    swept = egrynnol_clock(table, &summary, report, sizeof report, 100);
    CHECK(swept.refusal == EGRYNNOL_GOOD && swept.records == 1 && row_says(0, 2, 5, 1, 2, 1, 3));
    table = swept.table;
    CHECK(arrives_on(1000, &table, first, sizeof first).refusal == EGRYNNOL_GOOD && row_says(0, 3, 8, 1, 2, 1, 3));
    before = summary;
    summary.lost_octets[0] = EGRYNNOL_TOTAL_MOST - 2;
    swept = egrynnol_release(table, &summary, report, sizeof report, 1000);
    CHECK(swept.refusal == EGRYNNOL_REFUSAL_TOTAL && swept.records == 0);
    summary.lost_octets[0]--;
    swept = egrynnol_release(table, &summary, report, sizeof report, 1000);
    CHECK(swept.refusal == EGRYNNOL_GOOD && swept.records == 1 && summary.lost_octets[0] == EGRYNNOL_TOTAL_MOST);

    summary = before;
    summary.mark[5] = 2;
    CHECK(arrives_on(1000, &table, whole, sizeof whole).refusal == EGRYNNOL_REFUSAL_TABLE);
    table = opened_with(EGRYNNOL_KIND_1998, 3);
    for (k = 0; k < EGRYNNOL_ROWS; k++)
        row_is((uint16_t)(1000 - k), EGRYNNOL_ROWS);
}

/* What a release of nobody answers beside a table with two sequences of association 9, one octet each, where one
 * number of the summary is another: it adds nothing, so that only soundness is asked. */
static unsigned judged(egrynnol_table table, uint64_t *number, uint64_t other)
{
    uint64_t before = *number;
    egrynnol_swept swept;

    *number = other;
    swept = egrynnol_release(table, &summary, report, sizeof report, 8);
    CHECK(*number == other && swept.records == 0);
    *number = before;
    return swept.refusal;
}

static void handed_over(void)
{
    static const uint8_t five[] = {0x83, 0x81, 0x41, 0x85, 0xAA}, six[] = {0x83, 0x81, 0x41, 0x86, 0xAA};
    egrynnol_table table = opened_with(EGRYNNOL_KIND_1998, 3);
    egrynnol_swept swept;

    CHECK(arrives(&table, five, sizeof five).decision.kind == EGRYNNOL_SAVED);
    CHECK(arrives(&table, six, sizeof six).decision.kind == EGRYNNOL_SAVED);
    CHECK(judged(table, &summary.mark[0], 1) == EGRYNNOL_GOOD);
    CHECK(judged(table, &summary.mark[0], 2) == EGRYNNOL_REFUSAL_TABLE);
    CHECK(judged(table, &summary.mark[0], 0) == EGRYNNOL_REFUSAL_TABLE);
    CHECK(judged(table, &summary.association[0], 10) == EGRYNNOL_REFUSAL_TABLE);
    CHECK(judged(table, &summary.association[0], 65536 + 9) == EGRYNNOL_REFUSAL_TABLE);
    CHECK(judged(table, &summary.association[63], 1) == EGRYNNOL_REFUSAL_TABLE);
    CHECK(judged(table, &summary.lost_octets[63], 1) == EGRYNNOL_REFUSAL_TABLE);
    CHECK(judged(table, &summary.mark[63], 1) == EGRYNNOL_GOOD);
    CHECK(judged(table, &summary.lost_octets[0], EGRYNNOL_TOTAL_MOST + 1) == EGRYNNOL_GOOD);
    summary.association[63] = 9;
    CHECK(judged(table, &summary.mark[63], 1) == EGRYNNOL_REFUSAL_TABLE);
    summary.association[63] = 0;

    summary.delivered_octets[0] = EGRYNNOL_TOTAL_MOST + 1;
    summary.lost_octets[0] = EGRYNNOL_TOTAL_MOST - 1;
    CHECK(egrynnol_clock(table, &summary, report, sizeof report, 0x80000000u).refusal == EGRYNNOL_REFUSAL_STEP);
    CHECK(egrynnol_clock(table, &summary, report, sizeof report, 100).refusal == EGRYNNOL_REFUSAL_TOTAL);
    CHECK(egrynnol_clock(table, &summary, report, sizeof report, 99).refusal == EGRYNNOL_GOOD);
    CHECK(summary.lost_octets[0] == EGRYNNOL_TOTAL_MOST - 1 && summary.lost_segments[0] == 0);
    summary.lost_octets[0]--;
    swept = egrynnol_clock(table, &summary, report, sizeof report, 100);
    CHECK(swept.refusal == EGRYNNOL_GOOD && swept.records == 2);
    CHECK(summary.lost_octets[0] == EGRYNNOL_TOTAL_MOST && summary.lost_segments[0] == 2);
    CHECK(summary.delivered_octets[0] == EGRYNNOL_TOTAL_MOST + 1);
}

/* ---- An arrival's two parts ---- */

static const uint8_t due_first[] = {0x83, 0x81, 0x41, 0x85, 0xAA}, due_last[] = {0x83, 0x80, 0x00, 0x85, 0xBB, 0xCC};
static const uint8_t in_one[] = {0x83, 0x80, 0xC0, 0xDD};

/* A table with the first segment of a sequence of association 9 in place 0, at 0; T is 100. The report is all 5A. */
static egrynnol_table with_one_open(void)
{
    egrynnol_table table = opened_with(EGRYNNOL_KIND_1998, 3);

    CHECK(arrives(&table, due_first, sizeof due_first).decision.kind == EGRYNNOL_SAVED);
    memset(report, 0x5A, sizeof report);
    return table;
}

/* The same with all sixteen places. */
static egrynnol_table with_all_open(void)
{
    uint8_t first[] = {0x83, 0x80, 0x41, 0x80, 0xAA};
    egrynnol_table table = opened_with(EGRYNNOL_KIND_1998, 3);

    for (; first[3] < 0x80 + EGRYNNOL_PLACES; first[3]++)
        CHECK(arrives(&table, first, sizeof first).decision.kind == EGRYNNOL_SAVED);
    memset(report, 0x5A, sizeof report);
    return table;
}

/* Whether an answer has so many records, so many of them the clock's, and the report nothing behind them. */
static int reported(egrynnol_received received, unsigned records, unsigned timeouts)
{
    size_t k;

    for (k = records * EGRYNNOL_RECORD; k < sizeof report; k++)
        if (report[k] != 0x5A)
            return 0;
    return received.records == records && received.timeouts == timeouts;
}

/* Whether record n is a loss by this cause, of a segment with so many octets. */
static int lost_by(size_t n, unsigned cause, unsigned octets)
{
    egrynnol_record record = egrynnol_record_at(report, n);

    return record.kind == EGRYNNOL_KIND_LOST && record.cause == cause && record.segments == 1 && record.octets == octets;
}

/* A segment that comes when its own sequence is due: a tick before, a last one and a first one. */
static void own_timeout(void)
{
    egrynnol_table table = with_one_open();
    egrynnol_received received = arrives_at(99, 9, &table, due_last, sizeof due_last);

    CHECK(received.decision.kind == EGRYNNOL_DELIVERED_STORE && reported(received, 1, 0));
    CHECK(egrynnol_record_at(report, 0).kind == EGRYNNOL_KIND_DELIVERED && table.clock == 99);

    table = with_one_open();
    received = arrives_at(100, 9, &table, due_last, sizeof due_last);
    CHECK(received.decision.kind == EGRYNNOL_LOST && received.decision.place == EGRYNNOL_NO_PLACE);
    CHECK(reported(received, 2, 1) && lost_by(0, EGRYNNOL_CAUSE_TIMER, 1) && lost_by(1, EGRYNNOL_CAUSE_NOT_OPEN, 2));
    CHECK(egrynnol_record_at(report, 0).instruction == 1 && egrynnol_record_at(report, 1).instruction == 0);
    CHECK(table.clock == 100 && table.places[0].mark == 0 && row_says(0, 2, 3, 0, 0, 2, 3));

    table = with_one_open();
    received = arrives_at(100, 9, &table, due_first, sizeof due_first);
    CHECK(received.decision.kind == EGRYNNOL_SAVED && received.decision.place == 0);
    CHECK(reported(received, 1, 1) && lost_by(0, EGRYNNOL_CAUSE_TIMER, 1) && row_says(0, 2, 2, 0, 0, 1, 1));
    CHECK(table.places[0].start == 100 && table.places[0].segments == 1 && table.places[0].octets == 1);
}

/* Seventeen records, and a full table that an arrival empties to take a place of. */
static void all_timeouts(void)
{
    egrynnol_table table = with_all_open();
    egrynnol_received received = arrives_at(100, 9, &table, in_one, sizeof in_one);
    size_t n;

    CHECK(received.decision.kind == EGRYNNOL_DELIVERED_PARAMETER && reported(received, 17, 16));
    for (n = 0; n < EGRYNNOL_PLACES; n++)
        CHECK(lost_by(n, EGRYNNOL_CAUSE_TIMER, 1) && egrynnol_record_at(report, n).reference == n);
    CHECK(egrynnol_record_at(report, 16).kind == EGRYNNOL_KIND_DELIVERED && row_says(0, 17, 17, 1, 1, 16, 16));

    table = with_all_open();
    received = arrives_at(99, 10, &table, due_first, sizeof due_first);
    CHECK(received.refusal == EGRYNNOL_REFUSAL_FULL && reported(received, 0, 0) && table.clock == 99);
    received = arrives_at(100, 10, &table, due_first, sizeof due_first);
    CHECK(received.decision.kind == EGRYNNOL_SAVED && received.decision.place == 0 && reported(received, 16, 16));
    CHECK(table.places[0].start == 100 && table.places[0].key.association == 10 && table.places[1].mark == 0);
}

/* What a refusal of the segment alone leaves: the clock's work, with its record, and no octet of the store. */
static void stands_beside(const uint8_t *parameter, size_t length, uint16_t association, unsigned refusal)
{
    egrynnol_table table = with_one_open();
    egrynnol_received received;
    uint16_t k;

    for (k = 1; k < EGRYNNOL_ROWS; k++)
        CHECK(arrives_on((uint16_t)(100 + k), &table, in_one, sizeof in_one).refusal == EGRYNNOL_GOOD);
    memset(report, 0x5A, sizeof report);
    memset(store, 0x5A, sizeof store);
    received = arrives_at(100, association, &table, parameter, length);
    CHECK(received.refusal == refusal && received.decision.kind == EGRYNNOL_REFUSED && reported(received, 1, 1));
    CHECK(lost_by(0, EGRYNNOL_CAUSE_TIMER, 1) && table.clock == 100 && table.places[0].mark == 0);
    CHECK(row_says(0, 1, 1, 0, 0, 1, 1) && egrynnol_row_of(&summary, 200) == EGRYNNOL_ROWS);
    for (k = 0; k < EGRYNNOL_PLACES; k++)
        CHECK(store[k * EGRYNNOL_DATA] == 0x5A && store[k * EGRYNNOL_DATA + 1] == 0x5A);
}

static void refused_alone(void)
{
    static const struct bad list[] = {
        {{0x83}, 1, 5, 1}, {{0x83, 0x00}, 2, 6, 1}, {{0x83, 0x80, 0xC1}, 3, 7, 2}, {{0x85}, 1, 8, 0}, {{0x03, 0x80}, 2, 23, 1}};
    static const uint8_t long_one[EGRYNNOL_PARAMETER + 1] = {0x83, 0x80, 0xC0};
    size_t k;

    for (k = 0; k < sizeof list / sizeof list[0]; k++)
        stands_beside(list[k].octets, list[k].length, 9, list[k].refusal);
    stands_beside(long_one, sizeof long_one, 9, EGRYNNOL_REFUSAL_PARAMETER);
    stands_beside(in_one, sizeof in_one, 200, EGRYNNOL_REFUSAL_ROW);
}

/* What a refusal of the whole leaves: all as it came. */
static void undone(egrynnol_received received, const egrynnol_summary *before, unsigned refusal)
{
    CHECK(nowhere(received, refusal) && received.decision.kind == EGRYNNOL_REFUSED && reported(received, 0, 0));
    CHECK(received.table.clock == 0 && received.table.places[0].mark == 1 && received.table.places[0].octets == 1);
    CHECK(memcmp(before, &summary, sizeof summary) == 0);
}

/* The order: 1, 2, 3, 13, the clock's 22; then what reading refuses; and 22 of both last. */
static void refused_whole(void)
{
    static const uint8_t unended[] = {0x83, 0x00};
    egrynnol_table table = with_one_open(), none = table;
    egrynnol_summary before = summary;

    none.timer = 0;
    undone(egrynnol_arrival(none, &summary, store, 0, report, 0, 0x80000000u, 9, unended, 2), &before, EGRYNNOL_REFUSAL_TABLE);
    undone(egrynnol_arrival(table, &summary, store, 0, report, 0, 0x80000000u, 9, unended, 2), &before, EGRYNNOL_REFUSAL_STORE);
    undone(egrynnol_arrival(table, &summary, store, sizeof store, report, 0, 0x80000000u, 9, unended, 2), &before, EGRYNNOL_REFUSAL_REPORT);
    undone(egrynnol_arrival(table, &summary, store, sizeof store, report, sizeof report, 0x80000000u, 9, unended, 2), &before,
           EGRYNNOL_REFUSAL_STEP);

    summary.lost_octets[0] = EGRYNNOL_TOTAL_MOST;
    before = summary;
    undone(egrynnol_arrival(table, &summary, store, sizeof store, report, sizeof report, 100, 9, unended, 2), &before,
           EGRYNNOL_REFUSAL_TOTAL);
    summary.lost_octets[0] = EGRYNNOL_TOTAL_MOST - 2;
    before = summary;
    undone(egrynnol_arrival(table, &summary, store, sizeof store, report, sizeof report, 100, 9, due_last, sizeof due_last), &before,
           EGRYNNOL_REFUSAL_TOTAL);
    CHECK(arrives_at(100, 9, &table, unended, sizeof unended).refusal == EGRYNNOL_REFUSAL_EXTENSION);
    CHECK(summary.lost_octets[0] == EGRYNNOL_TOTAL_MOST - 1);

    table = with_one_open();
    summary.lost_octets[0] = EGRYNNOL_TOTAL_MOST - 3;
    CHECK(arrives_at(100, 9, &table, due_last, sizeof due_last).refusal == EGRYNNOL_GOOD);
    CHECK(summary.lost_octets[0] == EGRYNNOL_TOTAL_MOST);
}

/* The calls are functions with addresses, whatever their symbols are. */
static void addresses(void)
{
    egrynnol_swept (*call)(egrynnol_table, egrynnol_summary *, uint8_t *, size_t, uint16_t) = &egrynnol_release;

    CHECK(call(opened_with(EGRYNNOL_KIND_1998, 3), &summary, report, sizeof report, 9).refusal == EGRYNNOL_GOOD);
}

int main(void)
{
    all_names();
    versions();
    records();
    header_lengths();
    deliveries();
    report_lengths();
    positions();
    no_position();
    destinations();
    no_addresses();
    rows_by_hand();
    rows_by_calls();
    handed_over();
    own_timeout();
    all_timeouts();
    refused_alone();
    refused_whole();
    addresses();
    printf("inline functions, positions, addresses, summaries and arrivals: as expected\n");
    return 0;
}
