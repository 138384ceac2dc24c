/*
 * gateway.c - a small host of the Egrynnol library.
 *
 * It cuts a message into segments, receives them, takes the delivery, says where
 * a bad parameter went wrong, loses a sequence by the timer, at an idle tick, by the
 * late segment's own arrival and beside a refusal, and another by a release, keeps
 * apart what goes to two exchanges, and bills each association by the summary. It
 * prints each step, checks each answer, and ends with status 1 at the first that is
 * not as expected.
 *
 *   make && cc -Iinclude examples/gateway.c target/lib/libegrynnol.a -o target/gateway && target/gateway
 */
#include <stdio.h>
#include <stdlib.h>
#include <string.h>

#include "egrynnol.h"

/* All that a gateway has to keep: the table, the summary beside it, the areas that it lends, and its own clock.
 * The report area of an arrival is long enough for all calls. */
static struct {
    egrynnol_table table;
    egrynnol_summary summary;
    uint8_t store[EGRYNNOL_STORE];
    uint8_t report[EGRYNNOL_REPORT_ARRIVAL];
    uint32_t now;
} gate;

/* One parameter, as it goes over the line. */
typedef struct parameter {
    uint8_t octets[EGRYNNOL_PARAMETER];
    size_t length;
} parameter;

static const uint8_t message[] = "Please call back at 7 tonight.";
static const size_t message_length = sizeof message - 1;

/* Addresses: of who sends, and of two exchanges behind this gateway. */
static const uint8_t origin[] = {0x00, 0x07};
static const uint8_t exchange[] = {0x31};
static const uint8_t second_exchange[] = {0x31, 0x00};

/* Length 0 needs an address too, never NULL. */
static const uint8_t nothing[1] = {0};

static void check(int truth, const char *what)
{
    if (!truth) {
        fflush(stdout);
        fprintf(stderr, "gateway: not as expected: %s\n", what);
        exit(1);
    }
}

/* ---- Records ---- */

static void print_address(const char *name, const uint8_t *octets, unsigned length)
{
    unsigned k;

    check(length <= EGRYNNOL_ADDRESS, "the length of an address");
    printf(", %s", name);
    for (k = 0; k < length; k++)
        printf(" %02X", octets[k]);
    printf("%s", length ? "" : " none");
}

static void print_record(const char *whose, egrynnol_record record)
{
    int lost = record.kind == EGRYNNOL_KIND_LOST;

    check(lost || record.kind == EGRYNNOL_KIND_DELIVERED, "the kind of a record");
    printf("  %s: %s, association %u, context %u", whose, lost ? "lost" : "delivered", record.association,
           record.context);
    if (record.reference == EGRYNNOL_NO_REFERENCE)
        printf(", no reference");
    else
        printf(", reference %u", record.reference);
    printf(", instruction %u", record.instruction);
    if (lost)
        printf(", cause %u (%s)", record.cause, egrynnol_cause_name(record.cause));
    printf(", segments %u, octets %u", record.segments, record.octets);
    print_address("origin", record.origin, record.origin_length);
    print_address("destination", record.destination, record.destination_length);
    printf("\n");
}

/* The records from one on, up to another. */
static void print_records(const char *whose, unsigned from, unsigned to)
{
    unsigned k;

    for (k = from; k < to; k++)
        print_record(whose, egrynnol_record_at(gate.report, k));
}

/* Whether record n says what happened to so many segments and octets. */
static int record_says(unsigned n, unsigned kind, unsigned cause, unsigned segments, size_t octets)
{
    egrynnol_record record = egrynnol_record_at(gate.report, n);

    return record.kind == kind && record.cause == cause && record.segments == segments && record.octets == octets;
}

/* Whether the first one names this destination: its length counts as well as its octets. */
static int record_goes_to(const uint8_t *destination, size_t length)
{
    egrynnol_record record = egrynnol_record_at(gate.report, 0);

    return record.destination_length == length && memcmp(record.destination, destination, length) == 0;
}

/* ---- The calls ---- */

static void open_gate(void)
{
    static const uint8_t registry[] = {EGRYNNOL_KIND_1998, 0, 3, EGRYNNOL_KIND_2000, 0, 4};
    egrynnol_opened opened = egrynnol_opening(&gate.summary, registry, sizeof registry, 100, gate.now);

    check(opened.refusal == EGRYNNOL_GOOD, "opening is not refused");
    gate.table = opened.table;
    printf("open: context 3 of 1998, context 4 of 2000, T 100, clock %lu\n", (unsigned long)gate.now);
}

/* Time goes by. The library is not told: the next segment or the next tick brings the time with it. */
static void pass(uint32_t ticks)
{
    gate.now += ticks;
}

/* Cuts the message for context 4 and this destination; answers how many segments there are. */
static unsigned cut_message(parameter *segments, const uint8_t *destination, size_t length)
{
    egrynnol_request request = {4, EGRYNNOL_RELEASE_CALL, 5, 24, 20, 0};
    size_t h = egrynnol_header_length(EGRYNNOL_KIND_2000, request.context, sizeof origin, length);
    egrynnol_sent sent;

    check(h == 7 + length, "the header's length");
    printf("cut: %u octets behind a header of %u into segments of", (unsigned)message_length, (unsigned)h);
    do {
        parameter *segment = segments + request.number;
        sent = egrynnol_sending(gate.table, request, origin, sizeof origin, destination, length,
                                message, message_length, segment->octets, sizeof segment->octets);
        check(sent.refusal == EGRYNNOL_GOOD, "sending is not refused");
        check(sent.count <= EGRYNNOL_SEGMENTS && sent.length <= sizeof segment->octets, "what sending answers");
        segment->length = sent.length;
        printf(" %u", sent.length);
        request.number++;
    } while (request.number < sent.count);
    printf(" octets\n");
    return sent.count;
}

/* The octet that a refusal blames; for a parameter that is cut it is the first one that is missing. */
static void print_fault(uint16_t position, const parameter *segment)
{
    if (position == EGRYNNOL_NOWHERE)
        return;
    printf(", at position %u", position);
    if (position < segment->length)
        printf(", which is %02X", segment->octets[position]);
    else
        printf(", where it ends");
}

/* What became of a segment. */
static void print_decision(egrynnol_received received, const parameter *segment)
{
    printf("%s", egrynnol_decision_name(received.decision.kind));
    switch (received.decision.kind) {
    case EGRYNNOL_REFUSED:
        printf(", %u (%s)", received.refusal, egrynnol_refusal_name(received.refusal));
        print_fault(received.position, segment);
        break;
    case EGRYNNOL_SAVED:
        printf(" in place %u", (unsigned)received.decision.place);
        break;
    case EGRYNNOL_DELIVERED_PARAMETER:
    case EGRYNNOL_DELIVERED_STORE:
        break;
    case EGRYNNOL_LOST:
        printf(", cause %u (%s)", received.decision.cause, egrynnol_cause_name(received.decision.cause));
        break;
    default:
        check(0, "the kind of a decision");
    }
    printf("\n");
}

/* Receives one parameter, at the time that it is; nobody has to tick the clock before. The table goes on, whether
 * refused or not; the summary is changed where it is. The first records are the clock's, and are there beside a
 * refusal too; the segment's own, if it has one, stands behind them. */
static egrynnol_received receive(uint16_t association, const parameter *segment)
{
    egrynnol_received received =
        egrynnol_arrival(gate.table, &gate.summary, gate.store, sizeof gate.store, gate.report, sizeof gate.report,
                         gate.now, association, segment->octets, segment->length);

    gate.table = received.table;
    check(received.records - received.timeouts <= (received.refusal == EGRYNNOL_GOOD ? 1 : 0),
          "a segment has one record at most, and none where it is refused");
    printf("segment at %lu, association %u: ", (unsigned long)gate.now, association);
    print_decision(received, segment);
    print_records("timed out first", 0, received.timeouts);
    print_records("record", received.timeouts, received.records);
    return received;
}

/* Takes a delivery, before any other call, and compares it with what was sent. */
static void take(egrynnol_decision decision, const parameter *segment, const uint8_t *data, size_t length)
{
    egrynnol_taken taken = egrynnol_take(decision, segment->octets, segment->length, gate.store, sizeof gate.store);

    check(taken.length == length, "the length of a delivery");
    check(memcmp(taken.octets, data, length) == 0, "the octets of a delivery");
    printf("  taken: %u octets, the same as sent\n", (unsigned)taken.length);
}

/* The idle tick, now and then where nothing arrives: else what is due waits for the next segment. */
static unsigned tick(void)
{
    egrynnol_swept swept = egrynnol_clock(gate.table, &gate.summary, gate.report, sizeof gate.report, gate.now);

    check(swept.refusal == EGRYNNOL_GOOD, "the clock is not refused");
    gate.table = swept.table;
    printf("clock %lu: %u lost\n", (unsigned long)gate.now, swept.records);
    print_records("record", 0, swept.records);
    return swept.records;
}

static unsigned hang_up(uint16_t association)
{
    egrynnol_swept swept =
        egrynnol_release(gate.table, &gate.summary, gate.report, sizeof gate.report, association);

    check(swept.refusal == EGRYNNOL_GOOD, "the release is not refused");
    gate.table = swept.table;
    printf("release %u: %u lost\n", association, swept.records);
    print_records("record", 0, swept.records);
    return swept.records;
}

/* ---- The bill ---- */

/* For printf: a long has 64 bits here, the header asks for that. */
static unsigned long total(uint64_t number)
{
    return (unsigned long)number;
}

/* One line of the bill: row i of the summary, which is what each column has at i. */
static void print_row(size_t i)
{
    const egrynnol_summary *rows = &gate.summary;

    printf("  row %u, association %lu: taken %lu segments, %lu octets; delivered %lu, %lu; lost %lu, %lu\n", (unsigned)i,
           total(rows->association[i]), total(rows->taken_segments[i]), total(rows->taken_octets[i]),
           total(rows->delivered_segments[i]), total(rows->delivered_octets[i]),
           total(rows->lost_segments[i]), total(rows->lost_octets[i]));
}

/* Every row that is used, as the columns have it. Answers how many there are. */
static unsigned print_bill(void)
{
    unsigned used = 0;
    size_t i;

    printf("bill:\n");
    for (i = 0; i < EGRYNNOL_ROWS; i++) {
        if (gate.summary.mark[i] == 0)
            continue;
        print_row(i);
        used++;
    }
    return used;
}

/* What an association lost; nothing where no segment of it was taken. */
static uint64_t octets_lost(uint16_t association)
{
    size_t i = egrynnol_row_of(&gate.summary, association);

    return i < EGRYNNOL_ROWS ? gate.summary.lost_octets[i] : 0;
}

/* ---- The story ---- */

/* All segments but the last are saved; the last one delivers the message. Each comes a tick after the one before. */
static void joined(uint16_t association, const parameter *segments, unsigned from, unsigned count)
{
    egrynnol_received received;
    unsigned k;

    for (k = from; k + 1 < count; k++) {
        received = receive(association, segments + k);
        check(received.decision.kind == EGRYNNOL_SAVED && received.records == 0, "a segment is saved");
        check(received.position == EGRYNNOL_NOWHERE, "what is not refused has no octet at fault");
        pass(1);
    }
    received = receive(association, segments + k);
    check(received.decision.kind == EGRYNNOL_DELIVERED_STORE && received.records == 1, "the last segment delivers");
    check(record_says(0, EGRYNNOL_KIND_DELIVERED, 0, count, message_length), "the record of a joined delivery");
    take(received.decision, segments + k, message, message_length);
}

/* A short answer fits into one parameter and touches no place. */
static void in_one_piece(void)
{
    static const uint8_t answer[] = {'y', 'e', 's'};
    egrynnol_request request = {3, 0, 0, 255, 255, 0};
    egrynnol_received received;
    parameter one;
    egrynnol_sent sent = egrynnol_sending(gate.table, request, nothing, 0, nothing, 0,
                                          answer, sizeof answer, one.octets, sizeof one.octets);

    check(sent.refusal == EGRYNNOL_GOOD && sent.count == 1, "a short answer is one segment");
    one.length = sent.length;
    printf("cut: %u octets into a parameter of %u octets\n", (unsigned)sizeof answer, sent.length);
    received = receive(9, &one);
    check(received.decision.kind == EGRYNNOL_DELIVERED_PARAMETER && received.records == 1, "one piece delivers");
    check(record_says(0, EGRYNNOL_KIND_DELIVERED, 0, 1, sizeof answer), "the record of one piece");
    take(received.decision, &one, answer, sizeof answer);
}

/* A parameter that is refused with this number, at this position; so many sequences are due by its time, and lost. */
static void refused_at(const parameter *bad, unsigned refusal, unsigned position, unsigned due)
{
    egrynnol_received received = receive(9, bad);

    check(received.decision.kind == EGRYNNOL_REFUSED && received.timeouts == due, "a bad parameter is refused");
    check(received.refusal == refusal, "the number that it is refused with");
    check(received.position == position, "the position of the octet at fault");
}

/* Context 5 is not registered. */
static const parameter unknown = {{0x85, 0x80, 0xC0}, 3};

/* Besides: octet 2 has extension 0; the originating address has 2 of its 3 octets. Nothing changes. */
static void refused(void)
{
    static const parameter unended = {{0x83, 0x00, 0xC0}, 3};
    static const parameter cut = {{0x84, 0x80, 0xC0, 0x03, 0x00, 0x07}, 6};

    refused_at(&unknown, EGRYNNOL_REFUSAL_CONTEXT, 0, 0);
    refused_at(&unended, EGRYNNOL_REFUSAL_EXTENSION, 1, 0);
    refused_at(&cut, EGRYNNOL_REFUSAL_CUT, 6, 0);
}

/* The far end goes silent after its first segment, and nothing else comes. */
static void lost_by_the_timer(const parameter *segments)
{
    check(receive(9, segments).decision.kind == EGRYNNOL_SAVED, "the first segment is saved");
    pass(99);
    check(tick() == 0, "at age 99 nothing is lost");
    pass(1);
    check(tick() == 1, "at age 100 one sequence is lost");
    check(record_says(0, EGRYNNOL_KIND_LOST, EGRYNNOL_CAUSE_TIMER, 1, 15), "the record of a loss by the timer");
}

/* The second segment comes too late: its sequence is lost by its own time, and then it belongs to nothing. */
static void lost_by_a_late_arrival(const parameter *segments)
{
    egrynnol_received received;

    check(receive(9, segments).decision.kind == EGRYNNOL_SAVED, "the first segment is saved");
    pass(100);
    received = receive(9, segments + 1);
    check(received.decision.kind == EGRYNNOL_LOST && received.decision.cause == EGRYNNOL_CAUSE_NOT_OPEN,
          "the second segment is lost");
    check(received.records == 2 && received.timeouts == 1, "of two records one is the clock's");
    check(record_says(0, EGRYNNOL_KIND_LOST, EGRYNNOL_CAUSE_TIMER, 1, 15), "the clock's record stands first");
    check(record_says(1, EGRYNNOL_KIND_LOST, EGRYNNOL_CAUSE_NOT_OPEN, 1, 11), "the segment's own stands behind it");
}

/* A segment is refused, and by its time a sequence is lost all the same: there is a record beside the refusal. */
static void lost_beside_a_refusal(const parameter *segments)
{
    check(receive(9, segments).decision.kind == EGRYNNOL_SAVED, "the first segment is saved");
    pass(100);
    refused_at(&unknown, EGRYNNOL_REFUSAL_CONTEXT, 0, 1);
    check(record_says(0, EGRYNNOL_KIND_LOST, EGRYNNOL_CAUSE_TIMER, 1, 15), "the record beside a refusal");
}

/* Two associations send the same; one hangs up, the other is not touched. */
static void lost_by_release(const parameter *segments, unsigned count)
{
    check(receive(9, segments).decision.place == 0, "association 9 gets place 0");
    check(receive(10, segments).decision.place == 1, "association 10 gets place 1");
    check(hang_up(9) == 1, "the release of 9 loses one sequence");
    check(record_says(0, EGRYNNOL_KIND_LOST, EGRYNNOL_CAUSE_RELEASE, 1, 15), "the record of a loss by release");
    joined(10, segments, 1, count);
    check(hang_up(10) == 0, "the release of 10 loses nothing");
}

/* One origin, one reference, two exchanges behind this gateway: a place for each, and each gets its own. */
static void two_exchanges(const parameter *segments, unsigned count)
{
    static parameter others[EGRYNNOL_SEGMENTS];
    unsigned other_count = cut_message(others, second_exchange, sizeof second_exchange);

    check(receive(11, segments).decision.place == 0, "what goes to one exchange gets place 0");
    check(receive(11, others).decision.place == 1, "what goes to the other gets place 1");
    joined(11, segments, 1, count);
    check(record_goes_to(exchange, sizeof exchange), "the record names the one exchange");
    joined(11, others, 1, other_count);
    check(record_goes_to(second_exchange, sizeof second_exchange), "the record names the other");
}

/* Who had a segment taken is on the bill: each row has what the steps above say, added up. */
static void billed(void)
{
    static const uint16_t asked[] = {9, 10, 11, 12};
    const egrynnol_summary *rows = &gate.summary;
    size_t k, i = egrynnol_row_of(rows, 9);

    check(print_bill() == 3, "three associations are on the bill");
    check(i == 0 && egrynnol_row_of(rows, 10) == 1 && egrynnol_row_of(rows, 11) == 2,
          "rows go in the order of the first segments");
    check(rows->taken_segments[i] == 9 && rows->taken_octets[i] == 104, "what 9 had taken");
    check(rows->delivered_segments[i] == 4 && rows->delivered_octets[i] == 33, "what 9 had delivered");
    check(rows->lost_segments[i] == 5 && rows->lost_octets[i] == 71, "what 9 had lost");
    check(rows->taken_octets[1] == message_length && rows->delivered_octets[1] == message_length, "10 lost nothing");
    check(rows->delivered_octets[2] == 2 * message_length && rows->lost_octets[2] == 0, "11 had the message twice");
    check(egrynnol_row_of(rows, 12) == EGRYNNOL_ROWS, "12 has no row");
    for (k = 0; k < sizeof asked / sizeof asked[0]; k++)
        printf("lost by association %u: %lu octets\n", asked[k], total(octets_lost(asked[k])));
}

int main(void)
{
    static parameter segments[EGRYNNOL_SEGMENTS];
    unsigned count;

    printf("egrynnol %s, interface %d\n", EGRYNNOL_VERSION_STRING, EGRYNNOL_INTERFACE);
    open_gate();
    count = cut_message(segments, exchange, sizeof exchange);
    check(count == 3, "the message has three segments");
    joined(9, segments, 0, count);
    in_one_piece();
    refused();
    lost_by_the_timer(segments);
    lost_by_a_late_arrival(segments);
    lost_beside_a_refusal(segments);
    lost_by_release(segments, count);
    two_exchanges(segments, count);
    billed();
    printf("all as expected\n");
    return 0;
}
