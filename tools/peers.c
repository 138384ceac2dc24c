/*
 * peers.c - cuts and joins by the Egrynnol library, line by line, for tools/peers.
 *
 *   open KIND:CONTEXT ...            a fresh table with these contexts, KIND 1 (of 1998) or 2 (of 2000):
 *                                    prints "open N", N the refusal number or 0
 *   cut CONTEXT INSTRUCTION REFERENCE R1 R ORIGIN DESTINATION DATA
 *                                    prints "segments OCTETS ...", one word for each, or "refused N"
 *   receive ASSOCIATION PARAMETER    prints "saved", "delivered OCTETS", "lost CAUSE" or "refused N"
 *
 * Octets are in hex; "-" stands for none. Exit status 2 if a line is none of these.
 */
#include <stdio.h>
#include <stdlib.h>
#include <string.h>

#include "egrynnol.h"

/* The longest line is a cut of 2,048 octets. */
#define LINE 8192

static egrynnol_table table;
static egrynnol_summary summary;
static uint8_t store[EGRYNNOL_STORE];

static void bad(const char *what)
{
    fprintf(stderr, "peers: bad line: %s\n", what);
    exit(2);
}

static const char *word(void)
{
    const char *next = strtok(NULL, " \n");
    if (next == NULL)
        bad("a word is missing");
    return next;
}

static unsigned long number(const char *text)
{
    char *end;
    unsigned long value = strtoul(text, &end, 10);
    if (end == text || *end != '\0')
        bad(text);
    return value;
}

/* The next word's octets; answers how many. */
static size_t octets(uint8_t *to, size_t most)
{
    const char *text = word();
    size_t length = strcmp(text, "-") == 0 ? 0 : strlen(text) / 2;
    if (length > most || (length > 0 && strlen(text) % 2 != 0))
        bad("too many octets, or half of one");
    for (size_t i = 0; i < length; i++) {
        unsigned value;
        if (sscanf(text + 2 * i, "%2x", &value) != 1)
            bad(text);
        to[i] = (uint8_t)value;
    }
    return length;
}

static void print_octets(const uint8_t *from, size_t length)
{
    if (length == 0)
        printf("-");
    for (size_t i = 0; i < length; i++)
        printf("%02x", from[i]);
}

static void open_line(void)
{
    uint8_t registry[EGRYNNOL_CONTEXTS * EGRYNNOL_REGISTRY_RECORD];
    size_t length = 0;
    for (const char *text = strtok(NULL, " \n"); text != NULL; text = strtok(NULL, " \n")) {
        unsigned kind, context;
        if (sscanf(text, "%u:%u", &kind, &context) != 2 || length + 3 > sizeof registry)
            bad(text);
        registry[length++] = (uint8_t)kind;
        registry[length++] = (uint8_t)(context >> 8);
        registry[length++] = (uint8_t)context;
    }
    egrynnol_opened opened = egrynnol_opening(&summary, registry, length, EGRYNNOL_TIMER_MOST, 0);
    table = opened.table;
    printf("open %d\n", opened.refusal);
}

static void cut_line(void)
{
    uint8_t origin[255], destination[255], data[EGRYNNOL_DATA + 1], area[EGRYNNOL_PARAMETER];
    egrynnol_request request = {0};
    request.context = (uint16_t)number(word());
    request.instruction = (uint8_t)number(word());
    request.reference = (uint8_t)number(word());
    request.room1 = number(word());
    request.room = number(word());
    size_t origins = octets(origin, sizeof origin);
    size_t destinations = octets(destination, sizeof destination);
    size_t length = octets(data, sizeof data);
    egrynnol_sent sent;
    do {
        sent = egrynnol_sending(table, request, origin, origins, destination, destinations, data,
                                length, area, sizeof area);
        if (sent.refusal != EGRYNNOL_GOOD) {
            printf("refused %d\n", sent.refusal);
            return;
        }
        printf(request.number == 0 ? "segments " : " ");
        print_octets(area, sent.length);
    } while (++request.number < sent.count);
    printf("\n");
}

static void print_delivery(egrynnol_decision decision, const uint8_t *parameter, size_t length)
{
    egrynnol_part part = egrynnol_delivery(decision, parameter, length, store, sizeof store);
    printf("delivered ");
    print_octets((part.source == EGRYNNOL_OF_STORE ? store : parameter) + part.start, part.length);
    printf("\n");
}

static void receive_line(void)
{
    uint8_t parameter[EGRYNNOL_PARAMETER], report[EGRYNNOL_REPORT_ARRIVAL];
    uint16_t association = (uint16_t)number(word());
    size_t length = octets(parameter, sizeof parameter);
    /* At the time of the opening: no timer runs here. */
    egrynnol_received got = egrynnol_arrival(table, &summary, store, sizeof store, report, sizeof report,
                                             table.clock, association, parameter, length);
    table = got.table;
    switch (got.decision.kind) {
    case EGRYNNOL_SAVED:
        printf("saved\n");
        break;
    case EGRYNNOL_LOST:
        printf("lost %d\n", got.decision.cause);
        break;
    case EGRYNNOL_REFUSED:
        printf("refused %d\n", got.refusal);
        break;
    default:
        print_delivery(got.decision, parameter, length);
    }
}

int main(void)
{
    static char line[LINE];
    /* Each answer is waited for. */
    setvbuf(stdout, NULL, _IOLBF, 0);
    while (fgets(line, sizeof line, stdin) != NULL) {
        const char *verb = strtok(line, " \n");
        if (verb != NULL && strcmp(verb, "open") == 0)
            open_line();
        else if (verb != NULL && strcmp(verb, "cut") == 0)
            cut_line();
        else if (verb != NULL && strcmp(verb, "receive") == 0)
            receive_line();
        else
            bad(verb == NULL ? "empty" : verb);
    }
    return 0;
}
