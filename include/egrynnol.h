/*
 * egrynnol.h - application transport of ITU-T Q.765 for signalling gateways
 *
 * Six calls: open a table, receive a segment that arrives, tick the clock, release
 * an association, take a delivery, cut data into segments. The library keeps no
 * state, allocates nothing and reads nothing but what it is handed. All it
 * knows is in the table and in the summary, which has the totals of each
 * association. The host holds both and hands them on from call to call.
 *
 * Structs go by value, but for the summary, which is lent as a pointer with no
 * length. A lent area is a pointer and its length in octets.
 * The calls are proved; the inline functions at the end of this file are not.
 * They are plain C over the calls' answers, and tested.
 *
 * For x86-64 Linux (the System V convention), and compilers that know gcc's
 * asm labels, as gcc and clang do. From C89 on, where <stdint.h> is there, and
 * from C++98 on. Link with -legrynnol. See egrynnol(3), and a page for each
 * function, as egrynnol_arrival(3).
 *
 * A call needs up to 15,200 octets of stack, its arguments included: measured,
 * not proved (docs/PERFORMANCE.md).
 *
 * WHAT THE HOST OWES. The library cannot check these:
 *
 * - The areas of one call do not overlap, the summary included.
 * - Each length is true: so many octets are there, and may be read, or written
 *   where the pointer is not const.
 * - No pointer is NULL, not even for length 0: give the address of any octet.
 * - One call at a time for a table, its summary and its store. Different tables
 *   with different summaries and stores may be in calls at the same time:
 *   nothing is shared.
 * - Table, summary and store go together. From its opening on, each call gets
 *   the table as the last call with it left it, whether that was refused or
 *   not, and so the summary and the store. Nobody else writes these two; the
 *   summary may be read between calls. What they held at the opening does not
 *   matter. (A table or a summary that is not sound is refused; one that is
 *   sound but is not the last one is answered, and wrongly.)
 * - A delivery is asked for before the next call with that table: with the
 *   decision of the call that delivered, and with the parameter and the store
 *   as that call left them. Its octets are used, or copied, before that next
 *   call too. The host takes just the part that egrynnol_delivery answers.
 */
#ifndef EGRYNNOL_H
#define EGRYNNOL_H

#include <stddef.h>
#include <stdint.h>

/* The library is built for LP64: 64-bit size_t, long and pointers. */
#if defined(__SIZEOF_SIZE_T__) && defined(__SIZEOF_LONG__)
#if __SIZEOF_SIZE_T__ != 8 || __SIZEOF_LONG__ != 8
#error "egrynnol.h: this library needs an LP64 target (64-bit size_t and long)"
#endif
#endif

/* ---- Versions ---- */

#define EGRYNNOL_VERSION_MAJOR 4
#define EGRYNNOL_VERSION_MINOR 0
#define EGRYNNOL_VERSION_PATCH 0
#define EGRYNNOL_VERSION_STRING "4.0.0"

/* One number for #if: 1002003 is 1.2.3. */
#define EGRYNNOL_VERSION \
    (EGRYNNOL_VERSION_MAJOR * 1000000 + EGRYNNOL_VERSION_MINOR * 1000 + EGRYNNOL_VERSION_PATCH)

/* The interface: it changes with every layout, call or number in this file that
 * an older host would misread (docs/MIGRATION.md). It is part of the calls'
 * symbols, so that a host compiled against another one does not link. */
#define EGRYNNOL_INTERFACE 4

/* The symbol of a call: EGRYNNOL_SYMBOL("arrival") is "egrynnol_4_arrival". It is
 * for dlsym; a host that links uses the calls by their names. */
#define EGRYNNOL_SYMBOL(call) "egrynnol_" EGRYNNOL_TEXT(EGRYNNOL_INTERFACE) "_" call
#define EGRYNNOL_TEXT(number) EGRYNNOL_TEXT_OF(number)
#define EGRYNNOL_TEXT_OF(words) #words

/* ---- Words for the compiler ---- */

/* An answer that is not used is an error of the host's: it has the table to hand
 * on. The compiler sees that the answer is dropped, and not that its table is. */
#if defined(__GNUC__)
#define EGRYNNOL_USE_ANSWER __attribute__((__warn_unused_result__))
#else
#define EGRYNNOL_USE_ANSWER
#endif

/* A call is known to the linker by its symbol. */
#define EGRYNNOL_CALL(call) __asm__(EGRYNNOL_SYMBOL(call)) EGRYNNOL_USE_ANSWER

/* Inline functions, in every standard, and silent where they are not used. */
#if defined(__cplusplus) || (defined(__STDC_VERSION__) && __STDC_VERSION__ >= 199901L)
#define EGRYNNOL_INLINE static inline
#elif defined(__GNUC__)
#define EGRYNNOL_INLINE static __inline__
#else
#define EGRYNNOL_INLINE static
#endif

#ifdef __cplusplus
extern "C" {
#endif

/* ---- Numbers ---- */

#define EGRYNNOL_PLACES 16          /* places of a table: open sequences at a time */
#define EGRYNNOL_CONTEXTS 8         /* registered contexts at most */
#define EGRYNNOL_CONTEXT_MOST 16383 /* contexts are 1 to this */
#define EGRYNNOL_TIMER_MOST 1000000 /* T is 1 to this, in ticks */
#define EGRYNNOL_DATA 2048          /* octets of data at most; also the stretch of a place in the store */
#define EGRYNNOL_SEGMENTS 10        /* segments of a sequence at most */
#define EGRYNNOL_PARAMETER 255      /* octets of a parameter at most */
#define EGRYNNOL_ADDRESS 20         /* octets of an address at most */
#define EGRYNNOL_ROWS 64            /* rows of a summary: associations at most, from an opening on */
#define EGRYNNOL_TOTAL_MOST ((uint64_t)1 << 63) /* a total may become this, and no more; not for #if */

/* The least lengths of the lent areas. */
#define EGRYNNOL_STORE 32768        /* store: place p has the octets from 2048 x p on */
#define EGRYNNOL_REPORT_ARRIVAL 901 /* report of egrynnol_arrival: 17 records; long enough for every call */
#define EGRYNNOL_REPORT_SWEEP 848   /* report of egrynnol_clock and egrynnol_release: 16 records */

/* egrynnol_decision.place of a loss where no sequence was open. */
#define EGRYNNOL_NO_PLACE 16

/* egrynnol_received.position where no octet of the parameter is at fault. */
#define EGRYNNOL_NOWHERE 65535

/* ---- The registry: records of 3 octets, one after the other ----
 * Kind octet, then the context, most significant octet first. */

#define EGRYNNOL_KIND_1998 1        /* a context of 1998: no address fields */
#define EGRYNNOL_KIND_2000 2        /* a context of 2000: originating and destination address */
#define EGRYNNOL_REGISTRY_RECORD 3  /* octets of a registry record */

/* ---- The report: records of 53 octets, from the front of the area ----
 * Numbers are most significant octet first. */

#define EGRYNNOL_RECORD 53          /* octets of a record, with its kind octet */
#define EGRYNNOL_KIND_DELIVERED 18
#define EGRYNNOL_KIND_LOST 19
#define EGRYNNOL_NO_REFERENCE 255   /* reference of an unsegmented parameter */

/* Where the fields of a record start. With a context of 1998 both addresses are
 * empty. */
#define EGRYNNOL_AT_KIND 0
#define EGRYNNOL_AT_ASSOCIATION 1         /* 2 octets */
#define EGRYNNOL_AT_CONTEXT 3             /* 2 octets */
#define EGRYNNOL_AT_REFERENCE 5           /* 0 to 127, or EGRYNNOL_NO_REFERENCE */
#define EGRYNNOL_AT_INSTRUCTION 6         /* of the first segment of the sequence; of this segment where none was open */
#define EGRYNNOL_AT_CAUSE 7               /* 0 in Delivered */
#define EGRYNNOL_AT_SEGMENTS 8            /* segments covered */
#define EGRYNNOL_AT_OCTETS 9              /* 2 octets: octets of information covered */
#define EGRYNNOL_AT_ORIGIN_LENGTH 11      /* 0 to 20 */
#define EGRYNNOL_AT_ORIGIN 12             /* 20 octets, zero filled */
#define EGRYNNOL_AT_DESTINATION_LENGTH 32 /* 0 to 20 */
#define EGRYNNOL_AT_DESTINATION 33        /* 20 octets, zero filled */

/* Causes of a loss. */
enum egrynnol_cause {
    EGRYNNOL_CAUSE_NOT_OPEN = 1,  /* subsequent, key not open: this segment */
    EGRYNNOL_CAUSE_ORDER = 2,     /* remaining is not one less than before: saved and this */
    EGRYNNOL_CAUSE_RESTART = 3,   /* new, key open: what was saved; this segment starts the sequence anew */
    EGRYNNOL_CAUSE_REMAINING = 4, /* remaining over 9: the open sequence of that key, if any, and this */
    EGRYNNOL_CAUSE_OCTETS = 5,    /* saved plus this is over 2,048 octets: saved and this */
    EGRYNNOL_CAUSE_TIMER = 6,     /* age is T or more, at a clock call or by an arrival's time */
    EGRYNNOL_CAUSE_RELEASE = 7    /* the association was released */
};

/* The instruction is a sum of these. */
#define EGRYNNOL_RELEASE_CALL 1
#define EGRYNNOL_SEND_NOTIFICATION 2

/* ---- Refusal numbers ----
 * A refused call answers its number, the table as it came (opening: the all-zero
 * table), 0 records, and for sending a count of 0. No lent octet is altered, and
 * no number of the summary (opening: all of them are 0 then, too).
 *
 * With one exception: of an arrival, 4 to 10, 21 and 23 refuse the segment alone.
 * The clock's work before it stands: table, summary and report are as that left
 * them, and the records are the clock's. So look at records whatever the refusal. */
enum egrynnol_refusal {
    EGRYNNOL_GOOD = 0,                      /* not refused */
    EGRYNNOL_REFUSAL_TABLE = 1,             /* table not sound, or summary not sound beside it */
    EGRYNNOL_REFUSAL_STORE = 2,             /* store under 32,768 */
    EGRYNNOL_REFUSAL_REPORT = 3,            /* report area under 901 (arrival) or 848 (clock, release) */
    EGRYNNOL_REFUSAL_PARAMETER = 4,         /* parameter over 255 */
    EGRYNNOL_REFUSAL_CUT = 5,               /* parameter ends inside its fields */
    EGRYNNOL_REFUSAL_EXTENSION = 6,         /* octet 1a, 2 or 3a has extension 0 */
    EGRYNNOL_REFUSAL_OCTET_3A = 7,          /* octet 3a present or absent wrongly */
    EGRYNNOL_REFUSAL_CONTEXT = 8,           /* context not registered */
    EGRYNNOL_REFUSAL_ADDRESS = 9,           /* address over 20 */
    EGRYNNOL_REFUSAL_FULL = 10,             /* a new sequence, and no place is free */
    EGRYNNOL_REFUSAL_REGISTRY = 11,         /* registry: unknown kind, cut record, context out of range or listed twice, over 8 */
    EGRYNNOL_REFUSAL_TIMER = 12,            /* T out of range */
    EGRYNNOL_REFUSAL_STEP = 13,             /* clock step 2^31 or more */
    EGRYNNOL_REFUSAL_DATA = 14,             /* data over 2,048 */
    EGRYNNOL_REFUSAL_ADDRESS_1998 = 15,     /* address of non-zero length with a context of 1998 */
    EGRYNNOL_REFUSAL_REFERENCE = 16,        /* reference over 127 */
    EGRYNNOL_REFUSAL_INSTRUCTION = 17,      /* instruction over 3 */
    EGRYNNOL_REFUSAL_ROOM = 18,             /* R1 or R over 255; or segmented and R1 < h + 1, R < h + 2, or more than 10 segments */
    EGRYNNOL_REFUSAL_NUMBER = 19,           /* segment number not below the count */
    EGRYNNOL_REFUSAL_AREA = 20,             /* lent area shorter than the segment */
    EGRYNNOL_REFUSAL_ROW = 21,              /* the association has no row, and no row is unused */
    EGRYNNOL_REFUSAL_TOTAL = 22,            /* a total would be over 2^63 */
    EGRYNNOL_REFUSAL_PADDED = 23            /* context padded: octet 1a has a zero upper part */
};

/* ---- The table ----
 * The host holds it and hands it on; it has no need to look inside. Structs have
 * octets that belong to no field: do not compare tables with memcmp. */

typedef struct egrynnol_address {
    uint8_t octets[EGRYNNOL_ADDRESS]; /* zero filled */
    uint8_t length;
} egrynnol_address;

typedef struct egrynnol_key {
    uint16_t association;
    uint16_t context;
    egrynnol_address origin;
    egrynnol_address destination;
    uint8_t reference;
} egrynnol_key;

typedef struct egrynnol_place {
    egrynnol_key key;
    uint16_t octets;            /* saved so far */
    uint32_t start;             /* time of the first segment */
    uint8_t mark;               /* 1 open, 0 free; a free place is all zero */
    uint8_t instruction;        /* of the first segment */
    uint8_t remaining;          /* of the last segment */
    uint8_t segments;           /* saved so far */
} egrynnol_place;

typedef struct egrynnol_entry {
    uint16_t context;
    uint8_t kind;               /* EGRYNNOL_KIND_1998, EGRYNNOL_KIND_2000; 0 for an unused entry */
} egrynnol_entry;

typedef struct egrynnol_table {
    egrynnol_place places[EGRYNNOL_PLACES];
    egrynnol_entry registry[EGRYNNOL_CONTEXTS];
    uint32_t timer;             /* T; 0 in the unopened table, which every call but opening refuses with 1 */
    uint32_t clock;
} egrynnol_table;

/* ---- The summary ----
 * Totals for each association since the opening, column by column: row i is what
 * each array has at i. An association gets the lowest unused row at its first
 * taken segment, and keeps it until the next opening. Taken is every segment that
 * is not refused; delivered and lost is what the records cover. Octets are those
 * of the information.
 *
 * The host holds it beside the table and lends it to each call that takes it. To
 * read it, go through i from 0 to 63 and pass over those whose mark is 0; or ask
 * egrynnol_row_of, below.
 *
 * It is sound beside a table if each mark is 0 or 1, an unused row is all zero, a
 * used one has an association to 65,535, no two used rows have the same, and the
 * association of each open place has a row. Totals are not judged: one that is
 * over 2^63 stays, as long as nothing is to be added to it. */

typedef struct egrynnol_summary {
    uint64_t mark[EGRYNNOL_ROWS];               /* 1 used, 0 unused; an unused row is all zero */
    uint64_t association[EGRYNNOL_ROWS];        /* 0 to 65,535 */
    uint64_t taken_segments[EGRYNNOL_ROWS];
    uint64_t taken_octets[EGRYNNOL_ROWS];
    uint64_t delivered_segments[EGRYNNOL_ROWS];
    uint64_t delivered_octets[EGRYNNOL_ROWS];
    uint64_t lost_segments[EGRYNNOL_ROWS];
    uint64_t lost_octets[EGRYNNOL_ROWS];
} egrynnol_summary;

/* ---- Answers ---- */

/* What became of a segment. A field that has no meaning for the kind is 0. Lost,
 * where no sequence of that key was open, has EGRYNNOL_NO_PLACE as its place. */
enum egrynnol_decision_kind {
    EGRYNNOL_REFUSED = 0,             /* see the refusal number */
    EGRYNNOL_SAVED = 1,               /* saved in place */
    EGRYNNOL_DELIVERED_PARAMETER = 2, /* delivered: the part of the parameter at start, of length */
    EGRYNNOL_DELIVERED_STORE = 3,     /* delivered: the first length octets of place's stretch of the store */
    EGRYNNOL_LOST = 4                 /* lost, for cause; place of the sequence, or EGRYNNOL_NO_PLACE */
};

typedef struct egrynnol_decision {
    size_t place;
    size_t start;
    size_t length;
    uint8_t kind;               /* enum egrynnol_decision_kind */
    uint8_t cause;              /* enum egrynnol_cause where lost */
} egrynnol_decision;

/* The answer to an arrival. Of the records in the report the first, as many as
 * timeouts says, are the clock's; a record behind them is the segment's own. Where
 * the segment is refused there is none of its own: records and timeouts are equal.
 *
 * Refusals 5 to 9 and 23 blame an octet of the parameter, and position says which,
 * from 0 on: 5 the first octet that is missing, so the parameter's length; 6 the
 * octet whose extension is 0 (1a, 2 or 3a); 7 octet 3; 8 the context's last octet;
 * 9 the length octet that is over 20; 23 octet 1a. With any other refusal, and with
 * none, it is EGRYNNOL_NOWHERE. What stands behind the octet of a 6, 8, 9 or 23 has
 * no part in that refusal. */
typedef struct egrynnol_received {
    egrynnol_table table;
    egrynnol_decision decision;
    uint8_t refusal;
    uint8_t records;            /* 0 to 17 */
    uint16_t position;          /* of the octet at fault, from 0; EGRYNNOL_NOWHERE where none is */
    uint8_t timeouts;           /* 0 to 16: how many of the records are the clock's; they come first */
} egrynnol_received;

typedef struct egrynnol_swept {
    egrynnol_table table;
    uint8_t refusal;
    uint8_t records;            /* 0 to 16 */
} egrynnol_swept;

typedef struct egrynnol_opened {
    egrynnol_table table;
    uint8_t refusal;
} egrynnol_opened;

/* What egrynnol_sending is to write. */
typedef struct egrynnol_request {
    uint16_t context;
    uint8_t instruction;        /* 0 to 3 */
    uint8_t reference;          /* 0 to 127, also where the parameter is unsegmented */
    size_t room1;               /* R1: octets of the whole parameter in the first message, to 255 */
    size_t room;                /* R: the same in each later message, to 255 */
    size_t number;              /* which segment, from 0 */
} egrynnol_request;

typedef struct egrynnol_sent {
    uint8_t refusal;
    uint8_t count;              /* segments in all; 0 if refused */
    uint16_t length;            /* octets of this segment, at the front of the area */
} egrynnol_sent;

/* A part of a lent area. An empty part is 0, 0, 0. */
typedef struct egrynnol_part {
    size_t start;
    size_t length;
    uint8_t source;             /* EGRYNNOL_OF_PARAMETER or EGRYNNOL_OF_STORE */
} egrynnol_part;

#define EGRYNNOL_OF_PARAMETER 0
#define EGRYNNOL_OF_STORE 1

/* ---- The calls ---- */

/*
 * egrynnol_opening - a table with no open place, and a summary with no used row.
 *
 * summary: may hold anything; all its numbers are 0 afterwards, refused or not.
 * registry: 0 to 8 records of 3 octets, see above; length 0 is allowed.
 * timer: T, 1 to 1,000,000. clock: the time now, any.
 *
 * Answers the table and the refusal. Changes nothing but the summary. Opening
 * again drops what is open in the old table, with no record, and the totals: read
 * them before.
 *
 * Refusals, in this order: 12, 11. Refused, the table is the unopened one, all
 * zero.
 */
egrynnol_opened egrynnol_opening(egrynnol_summary *summary,
                                 const uint8_t *registry, size_t registry_length,
                                 uint32_t timer, uint32_t clock) EGRYNNOL_CALL("opening");

/*
 * egrynnol_arrival - receives one parameter that arrives on an association at a time.
 *
 * First it does the clock's work, as egrynnol_clock does with that time: the time is
 * set, and every sequence of age T or more is lost, cause 6, with a record, in place
 * order. Then it receives the segment, at the table and the summary which that
 * leaves. So a sequence that is due is never joined with what comes too late, and
 * nobody has to tick the clock before a segment. Tick it by egrynnol_clock where no
 * segment comes, since else nothing is lost by the timer until one does.
 *
 * A segment that loses its own sequence by its time is looked at afterwards: a
 * subsequent one is lost too, cause 1, and a new one begins a sequence and is no
 * restart. A place that the clock's work frees can be taken by the same arrival. A
 * sequence that the segment begins has the arrival's time as its start.
 *
 * Answers the table, what became of the segment, the refusal, the number of records
 * (0 to 17), and how many of them are the clock's (timeouts, 0 to 16). Records go to
 * the front of report, the clock's first, then the segment's own, if it has one:
 *
 *   for (n = 0; n < got.records; n++)
 *       billed(egrynnol_record_at(report, n), n < got.timeouts);
 *
 * The rest of report stays. Of the store, only the octets of the newly saved
 * information change, in the stretch of the segment's own place; the final segment
 * of a sequence is saved too. After EGRYNNOL_LOST with cause 3 the segment is saved
 * as the start of a new sequence, in the same place.
 *
 * Of the summary, the rows of the associations that lose something by the clock's
 * work change, and the segment's own: it counts as taken, and what its record covers
 * as delivered or as lost. A total to which the call adds nothing is not looked at;
 * what the clock's work and the segment add to one total is judged by the sum.
 *
 * A sequence is told apart from others by association, context, originating
 * address, destination address and reference; an address is its octets and its
 * length. What the information means is not looked at.
 *
 * A context below 128 is in one octet: in two, its upper part zero, it is refused
 * with 23, registered or not. So equal contexts have equal octets in all that is
 * accepted.
 *
 * Refusals, in this order: 1, 2, 3, 13, and 22 of the clock's work; 4, then 5 to 9
 * and 23 by the parameter's octets from left to right (23 at octet 1a, after 6 and
 * before 8), then 10, 21; and 22 of both together.
 *
 * What a refusal leaves. By 1, 2, 3, 13 or 22, nothing is changed: table, summary,
 * store and report are as they came, and there are no records. By 4 to 10, 21 or 23
 * the segment alone is refused, judged after the clock's work, and that stands: the
 * table, the summary and the report are as it left them, its time is set, and
 * records and timeouts both say how many records it made. No octet of the store
 * changes.
 */
egrynnol_received egrynnol_arrival(egrynnol_table table, egrynnol_summary *summary,
                                   uint8_t *store, size_t store_length,
                                   uint8_t *report, size_t report_length,
                                   uint32_t time, uint16_t association,
                                   const uint8_t *parameter, size_t parameter_length)
    EGRYNNOL_CALL("arrival");

/*
 * egrynnol_clock - sets the time and runs the timer.
 *
 * The clock is 32 bits and runs round: the step is time less the table's clock,
 * modulo 2^32. Every sequence of age T or more is lost, cause 6.
 *
 * Answers the table, the refusal and the number of records (0 to 16). Records go
 * to the front of report in place order; the rest of report stays. A step of 0 is
 * good. A sequence is lost by the timer only here and by an arrival, which does the
 * same with its own time; so call it where no segment comes, often enough.
 *
 * Of the summary, the rows of the associations that lose something change. Several
 * losses of one association are judged by their sum.
 *
 * Refusals, in this order: 1, 3, 13, 22.
 */
egrynnol_swept egrynnol_clock(egrynnol_table table, egrynnol_summary *summary,
                              uint8_t *report, size_t report_length,
                              uint32_t time) EGRYNNOL_CALL("clock");

/*
 * egrynnol_release - ends an association.
 *
 * Every sequence of the association is lost, cause 7. With none open there is
 * no record and no refusal.
 *
 * Answers the table, the refusal and the number of records (0 to 16). Records go
 * to the front of report in place order; the rest of report stays. Of the summary,
 * only the association's row changes, and it keeps that row; it needs none.
 *
 * Refusals, in this order: 1, 3, 22.
 */
egrynnol_swept egrynnol_release(egrynnol_table table, egrynnol_summary *summary,
                                uint8_t *report, size_t report_length,
                                uint16_t association) EGRYNNOL_CALL("release");

/*
 * egrynnol_delivery - where the delivered data is.
 *
 * decision: that of the egrynnol_arrival call that delivered. parameter, store:
 * the same areas as in that call, as it left them. When: before the next call
 * with that table, see above; the place is free then, and a new sequence may
 * use it. egrynnol_take, below, has the pointer at once.
 *
 * Answers a part of the parameter or a part of the store. Any other decision, or
 * a part not inside the parameter, the store or the place's own 2,048 octets,
 * gives the empty part. Changes nothing, refuses nothing.
 */
egrynnol_part egrynnol_delivery(egrynnol_decision decision,
                                const uint8_t *parameter, size_t parameter_length,
                                const uint8_t *store, size_t store_length) EGRYNNOL_CALL("delivery");

/*
 * egrynnol_sending - writes one segment of data.
 *
 * The table is judged whole (1 where it is not sound), and of a sound one only
 * the registry is used; it is not changed. Call with request.number 0 first: the
 * answer has the count of segments. Then call with 1 to count - 1, all else the
 * same.
 *
 * h is the length of the header without octet 3a: egrynnol_header_length, below.
 * Data of n octets with h + n up to room1 is one segment, unsegmented, and the
 * reference is not written. Else the first segment carries room1 - h - 1 octets,
 * each later one room - h - 1, and the last what is left.
 *
 * Answers the refusal, the count and the length of this segment. The segment goes
 * to the front of area; the rest of area stays. 255 octets are always enough.
 *
 * A context of 1998 has no addresses: give length 0 for both.
 *
 * Refusals, in this order: 1, 8, 14, 9, 15, 17, 16, 18, 19, 20.
 */
egrynnol_sent egrynnol_sending(egrynnol_table table, egrynnol_request request,
                               const uint8_t *origin, size_t origin_length,
                               const uint8_t *destination, size_t destination_length,
                               const uint8_t *data, size_t data_length,
                               uint8_t *area, size_t area_length) EGRYNNOL_CALL("sending");

/* ---- The layout that the library was built with, checked by the compiler ----
 * A negative array size here means that this compiler lays the structs out
 * otherwise, and that linking with the library would go wrong. */

#define EGRYNNOL_CHECK(name, truth) typedef char egrynnol_check_##name[(truth) ? 1 : -1]

EGRYNNOL_CHECK(lp64_target_needed, sizeof(size_t) == 8 && sizeof(long) == 8 && sizeof(void *) == 8);

EGRYNNOL_CHECK(address, sizeof(egrynnol_address) == 21
               && offsetof(egrynnol_address, octets) == 0 && offsetof(egrynnol_address, length) == 20);
EGRYNNOL_CHECK(key, sizeof(egrynnol_key) == 48
               && offsetof(egrynnol_key, association) == 0 && offsetof(egrynnol_key, context) == 2
               && offsetof(egrynnol_key, origin) == 4 && offsetof(egrynnol_key, destination) == 25
               && offsetof(egrynnol_key, reference) == 46);
EGRYNNOL_CHECK(place, sizeof(egrynnol_place) == 60
               && offsetof(egrynnol_place, key) == 0 && offsetof(egrynnol_place, octets) == 48
               && offsetof(egrynnol_place, start) == 52 && offsetof(egrynnol_place, mark) == 56
               && offsetof(egrynnol_place, instruction) == 57 && offsetof(egrynnol_place, remaining) == 58
               && offsetof(egrynnol_place, segments) == 59);
EGRYNNOL_CHECK(entry, sizeof(egrynnol_entry) == 4
               && offsetof(egrynnol_entry, context) == 0 && offsetof(egrynnol_entry, kind) == 2);
EGRYNNOL_CHECK(table, sizeof(egrynnol_table) == 1000
               && offsetof(egrynnol_table, places) == 0 && offsetof(egrynnol_table, registry) == 960
               && offsetof(egrynnol_table, timer) == 992 && offsetof(egrynnol_table, clock) == 996);
EGRYNNOL_CHECK(summary, sizeof(egrynnol_summary) == 4096
               && offsetof(egrynnol_summary, mark) == 0 && offsetof(egrynnol_summary, association) == 512
               && offsetof(egrynnol_summary, taken_segments) == 1024 && offsetof(egrynnol_summary, taken_octets) == 1536
               && offsetof(egrynnol_summary, delivered_segments) == 2048 && offsetof(egrynnol_summary, delivered_octets) == 2560
               && offsetof(egrynnol_summary, lost_segments) == 3072 && offsetof(egrynnol_summary, lost_octets) == 3584);
EGRYNNOL_CHECK(decision, sizeof(egrynnol_decision) == 32
               && offsetof(egrynnol_decision, place) == 0 && offsetof(egrynnol_decision, start) == 8
               && offsetof(egrynnol_decision, length) == 16 && offsetof(egrynnol_decision, kind) == 24
               && offsetof(egrynnol_decision, cause) == 25);
EGRYNNOL_CHECK(received, sizeof(egrynnol_received) == 1040
               && offsetof(egrynnol_received, table) == 0 && offsetof(egrynnol_received, decision) == 1000
               && offsetof(egrynnol_received, refusal) == 1032 && offsetof(egrynnol_received, records) == 1033
               && offsetof(egrynnol_received, position) == 1034 && offsetof(egrynnol_received, timeouts) == 1036);
EGRYNNOL_CHECK(swept, sizeof(egrynnol_swept) == 1004
               && offsetof(egrynnol_swept, table) == 0 && offsetof(egrynnol_swept, refusal) == 1000
               && offsetof(egrynnol_swept, records) == 1001);
EGRYNNOL_CHECK(opened, sizeof(egrynnol_opened) == 1004
               && offsetof(egrynnol_opened, table) == 0 && offsetof(egrynnol_opened, refusal) == 1000);
EGRYNNOL_CHECK(request, sizeof(egrynnol_request) == 32
               && offsetof(egrynnol_request, context) == 0 && offsetof(egrynnol_request, instruction) == 2
               && offsetof(egrynnol_request, reference) == 3 && offsetof(egrynnol_request, room1) == 8
               && offsetof(egrynnol_request, room) == 16 && offsetof(egrynnol_request, number) == 24);
EGRYNNOL_CHECK(sent, sizeof(egrynnol_sent) == 4
               && offsetof(egrynnol_sent, refusal) == 0 && offsetof(egrynnol_sent, count) == 1
               && offsetof(egrynnol_sent, length) == 2);
EGRYNNOL_CHECK(part, sizeof(egrynnol_part) == 24
               && offsetof(egrynnol_part, start) == 0 && offsetof(egrynnol_part, length) == 8
               && offsetof(egrynnol_part, source) == 16);

#undef EGRYNNOL_CHECK

/* ---- Inline functions: not proved, tested ---- */

/* A record of a report, in numbers. */
typedef struct egrynnol_record {
    unsigned kind;                         /* EGRYNNOL_KIND_DELIVERED or EGRYNNOL_KIND_LOST */
    unsigned association;
    unsigned context;
    unsigned reference;                    /* 0 to 127, or EGRYNNOL_NO_REFERENCE */
    unsigned instruction;
    unsigned cause;                        /* enum egrynnol_cause; 0 in Delivered */
    unsigned segments;                     /* covered */
    unsigned octets;                       /* of information, covered */
    unsigned origin_length;                /* 0 to 20 */
    uint8_t origin[EGRYNNOL_ADDRESS];      /* zero filled */
    unsigned destination_length;           /* 0 to 20 */
    uint8_t destination[EGRYNNOL_ADDRESS]; /* zero filled */
} egrynnol_record;

/*
 * egrynnol_record_at - record n of a report, from 0 on.
 *
 * n is less than the records of the call's answer. It reads 53 octets, from
 * report + 53 x n on, and asks nothing of them: of octets that are no record of
 * the library's, kind and both lengths can be anything up to 255.
 */
EGRYNNOL_INLINE EGRYNNOL_USE_ANSWER egrynnol_record egrynnol_record_at(const uint8_t *report, size_t n)
{
    const uint8_t *from = report + n * EGRYNNOL_RECORD;
    egrynnol_record record;
    size_t k;

    record.kind = from[EGRYNNOL_AT_KIND];
    record.association = from[EGRYNNOL_AT_ASSOCIATION] * 256u + from[EGRYNNOL_AT_ASSOCIATION + 1];
    record.context = from[EGRYNNOL_AT_CONTEXT] * 256u + from[EGRYNNOL_AT_CONTEXT + 1];
    record.reference = from[EGRYNNOL_AT_REFERENCE];
    record.instruction = from[EGRYNNOL_AT_INSTRUCTION];
    record.cause = from[EGRYNNOL_AT_CAUSE];
    record.segments = from[EGRYNNOL_AT_SEGMENTS];
    record.octets = from[EGRYNNOL_AT_OCTETS] * 256u + from[EGRYNNOL_AT_OCTETS + 1];
    record.origin_length = from[EGRYNNOL_AT_ORIGIN_LENGTH];
    record.destination_length = from[EGRYNNOL_AT_DESTINATION_LENGTH];
    for (k = 0; k < EGRYNNOL_ADDRESS; k++) {
        record.origin[k] = from[EGRYNNOL_AT_ORIGIN + k];
        record.destination[k] = from[EGRYNNOL_AT_DESTINATION + k];
    }
    return record;
}

/* Octets in the host's memory. */
typedef struct egrynnol_taken {
    const uint8_t *octets;      /* never NULL */
    size_t length;
} egrynnol_taken;

/*
 * egrynnol_take - egrynnol_delivery's part as a pointer and a length.
 *
 * The same arguments, at the same time. Any other decision has length 0.
 *
 * EXAMPLE: receive a parameter, hand on the table, read the records, take the delivery
 *
 *   #include <stdio.h>
 *   #include "egrynnol.h"
 *
 *   static egrynnol_table table;
 *   static egrynnol_summary summary;
 *   static uint8_t store[EGRYNNOL_STORE], report[EGRYNNOL_REPORT_ARRIVAL];
 *
 *   void arrived(uint32_t now, uint16_t association, const uint8_t *parameter, size_t length)
 *   {
 *       egrynnol_received got = egrynnol_arrival(table, &summary, store, sizeof store,
 *           report, sizeof report, now, association, parameter, length);
 *       egrynnol_taken data;
 *       size_t n;
 *
 *       table = got.table;
 *       for (n = 0; n < got.records; n++)
 *           printf("%s: %u octets\n", n < got.timeouts ? "timed out" : "its own record",
 *               egrynnol_record_at(report, n).octets);
 *       data = egrynnol_take(got.decision, parameter, length, store, sizeof store);
 *       printf("%s, %s: %lu octets\n", egrynnol_refusal_name(got.refusal),
 *           egrynnol_decision_name(got.decision.kind), (unsigned long)data.length);
 *   }
 *
 * END
 */
EGRYNNOL_INLINE EGRYNNOL_USE_ANSWER egrynnol_taken egrynnol_take(egrynnol_decision decision,
                                                                 const uint8_t *parameter, size_t parameter_length,
                                                                 const uint8_t *store, size_t store_length)
{
    egrynnol_part part = egrynnol_delivery(decision, parameter, parameter_length, store, store_length);
    egrynnol_taken taken;

    taken.octets = (part.source == EGRYNNOL_OF_STORE ? store : parameter) + part.start;
    taken.length = part.length;
    return taken;
}

/*
 * egrynnol_header_length - h of sending: the header without octet 3a.
 *
 * One octet for a context below 128, else two; two more for octets 2 and 3; and
 * with a context of 2000 both addresses, each with its length octet. kind is the
 * kind that the context is registered as.
 */
EGRYNNOL_INLINE size_t egrynnol_header_length(unsigned kind, unsigned context,
                                              size_t origin_length, size_t destination_length)
{
    size_t h = context < 128 ? 3 : 4;

    if (kind == EGRYNNOL_KIND_2000)
        h += 2 + origin_length + destination_length;
    return h;
}

/*
 * egrynnol_row_of - the row of an association, from 0 on.
 *
 * EGRYNNOL_ROWS where it has none: no segment of it was taken since the opening.
 * The summary is as a call left it. For the octets lost:
 *
 *   size_t i = egrynnol_row_of(&summary, association);
 *   uint64_t lost = i < EGRYNNOL_ROWS ? summary.lost_octets[i] : 0;
 */
EGRYNNOL_INLINE EGRYNNOL_USE_ANSWER size_t egrynnol_row_of(const egrynnol_summary *summary, uint16_t association)
{
    size_t i;

    for (i = 0; i < EGRYNNOL_ROWS; i++)
        if (summary->mark[i] == 1 && summary->association[i] == association)
            return i;
    return EGRYNNOL_ROWS;
}

/* The number's meaning in a few words; "unknown" for a number that has none. */

EGRYNNOL_INLINE const char *egrynnol_refusal_name(unsigned refusal)
{
    switch (refusal) {
    case EGRYNNOL_GOOD: return "not refused";
    case EGRYNNOL_REFUSAL_TABLE: return "table or summary not sound";
    case EGRYNNOL_REFUSAL_STORE: return "store too short";
    case EGRYNNOL_REFUSAL_REPORT: return "report area too short";
    case EGRYNNOL_REFUSAL_PARAMETER: return "parameter too long";
    case EGRYNNOL_REFUSAL_CUT: return "parameter ends inside its fields";
    case EGRYNNOL_REFUSAL_EXTENSION: return "octet 1a, 2 or 3a has extension 0";
    case EGRYNNOL_REFUSAL_OCTET_3A: return "octet 3a present or absent wrongly";
    case EGRYNNOL_REFUSAL_CONTEXT: return "context not registered";
    case EGRYNNOL_REFUSAL_ADDRESS: return "address too long";
    case EGRYNNOL_REFUSAL_FULL: return "no place free";
    case EGRYNNOL_REFUSAL_REGISTRY: return "registry not good";
    case EGRYNNOL_REFUSAL_TIMER: return "timer out of range";
    case EGRYNNOL_REFUSAL_STEP: return "clock step too large";
    case EGRYNNOL_REFUSAL_DATA: return "data too long";
    case EGRYNNOL_REFUSAL_ADDRESS_1998: return "address with a context of 1998";
    case EGRYNNOL_REFUSAL_REFERENCE: return "reference over 127";
    case EGRYNNOL_REFUSAL_INSTRUCTION: return "instruction over 3";
    case EGRYNNOL_REFUSAL_ROOM: return "rooms too small or too large";
    case EGRYNNOL_REFUSAL_NUMBER: return "segment number not below the count";
    case EGRYNNOL_REFUSAL_AREA: return "area too short";
    case EGRYNNOL_REFUSAL_ROW: return "no row for the association";
    case EGRYNNOL_REFUSAL_TOTAL: return "total too large";
    case EGRYNNOL_REFUSAL_PADDED: return "context padded";
    default: return "unknown";
    }
}

EGRYNNOL_INLINE const char *egrynnol_cause_name(unsigned cause)
{
    switch (cause) {
    case 0: return "none";
    case EGRYNNOL_CAUSE_NOT_OPEN: return "not open";
    case EGRYNNOL_CAUSE_ORDER: return "out of order";
    case EGRYNNOL_CAUSE_RESTART: return "restart";
    case EGRYNNOL_CAUSE_REMAINING: return "remaining over 9";
    case EGRYNNOL_CAUSE_OCTETS: return "too many octets";
    case EGRYNNOL_CAUSE_TIMER: return "timer";
    case EGRYNNOL_CAUSE_RELEASE: return "release";
    default: return "unknown";
    }
}

EGRYNNOL_INLINE const char *egrynnol_decision_name(unsigned kind)
{
    switch (kind) {
    case EGRYNNOL_REFUSED: return "refused";
    case EGRYNNOL_SAVED: return "saved";
    case EGRYNNOL_DELIVERED_PARAMETER: return "delivered from the parameter";
    case EGRYNNOL_DELIVERED_STORE: return "delivered from the store";
    case EGRYNNOL_LOST: return "lost";
    default: return "unknown";
    }
}

#ifdef __cplusplus
}
#endif

#endif
