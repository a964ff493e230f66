/*
 * m95.h: the bench model of ST's small SPI memories for callers in C. Link target/native/libm95_c.a, which clients/build makes.
 *
 * A device is its number: 1 M95040-DF, 2 M95128-D, 3 M95M01, 4 M95M02, 5 M95010, 6 M95020, 7 M95128. Its whole condition stands in five
 * buffers, which the caller owns and lends to each call, each as a pointer and its length, which is in bytes for the first four and in
 * entries for the counts:
 *
 *     state           M95_STATE_BYTES bytes, made by m95_prepare or m95_load; what they mean is the library's business
 *     cells           m95_cells(device) bytes
 *     identification  m95_identification(device) bytes: a page, or on 5, 6 and 7, which have no such page, none: NULL and 0 will do
 *     latch           twice m95_page(device) bytes
 *     counts          m95_pages(device) entries, not bytes: for each page of the cells, in its order, a uint16_t that says how many cells
 *                     of the page are other than FFh, 0 to 256
 *
 * They may be copied, and saved and lent again later to a library of the same version (m95_version). With a state and its cells the counts
 * are saved too, or else counted afresh (m95_count_pages). The library keeps nothing of its own between calls, so that threads may use it
 * as long as none lends a buffer that another writes to.
 *
 * Any numbers, any lengths and any contents get a defined answer; a call that is refused says why by its number, and beside each call
 * stands what it then leaves. What no library can see is the caller's part: behind a pointer stand as many bytes, or entries, as its length
 * says, to be read, and to be written to where it is not const; the pointer to the counts is aligned for uint16_t; a pointer to a size_t
 * leads to one and is never NULL; and what a call may write to, the size_t's included, overlaps nothing else that is lent to that call.
 * Where a length is 0 nothing stands behind the pointer: it may be NULL, as an empty std::vector's is, and the call then gives what it gives
 * for a buffer of no bytes.
 */
#ifndef M95_H
#define M95_H

#include <stddef.h>
#include <stdint.h>

#if SIZE_MAX < 0xFFFFFFFFFFFFFFFF
#error "the library is for processors of 64 bits"
#endif

#ifdef __cplusplus
extern "C" {
#endif

#define M95_STATE_BYTES 36

/* The version that this header was written for; m95_version gives that of the library which is linked. */
#define M95_VERSION 1

/*
 * The numbers that calls give back. 1, 2, 3, 4, 14 and 5 are judged in this order; then for each record 6 for its first four bytes, 7, 8,
 * 6 for the rest of it, 9, 10, and 11 or 15, which never meet. The number 12 is the bench program's and comes from no call.
 */
enum {
    M95_DONE = 0,
    M95_REFUSED_DEVICE = 1,         /* the device is not 1 to 7 */
    M95_REFUSED_CELLS = 2,          /* cells of a wrong length */
    M95_REFUSED_IDENTIFICATION = 3, /* identification page of a wrong length */
    M95_REFUSED_LATCH = 4,          /* latch of a wrong length */
    M95_REFUSED_STATE = 5,          /* the state's bytes are no state or not a sound one, or a mark of the latch is neither 0 nor 1 */
    M95_REFUSED_CUT = 6,            /* a record is cut short */
    M95_REFUSED_KIND = 7,           /* a record's or an event's kind, or a view's region, is unknown */
    M95_REFUSED_LENGTH = 8,         /* a record's length is not its kind's */
    M95_REFUSED_PIN = 9,            /* a pin byte is above 9 */
    M95_REFUSED_ANSWERS = 10,       /* no answer byte is left */
    M95_REFUSED_POWER = 11,         /* power during a write cycle */
    M95_REFUSED_ADDRESS = 13,       /* an address past the cells */
    M95_REFUSED_COUNTS = 14,        /* counts of a wrong length: not one for each page */
    M95_REFUSED_COUNT = 15          /* a wait that would end the write to a page whose count is not the number of its cells other than FFh */
};

/* Kinds of events, as of the records of a trace; beside each, what its value is. */
enum {
    M95_SET_PIN = 1,         /* the pin, one of those below, plus 0 for low or 1 for high */
    M95_WAIT = 2,            /* microseconds; a value above 4294967295 counts as that */
    M95_POWER_CYCLE = 3      /* not looked at */
};

/* The pins, at level low. */
enum { M95_C = 0, M95_D = 2, M95_S = 4, M95_HOLD = 6, M95_W = 8 };

/* How an event or a record answers: the level of Q. */
enum { M95_LOW = 0, M95_HIGH = 1, M95_Z = 2 };

/* What can be looked at by m95_view. */
enum { M95_REGION_CELLS = 0, M95_REGION_IDENTIFICATION = 1 };

/*
 * A number that changes when the bytes of a state change their meaning. A state saved under another number must not be lent: its bytes may
 * pass for a state that it was not. So a host that saves states keeps this number beside them and compares it before it lends one.
 */
size_t m95_version(void);

/*
 * The cells of a device, the bytes of a page of it, those of its identification page, which are 0 where it has none, and the pages that its
 * cells make, each of which has a count; 0 for a number that is no device's.
 */
size_t m95_cells(size_t device);
size_t m95_page(size_t device);
size_t m95_identification(size_t device);
size_t m95_pages(size_t device);

/*
 * What m95_event and m95_run refuse the buffers of a device with before they look at an event or a record: 1 to 4, 14, 5, or 0. What the
 * counts say is not looked at: wrong ones do not give 5.
 */
size_t m95_refusal(size_t device,
                   const uint8_t *state, size_t state_length,
                   const uint8_t *cells, size_t cells_length,
                   const uint8_t *identification, size_t identification_length,
                   const uint8_t *latch, size_t latch_length,
                   const uint16_t *counts, size_t counts_length);

/*
 * Prepares a device: its cells are all FFh then, and its counts all 0. It gives 1 to 4, 14, then 5 where the state's room is not
 * M95_STATE_BYTES long, or 0. Refused, it leaves the buffers as they were, but for one: refused with 1 to 4 or 14, a state's room of the right length is
 * overwritten with the state of a prepared device.
 */
size_t m95_prepare(size_t device,
                   uint8_t *state, size_t state_length,
                   uint8_t *cells, size_t cells_length,
                   uint8_t *identification, size_t identification_length,
                   uint8_t *latch, size_t latch_length,
                   uint16_t *counts, size_t counts_length);

/*
 * Counts each page of a device afresh from its cells: 1, 2, 14, or 0. Refused, it leaves the counts as they were. For whoever fills cells
 * otherwise than by m95_prepare and events, as with an image: before the next event, since a write to a page that is not counted right
 * does not end (15).
 */
size_t m95_count_pages(size_t device, const uint8_t *cells, size_t cells_length, uint16_t *counts, size_t counts_length);

/*
 * Looks for room, for whoever wants to add something to a chip: for the lowest page that has a count of 0. It gives 1, 14, or 0. A page that
 * it finds makes `found` 1, and `page` is then that page's number, not an address: its cells start at page * m95_page(device). Otherwise it
 * leaves 0 in both, refused or not; since the first page has that number too, look at `found` before `page`.
 *
 * No cell is read, and the counts are taken at their word: m95_prepare and events keep them right, and then all cells of the page are FFh.
 * After cells were filled otherwise m95_count_pages comes first, or else the page may have something in it. A write that still runs counts
 * only when it ends; and whether the page is protected is not asked.
 */
size_t m95_first_blank(size_t device, const uint16_t *counts, size_t counts_length, size_t *found, size_t *page);

/*
 * Puts the state of a device that has just got its power and has stored this before: status bits, as the status register has them, which
 * are 3 and 2, and 7 where there is SRWD; and the lock, 0 or, where there is an identification page, 1. All else is as m95_prepare leaves
 * it: the pins, nothing selected, WEL 0 and no cycle. 1; then 5 where the state's room is not M95_STATE_BYTES long, where the status has any
 * other bit set, or where the lock is any other number; or 0. Refused, it leaves the room as it was.
 *
 * Before a chip is saved no cycle should run, which bit 0 of m95_status_byte tells: what the cycle writes is in no buffer before its end,
 * and a long M95_WAIT ends it.
 *
 * To take up a chip that was saved: m95_prepare, then its image into the cells and the identification page, then m95_count_pages, then
 * m95_load. The latch of a chip without power holds nothing that is worth saving; the one that is lent next must have marks of 0 and 1, as
 * m95_prepare leaves it.
 */
size_t m95_load(size_t device, uint8_t *state, size_t state_length, size_t status, size_t lock);

/*
 * One event: 1 to 4, 14, 5, then 7 and 9, then 11 or 15, or 0. A refused event answers M95_Z and changes nothing else.
 *
 * The wait that ends a write to the cells sets the count of its page; of all events this one alone looks at a count, and at no other page's.
 * Where that is wrong already, the wait gets 15 and no time passes; the same wait gets 15 again until the count is mended, as by
 * m95_count_pages. A wait that is too short to end the write is done.
 */
size_t m95_event(size_t device,
                 uint8_t *state, size_t state_length,
                 uint8_t *cells, size_t cells_length,
                 uint8_t *identification, size_t identification_length,
                 uint8_t *latch, size_t latch_length,
                 uint16_t *counts, size_t counts_length,
                 size_t kind, size_t value, size_t *answer);

/*
 * At most `limit` records of a trace: 1 to 4, 14, 5, then 6 to 11 or 15 for a record, or 0 at the limit or the trace's end. Each record
 * done has put one answer into `answers`, and the answers behind those are untouched; `taken` is how many bytes of the trace the records
 * took, and `done` how many they are. Refused with 1 to 5 or 14, nothing changes and both are 0. A record that is refused is not done, and
 * those before it are. To go on, call again with what is left: trace + taken, answers + done. A 6 there only says that more bytes must come.
 */
size_t m95_run(size_t device,
               uint8_t *state, size_t state_length,
               uint8_t *cells, size_t cells_length,
               uint8_t *identification, size_t identification_length,
               uint8_t *latch, size_t latch_length,
               uint16_t *counts, size_t counts_length,
               const uint8_t *trace, size_t trace_length,
               uint8_t *answers, size_t answers_length,
               size_t limit, size_t *taken, size_t *done);

/*
 * Puts the byte that RDSR would send into `status`: 0, or 5 and a status of 0 for bytes that are no state. Soundness is not judged: of a
 * state that m95_refusal gives 5 for, the status may be above 255.
 */
size_t m95_status_byte(const uint8_t *state, size_t state_length, size_t *status);

/*
 * Puts the status bits that a state has stored into `status`, and its lock, 0 or 1, into `lock`: 0, or 5 and both 0 for bytes that are no
 * state. They are what m95_load takes; while a cycle of WRSR or LID runs, they are still the old ones. Soundness is not judged: of a state
 * that m95_refusal gives 5 for, the status may have bits that the device has not.
 */
size_t m95_stored(const uint8_t *state, size_t state_length, size_t *status, size_t *lock);

/*
 * A view of a region: where its part starts, and how long it is. M95_REGION_CELLS shows the page that holds the address, which is at
 * cells + start; M95_REGION_IDENTIFICATION shows all of the identification page, whatever the address, which is at identification + start,
 * and that start is 0; so is the length where the device has no such page. Both buffers are judged whatever the region: 1, 2, 3; then 7 for
 * a number that is no region's; then, for the cells alone, 13 for an address past them; or 0. Refused, start and length are 0.
 */
size_t m95_view(size_t device, size_t region,
                const uint8_t *cells, size_t cells_length,
                const uint8_t *identification, size_t identification_length,
                size_t address, size_t *start, size_t *length);

#ifdef __cplusplus
}
#endif

#endif
