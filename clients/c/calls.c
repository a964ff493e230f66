/*
 * Calls everything that m95.h declares, as a program in C would, and holds the answers to document 01: its numbers in their order, the
 * examples that a caller can see, and buffers that a refused call must leave. Prints each expectation that fails, and a last line.
 */
#include "blank.h"
#include "chip.h"
#include "counts.h"
#include "saved.h"

static void sizes(void) {
    static const size_t cells[] = {0, 512, 16384, 131072, 262144, 128, 256, 16384, 0};
    static const size_t bytes[] = {0, 16, 64, 256, 256, 16, 16, 64, 0};
    static const size_t identifications[] = {0, 16, 64, 256, 256, 0, 0, 0, 0};
    static const size_t pages[] = {0, 32, 256, 512, 1024, 8, 16, 256, 0};
    for (size_t device = 0; device <= 8; device++) {
        expect(m95_cells(device) == cells[device], "cells of a device", device);
        expect(m95_page(device) == bytes[device], "page of a device", device);
        expect(m95_identification(device) == identifications[device], "identification page of a device", device);
        expect(m95_pages(device) == pages[device], "pages of a device", device);
    }
    expect(m95_cells(257) == 0 && m95_page((size_t)1 << 32 | 1) == 0 && m95_identification(257) == 0, "a large number is no device's", 257);
    expect(m95_pages(257) == 0 && m95_pages((size_t)1 << 32 | 1) == 0, "nor has it pages", 257);
}

/* 1 to 4, 14 and 5, which is their order: each fault alone, and with all that come after it. */
static void refused_buffers(void) {
    enum { STATE = 5 };
    static const size_t refusals[] = {
        M95_REFUSED_DEVICE, M95_REFUSED_CELLS, M95_REFUSED_IDENTIFICATION, M95_REFUSED_LATCH, M95_REFUSED_COUNTS, M95_REFUSED_STATE};
    static const size_t numbers[] = {1, 2, 3, 4, 14, 5};
    prepare(2);
    /* Bytes that no preparing would leave, so that one which is refused and fills the buffers all the same is seen. */
    chip.cells[3] = chip.identification[5] = 0x5A;
    chip.latch[7] = 0x5A;
    chip.counts[9] = 0x5A;
    note();
    for (size_t fault = 0; fault <= STATE; fault++) {
        for (int alone = 0; alone <= 1; alone++) {
            size_t wrong[STATE + 1] = {0}, number = numbers[fault];
            for (size_t k = fault; k <= STATE; k++) {
                wrong[k] = k == fault || !alone;
            }
            size_t device = wrong[0] ? 258 : 2, answer = 9, taken = 9, done = 9;
            uint8_t answers[1] = {7};
            size_t cells = 16384 - wrong[1], page = 64 + wrong[2], latch = 128 - wrong[3], counts = 256 - wrong[4];
            size_t state = M95_STATE_BYTES - wrong[STATE];
#define WRONG chip.state, state, chip.cells, cells, chip.identification, page, chip.latch, latch, chip.counts, counts
            expect(m95_refusal(device, WRONG) == number && refusals[fault] == number, "refusal", number);
            expect(m95_event(device, WRONG, 9, 99, &answer) == number && answer == M95_Z, "a refused event", number);
            expect(m95_run(device, WRONG, (const uint8_t *)"", 1, answers, 1, 1, &taken, &done) == number, "a refused trace", number);
            expect(taken == 0 && done == 0 && answers[0] == 7, "a refused trace does nothing", number);
            if (wrong[STATE]) {
                expect(m95_prepare(device, WRONG) == number, "refused preparing", number);
            }
            expect(is_as_before(), "refused buffers are left", number);
        }
    }
    chip.latch[64] = 2;
    expect(m95_refusal(2, LENT) == M95_REFUSED_STATE, "a mark that is neither 0 nor 1", 2);
    memset(&chip.state, 0, sizeof chip.state);
    chip.latch[64] = 0;
    note();
    expect(m95_prepare(8, LENT) == M95_REFUSED_DEVICE, "preparing no device", 8);
    memset(before.state, 0, sizeof before.state);
    expect(memcmp(chip.state, before.state, sizeof chip.state) != 0, "the state of refused preparing", 8);
    memcpy(before.state, chip.state, sizeof chip.state);
    expect(is_as_before(), "the other buffers of refused preparing", 8);
    expect(m95_refusal(2, LENT) == M95_DONE, "refused preparing gives a prepared state", 8);
}

/*
 * NULL with a length of 0 for each pointer that goes with a length, one at a time and then for all: a call gives what it gives for a
 * buffer of no bytes. The places: state, cells, identification, latch, counts, trace, answers.
 */
enum { NULLS = 7, NULL_TRACE = 5, NULL_ANSWERS = 6 };

/* Views of both regions with NULL for the cells, for the identification page, or for both. */
static void null_views(size_t device, int no_cells, int no_page) {
    int is_short = no_page && m95_identification(device) > 0;
    size_t number = no_cells ? M95_REFUSED_CELLS : is_short ? M95_REFUSED_IDENTIFICATION : M95_DONE;
    for (size_t region = M95_REGION_CELLS; region <= M95_REGION_IDENTIFICATION; region++) {
        size_t start = 9, length = 9;
        expect(m95_view(device, region, no_cells ? NULL : chip.cells, no_cells ? 0 : m95_cells(device), no_page ? NULL : chip.identification,
                        no_page ? 0 : m95_identification(device), 0, &start, &length) == number,
               "a view with NULL", region);
        size_t whole = region == M95_REGION_CELLS ? m95_page(device) : m95_identification(device);
        expect(start == 0 && length == (number == M95_DONE ? whole : 0), "what it shows", region);
    }
}

static void null_buffers(size_t device) {
    static const size_t numbers[] = {M95_REFUSED_STATE,  M95_REFUSED_CELLS, M95_REFUSED_IDENTIFICATION, M95_REFUSED_LATCH,
                                     M95_REFUSED_COUNTS, M95_DONE,          M95_REFUSED_ANSWERS,        M95_REFUSED_CELLS};
    static const uint8_t record[] = {3, 0, M95_SET_PIN, 0, M95_S};
    uint8_t answers[1] = {7};
    prepare(device);
    chip.cells[3] = chip.identification[5] = chip.latch[7] = 0x5A;
    note();
    for (size_t none = 0; none <= NULLS; none++) {
        if (none == 2 && m95_identification(device) == 0) {
            continue; /* Nothing is missing there: no_page() has it. */
        }
#define GIVEN(place, pointer, length) none == place || none == NULLS ? NULL : (pointer), none == place || none == NULLS ? 0 : (length)
#define NOT_ALL                                                                                                \
    GIVEN(0, chip.state, sizeof chip.state), GIVEN(1, chip.cells, m95_cells(device)),                          \
        GIVEN(2, chip.identification, m95_identification(device)), GIVEN(3, chip.latch, 2 * m95_page(device)), \
        GIVEN(4, chip.counts, m95_pages(device))
        size_t number = none == NULL_TRACE || none == NULL_ANSWERS ? M95_DONE : numbers[none], answer = 9, taken = 9, done = 9;
        expect(m95_refusal(device, NOT_ALL) == number, "refusal with NULL", none);
        expect(m95_event(device, NOT_ALL, M95_WAIT, 0, &answer) == number && answer == M95_Z, "an event with NULL", none);
        expect(m95_run(device, NOT_ALL, GIVEN(NULL_TRACE, record, sizeof record), GIVEN(NULL_ANSWERS, answers, 1), 1, &taken, &done)
                   == numbers[none],
               "a trace with NULL", none);
        expect(taken == 0 && done == 0 && answers[0] == 7, "a trace with NULL does nothing", none);
        if (number != M95_DONE) {
            expect(m95_prepare(device, NOT_ALL) == number, "preparing with NULL", none);
        }
        null_views(device, none == 1 || none == NULLS, none == 2 || none == NULLS);
        expect(is_as_before(), "NULL leaves the others as they were", none);
    }
}

/* The calls that take one buffer, and every call for no device with nothing at all. */
static void nulls(void) {
    size_t answer = 9, first = 9, second = 9;
    for (size_t device = 1; device <= 7; device++) {
        null_buffers(device);
        expect(m95_load(device, NULL, 0, 0, 0) == M95_REFUSED_STATE, "loading into NULL", device);
    }
    expect(m95_status_byte(NULL, 0, &answer) == M95_REFUSED_STATE && answer == 0, "status of NULL", answer);
    first = second = 9;
    expect(m95_stored(NULL, 0, &first, &second) == M95_REFUSED_STATE && first == 0 && second == 0, "stored by NULL", first);
#define NOTHING NULL, 0, NULL, 0, NULL, 0, NULL, 0, NULL, 0
    expect(m95_refusal(0, NOTHING) == M95_REFUSED_DEVICE && m95_prepare(0, NOTHING) == M95_REFUSED_DEVICE, "no device, no buffers", 0);
    expect(m95_load(0, NULL, 0, 0, 0) == M95_REFUSED_DEVICE, "loading no device into NULL", 0);
    expect(m95_count_pages(0, NULL, 0, NULL, 0) == M95_REFUSED_DEVICE, "counting nothing", 0);
    first = second = 9;
    expect(m95_first_blank(0, NULL, 0, &first, &second) == M95_REFUSED_DEVICE && first == 0 && second == 0, "a search of nothing", first);
    expect(m95_event(0, NOTHING, M95_WAIT, 0, &answer) == M95_REFUSED_DEVICE && answer == M95_Z, "an event of nothing", answer);
    expect(m95_run(0, NOTHING, NULL, 0, NULL, 0, 1, &first, &second) == M95_REFUSED_DEVICE, "a trace of nothing", 0);
    expect(m95_view(0, M95_REGION_CELLS, NULL, 0, NULL, 0, 0, &first, &second) == M95_REFUSED_DEVICE, "a view of nothing", 0);
}

/* The chip's buffers with this for the identification page. */
#define LENT_WITH(identification, length)                                                                                             \
    chip.state, sizeof chip.state, chip.cells, m95_cells(chip.device), identification, length, chip.latch, 2 * m95_page(chip.device), \
        chip.counts, m95_pages(chip.device)

/* Devices 5 to 7 have no identification page: NULL does for it in every call, and a byte of it, or a page, gets 3. */
static void no_page(void) {
    static const uint8_t rise[] = {3, 0, M95_SET_PIN, 0, M95_S + 1}, fall[] = {3, 0, M95_SET_PIN, 0, M95_S};
    for (size_t device = 5; device <= 7; device++) {
        size_t answer = 9, taken = 9, done = 9, start = 9, length = 9;
        uint8_t answers[1] = {7};
        prepare(device);
        expect(m95_prepare(device, LENT_WITH(NULL, 0)) == M95_DONE, "preparing without a page", device);
        expect(m95_refusal(device, LENT_WITH(NULL, 0)) == M95_DONE, "refusal without a page", device);
        expect(m95_event(device, LENT_WITH(NULL, 0), M95_WAIT, 1, &answer) == M95_DONE && answer == M95_Z, "an event without a page", device);
        expect(m95_run(device, LENT_WITH(NULL, 0), rise, sizeof rise, answers, 1, 1, &taken, &done) == M95_DONE && done == 1,
               "a trace without a page", device);
        null_views(device, 0, 1);
        prepare(device);
        chip.cells[3] = chip.latch[7] = 0x5A; /* so that a call which is refused and done all the same is seen */
        note();
        for (size_t page = 1; page <= m95_page(device); page += m95_page(device) - 1) {
#define WITH_PAGE LENT_WITH(chip.identification, page)
            answer = taken = done = start = length = 9;
            answers[0] = 7;
            expect(m95_prepare(device, WITH_PAGE) == M95_REFUSED_IDENTIFICATION, "preparing with a page", page);
            expect(m95_refusal(device, WITH_PAGE) == M95_REFUSED_IDENTIFICATION, "refusal with a page", page);
            expect(m95_event(device, WITH_PAGE, M95_SET_PIN, M95_S, &answer) == M95_REFUSED_IDENTIFICATION && answer == M95_Z,
                   "an event with a page", page);
            expect(m95_run(device, WITH_PAGE, fall, sizeof fall, answers, 1, 1, &taken, &done) == M95_REFUSED_IDENTIFICATION,
                   "a trace with a page", page);
            expect(taken == 0 && done == 0 && answers[0] == 7, "a trace with a page does nothing", page);
            expect(m95_view(device, M95_REGION_IDENTIFICATION, chip.cells, m95_cells(device), chip.identification, page, 0, &start, &length)
                       == M95_REFUSED_IDENTIFICATION,
                   "a view with a page", page);
            expect(start == 0 && length == 0, "what it shows", page);
        }
        expect(is_as_before(), "a page that is refused leaves the buffers", device);
    }
}

/* The state of an M95128-D on an M95128, which has as many cells: what is of the page there is not sound here, selected or not. */
static void other_state(size_t number, const char *what) {
    chip.device = 7;
    expect(m95_refusal(7, LENT) == number, what, number);
    chip.device = 2;
}

static void of_the_page(void) {
    prepare(2);
    COMMAND(0x03, 0x00, 0x00);
    other_state(M95_DONE, "READ left over");
    COMMAND(0x83, 0x00, 0x00);
    other_state(M95_REFUSED_STATE, "RDID left over");
    set_pin(M95_S, 0);
    bits(0x83, 8);
    other_state(M95_REFUSED_STATE, "RDID in its selection");
    set_pin(M95_S, 1);
    COMMAND(0x83, 0x04, 0x00);
    other_state(M95_REFUSED_STATE, "RDLS left over");
    COMMAND(0x82, 0x00, 0x00);
    other_state(M95_REFUSED_STATE, "WRID left over");
    COMMAND(0x82, 0x04, 0x00);
    other_state(M95_REFUSED_STATE, "LID left over");
    COMMAND(0x06);
    COMMAND(0x82, 0x00, 0x00, 0x5A);
    COMMAND(0x05);
    other_state(M95_REFUSED_STATE, "an identification cycle");
    event(M95_WAIT, 5000);
    other_state(M95_DONE, "an identification page that was written");
    COMMAND(0x06);
    COMMAND(0x82, 0x04, 0x00, 0x02);
    COMMAND(0x05);
    other_state(M95_REFUSED_STATE, "a lock cycle");
    event(M95_WAIT, 5000);
    other_state(M95_REFUSED_STATE, "a lock");
}

/* Codes and addresses of the smaller boards, as document 02 has them. */
static void smaller(void) {
    for (size_t device = 5; device <= 6; device++) {
        prepare(device);
        COMMAND(0x0E);
        expect(status() == 0x02, "0Eh is WREN", device);
        COMMAND(0x0A, 0x7E, 0x55);
        event(M95_WAIT, 5000);
        expect(chip.cells[0x7E] == 0x55, "0Ah is WRITE", device);
        COMMAND(0x06);
        COMMAND(0x02, 0x80, 0x66);
        event(M95_WAIT, 5000);
        expect(chip.cells[device == 5 ? 0x00 : 0x80] == 0x66, "the cell of 80h", device);
        set_pin(M95_W, 0);
        COMMAND(0x06);
        COMMAND(0x01, 0x0C);
        COMMAND(0x02, 0x05, 0x66);
        expect(status() == 0x02 && chip.cells[5] == 0xFF, "W low stops WRSR and WRITE, and not WREN", device);
    }
    prepare(7);
    COMMAND(0x06);
    COMMAND(0x82, 0x00, 0x00, 0x5A);
    COMMAND(0x82, 0x04, 0x00, 0x02);
    expect(status() == 0x02, "82h starts nothing", status());
    set_pin(M95_S, 0);
    bits(0x830400, 24);
    expect(bit(0) == M95_Z, "83h sends nothing", 7);
    set_pin(M95_S, 1);
}

/* Every value of every byte of a state, and many states of chance: a state or 5, and then nothing changes. */
static void any_bytes(void) {
    uint32_t chance = 1;
    size_t states = 0, others = 0;
    for (size_t i = 0; i < M95_STATE_BYTES * 256 + 20000; i++) {
        if (i % 256 == 0) {
            prepare(1);
        }
        if (i < M95_STATE_BYTES * 256) {
            chip.state[i / 256] = (uint8_t)i;
        } else {
            for (size_t k = 0; k < M95_STATE_BYTES; k++) {
                chance = chance * 1664525u + 1013904223u;
                chip.state[k] = (uint8_t)((chance >> 24) % (k < 12 ? 2 : k < 26 ? 3 : 8));
            }
        }
        note();
        size_t refusal = m95_refusal(1, LENT), answer;
        expect(refusal == m95_event(1, LENT, M95_WAIT, 1, &answer), "an event is refused as its buffers are", i);
        expect(refusal == M95_DONE || (refusal == M95_REFUSED_STATE && is_as_before()), "bytes that are no state get 5", i);
        states += refusal == M95_DONE;
        others += refusal == M95_REFUSED_STATE;
    }
    expect(states > 0 && others > 0, "some bytes are a state and some are none", states);
}

/* Examples 1 to 4, 8, 9 and 11 of document 01. */
static void examples(void) {
    prepare(1);
    COMMAND(0x06);
    expect(status() == 0x02, "example 1", status());

    prepare(1);
    COMMAND(0x0E);
    expect(status() == 0x02, "example 2, device 1", status());
    prepare(2);
    COMMAND(0x0E);
    expect(status() == 0x00, "example 2, device 2", status());

    prepare(2);
    COMMAND(0x06);
    COMMAND(0x02, 0x00, 0x3E, 0xA1, 0xA2, 0xA3);
    event(M95_WAIT, 4999);
    expect(status() == 0x03 && chip.cells[0x3E] == 0xFF, "example 4, before", status());
    event(M95_WAIT, 1);
    expect(status() == 0x00, "example 4, after", status());
    expect(chip.cells[0x3E] == 0xA1 && chip.cells[0x3F] == 0xA2 && chip.cells[0] == 0xA3, "example 3", chip.cells[0]);

    prepare(1);
    COMMAND(0x06);
    COMMAND(0x0A, 0xFF, 0x55);
    event(M95_WAIT, (size_t)1 << 40);
    expect(chip.cells[0x1FF] == 0x55, "example 8, and a long wait", chip.cells[0x1FF]);

    prepare(1);
    set_pin(M95_S, 0);
    bits(0x06 << 1, 9);
    set_pin(M95_S, 1);
    expect(status() == 0x00, "example 9", status());

    prepare(4);
    COMMAND(0x06);
    COMMAND(0x82, 0x00, 0x04, 0x00, 0x02);
    event(M95_WAIT, 5000);
    expect(lock_status() == 0x01, "example 11", lock_status());
}

/* Example 12: W low keeps WRSR from being done, and WEL stays. */
static void write_protect(void) {
    prepare(2);
    COMMAND(0x06);
    COMMAND(0x01, 0xFF);
    event(M95_WAIT, 5000);
    expect(status() == 0x8C, "example 12, W high", status());
    set_pin(M95_W, 0);
    COMMAND(0x06);
    COMMAND(0x01, 0x00);
    event(M95_WAIT, 5000);
    expect(status() == 0x8E, "example 12, W low", status());
}

/* Clocks while held do not count, and Q is Z. */
static void hold(void) {
    prepare(1);
    set_pin(M95_S, 0);
    bits(0x0, 4);
    set_pin(M95_HOLD, 0);
    bits(0xF, 4);
    expect(bit(1) == M95_Z, "Q in hold", 0);
    set_pin(M95_HOLD, 1);
    bits(0x6, 4);
    set_pin(M95_S, 1);
    expect(status() == 0x02, "WREN across a hold", status());
}

/* HOLD falls after the bits of a command, and S rises in hold. */
static void end_in_hold(void) {
    set_pin(M95_HOLD, 0);
    set_pin(M95_S, 1);
    set_pin(M95_HOLD, 1);
}

/* Every device drops a WREN that S's rise finds held; a WRITE is started by the two M95128s, 2 and 7, and by no other. */
static void deselected_in_hold(void) {
    static const int address_bits[] = {0, 8, 16, 24, 24, 8, 8, 16};
    for (size_t device = 1; device <= 7; device++) {
        int starts = device == 2 || device == 7;
        prepare(device);
        set_pin(M95_S, 0);
        bits(0x06, 8);
        end_in_hold();
        expect(status() == 0x00, "WREN in hold is dropped", device);
        COMMAND(0x06);
        set_pin(M95_S, 0);
        bits(0x02, 8);
        bits(0x05, address_bits[device]);
        bits(0x66, 8);
        end_in_hold();
        expect(status() == (starts ? 0x03u : 0x02u), "WRITE in hold starts on devices 2 and 7", device);
        event(M95_WAIT, 5000);
        expect(chip.cells[5] == (starts ? 0x66 : 0xFF), "and stores its byte there", device);
        expect(chip.counts[0] == (starts ? 1 : 0), "which is counted", device);
    }
}

static void put_pin(uint8_t *trace, size_t *length, int byte) {
    const uint8_t record[] = {3, 0, M95_SET_PIN, 0, (uint8_t)byte};
    memcpy(trace + *length, record, sizeof record);
    *length += sizeof record;
}

/* RDSR as a trace on device 4: the answers after the falls of C are the status, its top bit first. */
static void read_by_trace(void) {
    uint8_t trace[256], answers[64];
    size_t length = 0, taken, done, value = 0;
    prepare(4);
    expect(chip.identification[0] == 0x20 && chip.identification[1] == 0x00 && chip.identification[2] == 0x12, "code of device 4", 0);
    expect(chip.identification[3] == 0xFF && chip.cells[0] == 0xFF && chip.latch[0] == 0, "a prepared device 4", 0);
    COMMAND(0x06);
    put_pin(trace, &length, M95_S);
    for (int k = 0; k < 16; k++) {
        put_pin(trace, &length, M95_D + (k < 8 && (0x05 >> (7 - k) & 1)));
        put_pin(trace, &length, M95_C + 1);
        put_pin(trace, &length, M95_C);
    }
    expect(m95_run(4, LENT, trace, length, answers, sizeof answers, sizeof answers, &taken, &done) == M95_DONE, "RDSR as a trace", 0);
    expect(taken == length && done == 49, "all of it", done);
    for (size_t k = 0; k < 8; k++) {
        value = value << 1 | answers[24 + 3 * k];
    }
    expect(value == 0x02, "the status that it sends", value);
}

static void events(void) {
    size_t answer = 9;
    prepare(2);
    note();
    expect(m95_event(2, LENT, 0, 0, &answer) == M95_REFUSED_KIND && answer == M95_Z, "event of kind 0", 0);
    expect(m95_event(2, LENT, 4, 0, &answer) == M95_REFUSED_KIND, "event of kind 4", 4);
    expect(m95_event(2, LENT, (size_t)1 << 32 | 1, 0, &answer) == M95_REFUSED_KIND, "event of a large kind", 1);
    expect(m95_event(2, LENT, M95_SET_PIN, 10, &answer) == M95_REFUSED_PIN, "pin byte 10", 10);
    expect(m95_event(2, LENT, M95_SET_PIN, 256, &answer) == M95_REFUSED_PIN, "pin byte 256", 256);
    expect(is_as_before(), "refused events change nothing", 0);
    COMMAND(0x06);
    COMMAND(0x01, 0x8C);
    note();
    expect(m95_event(2, LENT, M95_POWER_CYCLE, 0, &answer) == M95_REFUSED_POWER && is_as_before(), "power in a cycle", 11);
    event(M95_WAIT, 5000);
    expect(m95_event(2, LENT, M95_POWER_CYCLE, 77, &answer) == M95_DONE && status() == 0x8C, "power after it", status());
}

static void run(const uint8_t *trace, size_t length, size_t room, size_t limit, size_t number, size_t taken, size_t done) {
    uint8_t answers[8];
    size_t took = 99, did = 99;
    memset(answers, 7, sizeof answers);
    expect(m95_run(2, LENT, trace, length, answers, room, limit, &took, &did) == number, "number of a trace", number);
    expect(took == taken && did == done, "what a trace did", number);
    for (size_t i = 0; i < sizeof answers; i++) {
        expect(answers[i] == (i < done ? M95_Z : 7), "answers of a trace", i);
    }
}

#define RUN(room, limit, number, taken, done, ...) \
    run((const uint8_t[]){__VA_ARGS__}, sizeof(uint8_t[]){__VA_ARGS__}, room, limit, number, taken, done)

static void traces(void) {
    prepare(2);
    RUN(8, 9, 0, 10, 2, 3, 0, 1, 0, 4, 3, 0, 1, 0, 5);
    RUN(8, 1, 0, 5, 1, 3, 0, 1, 0, 4, 3, 0, 1, 0, 5);
    RUN(8, 0, 0, 0, 0, 3, 0, 1, 0, 4);
    RUN(8, 9, M95_REFUSED_CUT, 5, 1, 3, 0, 1, 0, 5, 3, 0, 1);
    RUN(8, 9, M95_REFUSED_CUT, 5, 1, 3, 0, 1, 0, 5, 6, 0, 2, 0, 1, 2, 3);
    RUN(8, 9, M95_REFUSED_KIND, 5, 1, 3, 0, 1, 0, 5, 3, 0, 4, 0, 5);
    RUN(8, 9, M95_REFUSED_LENGTH, 5, 1, 3, 0, 1, 0, 5, 2, 0, 1, 0, 5);
    RUN(8, 9, M95_REFUSED_PIN, 5, 1, 3, 0, 1, 0, 5, 3, 0, 1, 0, 10);
    RUN(1, 9, M95_REFUSED_ANSWERS, 5, 1, 3, 0, 1, 0, 5, 2, 0, 3, 0);
    RUN(8, 9, 0, 12, 2, 6, 0, 2, 0, 1, 2, 3, 4, 2, 0, 3, 0);
    COMMAND(0x06);
    COMMAND(0x01, 0x00);
    RUN(8, 9, M95_REFUSED_POWER, 5, 1, 3, 0, 1, 0, 5, 2, 0, 3, 0);
}

/* A write to a page with a wrong count, as traces: the wait that would end it is refused after all else that is wrong with its record. */
static void counted_traces(void) {
    prepare(2);
    start_write(0, 0x5A, 1);
    chip.counts[0] = 1;
    RUN(8, 9, M95_REFUSED_COUNT, 8, 1, 6, 0, 2, 0, 0x87, 0x13, 0, 0, 6, 0, 2, 0, 1, 0, 0, 0, 3, 0, 1, 0, 5);
    note();
    RUN(8, 9, M95_REFUSED_COUNT, 0, 0, 6, 0, 2, 0, 1, 0, 0, 0, 3, 0, 1, 0, 5);
    RUN(8, 0, M95_DONE, 0, 0, 6, 0, 2, 0, 1, 0, 0, 0);
    RUN(0, 9, M95_REFUSED_ANSWERS, 0, 0, 6, 0, 2, 0, 1, 0, 0, 0);
    RUN(8, 9, M95_REFUSED_CUT, 0, 0, 6, 0, 2, 0, 1, 0, 0);
    RUN(8, 9, M95_REFUSED_LENGTH, 0, 0, 5, 0, 2, 0, 1, 0, 0, 0);
    RUN(8, 9, M95_REFUSED_POWER, 0, 0, 2, 0, 3, 0);
    expect(is_as_before(), "refused records change nothing", chip.counts[0]);
    recount();
    RUN(8, 9, M95_DONE, 13, 2, 6, 0, 2, 0, 1, 0, 0, 0, 3, 0, 1, 0, 5);
    expect(chip.cells[0] == 0x5A && chip.counts[0] == 1, "the write ends when its page is counted", chip.counts[0]);
}

/* A view of the chip's buffers, taken to be so long: its number, and where the part is. */
static void view(size_t device, size_t region, size_t cells, size_t page, size_t address, size_t number, size_t start, size_t length) {
    size_t first = 9, second = 9;
    expect(m95_view(device, region, chip.cells, cells, chip.identification, page, address, &first, &second) == number, "the number of a view", number);
    expect(first == start && second == length, "where its part is", start);
}

static void views(void) {
    enum { CELLS = M95_REGION_CELLS, PAGE = M95_REGION_IDENTIFICATION, NONE = 2 };
    view(1, CELLS, 512, 16, 40, M95_DONE, 32, 16);
    view(4, CELLS, MOST_CELLS, MOST_PAGE, MOST_CELLS - 1, M95_DONE, MOST_CELLS - MOST_PAGE, MOST_PAGE);
    view(1, PAGE, 512, 16, 40, M95_DONE, 0, 16);
    view(4, PAGE, MOST_CELLS, MOST_PAGE, SIZE_MAX, M95_DONE, 0, MOST_PAGE);
    view(1, CELLS, 512, 16, 512, M95_REFUSED_ADDRESS, 0, 0);
    view(6, CELLS, 256, 0, 255, M95_DONE, 240, 16);
    view(6, PAGE, 256, 0, SIZE_MAX, M95_DONE, 0, 0);
    /* The buffer that is not asked for is wrong alone. */
    view(1, CELLS, 512, 17, 40, M95_REFUSED_IDENTIFICATION, 0, 0);
    view(1, PAGE, 511, 16, 40, M95_REFUSED_CELLS, 0, 0);
    /* Each number with all that come after it: 1, 2, 3, then 7 for a region that is none, then 13. */
    for (size_t region = CELLS; region <= NONE; region++) {
        view(9, region, 511, 17, 512, M95_REFUSED_DEVICE, 0, 0);
        view(257, region, 512, 16, 40, M95_REFUSED_DEVICE, 0, 0);
        view(1, region, 511, 17, 512, M95_REFUSED_CELLS, 0, 0);
        view(1, region, 512, 17, 512, M95_REFUSED_IDENTIFICATION, 0, 0);
    }
    view(1, NONE, 512, 16, 512, M95_REFUSED_KIND, 0, 0);
    view(1, NONE, 512, 16, 40, M95_REFUSED_KIND, 0, 0);
    view(1, SIZE_MAX, 512, 16, 40, M95_REFUSED_KIND, 0, 0);
    view(1, 256, 512, 16, 40, M95_REFUSED_KIND, 0, 0);
}

static void statuses(void) {
    size_t byte = 9;
    expect(m95_status_byte(chip.state, M95_STATE_BYTES - 1, &byte) == M95_REFUSED_STATE, "status of a short state", 35);
    expect(byte == 0, "which is 0", byte);
    memset(chip.state, 0xFF, sizeof chip.state);
    byte = 9;
    expect(m95_status_byte(chip.state, sizeof chip.state, &byte) == M95_REFUSED_STATE, "status of no state", 36);
    expect(byte == 0, "which is 0", byte);
}

int main(void) {
    sizes();
    refused_buffers();
    nulls();
    no_page();
    of_the_page();
    smaller();
    any_bytes();
    examples();
    write_protect();
    hold();
    deselected_in_hold();
    read_by_trace();
    events();
    traces();
    refused_counts();
    counting();
    written_counts();
    wrong_counts();
    uncounted_cycles();
    counted_traces();
    searches();
    views();
    statuses();
    versions();
    loading();
    loading_rooms();
    loaded();
    storing();
    if (failed == 0) {
        printf("calls: all %zu expectations hold\n", held);
        return 0;
    }
    printf("calls: %zu of %zu expectations do not hold\n", failed, held + failed);
    return 1;
}
