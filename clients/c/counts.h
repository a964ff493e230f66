/* The counts of pages, for calls.c: how many are lent, what counting gives, what a write does to a count, and a wrong one to a write. */
#ifndef COUNTS_H
#define COUNTS_H

#include "chip.h"

/* The chip's buffers with this for the number of counts. */
#define LENT_COUNTS(length)                                                                                                  \
    chip.state, sizeof chip.state, chip.cells, m95_cells(chip.device), chip.identification, m95_identification(chip.device), \
        chip.latch, 2 * m95_page(chip.device), chip.counts, length

/* Counts of a wrong number get 14 from every call that takes some, whether the state behind them is sound or not; preparing puts a state. */
static void refuse_counts(size_t device, size_t length) {
    static const uint8_t fall[] = {3, 0, M95_SET_PIN, 0, M95_S};
    uint8_t answers[1] = {7};
    prepare(device);
    chip.cells[3] = chip.identification[5] = chip.latch[7] = 0x5A; /* so that a call which is refused and done all the same is seen */
    chip.counts[2] = 0x5A;
    for (int is_state = 1; is_state >= 0; is_state--) {
        size_t answer = 9, taken = 9, done = 9;
        chip.state[LOCK_AT] = is_state ? 0 : 2;
        note();
        expect(m95_refusal(device, LENT_COUNTS(length)) == M95_REFUSED_COUNTS, "refusal of counts", length);
        expect(m95_event(device, LENT_COUNTS(length), M95_SET_PIN, M95_S, &answer) == M95_REFUSED_COUNTS && answer == M95_Z,
               "an event with other counts", length);
        expect(m95_run(device, LENT_COUNTS(length), fall, sizeof fall, answers, 1, 1, &taken, &done) == M95_REFUSED_COUNTS,
               "a trace with other counts", length);
        expect(taken == 0 && done == 0 && answers[0] == 7, "a trace with other counts does nothing", length);
        expect(is_as_before(), "other counts leave the buffers", length);
    }
    expect(m95_prepare(device, LENT_COUNTS(length)) == M95_REFUSED_COUNTS, "preparing with other counts", length);
    expect(m95_refusal(device, LENT) == M95_DONE, "refused preparing gives a prepared state", length);
    memcpy(before.state, chip.state, sizeof chip.state);
    expect(is_as_before(), "the other buffers of refused preparing", length);
}

/* None, one too few, one too many, as if the identification page had one, and as many as the right ones have bytes. */
static void refused_counts(void) {
    for (size_t device = 1; device <= 7; device++) {
        const size_t pages = m95_pages(device), lengths[] = {0, pages - 1, pages + 1, 2 * pages};
        for (size_t k = 0; k < sizeof lengths / sizeof lengths[0]; k++) {
            refuse_counts(device, lengths[k]);
        }
    }
}

/* Cells of chance: a full page, a blank one, and pages with FFh, 00h and others among their cells. */
static void fill_cells(void) {
    static const uint8_t values[] = {0xFF, 0xFF, 0x00, 0xFE, 0x5A};
    uint32_t chance = (uint32_t)chip.device;
    for (size_t address = 0; address < m95_cells(chip.device); address++) {
        size_t page = address / m95_page(chip.device);
        chance = chance * 1664525u + 1013904223u;
        chip.cells[address] = page == 0 ? 0x00 : page == 1 ? 0xFF : values[(chance >> 24) % sizeof values];
    }
}

/* The cells of a page that are other than FFh, counted one by one. */
static size_t filled(size_t page) {
    size_t count = 0;
    for (size_t k = 0; k < m95_page(chip.device); k++) {
        count += chip.cells[page * m95_page(chip.device) + k] != 0xFF;
    }
    return count;
}

/* What counting is refused with: 1, 2 and 14, each alone and with those that come after it, and then the counts stay. */
static void refused_counting(void) {
    const size_t device = chip.device, cells = m95_cells(device), pages = m95_pages(device);
    const size_t none[] = {0, 8, 256 + device, (size_t)1 << 32 | device}, lengths[] = {0, pages - 1, pages + 1, 2 * pages};
    note();
    for (size_t k = 0; k < 4; k++) {
        expect(m95_count_pages(none[k], chip.cells, cells, chip.counts, pages) == M95_REFUSED_DEVICE, "counting no device", none[k]);
        expect(m95_count_pages(none[k], chip.cells, cells - 1, chip.counts, lengths[k]) == M95_REFUSED_DEVICE, "with all wrong", none[k]);
        expect(m95_count_pages(device, chip.cells, cells - 1, chip.counts, lengths[k]) == M95_REFUSED_CELLS, "with both lengths wrong", device);
        expect(m95_count_pages(device, chip.cells, cells, chip.counts, lengths[k]) == M95_REFUSED_COUNTS, "counting into others", lengths[k]);
    }
    expect(m95_count_pages(device, chip.cells, cells - 1, chip.counts, pages) == M95_REFUSED_CELLS, "counting too few cells", device);
    expect(m95_count_pages(device, NULL, 0, chip.counts, pages) == M95_REFUSED_CELLS, "counting NULL", device);
    expect(m95_count_pages(device, chip.cells, cells, NULL, 0) == M95_REFUSED_COUNTS, "counting into NULL", device);
    expect(is_as_before(), "refused counting leaves the counts", device);
}

static void counting(void) {
    for (size_t device = 1; device <= 7; device++) {
        prepare(device);
        fill_cells();
        memset(chip.counts, 0xA5, sizeof chip.counts);
        refused_counting();
        recount();
        for (size_t page = 0; page < m95_pages(device); page++) {
            expect(chip.counts[page] == filled(page), "the count of a page", page);
        }
        expect(chip.counts[0] == m95_page(device) && chip.counts[1] == 0, "a full page and a blank one", device);
        memcpy(before.counts, chip.counts, m95_pages(device) * sizeof chip.counts[0]);
        expect(is_as_before(), "counting changes nothing but the counts", device);
    }
}

/* WREN, and WRITE of so many equal bytes from an address on, which needs no ninth bit; the cycle runs afterwards. */
static void start_write(size_t address, uint8_t byte, size_t count) {
    static const int address_bits[] = {0, 8, 16, 24, 24, 8, 8, 16};
    COMMAND(0x06);
    set_pin(M95_S, 0);
    bits(0x02, 8);
    bits((unsigned)address, address_bits[chip.device]);
    while (count-- > 0) {
        bits(byte, 8);
    }
    set_pin(M95_S, 1);
    expect((status() & 1) == 1, "a write has started", address);
}

/* The time of a write. */
static size_t time_of(size_t device) { return device == 3 ? 4000 : 5000; }

/* A write to the second page: its count stays until the end, then it is this one, and no other count changes. */
static void write_counted(size_t place, uint8_t byte, size_t length, size_t count) {
    start_write(m95_page(chip.device) + place, byte, length);
    event(M95_WAIT, time_of(chip.device) - 1);
    expect(memcmp(before.counts, chip.counts, sizeof chip.counts) == 0, "a count stays until the write ends", chip.counts[1]);
    event(M95_WAIT, 1);
    expect(chip.counts[1] == count, "the count after a write", chip.counts[1]);
    before.counts[1] = (uint16_t)count;
    expect(memcmp(before.counts, chip.counts, sizeof chip.counts) == 0, "other counts stay", count);
}

static void written_counts(void) {
    for (size_t device = 1; device <= 7; device++) {
        const size_t page = m95_page(device);
        prepare(device);
        note();
        write_counted(3, 0x5A, 1, 1);
        write_counted(3, 0x00, 2, 2);
        write_counted(4, 0xFF, 1, 1);
        write_counted(0, 0x00, page, page);
        write_counted(9, 0x11, 2, page);
        write_counted(0, 0xFF, 1, page - 1);
        event(M95_POWER_CYCLE, 0);
        expect(chip.counts[1] == page - 1, "power leaves the counts", chip.counts[1]);
        write_counted(0, 0xFF, page, 0);
    }
}

/* A wait that a wrong count keeps from being done: nothing changes, and no level is answered. */
static void refuse_wait(size_t microseconds) {
    size_t answer = 9;
    note();
    expect(m95_event(chip.device, LENT, M95_WAIT, microseconds, &answer) == M95_REFUSED_COUNT, "a wait on a wrong count", chip.counts[1]);
    expect(answer == M95_Z, "it answers nothing", answer);
    expect(is_as_before(), "it changes nothing", microseconds);
}

/* A write to a second page of which so many cells are other than FFh, and whose count says another number; others' are wrong too. */
static void wrong_count(size_t device, size_t right, size_t wrong) {
    const size_t time = time_of(device), last = m95_pages(device) - 1;
    size_t answer = 9;
    prepare(device);
    start_write(m95_page(device), 0x11, right);
    event(M95_WAIT, time);
    chip.counts[0] = chip.counts[last] = 9;
    chip.counts[1] = (uint16_t)wrong;
    expect(m95_refusal(device, LENT) == M95_DONE, "wrong counts are not refused with the buffers", wrong);
    start_write(m95_page(device), 0x22, 1);
    refuse_wait(time);
    refuse_wait(SIZE_MAX);
    event(M95_WAIT, time - 1);
    set_pin(M95_S, 0);
    bits(0x05, 8);
    expect(event(M95_WAIT, 0) == M95_LOW, "a wait that is too short is done, and answers", wrong);
    refuse_wait(1);
    refuse_wait(1);
    expect(m95_event(device, LENT, M95_POWER_CYCLE, 0, &answer) == M95_REFUSED_POWER && is_as_before(), "power in such a write", wrong);
    expect(m95_event(device, LENT, M95_SET_PIN, 10, &answer) == M95_REFUSED_PIN && is_as_before(), "pin byte 10 in such a write", wrong);
    chip.counts[1] = (uint16_t)right;
    event(M95_WAIT, 1);
    expect(chip.counts[1] == right && chip.cells[m95_page(device)] == 0x22, "with its own count right the write ends", chip.counts[1]);
    expect(chip.counts[0] == 9 && chip.counts[last] == 9, "those of other pages stay wrong", chip.counts[0]);
}

static void wrong_counts(void) {
    static const size_t wrong[] = {2, 4, 0, 255, 256, 257, 256 + 3, 65535};
    for (size_t device = 1; device <= 7; device++) {
        for (size_t k = 0; k < sizeof wrong / sizeof wrong[0]; k++) {
            wrong_count(device, 3, wrong[k]);
        }
        wrong_count(device, m95_page(device), 0);
        wrong_count(device, m95_page(device), m95_page(device) + 1);
        /* What mends a count is counting, and then the same wait is done. */
        prepare(device);
        chip.cells[m95_page(device)] = 0x5A;
        start_write(m95_page(device) + 1, 0x5A, 1);
        refuse_wait(5000);
        recount();
        event(M95_WAIT, 5000);
        expect(chip.counts[1] == 2 && (status() & 1) == 0, "a write ends after counting", chip.counts[1]);
    }
}

/* Cycles that write to no page of the cells look at no count, and set none. */
static void uncounted_cycles(void) {
    prepare(2);
    memset(chip.counts, 0xA5, sizeof chip.counts);
    note();
    COMMAND(0x06);
    COMMAND(0x82, 0x00, 0x00, 0x5A);
    event(M95_WAIT, 5000);
    expect(chip.identification[0] == 0x5A, "the identification page is written", chip.identification[0]);
    COMMAND(0x06);
    COMMAND(0x01, 0x80);
    event(M95_WAIT, 5000);
    expect(status() == 0x80, "the status is written", status());
    COMMAND(0x06);
    COMMAND(0x82, 0x04, 0x00, 0x02);
    event(M95_WAIT, 5000);
    expect(chip.state[LOCK_AT] == 1, "the lock is written", chip.state[LOCK_AT]);
    event(M95_POWER_CYCLE, 0);
    expect(memcmp(before.counts, chip.counts, sizeof chip.counts) == 0, "their counts stay as they are", chip.counts[0]);
}

#endif
