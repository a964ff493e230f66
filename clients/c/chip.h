/* A chip for calls.c: its buffers, what is expected of them, and whole commands at its pins. */
#ifndef CHIP_H
#define CHIP_H

#include <stdio.h>
#include <string.h>

#include "m95.h"

#define MOST_CELLS 262144
#define MOST_PAGE 256
#define MOST_PAGES 1024

struct chip {
    size_t device;
    uint8_t state[M95_STATE_BYTES];
    uint8_t cells[MOST_CELLS];
    uint8_t identification[MOST_PAGE];
    uint8_t latch[2 * MOST_PAGE];
    uint16_t counts[2 * MOST_PAGES]; /* with room for a length that was taken to be in bytes */
};

/* Where version 1 has the two that are loaded. */
enum { LOCK_AT = 22, STATUS_AT = 31 };

static struct chip chip, before;
static size_t held, failed;

static void expect(int holds, const char *what, size_t detail) {
    if (holds) {
        held++;
        return;
    }
    failed++;
    printf("calls: does not hold: %s (%zu)\n", what, detail);
}

/* Keeps the buffers of the chip, and tells whether they are as they were then. */
static void note(void) {
    memcpy(before.state, chip.state, sizeof chip.state);
    memcpy(before.cells, chip.cells, m95_cells(chip.device));
    memcpy(before.identification, chip.identification, m95_identification(chip.device));
    memcpy(before.latch, chip.latch, 2 * m95_page(chip.device));
    memcpy(before.counts, chip.counts, sizeof chip.counts);
}

static int is_as_before(void) {
    return memcmp(before.state, chip.state, sizeof chip.state) == 0
           && memcmp(before.cells, chip.cells, m95_cells(chip.device)) == 0
           && memcmp(before.identification, chip.identification, m95_identification(chip.device)) == 0
           && memcmp(before.latch, chip.latch, 2 * m95_page(chip.device)) == 0
           && memcmp(before.counts, chip.counts, sizeof chip.counts) == 0;
}

/* The lent buffers of the chip, with its device's lengths. */
#define LENT                                                                                         \
    chip.state, sizeof chip.state, chip.cells, m95_cells(chip.device),                               \
        chip.identification, m95_identification(chip.device), chip.latch, 2 * m95_page(chip.device), \
        chip.counts, m95_pages(chip.device)

/* Counts the chip's pages after its cells were filled by hand. */
static void recount(void) {
    expect(m95_count_pages(chip.device, chip.cells, m95_cells(chip.device), chip.counts, m95_pages(chip.device)) == M95_DONE, "pages are counted",
           chip.device);
}

static int has_blank_counts(void) {
    size_t k = 0;
    while (k < m95_pages(chip.device) && chip.counts[k] == 0) {
        k++;
    }
    return k == m95_pages(chip.device);
}

static void prepare(size_t device) {
    chip.device = device;
    memset(chip.state, 0xA5, sizeof chip.state);
    memset(chip.cells, 0xA5, m95_cells(device));
    memset(chip.identification, 0xA5, m95_identification(device));
    memset(chip.latch, 0xA5, 2 * m95_page(device));
    memset(chip.counts, 0xA5, sizeof chip.counts);
    expect(m95_prepare(device, LENT) == M95_DONE, "a device is prepared", device);
    expect(m95_refusal(device, LENT) == M95_DONE, "a prepared device is not refused", device);
    expect(has_blank_counts() && chip.counts[m95_pages(device)] == 0xA5A5, "a prepared device has counts of 0, and no more", device);
}

static size_t event(size_t kind, size_t value) {
    size_t answer = 9;
    size_t number = m95_event(chip.device, LENT, kind, value, &answer);
    expect(number == M95_DONE, "an event is done", kind);
    return answer;
}

static size_t set_pin(size_t pin, int is_high) { return event(M95_SET_PIN, pin + (is_high != 0)); }

/* One bit in, and the bit that Q shows when C has fallen. */
static size_t bit(int is_high) {
    set_pin(M95_D, is_high);
    set_pin(M95_C, 1);
    return set_pin(M95_C, 0);
}

static void bits(unsigned value, int count) {
    while (count-- > 0) {
        bit(value >> count & 1);
    }
}

/* A whole selection that only sends bytes to the device. */
static void command(const uint8_t *bytes, size_t count) {
    set_pin(M95_S, 0);
    for (size_t i = 0; i < count; i++) {
        bits(bytes[i], 8);
    }
    set_pin(M95_S, 1);
}

#define COMMAND(...) command((const uint8_t[]){__VA_ARGS__}, sizeof(uint8_t[]){__VA_ARGS__})

static size_t status(void) {
    size_t byte = 999;
    expect(m95_status_byte(chip.state, sizeof chip.state, &byte) == M95_DONE, "the status is told", 0);
    return byte;
}

/* What RDLS sends on device 4. */
static size_t lock_status(void) {
    set_pin(M95_S, 0);
    bits(0x830004, 24);
    bits(0x00, 7);
    size_t sent = bit(0);
    for (int k = 0; k < 7; k++) {
        sent = sent << 1 | bit(0);
    }
    set_pin(M95_S, 1);
    return sent;
}

#endif
