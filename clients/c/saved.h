/* What a host saves, for calls.c: states by their bytes, and the status bits and the lock, which are loaded and told. */
#ifndef SAVED_H
#define SAVED_H

#include "chip.h"

/*
 * States as version 1 has them, byte for byte: users may have saved such. A line of numbers: address, page start, time left. One of flags:
 * C, D, S, HOLD, W; selected, held, W seen low; turned away, WEL, lock. And one of the rest: instruction, Q, cycle; bits, value, bytes,
 * last; byte sent, status, new status; three that mean nothing.
 */
static void is_saved_as(const uint8_t *bytes, const char *which) {
    int is_same = memcmp(chip.state, bytes, M95_STATE_BYTES) == 0;
    if (!is_same) {
        printf("calls: the bytes of a state are not those of version 1: if they are to change, raise M95_VERSION and m95_version\n");
    }
    expect(is_same, which, M95_VERSION);
}

static void saved_prepared(void) {
    static const uint8_t bytes[] = {
        0, 0, 0, 0, 0, 0, 0, 0, 0, 0, 0, 0,
        0, 0, 1, 1, 1, 0, 0, 0, 0, 0, 0,
        10, 2, 0, 0, 0, 0, 0, 0, 0, 0, 0, 0, 0};
    prepare(1);
    is_saved_as(bytes, "the bytes of a prepared device");
}

/* In the middle of a WRITE's third byte. */
static void saved_writing(void) {
    static const uint8_t bytes[] = {
        0x47, 0x23, 0x01, 0, 0, 0, 0, 0, 0, 0, 0, 0,
        1, 1, 0, 1, 1, 1, 0, 0, 0, 1, 0,
        5, 2, 0, 2, 3, 6, 0xA2, 0, 0, 0, 0, 0, 0};
    prepare(3);
    COMMAND(0x06);
    set_pin(M95_S, 0);
    bits(0x02012345, 32);
    bits(0xA1A2, 16);
    bits(0x1, 1);
    set_pin(M95_D, 1);
    set_pin(M95_C, 1);
    is_saved_as(bytes, "the bytes of a device that is sent data");
}

/* Status bits and the lock stored, as the two states below have them. */
static void store_both(size_t device) {
    prepare(device);
    COMMAND(0x06);
    COMMAND(0x01, 0x84);
    event(M95_WAIT, 5000);
    COMMAND(0x06);
    if (device == 2) {
        COMMAND(0x82, 0x04, 0x00, 0x02);
    } else {
        COMMAND(0x82, 0x00, 0x04, 0x00, 0x02);
    }
    event(M95_WAIT, 5000);
    COMMAND(0x06);
}

/* A READ that a running WRITE turned away, with W seen low. */
static void saved_busy(void) {
    static const uint8_t bytes[] = {
        0, 0, 0, 0, 0, 0x23, 0x01, 0, 0xA0, 0x0F, 0, 0,
        1, 1, 0, 1, 0, 1, 0, 1, 1, 1, 1,
        4, 2, 1, 3, 5, 1, 3, 0, 0x84, 0x84, 0, 0, 0};
    store_both(4);
    COMMAND(0x02, 0x01, 0x23, 0x45, 0xA1, 0xA2);
    event(M95_WAIT, 1000);
    set_pin(M95_W, 0);
    set_pin(M95_S, 0);
    bits(0x03, 8);
    bits(0x2, 2);
    set_pin(M95_D, 1);
    set_pin(M95_C, 1);
    is_saved_as(bytes, "the bytes of a busy device");
}

/* RDSR in hold, in a cycle that will store other status bits. */
static void saved_held(void) {
    static const uint8_t bytes[] = {
        0, 0, 0, 0, 0, 0, 0, 0, 0x87, 0x13, 0, 0,
        0, 1, 0, 0, 1, 1, 1, 0, 0, 1, 1,
        2, 0, 3, 1, 1, 1, 5, 0x87, 0x84, 0x8C, 0, 0, 0};
    store_both(2);
    COMMAND(0x01, 0x8C);
    event(M95_WAIT, 1);
    set_pin(M95_S, 0);
    bits(0x05, 8);
    bit(1);
    set_pin(M95_HOLD, 0);
    is_saved_as(bytes, "the bytes of a device in hold");
}

static void versions(void) {
    expect(m95_version() == M95_VERSION && M95_VERSION == 1, "the version", m95_version());
    saved_prepared();
    saved_writing();
    saved_busy();
    saved_held();
}

/* Status bits and lock of the chip's state, which must be one. */
static void has_stored(size_t status, size_t lock, const char *what) {
    size_t bits_of = 999, lock_of = 999;
    expect(m95_stored(chip.state, sizeof chip.state, &bits_of, &lock_of) == M95_DONE, what, bits_of);
    expect(bits_of == status, what, bits_of);
    expect(lock_of == lock, what, lock_of);
}

/* One loading into a room that had other bytes: refused they stay; else the state is a prepared one but for what was loaded. */
static void load(size_t device, size_t status, size_t lock, size_t number) {
    chip.device = device;
    memset(chip.state, 0xA5, sizeof chip.state);
    memset(before.state, 0xA5, sizeof before.state);
    expect(m95_load(device, chip.state, sizeof chip.state, status, lock) == number, "the number of loading", status);
    if (number == M95_DONE) {
        has_stored(status, lock, "what was loaded");
        expect(m95_refusal(device, LENT) == M95_DONE, "a loaded device is not refused", status);
        m95_prepare(device, before.state, sizeof before.state, before.cells, m95_cells(device), before.identification, m95_identification(device),
                    before.latch, 2 * m95_page(device), before.counts, m95_pages(device));
        before.state[STATUS_AT] = (uint8_t)status;
        before.state[LOCK_AT] = (uint8_t)lock;
    }
    expect(memcmp(chip.state, before.state, sizeof chip.state) == 0, "the state after loading", status);
}

/*
 * Every status and lock of a byte and some above: 1 for no device, then 5 for bits that the device has not and for other locks, of which 1 is
 * one where there is no page to lock.
 */
static void loading(void) {
    static const size_t large[] = {256, 256 + 0x0C, (size_t)1 << 32, SIZE_MAX, SIZE_MAX - 0xF3}, locks[] = {2, 255, 256, 257, SIZE_MAX};
    static const size_t not_had[] = {0x73, 0xF3, 0x73, 0x73, 0x73, 0xF3, 0xF3, 0x73, 0x73};
    for (size_t device = 0; device <= 8; device++) {
        size_t none = device < 1 || device > 7 ? M95_REFUSED_DEVICE : M95_DONE, refused = none ? none : M95_REFUSED_STATE;
        if (none == M95_DONE) {
            prepare(device);
        }
        for (size_t status = 0; status < 256; status++) {
            int has = (status & not_had[device]) == 0;
            load(device, status, 0, has ? none : refused);
            load(device, status, 1, has && m95_identification(device) > 0 ? none : refused);
            load(device, status, 2, refused);
        }
        for (size_t k = 0; k < 5; k++) {
            load(device, large[k], 0, refused);
            load(device, 0, locks[k], refused);
            load(device, large[k], locks[k], refused);
        }
    }
    load(257, 0, 0, M95_REFUSED_DEVICE);
    load((size_t)1 << 32 | 1, 0xFF, 2, M95_REFUSED_DEVICE);
}

/* A room of another length: 5, after 1 and whatever else is wrong, and nothing of it changes. */
static void loading_rooms(void) {
    uint8_t room[M95_STATE_BYTES + 2], as_was[sizeof room];
    memset(as_was, 0x5A, sizeof as_was);
    memcpy(room, as_was, sizeof room);
    for (size_t length = 0; length <= sizeof room; length++) {
        if (length != M95_STATE_BYTES) {
            expect(m95_load(2, room, length, 0x8C, 1) == M95_REFUSED_STATE, "loading into another room", length);
            expect(m95_load(2, room, length, 0xFF, 2) == M95_REFUSED_STATE, "loading with all wrong but the device", length);
            expect(m95_load(0, room, length, 0, 0) == M95_REFUSED_DEVICE, "loading no device into another room", length);
        }
        expect(m95_load(8, room, length, 0xFF, 2) == M95_REFUSED_DEVICE, "loading with all wrong", length);
        expect(memcmp(room, as_was, sizeof room) == 0, "refused loading leaves the room", length);
    }
}

/* What a loaded chip then does: BP and the lock count, the cells stay, and WEL is 0 though it was not. */
static void loaded(void) {
    prepare(4);
    COMMAND(0x06);
    chip.cells[5] = 0x5A;
    recount();
    expect(m95_load(4, chip.state, sizeof chip.state, 0x0C, 1) == M95_DONE, "loading a chip", 4);
    expect(status() == 0x0C && lock_status() == 0x01, "a loaded chip", status());
    COMMAND(0x06);
    COMMAND(0x02, 0x00, 0x00, 0x05, 0x00);
    event(M95_WAIT, 5000);
    expect(status() == 0x0E && chip.cells[5] == 0x5A, "a loaded chip is protected", status());
    expect(m95_load(4, chip.state, sizeof chip.state, 0x80, 0) == M95_DONE, "loading it again", 4);
    COMMAND(0x06);
    COMMAND(0x02, 0x00, 0x00, 0x05, 0x00);
    event(M95_WAIT, 5000);
    expect(status() == 0x80 && lock_status() == 0x00 && chip.cells[5] == 0x00, "it is not protected", status());
}

/* What is stored changes at the end of a cycle, not at its start, and has neither WIP nor WEL. */
static void storing(void) {
    size_t bits_of = 9, lock_of = 9;
    prepare(2);
    has_stored(0, 0, "stored by a prepared device");
    COMMAND(0x06);
    COMMAND(0x82, 0x04, 0x00, 0x02);
    event(M95_WAIT, 4999);
    has_stored(0, 0, "stored while the lock is written");
    event(M95_WAIT, 1);
    has_stored(0, 1, "stored when it is");
    COMMAND(0x06);
    COMMAND(0x01, 0xFF);
    has_stored(0, 1, "stored while the status is written");
    event(M95_WAIT, 5000);
    has_stored(0x8C, 1, "stored when it is");
    chip.state[STATUS_AT] = 0xFF;
    expect(m95_refusal(2, LENT) == M95_REFUSED_STATE, "a state that is not sound", 0xFF);
    has_stored(0xFF, 1, "stored by it");
    expect(m95_stored(chip.state, M95_STATE_BYTES - 1, &bits_of, &lock_of) == M95_REFUSED_STATE, "stored by a short state", 35);
    expect(bits_of == 0 && lock_of == 0, "which is nothing", bits_of);
    bits_of = lock_of = 9;
    chip.state[LOCK_AT] = 2;
    expect(m95_stored(chip.state, sizeof chip.state, &bits_of, &lock_of) == M95_REFUSED_STATE, "stored by no state", 36);
    expect(bits_of == 0 && lock_of == 0, "which is nothing", bits_of);
}

#endif
