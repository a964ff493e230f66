/*
 * host DEVICE STATUS LOCK IMAGE TRACE SAVED: a host of the library that keeps a chip's cells in a raw image, as programmers and flashrom
 * write it. It plays TRACE on the chip of IMAGE and puts the cells into SAVED, a new file. An image of cells has neither status bits nor
 * lock, so these are words, in hexadecimal, and are told at the end for the next time; nor has it the identification page, which is each
 * time as it left the factory. A write that still runs at the end, which bit 0 of the status shows, is not in SAVED. The last line that it
 * prints says where SAVED has room: its first blank page, if there is one. Ends with 0, with 1 where the trace was refused at a record, or
 * with 2, and then SAVED is missing or, on a full disk, cut short.
 */
#include <errno.h>
#include <stdio.h>
#include <stdlib.h>
#include <string.h>

#include "m95.h"

#define LENT                                                                                                                \
    state, sizeof state, cells, m95_cells(device), identification, m95_identification(device), latch, 2 * m95_page(device), \
        counts, m95_pages(device)

static uint8_t state[M95_STATE_BYTES], cells[262144], identification[256], latch[512], piece[65536], answers[sizeof piece / 4];
static uint16_t counts[1024];

static int tell(const char *what, const char *why) {
    fprintf(stderr, "host: %s: %s\n", what, why);
    return 2;
}

/* A word as a number. What is none becomes a number that no call takes. */
static size_t number_of(const char *word, int base) {
    char *end;
    size_t number = strtoul(word, &end, base);
    return end == word || *end != '\0' ? SIZE_MAX : number;
}

/* Takes the cells of an image, and tells what is wrong with it. Where there is none the cells stay as they left the factory. */
static int read_cells(const char *name, size_t length) {
    FILE *image = fopen(name, "rb");
    if (image == NULL && errno == ENOENT) {
        tell(name, "there is none, so the chip is as it left the factory");
        return 1;
    }
    int is_good = image != NULL && fread(cells, 1, length, image) == length && fgetc(image) == EOF && !ferror(image) && fclose(image) == 0;
    if (!is_good) {
        tell(name, "it cannot be read, or is not as long as the cells of the device");
    }
    return is_good;
}

/* Prints where there is room. The counts are right: they were taken from the image, and the trace has kept them so. */
static void tell_room(size_t device) {
    size_t found, page;
    m95_first_blank(device, counts, m95_pages(device), &found, &page);
    if (found) {
        printf("the first blank page is %zu, from %04zXh on\n", page, page * m95_page(device));
    } else {
        printf("no page is blank\n");
    }
}

int main(int count, char **words) {
    size_t device = count == 7 ? number_of(words[1], 10) : 0, length = m95_cells(device);
    size_t records = 0, left = 0, more, taken, done, number, status, stored, lock;
    if (m95_prepare(device, LENT) != M95_DONE) {
        return tell("it takes a device, 1 to 7, and five more words", "host DEVICE STATUS LOCK IMAGE TRACE SAVED");
    }
    if (!read_cells(words[4], length)) {
        return 2;
    }
    m95_count_pages(device, cells, length, counts, m95_pages(device)); /* those of m95_prepare are of blank pages */
    if (m95_load(device, state, sizeof state, number_of(words[2], 16), number_of(words[3], 16)) != M95_DONE) {
        return tell(words[2], "the device has not all of these status bits, or it cannot have this lock");
    }
    FILE *trace = fopen(words[5], "rb");
    if (trace == NULL) {
        return tell(words[5], strerror(errno));
    }
    do { /* In pieces: at the end of one a 6 only says that its last record goes on in the next. */
        more = fread(piece + left, 1, sizeof piece - left, trace);
        number = m95_run(device, LENT, piece, left + more, answers, sizeof answers, SIZE_MAX, &taken, &done);
        records += done;
        left += more - taken;
        memmove(piece, piece + taken, left);
    } while (more > 0 && (number == M95_DONE || number == M95_REFUSED_CUT));
    if (ferror(trace) || m95_refusal(device, LENT) != M95_DONE) {
        return tell(words[5], "it could not be played to its end");
    }
    FILE *saved = fopen(words[6], "wbx"); /* x: a file that is there already is not written to */
    if (saved == NULL || fwrite(cells, 1, length, saved) != length || fclose(saved) != 0) {
        return tell(words[6], strerror(errno));
    }
    m95_status_byte(state, sizeof state, &status);
    m95_stored(state, sizeof state, &stored, &lock);
    printf("number %zu, records %zu, status %02zX, stored %02zX, lock %zu\n", number, records, status, stored, lock);
    tell_room(device);
    return number == M95_DONE ? 0 : 1;
}
