/* The first blank page, for calls.c: which page a search of the counts gives, whether they are right or not, and what it is refused with. */
#ifndef BLANK_H
#define BLANK_H

#include "chip.h"
#include "counts.h"

/* A search gives this number and puts these two, whatever stood there before; the numbers around them stay, and so do all counts. */
static void search(size_t device, const uint16_t *counts, size_t length, size_t number, size_t found, size_t page) {
    static const size_t old[] = {0, 1, SIZE_MAX};
    memcpy(before.counts, chip.counts, sizeof chip.counts);
    for (size_t k = 0; k < sizeof old / sizeof old[0]; k++) {
        size_t told[] = {7, old[k], 7, old[k], 7};
        expect(m95_first_blank(device, counts, length, &told[1], &told[3]) == number, "the number of a search", number);
        expect(told[1] == found, "whether it finds a page", told[1]);
        expect(told[3] == page, "which page it finds", told[3]);
        expect(told[0] == 7 && told[2] == 7 && told[4] == 7, "a search writes to nothing else", device);
    }
    expect(memcmp(before.counts, chip.counts, sizeof chip.counts) == 0, "a search leaves the counts", device);
}

static void finds(size_t page) { search(chip.device, chip.counts, m95_pages(chip.device), M95_DONE, 1, page); }

static void finds_none(void) { search(chip.device, chip.counts, m95_pages(chip.device), M95_DONE, 0, 0); }

/* The same count for every page. Behind the counts stand zeros, and none of them is a page's. */
static void fill_counts(size_t count) {
    memset(chip.counts, 0, sizeof chip.counts);
    for (size_t page = 0; page < m95_pages(chip.device); page++) {
        chip.counts[page] = (uint16_t)count;
    }
}

/* No blank page, then each page as the only one, and then each as the first of several. Counts that no page can have are not 0 either. */
static void searched_counts(void) {
    const size_t pages = m95_pages(chip.device), counts[] = {1, m95_page(chip.device), 255, 256, 257, 0x8000, 0xFF00, 65535};
    for (size_t k = 0; k < sizeof counts / sizeof counts[0]; k++) {
        fill_counts(counts[k]);
        finds_none();
        chip.counts[pages - 1] = 0;
        finds(pages - 1);
        chip.counts[1] = 0;
        finds(1);
    }
    fill_counts(256);
    for (size_t page = 0; page < pages; page++) {
        chip.counts[page] = 0;
        finds(page);
        chip.counts[page] = 256;
    }
    for (size_t page = pages; page-- > 0;) {
        chip.counts[page] = 0;
        finds(page);
    }
}

/* A page is blank until a write to it has ended, and is so again after one that puts FFh into all its cells. Power changes nothing. */
static void searched_chip(void) {
    const size_t page = m95_page(chip.device), time = time_of(chip.device);
    finds(0);
    start_write(0, 0x5A, 1);
    event(M95_WAIT, time - 1);
    finds(0);
    event(M95_WAIT, 1);
    finds(1);
    start_write(page, 0x00, page);
    event(M95_WAIT, time);
    finds(2);
    event(M95_POWER_CYCLE, 0);
    finds(2);
    start_write(page, 0xFF, page);
    event(M95_WAIT, time);
    finds(1);
    start_write(0, 0xFF, 1);
    event(M95_WAIT, time);
    finds(0);
}

/* Counts that the cells belie are believed, whichever of the two is blank, until the pages are counted. */
static void believed_counts(void) {
    memset(chip.cells, 0x00, m95_cells(chip.device));
    fill_counts(0);
    finds(0);
    recount();
    finds_none();
    chip.counts[3] = 0;
    finds(3);
    memset(chip.cells, 0xFF, m95_cells(chip.device));
    fill_counts(m95_page(chip.device));
    finds_none();
    recount();
    finds(0);
}

/* Pages of chance: most are full, or blank but for one cell at an end, and a few are blank. */
static void fill_pages(uint32_t chance) {
    const size_t page = m95_page(chip.device), pages = m95_pages(chip.device);
    for (size_t k = 0; k < pages; k++) {
        uint8_t *cells = chip.cells + k * page;
        chance = chance * 1664525u + 1013904223u;
        memset(cells, (chance >> 16) % 3 == 0 ? 0x00 : 0xFF, page);
        if ((chance >> 20) % pages > 0) {
            cells[(chance >> 18) % 2 == 0 ? 0 : page - 1] = 0xFE;
        }
    }
}

/* Whether the cells of a page are all FFh, read one by one. */
static int is_read_blank(size_t page) {
    const size_t length = m95_page(chip.device);
    const uint8_t *cells = chip.cells + page * length;
    size_t k = 0;
    while (k < length && cells[k] == 0xFF) {
        k++;
    }
    return k == length;
}

/* Once the pages are counted a search gives what reading the cells one by one would. */
static void searched_cells(void) {
    const size_t pages = m95_pages(chip.device);
    size_t blank = 0, none = 0;
    for (uint32_t chance = 1; chance <= 16; chance++) {
        size_t page = 0;
        fill_pages(chance);
        recount();
        while (page < pages && !is_read_blank(page)) {
            page++;
        }
        if (page < pages) {
            blank++;
            finds(page);
        } else {
            none++;
            finds_none();
        }
    }
    expect(blank > 0 && none > 0, "some cells have a blank page and some have none", blank);
}

/* 1 and then 14, each alone and both at once, for NULL too: nothing is found then, though a page is blank, each of the first ones in turn. */
static void refused_search(void) {
    const size_t device = chip.device, pages = m95_pages(device);
    const size_t none[] = {0, 8, 255, 256 + device, (size_t)1 << 32 | device}, lengths[] = {0, pages - 1, pages + 1, 2 * pages, pages + 256};
    for (size_t blank = 0; blank < 3; blank++) {
        fill_counts(1);
        chip.counts[blank] = 0;
        note();
        for (size_t k = 0; k < sizeof none / sizeof none[0]; k++) {
            search(none[k], chip.counts, pages, M95_REFUSED_DEVICE, 0, 0);
            search(none[k], NULL, 0, M95_REFUSED_DEVICE, 0, 0);
            for (size_t n = 0; n < sizeof lengths / sizeof lengths[0]; n++) {
                search(none[k], chip.counts, lengths[n], M95_REFUSED_DEVICE, 0, 0);
            }
        }
        for (size_t n = 0; n < sizeof lengths / sizeof lengths[0]; n++) {
            search(device, chip.counts, lengths[n], M95_REFUSED_COUNTS, 0, 0);
        }
        search(device, NULL, 0, M95_REFUSED_COUNTS, 0, 0);
        finds(blank);
        expect(is_as_before(), "a search changes no buffer", device);
    }
}

static void searches(void) {
    for (size_t device = 1; device <= 7; device++) {
        prepare(device);
        searched_chip();
        searched_counts();
        believed_counts();
        searched_cells();
        refused_search();
    }
}

#endif
