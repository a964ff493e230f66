/*
 * The calls of m95.h made wrong in one way, for clients/test to see that calls.c notices it. The linker hands every call that calls.c makes
 * to the function here (its option --wrap), and this one calls the library's own. Which way is the number in the variable M95_WRONG; 0 is
 * none, and a number past the last ends the program with status 3.
 */
#include <stdlib.h>
#include <string.h>

#include "m95.h"

enum way {
    RIGHT,
    CELLS_OF_NO_DEVICE,
    CELLS_OF_A_LARGE_NUMBER,
    PAGE_OF_A_LARGE_NUMBER,
    PAGE_OF_NO_DEVICE,
    IDENTIFICATION_OF_A_LARGE_NUMBER,
    IDENTIFICATION_OF_NO_DEVICE,
    IDENTIFICATION_AS_LONG_AS_A_PAGE,
    PAGES_OF_NO_DEVICE,
    PAGES_OF_A_LARGE_NUMBER,
    PAGES_WITH_THE_IDENTIFICATION_PAGE,
    PAGE_JUDGED_BEFORE_CELLS,
    NO_STATE_TAKEN,
    LARGE_NUMBER_TAKEN,
    NULL_STATE_TAKEN,
    NULL_PAGE_REFUSED_WHERE_THERE_IS_NONE,
    PAGE_TAKEN_WHERE_THERE_IS_NONE,
    STATE_OF_THE_PAGE_TAKEN_WHERE_THERE_IS_NONE,
    COUNTS_JUDGED_BEFORE_LATCH,
    COUNTS_JUDGED_AFTER_STATE,
    COUNTS_LENGTH_IN_BYTES,
    LONGER_COUNTS_TAKEN,
    NULL_COUNTS_TAKEN,
    WRONG_COUNTS_UNSOUND,
    PREPARES_WITHOUT_ROOM_FOR_A_STATE,
    NO_ROOM_FOR_A_STATE_TAKEN,
    REFUSED_PREPARING_GIVES_NO_STATE,
    REFUSED_PREPARING_CHANGES_CELLS,
    NULL_LATCH_PREPARED,
    COUNTS_UNJUDGED_IN_PREPARING,
    COUNTS_LEFT_BY_PREPARING,
    REFUSED_PREPARING_CLEARS_COUNTS,
    COUNTS_A_LARGE_NUMBER,
    COUNTS_JUDGED_BEFORE_CELLS,
    COUNTS_INTO_A_LONGER_BUFFER,
    COUNTS_INTO_NULL,
    COUNTS_BLANK_CELLS,
    COUNTS_WITHOUT_ZEROS,
    COUNTS_IN_A_BYTE,
    LAST_PAGE_UNCOUNTED,
    REFUSED_COUNTING_CLEARS_COUNTS,
    LAST_BLANK_PAGE_FOUND,
    PAGE_0_UNSEARCHED,
    LAST_PAGE_UNSEARCHED,
    PAGE_PAST_THE_LAST_SEARCHED,
    COUNTS_SEARCHED_IN_A_BYTE,
    HIGHEST_COUNT_TAKEN_AS_BLANK,
    LOWEST_COUNT_FOUND_WHERE_NONE_IS_BLANK,
    SEARCH_ENDED_BY_A_FULL_PAGE,
    SEARCHES_SHORTER_COUNTS,
    SEARCHES_LONGER_COUNTS,
    SEARCHES_NULL,
    SEARCHES_A_LARGE_NUMBER,
    SEARCHED_COUNTS_JUDGED_BEFORE_DEVICE,
    NO_BLANK_PAGE_REFUSED,
    IMPOSSIBLE_COUNT_REFUSED,
    BLANK_PAGE_TOLD_BY_ITS_ADDRESS,
    BLANK_PAGE_TOLD_FROM_1,
    FOUND_WITHOUT_ITS_PAGE,
    PAGE_WITHOUT_FOUND,
    PAGE_0_TAKEN_AS_NONE,
    FOUND_TELLS_HOW_MANY,
    FOUND_LEFT_WHERE_NONE_IS_BLANK,
    PAGE_LEFT_WHERE_NONE_IS_BLANK,
    FOUND_LEFT_BY_A_REFUSED_SEARCH,
    PAGE_LEFT_BY_A_REFUSED_SEARCH,
    SEARCH_CHANGES_A_COUNT,
    REFUSED_EVENT_ANSWERS_0,
    KIND_REFUSED_AS_PIN,
    PIN_TEN_TAKEN,
    REFUSED_EVENT_CHANGES_THE_LATCH,
    POWER_TAKEN_IN_A_CYCLE,
    EVENT_ON_NULL_CELLS_TAKEN,
    EVENT_ON_NULL_COUNTS_TAKEN,
    REFUSED_EVENT_CHANGES_A_COUNT,
    COUNT_LEFT_BY_A_WRITE,
    COUNT_OF_A_WRITE_IN_A_BYTE,
    COUNTS_CLEARED_BY_POWER,
    WRONG_COUNT_TAKEN,
    WRONG_COUNT_TAKES_TIME,
    WRONG_COUNT_MENDED_BY_REFUSAL,
    WRONG_COUNT_DROPS_THE_CYCLE,
    WRONG_COUNT_ANSWERS_Q,
    WRONG_COUNT_REFUSED_AS_POWER,
    WRONG_COUNT_REFUSED_AT_A_SHORT_WAIT,
    WRONG_COUNT_REFUSED_AT_THE_RISE_OF_S,
    WRONG_COUNT_OF_ANOTHER_PAGE_REFUSED,
    WRONG_COUNT_REFUSED_IN_AN_IDENTIFICATION_CYCLE,
    WRONG_COUNT_REFUSED_IN_A_STATUS_CYCLE,
    WRONG_COUNT_REFUSED_IN_A_LOCK_CYCLE,
    LIMIT_ONE_MORE,
    REFUSED_TRACE_DID_ONE,
    REFUSED_TRACE_ANSWERS,
    SHORT_RECORD_TAKEN,
    NULL_TRACE_TAKEN_AS_CUT,
    NULL_ANSWERS_TAKEN,
    NULL_PAGE_JUDGED_BEFORE_NULL_CELLS,
    TRACE_WITH_NULL_COUNTS_TAKEN,
    TRACE_TAKES_A_WRONG_COUNT,
    TRACE_DOES_A_REFUSED_WAIT,
    STATUS_OF_NO_STATE,
    STATUS_WITHOUT_WEL,
    STATUS_OF_NULL,
    VIEW_STARTS_ONE_LATER,
    VIEW_ONE_SHORT,
    OTHER_REGION_VIEWED,
    BUFFER_NOT_ASKED_FOR_UNJUDGED,
    VIEWED_PAGE_JUDGED_BEFORE_CELLS,
    ADDRESS_ASKED_OF_THE_PAGE,
    PAST_THE_CELLS_AS_WRONG_LENGTH,
    REGION_TWO_TAKEN,
    LARGE_REGION_TAKEN,
    REGION_JUDGED_BEFORE_LENGTHS,
    ADDRESS_JUDGED_BEFORE_REGION,
    REFUSED_VIEW_SHOWN,
    REFUSED_VIEW_STARTS,
    VIEW_OF_NULL_CELLS,
    VIEW_OF_NULL_PAGE,
    OTHER_VERSION,
    LOADS_A_LARGE_NUMBER,
    LOADS_SRWD_ON_DEVICE_1,
    LOADS_A_LARGE_STATUS,
    LOADS_A_LARGE_LOCK,
    LOADS_LOCK_TWO,
    LOADS_A_LOCK_WITHOUT_A_PAGE,
    LOADS_WITHOUT_THE_LOCK,
    LOADS_WITHOUT_BP,
    LOADS_WITH_WEL,
    LOADS_OVER_WHAT_WAS_THERE,
    LOADS_INTO_A_LONG_ROOM,
    LOADS_INTO_NULL,
    STATUS_JUDGED_BEFORE_DEVICE,
    REFUSED_LOADING_CHANGES_THE_ROOM,
    STORED_BY_NO_STATE,
    STORED_BY_NULL,
    REFUSED_STORED_SHOWN,
    REFUSED_LOCK_SHOWN,
    STORED_WITH_WEL_AND_WIP,
    STORED_BEFORE_THE_CYCLE_ENDS,
    LOCK_STORED_BEFORE_THE_CYCLE_ENDS,
    STORED_WITHOUT_THE_LOCK,
    STORED_BITS_OF_THE_DEVICE_ALONE,
    SOUNDNESS_JUDGED_BY_STORED,
    WAYS
};

static enum way way(void) {
    static int chosen = -1;
    if (chosen < 0) {
        const char *named = getenv("M95_WRONG");
        chosen = named == NULL ? RIGHT : atoi(named);
        if (chosen < 0 || chosen >= WAYS) {
            exit(3);
        }
    }
    return (enum way)chosen;
}

#define BUFFERS state, state_length, cells, cells_length, identification, identification_length, latch, latch_length, counts, counts_length
#define TAKEN(constant)                                                                                                \
    constant uint8_t *state, size_t state_length, constant uint8_t *cells, size_t cells_length,                        \
        constant uint8_t *identification, size_t identification_length, constant uint8_t *latch, size_t latch_length,  \
        constant uint16_t *counts, size_t counts_length
#define WRITTEN TAKEN()
#define ONLY_READ TAKEN(const)
#define VIEWED cells, cells_length, identification, identification_length
#define PAGES const uint8_t *cells, size_t cells_length, const uint8_t *identification, size_t identification_length

size_t __real_m95_version(void);
size_t __real_m95_cells(size_t device);
size_t __real_m95_page(size_t device);
size_t __real_m95_identification(size_t device);
size_t __real_m95_pages(size_t device);
size_t __real_m95_refusal(size_t device, ONLY_READ);
size_t __real_m95_prepare(size_t device, WRITTEN);
size_t __real_m95_count_pages(size_t device, const uint8_t *cells, size_t cells_length, uint16_t *counts, size_t counts_length);
size_t __real_m95_first_blank(size_t device, const uint16_t *counts, size_t counts_length, size_t *found, size_t *page);
size_t __real_m95_load(size_t device, uint8_t *state, size_t state_length, size_t status, size_t lock);
size_t __real_m95_event(size_t device, WRITTEN, size_t kind, size_t value, size_t *answer);
size_t __real_m95_run(size_t device, WRITTEN, const uint8_t *trace, size_t trace_length, uint8_t *answers, size_t answers_length, size_t limit,
                      size_t *taken, size_t *done);
size_t __real_m95_status_byte(const uint8_t *state, size_t state_length, size_t *status);
size_t __real_m95_stored(const uint8_t *state, size_t state_length, size_t *status, size_t *lock);
size_t __real_m95_view(size_t device, size_t region, PAGES, size_t address, size_t *start, size_t *length);

size_t __wrap_m95_version(void) { return __real_m95_version() + (way() == OTHER_VERSION); }

size_t __wrap_m95_cells(size_t device) {
    if (way() == CELLS_OF_NO_DEVICE && device == 8) {
        return 512;
    }
    return __real_m95_cells(way() == CELLS_OF_A_LARGE_NUMBER ? device & 255 : device);
}

size_t __wrap_m95_page(size_t device) {
    if (way() == PAGE_OF_NO_DEVICE && device == 0) {
        return 16;
    }
    return __real_m95_page(way() == PAGE_OF_A_LARGE_NUMBER ? device & 255 : device);
}

size_t __wrap_m95_identification(size_t device) {
    if (way() == IDENTIFICATION_OF_NO_DEVICE && device == 0) {
        return 16;
    }
    if (way() == IDENTIFICATION_AS_LONG_AS_A_PAGE) {
        return __real_m95_page(device);
    }
    return __real_m95_identification(way() == IDENTIFICATION_OF_A_LARGE_NUMBER ? device & 255 : device);
}

size_t __wrap_m95_pages(size_t device) {
    if (way() == PAGES_OF_NO_DEVICE && device == 8) {
        return 32;
    }
    size_t pages = __real_m95_pages(way() == PAGES_OF_A_LARGE_NUMBER ? device & 255 : device);
    return way() == PAGES_WITH_THE_IDENTIFICATION_PAGE && __real_m95_identification(device) > 0 ? pages + 1 : pages;
}

/* Whether the buffers themselves are refused by this number. */
static int is_of_buffers(size_t number) {
    return (M95_REFUSED_DEVICE <= number && number <= M95_REFUSED_STATE) || number == M95_REFUSED_COUNTS;
}

/* Where version 1 has the time that is left, Q, and which cycle runs; and the cycles. */
enum { TIME_AT = 8, Q_AT = 24, CYCLE_AT = 25, ARRAY = 1, IDENTIFICATION = 2, STATUS = 3, LOCK = 4 };

static size_t time_left(const uint8_t *state) {
    size_t time = 0;
    for (size_t k = 4; k > 0; k--) {
        time = time << 8 | state[TIME_AT + k - 1];
    }
    return time;
}

/* Whether the count of any page is wrong, in buffers that are not refused. */
static int has_wrong_count(size_t device, ONLY_READ) {
    static uint16_t right[1024];
    if (__real_m95_refusal(device, BUFFERS) != M95_DONE) {
        return 0;
    }
    __real_m95_count_pages(device, cells, cells_length, right, counts_length);
    return memcmp(right, counts, counts_length * sizeof *counts) != 0;
}

/* The number of buffers whose counts are of a wrong number, or say a wrong one, made wrong. */
static size_t counts_number(size_t device, ONLY_READ, size_t number) {
    int is_wrong = counts_length != __real_m95_pages(device), is_short = state_length != M95_STATE_BYTES;
    if (way() == COUNTS_JUDGED_BEFORE_LATCH && number == M95_REFUSED_LATCH && is_wrong) {
        return M95_REFUSED_COUNTS;
    }
    if (way() == COUNTS_JUDGED_AFTER_STATE && number == M95_REFUSED_COUNTS && is_short) {
        return M95_REFUSED_STATE;
    }
    if (way() == NULL_COUNTS_TAKEN && number == M95_REFUSED_COUNTS && counts == NULL) {
        return M95_DONE;
    }
    return way() == WRONG_COUNTS_UNSOUND && has_wrong_count(device, BUFFERS) ? M95_REFUSED_STATE : number;
}

/* How many counts are taken instead. */
static size_t counts_for(size_t device, size_t length) {
    if (way() == COUNTS_LENGTH_IN_BYTES) {
        return length / sizeof(uint16_t);
    }
    int is_longer = way() == LONGER_COUNTS_TAKEN && length > __real_m95_pages(device);
    return is_longer ? __real_m95_pages(device) : length;
}

size_t __wrap_m95_refusal(size_t device, ONLY_READ) {
    if (way() == NULL_STATE_TAKEN && state == NULL) {
        return M95_DONE;
    }
    counts_length = counts_for(device, counts_length);
    size_t number = __real_m95_refusal(way() == LARGE_NUMBER_TAKEN ? device & 255 : device, BUFFERS);
    if (way() == PAGE_JUDGED_BEFORE_CELLS && number == M95_REFUSED_CELLS && identification_length != __real_m95_identification(device)) {
        return M95_REFUSED_IDENTIFICATION;
    }
    if (way() == NULL_PAGE_REFUSED_WHERE_THERE_IS_NONE && number == M95_DONE && identification == NULL) {
        return M95_REFUSED_IDENTIFICATION;
    }
    if (way() == PAGE_TAKEN_WHERE_THERE_IS_NONE && number == M95_REFUSED_IDENTIFICATION && __real_m95_identification(device) == 0) {
        return M95_DONE;
    }
    if (way() == STATE_OF_THE_PAGE_TAKEN_WHERE_THERE_IS_NONE && number == M95_REFUSED_STATE && device == 7) {
        return M95_DONE;
    }
    if (way() == NO_STATE_TAKEN && number == M95_REFUSED_STATE) {
        return M95_DONE;
    }
    return counts_number(device, BUFFERS, number);
}

/* Prepares with counts of its own where a way takes any number of them, or leaves those that are lent. */
static size_t prepare_beside_counts(size_t device, WRITTEN) {
    static uint16_t own[1024];
    if (way() == COUNTS_LEFT_BY_PREPARING && counts_length == __real_m95_pages(device)) {
        counts = own;
    }
    if (way() == COUNTS_UNJUDGED_IN_PREPARING && counts_length != __real_m95_pages(device)) {
        counts = own;
        counts_length = __real_m95_pages(device);
    }
    return __real_m95_prepare(device, BUFFERS);
}

size_t __wrap_m95_prepare(size_t device, WRITTEN) {
    if (way() == PREPARES_WITHOUT_ROOM_FOR_A_STATE && state_length != M95_STATE_BYTES && cells != NULL) {
        memset(cells, 0xFF, cells_length);
    }
    size_t number = prepare_beside_counts(device, BUFFERS);
    if (way() == REFUSED_PREPARING_GIVES_NO_STATE && is_of_buffers(number) && number != M95_REFUSED_STATE && state != NULL) {
        memset(state, 0, state_length);
    }
    if (way() == REFUSED_PREPARING_CLEARS_COUNTS && number != M95_DONE && counts != NULL) {
        memset(counts, 0, counts_length * sizeof *counts);
    }
    if (way() == REFUSED_PREPARING_CHANGES_CELLS && number == M95_REFUSED_DEVICE && cells != NULL) {
        cells[0] ^= 1;
    }
    if (way() == NULL_LATCH_PREPARED && latch == NULL) {
        return M95_DONE;
    }
    return way() == NO_ROOM_FOR_A_STATE_TAKEN && number == M95_REFUSED_STATE ? M95_DONE : number;
}

/* Pages counted wrong. */
static void spoil_counted(size_t device, const uint8_t *cells, size_t cells_length, uint16_t *counts, size_t pages) {
    const size_t page = __real_m95_page(device);
    for (size_t k = 0; way() == COUNTS_BLANK_CELLS && k < pages; k++) {
        counts[k] = (uint16_t)(page - counts[k]);
    }
    for (size_t k = 0; way() == COUNTS_WITHOUT_ZEROS && k < cells_length; k++) {
        counts[k / page] = (uint16_t)(counts[k / page] - (cells[k] == 0));
    }
    for (size_t k = 0; way() == COUNTS_IN_A_BYTE && k < pages; k++) {
        counts[k] &= 255;
    }
    if (way() == LAST_PAGE_UNCOUNTED) {
        counts[pages - 1] = 0;
    }
}

size_t __wrap_m95_count_pages(size_t device, const uint8_t *cells, size_t cells_length, uint16_t *counts, size_t counts_length) {
    size_t pages = __real_m95_pages(device), length = counts_length;
    if (way() == COUNTS_INTO_A_LONGER_BUFFER && counts_length > pages) {
        length = pages;
    }
    size_t number = __real_m95_count_pages(way() == COUNTS_A_LARGE_NUMBER ? device & 255 : device, cells, cells_length, counts, length);
    if (number == M95_DONE) {
        spoil_counted(device, cells, cells_length, counts, pages);
    }
    if (way() == REFUSED_COUNTING_CLEARS_COUNTS && number != M95_DONE && counts != NULL) {
        memset(counts, 0, counts_length * sizeof *counts);
    }
    if (way() == COUNTS_JUDGED_BEFORE_CELLS && number == M95_REFUSED_CELLS && counts_length != pages) {
        return M95_REFUSED_COUNTS;
    }
    return way() == COUNTS_INTO_NULL && number == M95_REFUSED_COUNTS && counts == NULL ? M95_DONE : number;
}

/* What a search tells. */
struct told {
    size_t found, page;
};

/* Whether a search that is wrong about a count takes it for that of a blank page. */
static int is_taken_as_blank(uint16_t count) {
    if (way() == HIGHEST_COUNT_TAKEN_AS_BLANK && count == 65535) {
        return 1;
    }
    return (way() == COUNTS_SEARCHED_IN_A_BYTE ? count & 255 : count) == 0;
}

/* A search that is wrong about where to look, or about the counts. */
static struct told search_wrongly(size_t device, const uint16_t *counts, size_t pages) {
    const size_t end = way() == LAST_PAGE_UNSEARCHED ? pages - 1 : way() == PAGE_PAST_THE_LAST_SEARCHED ? pages + 1 : pages;
    struct told told = {0, 0};
    size_t lowest = 0;
    for (size_t k = way() == PAGE_0_UNSEARCHED; k < end && (told.found == 0 || way() == LAST_BLANK_PAGE_FOUND); k++) {
        if (is_taken_as_blank(counts[k])) {
            told = (struct told){1, k};
        }
        if (way() == SEARCH_ENDED_BY_A_FULL_PAGE && counts[k] == __real_m95_page(device)) {
            return told;
        }
        lowest = counts[k] < counts[lowest] ? k : lowest;
    }
    return way() == LOWEST_COUNT_FOUND_WHERE_NONE_IS_BLANK && told.found == 0 ? (struct told){1, lowest} : told;
}

/* How many pages are blank. */
static size_t blank_pages(const uint16_t *counts, size_t pages) {
    size_t blank = 0;
    for (size_t k = 0; k < pages; k++) {
        blank += counts[k] == 0;
    }
    return blank;
}

/* A blank page, told wrong. */
static void spoil_found(size_t device, const uint16_t *counts, size_t pages, struct told *told, struct told old) {
    if (way() == FOUND_WITHOUT_ITS_PAGE) {
        told->page = old.page;
    }
    if (way() == PAGE_WITHOUT_FOUND) {
        told->found = old.found;
    }
    if (way() == PAGE_0_TAKEN_AS_NONE) {
        told->found = told->page > 0;
    }
    if (way() == FOUND_TELLS_HOW_MANY) {
        told->found = blank_pages(counts, pages);
    }
    if (way() == BLANK_PAGE_TOLD_BY_ITS_ADDRESS) {
        told->page *= __real_m95_page(device);
    }
    told->page += way() == BLANK_PAGE_TOLD_FROM_1;
}

/* That there is none, or that the search is refused, told wrong. */
static void spoil_nothing_found(size_t number, struct told *told, struct told old) {
    if (way() == (number == M95_DONE ? FOUND_LEFT_WHERE_NONE_IS_BLANK : FOUND_LEFT_BY_A_REFUSED_SEARCH)) {
        told->found = old.found;
    }
    if (way() == (number == M95_DONE ? PAGE_LEFT_WHERE_NONE_IS_BLANK : PAGE_LEFT_BY_A_REFUSED_SEARCH)) {
        told->page = old.page;
    }
}

/* The number of a search that was done, made wrong. */
static size_t searched_number(size_t device, const uint16_t *counts, size_t pages, int is_found) {
    for (size_t k = 0; way() == IMPOSSIBLE_COUNT_REFUSED && k < pages; k++) {
        if (counts[k] > __real_m95_page(device)) {
            return M95_REFUSED_COUNT;
        }
    }
    return way() == NO_BLANK_PAGE_REFUSED && !is_found ? M95_REFUSED_ADDRESS : M95_DONE;
}

/* The number of a search that was refused, made wrong. */
static size_t refused_number(size_t device, const uint16_t *counts, size_t counts_length, size_t number) {
    if (way() == SEARCHED_COUNTS_JUDGED_BEFORE_DEVICE && number == M95_REFUSED_DEVICE && counts_length == 0) {
        return M95_REFUSED_COUNTS;
    }
    int is_shorter = number == M95_REFUSED_COUNTS && counts_length < __real_m95_pages(device);
    return is_shorter && way() == (counts == NULL ? SEARCHES_NULL : SEARCHES_SHORTER_COUNTS) ? M95_DONE : number;
}

size_t __wrap_m95_first_blank(size_t device, const uint16_t *counts, size_t counts_length, size_t *found, size_t *page) {
    const struct told old = {*found, *page};
    const size_t known = way() == SEARCHES_A_LARGE_NUMBER ? device & 255 : device, pages = __real_m95_pages(known);
    const size_t length = way() == SEARCHES_LONGER_COUNTS && pages > 0 && counts_length > pages ? pages : counts_length;
    size_t number = __real_m95_first_blank(known, counts, length, found, page);
    number = number == M95_DONE ? searched_number(known, counts, length, *found == 1) : refused_number(known, counts, length, number);
    struct told told = {*found, *page};
    if (number == M95_DONE && way() >= LAST_BLANK_PAGE_FOUND && way() <= SEARCHES_SHORTER_COUNTS) {
        told = search_wrongly(known, counts, length);
    }
    if (told.found) {
        spoil_found(known, counts, length, &told, old);
    } else {
        spoil_nothing_found(number, &told, old);
    }
    *found = told.found;
    *page = told.page;
    if (way() == SEARCH_CHANGES_A_COUNT && number == M95_DONE) {
        ((uint16_t *)counts)[length - 1] ^= 1;
    }
    return number;
}

/* Whether a way refuses an event with 15 that does not look at the counts, or not at the one that is wrong. */
static int is_refused_too(size_t device, WRITTEN, size_t kind, size_t value) {
    if (way() < WRONG_COUNT_REFUSED_AT_A_SHORT_WAIT || way() > WRONG_COUNT_REFUSED_IN_A_LOCK_CYCLE || !has_wrong_count(device, BUFFERS)) {
        return 0;
    }
    size_t cycle = kind == M95_WAIT ? state[CYCLE_AT] : 0, ended = cycle > 0 && value >= time_left(state) ? cycle : 0;
    return (way() == WRONG_COUNT_REFUSED_AT_A_SHORT_WAIT && cycle == ARRAY)
           || (way() == WRONG_COUNT_REFUSED_AT_THE_RISE_OF_S && kind == M95_SET_PIN && value == M95_S + 1)
           || (way() == WRONG_COUNT_OF_ANOTHER_PAGE_REFUSED && ended == ARRAY)
           || (way() == WRONG_COUNT_REFUSED_IN_AN_IDENTIFICATION_CYCLE && ended == IDENTIFICATION)
           || (way() == WRONG_COUNT_REFUSED_IN_A_STATUS_CYCLE && ended == STATUS)
           || (way() == WRONG_COUNT_REFUSED_IN_A_LOCK_CYCLE && ended == LOCK);
}

/* An event that was refused with 15, made wrong: its number, and what it leaves. */
static size_t spoil_refused_count(size_t device, WRITTEN, size_t kind, size_t value, size_t *answer) {
    if (way() == WRONG_COUNT_TAKES_TIME) {
        memcpy(state + TIME_AT, (const uint8_t[]){1, 0, 0, 0}, 4);
    }
    if (way() == WRONG_COUNT_MENDED_BY_REFUSAL || way() == WRONG_COUNT_TAKEN) {
        __real_m95_count_pages(device, cells, cells_length, counts, counts_length);
    }
    if (way() == WRONG_COUNT_DROPS_THE_CYCLE) {
        memset(state + TIME_AT, 0, 4);
        state[CYCLE_AT] = 0;
    }
    if (way() == WRONG_COUNT_ANSWERS_Q) {
        *answer = state[Q_AT];
    }
    if (way() == WRONG_COUNT_TAKEN) {
        return __real_m95_event(device, BUFFERS, kind, value, answer);
    }
    return way() == WRONG_COUNT_REFUSED_AS_POWER ? M95_REFUSED_POWER : M95_REFUSED_COUNT;
}

/* The counts after an event, made wrong by what they were before it. */
static void spoil_counts(uint16_t *counts, size_t counts_length, const uint16_t *old, size_t kind) {
    if (way() == COUNT_LEFT_BY_A_WRITE && kind == M95_WAIT) {
        memcpy(counts, old, counts_length * sizeof *counts);
    }
    for (size_t k = 0; way() == COUNT_OF_A_WRITE_IN_A_BYTE && k < counts_length; k++) {
        counts[k] = counts[k] == old[k] ? old[k] : counts[k] & 255;
    }
    if (way() == COUNTS_CLEARED_BY_POWER && kind == M95_POWER_CYCLE) {
        memset(counts, 0, counts_length * sizeof *counts);
    }
}

/* An event with its counts, made wrong. */
static size_t event_counted(size_t device, WRITTEN, size_t kind, size_t value, size_t *answer) {
    static uint16_t old[1024];
    if (is_refused_too(device, BUFFERS, kind, value)) {
        *answer = M95_Z;
        return M95_REFUSED_COUNT;
    }
    if (counts_length <= sizeof old / sizeof old[0] && counts != NULL) {
        memcpy(old, counts, counts_length * sizeof *counts);
    }
    size_t number = __real_m95_event(device, BUFFERS, kind, value, answer);
    if (number == M95_DONE) {
        spoil_counts(counts, counts_length, old, kind);
    }
    if (way() == EVENT_ON_NULL_COUNTS_TAKEN && number == M95_REFUSED_COUNTS && counts == NULL) {
        return M95_DONE;
    }
    if (way() == REFUSED_EVENT_CHANGES_A_COUNT && number != M95_DONE && counts != NULL) {
        counts[0] ^= 1;
    }
    return number == M95_REFUSED_COUNT ? spoil_refused_count(device, BUFFERS, kind, value, answer) : number;
}

size_t __wrap_m95_event(size_t device, WRITTEN, size_t kind, size_t value, size_t *answer) {
    size_t number = event_counted(device, BUFFERS, kind, value, answer);
    if (way() == REFUSED_EVENT_ANSWERS_0 && number != M95_DONE) {
        *answer = 0;
    }
    if (way() == REFUSED_EVENT_CHANGES_THE_LATCH && number != M95_DONE && !is_of_buffers(number)) {
        latch[0] ^= 1;
    }
    if (way() == KIND_REFUSED_AS_PIN && number == M95_REFUSED_KIND) {
        return M95_REFUSED_PIN;
    }
    if (way() == PIN_TEN_TAKEN && number == M95_REFUSED_PIN) {
        return M95_DONE;
    }
    if (way() == EVENT_ON_NULL_CELLS_TAKEN && cells == NULL) {
        return M95_DONE;
    }
    return way() == POWER_TAKEN_IN_A_CYCLE && number == M95_REFUSED_POWER ? M95_DONE : number;
}

size_t __wrap_m95_run(size_t device, WRITTEN, const uint8_t *trace, size_t trace_length, uint8_t *answers, size_t answers_length, size_t limit,
                      size_t *taken, size_t *done) {
    size_t most = way() == LIMIT_ONE_MORE ? limit + 1 : limit;
    size_t number = __real_m95_run(device, BUFFERS, trace, trace_length, answers, answers_length, most, taken, done);
    if (way() == REFUSED_TRACE_DID_ONE && is_of_buffers(number)) {
        *done = 1;
    }
    if (way() == REFUSED_TRACE_ANSWERS && is_of_buffers(number) && answers_length > 0) {
        answers[0] = M95_Z;
    }
    if (way() == NULL_TRACE_TAKEN_AS_CUT && trace == NULL) {
        return M95_REFUSED_CUT;
    }
    if (way() == NULL_ANSWERS_TAKEN && answers == NULL) {
        return M95_DONE;
    }
    if (way() == NULL_PAGE_JUDGED_BEFORE_NULL_CELLS && cells == NULL && identification == NULL) {
        return M95_REFUSED_IDENTIFICATION;
    }
    if (way() == TRACE_WITH_NULL_COUNTS_TAKEN && number == M95_REFUSED_COUNTS && counts == NULL) {
        return M95_DONE;
    }
    *done += way() == TRACE_DOES_A_REFUSED_WAIT && number == M95_REFUSED_COUNT;
    if (way() == TRACE_TAKES_A_WRONG_COUNT && number == M95_REFUSED_COUNT) {
        return M95_DONE;
    }
    return way() == SHORT_RECORD_TAKEN && number == M95_REFUSED_CUT ? M95_DONE : number;
}

size_t __wrap_m95_status_byte(const uint8_t *state, size_t state_length, size_t *status) {
    size_t number = __real_m95_status_byte(state, state_length, status);
    if (way() == STATUS_WITHOUT_WEL && number == M95_DONE) {
        *status &= ~(size_t)2;
    }
    if (way() == STATUS_OF_NULL && state == NULL) {
        return M95_DONE;
    }
    return way() == STATUS_OF_NO_STATE && number == M95_REFUSED_STATE ? M95_DONE : number;
}

/* Which region is asked for instead. */
static size_t region_for(size_t region) {
    if (way() == OTHER_REGION_VIEWED && region <= M95_REGION_IDENTIFICATION) {
        return M95_REGION_IDENTIFICATION - region;
    }
    if (way() == LARGE_REGION_TAKEN) {
        return region & 255;
    }
    return way() == REGION_TWO_TAKEN && region == 2 ? M95_REGION_IDENTIFICATION : region;
}

/* The number of a view, made wrong. */
static size_t view_number(size_t device, size_t region, size_t page, size_t address, size_t number) {
    int is_known = number != M95_REFUSED_DEVICE, is_past = address >= __real_m95_cells(device);
    if (way() == VIEWED_PAGE_JUDGED_BEFORE_CELLS && is_known && page != __real_m95_identification(device)) {
        return M95_REFUSED_IDENTIFICATION;
    }
    if (way() == ADDRESS_ASKED_OF_THE_PAGE && number == M95_DONE && is_past) {
        return M95_REFUSED_ADDRESS;
    }
    if (way() == REGION_JUDGED_BEFORE_LENGTHS && is_known && region > M95_REGION_IDENTIFICATION) {
        return M95_REFUSED_KIND;
    }
    if (way() == ADDRESS_JUDGED_BEFORE_REGION && number == M95_REFUSED_KIND && is_past) {
        return M95_REFUSED_ADDRESS;
    }
    return way() == PAST_THE_CELLS_AS_WRONG_LENGTH && number == M95_REFUSED_ADDRESS ? M95_REFUSED_CELLS : number;
}

size_t __wrap_m95_view(size_t device, size_t region, PAGES, size_t address, size_t *start, size_t *length) {
    /* A buffer that is not asked for is not read, so that its length can be said to be right. */
    if (way() == BUFFER_NOT_ASKED_FOR_UNJUDGED && region == M95_REGION_IDENTIFICATION) {
        cells_length = __real_m95_cells(device);
    }
    if (way() == BUFFER_NOT_ASKED_FOR_UNJUDGED && region == M95_REGION_CELLS) {
        identification_length = __real_m95_identification(device);
    }
    size_t number = __real_m95_view(device, region_for(region), VIEWED, address, start, length);
    *start += (way() == VIEW_STARTS_ONE_LATER && number == M95_DONE) || (way() == REFUSED_VIEW_STARTS && number != M95_DONE);
    *length += way() == REFUSED_VIEW_SHOWN && number != M95_DONE;
    *length -= way() == VIEW_ONE_SHORT && number == M95_DONE;
    if ((way() == VIEW_OF_NULL_CELLS && cells == NULL) || (way() == VIEW_OF_NULL_PAGE && identification == NULL)) {
        return M95_DONE;
    }
    return view_number(device, region, identification_length, address, number);
}

/* Loads with a status or a lock that is made to fit where a way takes what is to be refused. */
static size_t load_fitting(size_t device, uint8_t *state, size_t state_length, size_t status, size_t lock) {
    if (way() == LOADS_SRWD_ON_DEVICE_1 && device == 1) {
        status &= ~(size_t)0x80;
    }
    if (way() == LOADS_A_LARGE_STATUS) {
        status &= 255;
    }
    if (way() == LOADS_A_LARGE_LOCK) {
        lock &= 255;
    }
    if (way() == LOADS_LOCK_TWO && lock == 2) {
        lock = 1;
    }
    if (way() == LOADS_A_LOCK_WITHOUT_A_PAGE && __real_m95_identification(device) == 0 && lock == 1) {
        lock = 0;
    }
    if (way() == LOADS_INTO_A_LONG_ROOM && state_length > M95_STATE_BYTES) {
        state_length = M95_STATE_BYTES;
    }
    return __real_m95_load(way() == LOADS_A_LARGE_NUMBER ? device & 255 : device, state, state_length, status, lock);
}

/* A loaded state made wrong: the lock, the status, WEL and the last byte stand where version 1 has them. */
static void spoil_loaded(uint8_t *state, const uint8_t *before) {
    if (way() == LOADS_WITHOUT_THE_LOCK) {
        state[22] = 0;
    }
    if (way() == LOADS_WITHOUT_BP) {
        state[31] &= 0x80;
    }
    if (way() == LOADS_WITH_WEL) {
        state[21] = 1;
    }
    if (way() == LOADS_OVER_WHAT_WAS_THERE) {
        state[29] = before[29];
    }
}

size_t __wrap_m95_load(size_t device, uint8_t *state, size_t state_length, size_t status, size_t lock) {
    uint8_t before[M95_STATE_BYTES] = {0};
    if (state_length == sizeof before) {
        memcpy(before, state, sizeof before);
    }
    size_t number = load_fitting(device, state, state_length, status, lock);
    if (number == M95_DONE) {
        spoil_loaded(state, before);
    }
    if (way() == REFUSED_LOADING_CHANGES_THE_ROOM && number != M95_DONE && state_length > 0) {
        state[0] ^= 1;
    }
    if (way() == STATUS_JUDGED_BEFORE_DEVICE && number == M95_REFUSED_DEVICE && status > 0x8C) {
        return M95_REFUSED_STATE;
    }
    return way() == LOADS_INTO_NULL && state == NULL ? M95_DONE : number;
}

/* What a state has stored, told wrong; what a cycle will store, and which cycle runs, stand where version 1 has them. */
static void spoil_stored(const uint8_t *state, size_t *status, size_t *lock) {
    if (way() == STORED_WITH_WEL_AND_WIP) {
        __real_m95_status_byte(state, M95_STATE_BYTES, status);
    }
    if (way() == STORED_BEFORE_THE_CYCLE_ENDS && state[25] == 3) {
        *status = state[32];
    }
    if (way() == LOCK_STORED_BEFORE_THE_CYCLE_ENDS && state[25] == 4) {
        *lock = 1;
    }
    if (way() == STORED_WITHOUT_THE_LOCK) {
        *lock = 0;
    }
    if (way() == STORED_BITS_OF_THE_DEVICE_ALONE) {
        *status &= 0x8C;
    }
}

size_t __wrap_m95_stored(const uint8_t *state, size_t state_length, size_t *status, size_t *lock) {
    size_t number = __real_m95_stored(state, state_length, status, lock);
    if (number == M95_DONE) {
        spoil_stored(state, status, lock);
    }
    if (way() == REFUSED_STORED_SHOWN && number != M95_DONE) {
        *status = 0x8C;
    }
    if (way() == REFUSED_LOCK_SHOWN && number != M95_DONE) {
        *lock = 1;
    }
    if (way() == SOUNDNESS_JUDGED_BY_STORED && number == M95_DONE && (*status & 0x73) != 0) {
        return M95_REFUSED_STATE;
    }
    if (way() == STORED_BY_NULL && state == NULL) {
        return M95_DONE;
    }
    return way() == STORED_BY_NO_STATE && number == M95_REFUSED_STATE ? M95_DONE : number;
}
