/* The example of the README: prepares an M95040, selects it, sends WREN as a trace, and asks for a blank page. */
#include <stdio.h>

#include "m95.h"

#define DEVICE 1
#define PAGES 32 /* a count for each */
#define LENT state, sizeof state, cells, sizeof cells, identification, sizeof identification, latch, sizeof latch, counts, PAGES

int main(void) {
    static uint8_t state[M95_STATE_BYTES], cells[512], identification[16], latch[32], trace[24 * 5], answers[24];
    static uint16_t counts[PAGES];
    size_t answer, taken, done, status, found, page, number = m95_prepare(DEVICE, LENT);
    for (size_t i = 0; i < 24; i++) { /* 06h, three records a bit: D, C up, C down */
        const uint8_t pins[] = {(uint8_t)(M95_D + (0x06 >> (7 - i / 3) & 1)), M95_C + 1, M95_C};
        trace[i * 5] = 3;
        trace[i * 5 + 2] = M95_SET_PIN;
        trace[i * 5 + 4] = pins[i % 3];
    }
    number += m95_event(DEVICE, LENT, M95_SET_PIN, M95_S, &answer);
    number += m95_run(DEVICE, LENT, trace, sizeof trace, answers, sizeof answers, 24, &taken, &done);
    number += m95_event(DEVICE, LENT, M95_SET_PIN, M95_S + 1, &answer);
    number += m95_status_byte(state, sizeof state, &status);
    number += m95_first_blank(DEVICE, counts, PAGES, &found, &page);
    printf("numbers %zu, records %zu, bytes %zu, status %02zX\n", number, done, taken, status);
    if (found) { /* else the 0 in `page` is no page's number */
        printf("the first blank page is %zu\n", page);
    }
    return 0;
}
