// The header in C++: each device on std::vector buffers of its own sizes, with a byte written and read back, and the calls on vectors of no
// bytes, whose pointer is NULL in most libraries. Prints what does not hold, and a last line.
#include <cstdio>
#include <vector>

#include "m95.h"

namespace {

using Bytes = std::vector<uint8_t>;
using Counts = std::vector<uint16_t>;

std::size_t failed = 0;

void expect(bool holds, const char *what, std::size_t device) {
    if (!holds) {
        failed++;
        std::printf("buffers: does not hold: %s (device %zu)\n", what, device);
    }
}

struct Chip {
    std::size_t device;
    Bytes state, cells, identification, latch;
    Counts counts;

    explicit Chip(std::size_t number)
        : device(number), state(M95_STATE_BYTES), cells(m95_cells(number)), identification(m95_identification(number)), latch(2 * m95_page(number)),
          counts(m95_pages(number)) {}

    std::size_t refusal() const {
        return m95_refusal(device, state.data(), state.size(), cells.data(), cells.size(), identification.data(), identification.size(),
                           latch.data(), latch.size(), counts.data(), counts.size());
    }

    std::size_t prepare() {
        return m95_prepare(device, state.data(), state.size(), cells.data(), cells.size(), identification.data(), identification.size(),
                           latch.data(), latch.size(), counts.data(), counts.size());
    }

    std::size_t count() { return m95_count_pages(device, cells.data(), cells.size(), counts.data(), counts.size()); }

    std::size_t first_blank(std::size_t &found, std::size_t &page) const {
        return m95_first_blank(device, counts.data(), counts.size(), &found, &page);
    }

    bool is_first_blank(std::size_t number) const {
        std::size_t found = 9, page = 9;
        return first_blank(found, page) == M95_DONE && found == 1 && page == number;
    }

    std::size_t view(std::size_t region) const {
        std::size_t start = 9, length = 9;
        return m95_view(device, region, cells.data(), cells.size(), identification.data(), identification.size(), 0, &start, &length);
    }

    std::size_t run(const Bytes &trace, Bytes &answers, std::size_t &done) {
        std::size_t taken = 0;
        return m95_run(device, state.data(), state.size(), cells.data(), cells.size(), identification.data(), identification.size(),
                       latch.data(), latch.size(), counts.data(), counts.size(), trace.data(), trace.size(), answers.data(), answers.size(),
                       SIZE_MAX, &taken, &done);
    }
};

void put_pin(Bytes &trace, int pin) {
    const uint8_t record[] = {3, 0, M95_SET_PIN, 0, static_cast<uint8_t>(pin)};
    trace.insert(trace.end(), record, record + sizeof record);
}

// A selection that sends bytes, and then clocks so many more out.
void put_command(Bytes &trace, const Bytes &bytes, std::size_t more) {
    put_pin(trace, M95_S);
    for (std::size_t i = 0; i < 8 * (bytes.size() + more); i++) {
        const int level = i / 8 < bytes.size() ? bytes[i / 8] >> (7 - i % 8) & 1 : 0;
        put_pin(trace, M95_D + level);
        put_pin(trace, M95_C + 1);
        put_pin(trace, M95_C);
    }
    put_pin(trace, M95_S + 1);
}

// A code, and an address of 0 in the device's address bytes.
Bytes at_zero(std::size_t device, uint8_t code) {
    const std::size_t address[] = {0, 1, 2, 3, 3, 1, 1, 2};
    Bytes bytes(1 + address[device], 0);
    bytes[0] = code;
    return bytes;
}

// WREN, WRITE of A5h to cell 0, a wait, and READ of it. The cells of the page other than FFh are counted, so many with this one.
void write_and_read(Chip &chip, std::size_t count) {
    Bytes trace, write = at_zero(chip.device, 0x02);
    write.push_back(0xA5);
    put_command(trace, Bytes{0x06}, 0);
    put_command(trace, write, 0);
    const uint8_t wait[] = {6, 0, M95_WAIT, 0, 0x88, 0x13, 0, 0}; // 5000 microseconds
    trace.insert(trace.end(), wait, wait + sizeof wait);
    put_command(trace, at_zero(chip.device, 0x03), 1);
    Bytes answers(trace.size() / 4);
    std::size_t done = 0, read = 0;
    expect(chip.run(trace, answers, done) == M95_DONE, "a trace is run", chip.device);
    for (std::size_t k = 0; k < 8; k++) { // bit 7 comes with the fall that ends the address; the last fall shows a bit of the next cell
        read = read << 1 | answers[done - 2 - 3 * (8 - k)];
    }
    expect(read == 0xA5 && chip.cells[0] == 0xA5, "the byte is stored and read", chip.device);
    expect(chip.counts[0] == count, "it is counted", chip.device);
}

// Vectors of no bytes, one at a time and then all of them. For an identification page that the device has not, one is right.
void lend_nothing(const Chip &good) {
    const std::size_t page = good.identification.empty() ? M95_DONE : M95_REFUSED_IDENTIFICATION;
    const std::size_t all = 5;
    const std::size_t numbers[] = {M95_REFUSED_STATE, M95_REFUSED_CELLS, page, M95_REFUSED_LATCH, M95_REFUSED_COUNTS, M95_REFUSED_CELLS};
    const std::size_t views[] = {M95_DONE, M95_REFUSED_CELLS, page, M95_DONE, M95_DONE, M95_REFUSED_CELLS};
    const std::size_t counted[] = {M95_DONE, M95_REFUSED_CELLS, M95_DONE, M95_DONE, M95_REFUSED_COUNTS, M95_REFUSED_CELLS};
    const std::size_t searched[] = {M95_DONE, M95_DONE, M95_DONE, M95_DONE, M95_REFUSED_COUNTS, M95_REFUSED_COUNTS};
    for (std::size_t none = 0; none <= all; none++) {
        Chip chip = good;
        Bytes *const buffers[] = {&chip.state, &chip.cells, &chip.identification, &chip.latch};
        for (std::size_t k = 0; k < 4; k++) {
            if (none == k || none == all) {
                *buffers[k] = Bytes();
            }
        }
        if (none == 4 || none == all) {
            chip.counts = Counts();
        }
        expect(chip.refusal() == numbers[none] && chip.prepare() == numbers[none], "an empty vector is refused, but for one that is right", chip.device);
        expect(chip.view(M95_REGION_CELLS) == views[none], "a view of the cells judges both vectors", chip.device);
        expect(chip.view(M95_REGION_IDENTIFICATION) == views[none], "and so does one of the identification page", chip.device);
        expect(chip.count() == counted[none], "counting judges cells and counts", chip.device);
        std::size_t found = 9, blank = 9;
        expect(chip.first_blank(found, blank) == searched[none], "a search judges the counts alone", chip.device);
        expect(searched[none] == M95_DONE || found + blank == 0, "and finds nothing where there are none", chip.device);
    }
}

// The calls that take one buffer.
void lend_one(std::size_t device) {
    Bytes none;
    std::size_t first = 9, second = 9;
    expect(m95_load(device, none.data(), none.size(), 0, 0) == M95_REFUSED_STATE, "no room to load into", device);
    expect(m95_stored(none.data(), none.size(), &first, &second) == M95_REFUSED_STATE && first + second == 0, "no state stores", device);
    expect(m95_status_byte(none.data(), none.size(), &first) == M95_REFUSED_STATE && first == 0, "no state has a status", device);
}

void traces_of_nothing(Chip &chip) {
    Bytes trace, answers;
    std::size_t done = 9;
    expect(chip.run(trace, answers, done) == M95_DONE && done == 0, "an empty trace is done", chip.device);
    put_pin(trace, M95_S);
    expect(chip.run(trace, answers, done) == M95_REFUSED_ANSWERS && done == 0, "no room for answers", chip.device);
}

} // namespace

int main() {
    for (std::size_t device = 1; device <= 7; device++) {
        Chip chip(device);
        expect(chip.prepare() == M95_DONE && chip.refusal() == M95_DONE, "a device is prepared", device);
        expect(chip.is_first_blank(0), "its first page is blank", device);
        write_and_read(chip, 1);
        expect(chip.is_first_blank(1), "the next page is blank", device);
        chip.cells[1] = chip.cells[2] = 0x00;
        expect(chip.count() == M95_DONE && chip.counts[0] == 3, "the pages are counted afresh", device);
        write_and_read(chip, 3);
        traces_of_nothing(chip);
        lend_nothing(chip);
        lend_one(device);
    }
    std::printf("buffers: %zu expectations do not hold\n", failed);
    return failed == 0 ? 0 : 1;
}
