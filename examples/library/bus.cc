// A bus model of the form that gem5 and QEMU have: any number of bytes at any byte address, over lines of 64.
//
// gem5 sends a packet, with an address and a size, to a port's `recvFunctional` or `recvAtomic`; QEMU calls a region's `read` and `write`
// with an offset and a size. Both come down to `Memory::access` below. A read takes the bytes out of a line; a write gives the line's bytes
// to `part`, which is the read-modify-write of the controller, and drains it. The persist steps of each access are what the device was
// written: a model's timing is made of them.
//
// The example drives it as a processor would, with accesses of 1 to 256 bytes at addresses of its own, compares each read with a plain array,
// powers off and on, and prints what a byte written has cost.
#include "pmem.h"

#include <algorithm>
#include <cstdint>
#include <cstdio>
#include <stdexcept>
#include <string>
#include <vector>

namespace {

// What the accesses of one kind came to.
struct Figures {
    std::uint64_t accesses = 0, bytes = 0, lines = 0, steps = 0;
};

class Memory {
  public:
    // A memory with these options of `run`, which is formatted and has power.
    explicit Memory(const std::string &options) {
        pmem_status status = pmem_open_text(&handle_, ("run" + options).c_str());
        if (status != PMEM_OK) throw std::runtime_error("the memory can't be opened: status " + std::to_string(status));
    }

    ~Memory() { pmem_close(&handle_); }
    Memory(const Memory &) = delete;
    Memory &operator=(const Memory &) = delete;

    // A functional access: `size` bytes at `address` are read into `data`, or written from it.
    void access(std::uint64_t address, std::uint8_t *data, std::size_t size, bool is_write) {
        Figures &figures = is_write ? writes_ : reads_;
        figures.accesses++;
        figures.bytes += size;
        while (size > 0) {
            std::uint64_t line = address / PMEM_LINE_BYTES;
            unsigned from = static_cast<unsigned>(address % PMEM_LINE_BYTES);
            std::size_t count = std::min<std::size_t>(size, PMEM_LINE_BYTES - from);
            figures.lines++;
            figures.steps += is_write ? write(line, from, data, count) : read(line, from, data, count);
            address += count;
            data += count;
            size -= count;
        }
    }

    // Power goes off and on. Gives the steps of recovery.
    std::uint64_t restart() {
        expect(pmem_off(&handle_), PMEM_DONE);
        return expect(pmem_on(&handle_), PMEM_RECOVERED).steps;
    }

    const Figures &reads() const { return reads_; }
    const Figures &writes() const { return writes_; }

  private:
    pmem handle_ = PMEM_CLOSED;
    Figures reads_, writes_;

    static pmem_result expect(pmem_result result, pmem_kind kind) {
        if (result.kind == kind) return result;
        throw std::runtime_error("status " + std::to_string(result.status) + ", answer " + std::to_string(result.kind) + " at " +
                                 std::to_string(result.place));
    }

    std::uint64_t read(std::uint64_t line, unsigned from, std::uint8_t *data, std::size_t count) {
        pmem_result result = expect(pmem_read(&handle_, 0, line), PMEM_LINE);
        std::copy_n(result.line + from, count, data);
        return result.steps;
    }

    std::uint64_t write(std::uint64_t line, unsigned from, const std::uint8_t *data, std::size_t count) {
        expect(pmem_part(&handle_, 0, line, from, data, count), PMEM_DONE);
        return expect(pmem_drain(&handle_, 0), PMEM_DONE).steps;
    }
};

// Words that depend on nothing but the seed (SplitMix64).
class Words {
  public:
    std::uint64_t next(std::uint64_t below) {
        state_ += 0x9e3779b97f4a7c15;
        std::uint64_t word = state_;
        word = (word ^ (word >> 30)) * 0xbf58476d1ce4e5b9;
        word = (word ^ (word >> 27)) * 0x94d049bb133111eb;
        return (word ^ (word >> 31)) % below;
    }

  private:
    std::uint64_t state_ = 0;
};

void print(const char *name, const Figures &figures) {
    std::printf("%s: %llu accesses, %llu bytes, %llu lines, %llu persist steps, %.2f bytes of the device for a byte\n", name,
                static_cast<unsigned long long>(figures.accesses), static_cast<unsigned long long>(figures.bytes),
                static_cast<unsigned long long>(figures.lines), static_cast<unsigned long long>(figures.steps),
                64.0 * static_cast<double>(figures.steps) / static_cast<double>(figures.bytes));
}

} // namespace

int main() try {
    constexpr std::uint64_t kBytes = 64 * 1024;
    Memory memory("");
    std::vector<std::uint8_t> plain(kBytes, 0), data(256);
    Words words;
    for (int i = 0; i < 200; i++) {
        std::size_t size = 1 + words.next(256);
        std::uint64_t address = words.next(kBytes - size + 1);
        bool is_write = words.next(2) == 0;
        if (is_write) std::generate_n(data.begin(), size, [&] { return static_cast<std::uint8_t>(words.next(256)); });
        memory.access(address, data.data(), size, is_write);
        auto at = plain.begin() + static_cast<std::ptrdiff_t>(address);
        if (is_write) {
            std::copy_n(data.begin(), size, at);
        } else if (!std::equal(data.begin(), data.begin() + static_cast<std::ptrdiff_t>(size), at)) {
            std::fprintf(stderr, "bus: the bytes at %llu differ\n", static_cast<unsigned long long>(address));
            return 1;
        }
        if (i % 50 == 49) std::printf("power off and on: recovered in %llu steps\n", static_cast<unsigned long long>(memory.restart()));
    }
    print("reads", memory.reads());
    print("writes", memory.writes());
    return 0;
} catch (const std::exception &error) {
    std::fprintf(stderr, "bus: %s\n", error.what());
    return 1;
}
