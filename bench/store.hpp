// A store that starts where a line of the processor's cache does. A store may lie at any address; numbers that lie across two
// lines are read a little slower.
#pragma once
#include <algorithm>
#include <cstddef>
#include <cstdint>
#include <vector>

#include "selkavorn.h"

class Store {
  public:
    Store() : room(SELKAVORN_STORE_NUMBERS + LINE) {}
    Store(const Store &other) : Store() { *this = other; }
    Store &operator=(const Store &other) {
        std::copy(other.data(), other.data() + size(), data());
        return *this;
    }

    uint64_t *data() { return room.data() + skipped(); }
    const uint64_t *data() const { return room.data() + skipped(); }
    size_t size() const { return SELKAVORN_STORE_NUMBERS; }

  private:
    static constexpr size_t LINE = 8; // numbers

    std::vector<uint64_t> room;

    size_t skipped() const { return (LINE - reinterpret_cast<uintptr_t>(room.data()) / sizeof(uint64_t) % LINE) % LINE; }
};
