// C++ std::map in the manner of the C interface: five numbers in an array, the record in the tree's own nodes.
#include <cstddef>
#include <cstdint>
#include <map>

namespace {
struct Record {
    uint32_t pieces, state;
};
struct Store {
    std::map<uint32_t, Record> records;
    uint32_t change = 0;
};
void answer(uint64_t *out, uint64_t code, uint64_t change, uint64_t value, uint64_t kind) {
    out[0] = code;
    out[1] = change;
    out[2] = value;
    out[3] = 0;
    out[4] = kind;
}
} // namespace

extern "C" {
void *std_map_open(size_t) { return new Store; }

void std_map_close(void *t) { delete static_cast<Store *>(t); }

void std_map_find(const void *t, size_t, uint32_t key, uint64_t *out) {
    auto *store = static_cast<const Store *>(t);
    auto at = store->records.find(key);
    if (at == store->records.end())
        return answer(out, 5, 0, 0, 0);
    answer(out, 0, store->change, at->second.pieces, at->second.state);
}

void std_map_post(void *t, size_t, uint32_t key, uint32_t pieces, uint32_t state, uint64_t *out) {
    auto *store = static_cast<Store *>(t);
    if (!store->records.try_emplace(key, Record{pieces, state}).second)
        return answer(out, 4, 0, 0, 0);
    answer(out, 0, ++store->change, 0, 0);
}

void std_map_drop(void *t, size_t, uint32_t key, uint64_t *out) {
    auto *store = static_cast<Store *>(t);
    if (store->records.erase(key) == 0)
        return answer(out, 5, 0, 0, 0);
    answer(out, 0, ++store->change, 0, 0);
}
}
