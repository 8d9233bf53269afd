// Boost's intrusive avl_set in the manner of the C interface: its nodes stand in one array, like the slots of a table.
#include <boost/intrusive/avl_set.hpp>
#include <cstddef>
#include <cstdint>
#include <vector>

namespace {
using boost::intrusive::avl_set_base_hook;
using boost::intrusive::constant_time_size;
using boost::intrusive::link_mode;
using boost::intrusive::normal_link;

struct Record : avl_set_base_hook<link_mode<normal_link>> {
    uint32_t key, pieces, state, next_free;
};
struct KeyOf {
    using type = uint32_t;
    const type &operator()(const Record &record) const { return record.key; }
};
using Set = boost::intrusive::avl_set<Record, boost::intrusive::key_of_value<KeyOf>, constant_time_size<true>>;

struct Store {
    std::vector<Record> nodes;
    Set records;
    uint32_t first_free = 1, change = 0;
    explicit Store(size_t slots) : nodes(slots + 1) {
        for (size_t k = 1; k <= slots; k++)
            nodes[k].next_free = k < slots ? uint32_t(k + 1) : 0;
    }
    ~Store() { records.clear(); }
};
void answer(uint64_t *out, uint64_t code, uint64_t change, uint64_t value, uint64_t kind) {
    out[0] = code;
    out[1] = change;
    out[2] = value;
    out[3] = 0;
    out[4] = kind;
}
} // namespace

extern "C" {
void *avl_set_open(size_t slots) { return new Store(slots); }

void avl_set_close(void *t) { delete static_cast<Store *>(t); }

void avl_set_find(const void *t, size_t, uint32_t key, uint64_t *out) {
    auto *store = static_cast<const Store *>(t);
    auto at = store->records.find(key);
    if (at == store->records.end())
        return answer(out, 5, 0, 0, 0);
    answer(out, 0, store->change, at->pieces, at->state);
}

void avl_set_post(void *t, size_t, uint32_t key, uint32_t pieces, uint32_t state, uint64_t *out) {
    auto *store = static_cast<Store *>(t);
    Set::insert_commit_data where;
    if (!store->records.insert_check(key, where).second)
        return answer(out, 4, 0, 0, 0);
    uint32_t k = store->first_free;
    if (k == 0)
        return answer(out, 6, 0, 0, 0);
    Record &record = store->nodes[k];
    store->first_free = record.next_free;
    record.key = key;
    record.pieces = pieces;
    record.state = state;
    store->records.insert_commit(record, where);
    answer(out, 0, ++store->change, k, 0);
}

void avl_set_drop(void *t, size_t, uint32_t key, uint64_t *out) {
    auto *store = static_cast<Store *>(t);
    auto at = store->records.find(key);
    if (at == store->records.end())
        return answer(out, 5, 0, 0, 0);
    Record &record = *at;
    store->records.erase(at);
    record.next_free = store->first_free;
    store->first_free = uint32_t(&record - store->nodes.data());
    answer(out, 0, ++store->change, store->first_free, 0);
}
}
