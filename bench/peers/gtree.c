/* GLib's GTree in the manner of the C interface: the key and the record each stand in one pointer of a node. */
#include <glib.h>
#include <stddef.h>
#include <stdint.h>

typedef struct {
    GTree *records;
    uint32_t change;
} Store;

static gint by_key(gconstpointer a, gconstpointer b) {
    uintptr_t x = (uintptr_t)a, y = (uintptr_t)b;
    return (x > y) - (x < y);
}

static void answer(uint64_t *out, uint64_t code, uint64_t change, uint64_t value, uint64_t kind) {
    out[0] = code;
    out[1] = change;
    out[2] = value;
    out[3] = 0;
    out[4] = kind;
}

void *gtree_open(size_t slots) {
    (void)slots;
    Store *store = g_new0(Store, 1);
    store->records = g_tree_new(by_key);
    return store;
}

void gtree_close(void *t) {
    Store *store = t;
    g_tree_destroy(store->records);
    g_free(store);
}

void gtree_find(const void *t, size_t n, uint32_t key, uint64_t *out) {
    (void)n;
    const Store *store = t;
    uint64_t record = (uintptr_t)g_tree_lookup(store->records, (gconstpointer)(uintptr_t)key);
    if (record == 0) {
        answer(out, 5, 0, 0, 0);
        return;
    }
    answer(out, 0, store->change, record & 0xffffffffu, record >> 32);
}

void gtree_post(void *t, size_t n, uint32_t key, uint32_t pieces, uint32_t state, uint64_t *out) {
    (void)n;
    Store *store = t;
    gint before = g_tree_nnodes(store->records);
    uintptr_t record = (uintptr_t)state << 32 | pieces;
    g_tree_insert(store->records, (gpointer)(uintptr_t)key, (gpointer)record);
    if (g_tree_nnodes(store->records) == before) {
        answer(out, 4, 0, 0, 0);
        return;
    }
    answer(out, 0, ++store->change, 0, 0);
}

void gtree_drop(void *t, size_t n, uint32_t key, uint64_t *out) {
    (void)n;
    Store *store = t;
    if (!g_tree_remove(store->records, (gconstpointer)(uintptr_t)key)) {
        answer(out, 5, 0, 0, 0);
        return;
    }
    answer(out, 0, ++store->change, 0, 0);
}
