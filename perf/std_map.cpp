// C++'s std::map of strings after the calls that perf/peer/src/bin/through_c.rs times: art_bench.h, form A, and a
// load. A look-up makes no string, and a walk lends keys and values where they lie.
extern "C" {
#include "art_bench.h"
}
#include <map>
#include <string>
#include <string_view>

using View = std::string_view;

struct Less {
    using is_transparent = void;
    bool operator()(View one, View other) const { return one < other; }
};

struct art_bench {
    std::map<std::string, uint64_t, Less> map;
};

struct pair {
    size_t key_len;
    uint64_t word;
};

static View view(const uint8_t *key, size_t len) { return {reinterpret_cast<const char *>(key), len}; }

extern "C" {

bool art_bench_new(art_bench **out) { return (*out = new art_bench) != nullptr; }

bool art_bench_insert(art_bench *m, const uint8_t *key, size_t len, uint64_t word) {
    return m->map.insert_or_assign(std::string(view(key, len)), word).second;
}

bool art_bench_get(const art_bench *m, const uint8_t *key, size_t len, uint64_t *word) {
    auto at = m->map.find(view(key, len));
    if (at == m->map.end()) return false;
    *word = at->second;
    return true;
}

bool art_bench_remove(art_bench *m, const uint8_t *key, size_t len, uint64_t *word) {
    auto at = m->map.find(view(key, len));
    if (at == m->map.end()) return false;
    *word = at->second;
    m->map.erase(at);
    return true;
}

uint64_t art_bench_sum(const art_bench *m) {
    uint64_t sum = 0;
    for (auto &[key, word] : m->map) sum += word + key.size();
    return sum;
}

size_t art_bench_prefix(const art_bench *m, const uint8_t *front, size_t len) {
    size_t count = 0;
    for (auto at = m->map.lower_bound(view(front, len)); at != m->map.end(); ++at, ++count)
        if (View(at->first).substr(0, len) != view(front, len)) break;
    return count;
}

size_t art_bench_range(const art_bench *m, const uint8_t *from, size_t from_len, const uint8_t *to, size_t to_len) {
    size_t count = 0;
    for (auto at = m->map.lower_bound(view(from, from_len)); at != m->map.end(); ++at, ++count)
        if (View(at->first) >= view(to, to_len)) break;
    return count;
}

bool art_bench_load(art_bench *m, const uint8_t *keys, size_t, const pair *pairs, size_t count) {
    for (size_t i = 0; i < count; keys += pairs[i++].key_len)
        m->map.emplace_hint(m->map.end(), view(keys, pairs[i].key_len), pairs[i].word);
    return true;
}

bool art_bench_clone(const art_bench *m, art_bench **out) { return (*out = new art_bench(*m)) != nullptr; }

void art_bench_free(art_bench *m) { delete m; }
}
