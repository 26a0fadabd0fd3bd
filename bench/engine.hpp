// The engine in C++ by the rules of crates/query_engine, for a book of version 1, shape 4-4-4-4 and g 8: what engine.cpp,
// sessions.cpp and commands.cpp share.
#pragma once
#include <algorithm>
#include <array>
#include <cstdint>
#include <cstdio>
#include <cstdlib>
#include <cstring>
#include <ctime>
#include <map>
#include <queue>
#include <utility>
#include <vector>
#include "lanes.hpp"

constexpr size_t G = 8, SUBS = 32, K = 10;

// 4 or 8 sums of 32 bits
#ifdef __AVX2__
using Sums = __m256i;
constexpr size_t LANES = 8;
static inline Sums load(const int32_t* from) { return _mm256_loadu_si256((const Sums*)from); }
static inline Sums all(int32_t x) { return _mm256_set1_epi32(x); }
static inline Sums add_pairs(Sums sum, Sums x, Sums y) { return _mm256_add_epi32(sum, _mm256_madd_epi16(x, y)); }
static inline void put(int32_t* into, Sums x) { _mm256_storeu_si256((Sums*)into, x); }
#else
using Sums = __m128i;
constexpr size_t LANES = 4;
static inline Sums load(const int32_t* from) { return _mm_loadu_si128((const Sums*)from); }
static inline Sums all(int32_t x) { return _mm_set1_epi32(x); }
static inline Sums add_pairs(Sums sum, Sums x, Sums y) { return _mm_add_epi32(sum, _mm_madd_epi16(x, y)); }
static inline void put(int32_t* into, Sums x) { _mm_storeu_si128((Sums*)into, x); }
#endif

// A list of words in columns: for 16 words at a time, pair of components after pair, word after word, and the sum of the squares
// of each word. The components of version 1 are bytes, so no product passes 32 bits.
struct Words {
    size_t count = 0, length = 0, pairs = 0;
    std::vector<int32_t> columns;
    std::vector<int32_t> norms;

    Words() = default;
    Words(const uint8_t* bytes, size_t count_, size_t length_) : count(count_), length(length_), pairs((length_ + 1) / 2) {
        const size_t padded = (count + 15) / 16 * 16;
        columns.assign(padded * pairs, 0);
        norms.assign(padded, 0);
        for (size_t w = 0; w < count; w++) {
            for (size_t i = 0; i < length; i++) {
                const int32_t x = bytes[w * length + i];
                columns[(w / 16 * pairs + i / 2) * 16 + w % 16] |= x << (i % 2 * 16);
                norms[w] += x * x;
            }
        }
    }

    // the squared distances of x to each word: the two sums of squares, less twice the sum of products
    void distances(const uint8_t* x, uint64_t* into) const {
        int32_t xs[64], norm = 0;
        for (size_t p = 0; p < pairs; p++) xs[p] = x[2 * p] | (2 * p + 1 < length ? x[2 * p + 1] << 16 : 0);
        for (size_t i = 0; i < length; i++) norm += x[i] * x[i];
        const int32_t* from = columns.data();
        for (size_t w = 0; w < norms.size(); w += 16) {
            Sums sums[16 / LANES];
            for (Sums& sum : sums) sum = all(0);
            for (size_t p = 0; p < pairs; p++, from += 16)
                for (size_t n = 0; n < 16 / LANES; n++) sums[n] = add_pairs(sums[n], all(xs[p]), load(from + n * LANES));
            int32_t dots[16];
            for (size_t n = 0; n < 16 / LANES; n++) put(dots + n * LANES, sums[n]);
            for (size_t n = 0; n < 16; n++) into[w + n] = (uint32_t)(norm + norms[w + n] - 2 * dots[n]);
        }
    }

    uint32_t nearest(const uint8_t* x) const {
        uint64_t to[1024];
        distances(x, to);
        return (uint32_t)(std::min_element(to, to + count) - to);
    }
};

struct Book {
    size_t d, h, k0, k1;
    Words coarse0, coarse1, subs[SUBS];
    size_t start[SUBS];

    explicit Book(const std::vector<uint8_t>& bytes) {
        auto number = [&](size_t at) { return size_t(bytes[at] | bytes[at + 1] << 8); };
        d = number(8), h = number(10), k0 = number(12), k1 = number(14);
        size_t lengths[SUBS], at = 18 + 2 * SUBS, sum = 0;
        for (size_t j = 0; j < SUBS; j++) {
            lengths[j] = number(18 + 2 * j);
            start[j] = sum;
            sum += lengths[j];
        }
        auto take = [&](size_t count, size_t length) {
            Words words(&bytes[at], count, length);
            at += count * length;
            return words;
        };
        coarse0 = take(k0, h);
        coarse1 = take(k1, d - h);
        for (size_t j = 0; j < SUBS; j++) subs[j] = take(16, lengths[j]);
    }

    uint32_t cell(const uint8_t* x) const { return uint32_t(coarse0.nearest(x) * k1 + coarse1.nearest(x + h)); }

    std::array<uint16_t, G> code(const uint8_t* x) const {
        std::array<uint16_t, G> words{};
        for (size_t j = 0; j < SUBS; j++) words[j / 4] |= uint16_t(subs[j].nearest(x + start[j]) << (j % 4 * 4));
        return words;
    }
};

constexpr uint64_t NEVER = UINT64_MAX;
struct Slot { uint64_t born, died; uint32_t id; };
struct Block { Row row[G]; };

// the rows of a cell in order of their births, live ones and dead ones that may be needed
struct Cell {
    std::vector<Slot> slots;
    std::vector<Block> blocks;
    size_t live = 0;

    uint16_t& word(size_t at, size_t w) { return blocks[at / 32].row[w].word[at % 32]; }

    void push(const Slot& slot, const std::array<uint16_t, G>& code) {
        const size_t at = slots.size();
        if (at % 32 == 0) blocks.emplace_back();
        for (size_t w = 0; w < G; w++) word(at, w) = code[w];
        slots.push_back(slot);
        live++;
    }

    // whether each row is live at a stamp
    bool is_whole(uint64_t stamp) const { return live == slots.size() && (live == 0 || slots.back().born <= stamp); }
};

// rows by cell, the cell and the birth of each id, and the stamps that are pinned
struct Store {
    struct Place { uint64_t born; uint32_t cell; };
    std::vector<Cell> cells;
    std::map<uint32_t, Place> places;
    std::vector<uint64_t> pins;
    uint64_t stamp = 0, needed = 0;

    void insert(uint32_t id, uint32_t number, const std::array<uint16_t, G>& code) {
        if (!places.emplace(id, Place{stamp + 1, number}).second) return;
        cells[number].push({++stamp, NEVER, id}, code);
    }

    bool is_needed(const Slot& slot) const {
        for (uint64_t pin : pins) if (slot.born <= pin && pin < slot.died) return true;
        return false;
    }
    bool is_held(const Slot& slot) const { return slot.died == NEVER || is_needed(slot); }

    static size_t allowed(size_t held) { return 2 * held + 32; }

    // lets go of rows that are not held where they are many
    void tidy(Cell& cell) {
        const size_t kept = cell.slots.size();
        if (kept <= allowed(cell.live)) return;
        const size_t held = (size_t)std::count_if(cell.slots.begin(), cell.slots.end(), [&](const Slot& slot) { return is_held(slot); });
        if (kept <= allowed(held)) return;
        size_t to = 0;
        for (size_t from = 0; from < kept; from++) {
            if (!is_held(cell.slots[from])) continue;
            cell.slots[to] = cell.slots[from];
            for (size_t w = 0; w < G; w++) cell.word(to, w) = cell.word(from, w);
            to++;
        }
        cell.slots.resize(to);
        cell.blocks.resize((to + 31) / 32);
    }

    void remove(uint32_t id) {
        const auto at = places.find(id);
        if (at == places.end()) return;
        Cell& cell = cells[at->second.cell];
        const auto slot = std::lower_bound(cell.slots.begin(), cell.slots.end(), at->second.born, [](const Slot& slot, uint64_t born) { return slot.born < born; });
        slot->died = ++stamp;
        cell.live--;
        needed += is_needed(*slot);
        places.erase(at);
        tidy(cell);
    }

    void pin() { pins.push_back(stamp); }

    void unpin(uint64_t pin) {
        pins.erase(std::find(pins.begin(), pins.end(), pin));
        needed = 0;
        for (Cell& cell : cells) {
            if (cell.live == cell.slots.size()) continue;
            tidy(cell);
            for (const Slot& slot : cell.slots) needed += slot.died != NEVER && is_needed(slot);
        }
    }
};

using Pair = std::pair<uint64_t, uint32_t>;

// the coarse words of both parts by distance
struct Ranks {
    std::vector<Pair> part0, part1;

    static void fill(std::vector<Pair>& part, const Words& words, const uint8_t* x) {
        uint64_t to[1024];
        words.distances(x, to);
        part.clear();
        for (size_t i = 0; i < words.count; i++) part.emplace_back(to[i], uint32_t(i));
        std::sort(part.begin(), part.end());
    }
};

struct Entry {
    uint64_t sum;
    uint32_t cell;
    uint16_t a, b;
};

struct ComesLater {
    bool operator()(const Entry& x, const Entry& y) const { return x.sum != y.sum ? x.sum > y.sum : x.cell > y.cell; }
};

// the multi-sequence walk; the queue keeps its room when it is emptied
struct Walk : std::priority_queue<Entry, std::vector<Entry>, ComesLater> {
    Walk() { c.reserve(2048); }

    void push_at(const Ranks& ranks, size_t a, size_t b) {
        push({ranks.part0[a].first + ranks.part1[b].first, uint32_t(ranks.part0[a].second * ranks.part1.size() + ranks.part1[b].second), uint16_t(a), uint16_t(b)});
    }
    void start(const Ranks& ranks) {
        c.clear();
        push_at(ranks, 0, 0);
    }
    bool next(const Ranks& ranks, uint32_t& cell) {
        if (empty()) return false;
        const Entry first = top();
        pop();
        if (first.b + 1u < ranks.part1.size()) push_at(ranks, first.a, first.b + 1);
        if (first.b == 0 && first.a + 1u < ranks.part0.size()) push_at(ranks, first.a + 1, 0);
        cell = first.cell;
        return true;
    }
};

// the distances of a query's stretches to the words of their sub-quantizers, and the small entries that bound them
struct Tables {
    uint64_t entries[SUBS][16], least[SUBS], base = 0, step = 1;
    Table parts[SUBS] = {};

    void fill(const Book& book, const uint8_t* x) {
        base = 0;
        for (size_t j = 0; j < SUBS; j++) {
            book.subs[j].distances(x + book.start[j], entries[j]);
            least[j] = *std::min_element(entries[j], entries[j] + 16);
            base += least[j];
        }
    }

    void fill_small(uint64_t theta0) {
        step = (theta0 - base) / 255 + 1;
        const uint64_t most = 255 * step, inverse = ((uint64_t)1 << 56) / step;
        for (size_t j = 0; j < SUBS; j++) {
            for (size_t w = 0; w < 16; w++) {
                const uint64_t gap = std::min(entries[j][w] - least[j], most);
                const uint64_t low = (gap * inverse) >> 56;  // the quotient, or one less
                parts[j][w] = (uint8_t)(low + (gap - low * step >= step ? 1 : 0));
            }
        }
    }

    uint8_t threshold(uint64_t theta) const { return (uint8_t)((theta - base) / step); }

    uint64_t distance(const uint16_t* word) const {
        uint64_t sum = 0;
        for (size_t w = 0; w < G; w++, word += 32) {
            const unsigned x = *word;
            const auto* t = &entries[4 * w];
            sum += t[0][x & 15] + t[1][x >> 4 & 15] + t[2][x >> 8 & 15] + t[3][x >> 12];
        }
        return sum;
    }

    V bounds(const Block& block) const {
        V sum = splat(0);
        const Table* t = parts;
        for (const Row& row : block.row) sum = add_word<4, 4, 4>(sum, t, row);
        return sum;
    }
};

// the K least pairs, the greatest of them first
struct Best {
    std::vector<Pair> heap;
    Best() { heap.reserve(K); }
    void offer(Pair pair) {
        if (heap.size() < K) {
            heap.push_back(pair);
            std::push_heap(heap.begin(), heap.end());
        } else if (pair < heap.front()) {
            std::pop_heap(heap.begin(), heap.end());
            heap.back() = pair;
            std::push_heap(heap.begin(), heap.end());
        }
    }
};

// a checksum of answers, and how many cells, rows and full rows were visited
struct Found {
    uint64_t sum = 0, cells = 0, live = 0, full = 0;

    void add(const Found& other) {
        cells += other.cells;
        live += other.live;
        full += other.full;
    }
};

// the parts of a query, and how far it has gone over the rows at a stamp
struct Visit {
    Ranks ranks;
    Walk walk;
    Tables tables;
    Best best;
    bool pruning = false;
    uint64_t stamp = 0, needed = 0;
    const std::vector<uint32_t>* passing = nullptr;  // the ids that pass, in rising order; all pass if there is no list
    Found found;

    bool passes(uint32_t id) const { return std::binary_search(passing->begin(), passing->end(), id); }
    bool lives(const Slot& slot) const { return slot.born <= stamp && stamp < slot.died; }

    // how many live rows pass, or as many as are wanted
    uint64_t count_up_to(const Store& store, uint64_t wanted) const {
        if (!passing) return std::min<uint64_t>(wanted, store.places.size());
        uint64_t count = 0;
        for (const Cell& cell : store.cells)
            for (const Slot& slot : cell.slots) {
                if (count == wanted) return count;
                count += lives(slot) && passes(slot.id);
            }
        return count;
    }

    // fills ranks and tables
    void ask(const Book& book, const uint8_t* x) {
        Ranks::fill(ranks.part0, book.coarse0, x);
        Ranks::fill(ranks.part1, book.coarse1, x + book.h);
        tables.fill(book, x);
    }

    // begins over the rows of now
    void begin(const Store& store, uint64_t wanted) {
        walk.start(ranks);
        best.heap.clear();
        pruning = false;
        stamp = store.stamp;
        needed = count_up_to(store, wanted);
        found = Found();
    }

    void scan(const Cell& cell) {
        uint64_t theta = 0;
        uint8_t most = 255;
        if (pruning) {
            theta = best.heap.front().first;
            most = tables.threshold(theta);
        }
        const bool whole = cell.is_whole(stamp);
        for (size_t n = 0; n < cell.blocks.size(); n++) {
            const Block& block = cell.blocks[n];
            const Slot* slots = cell.slots.data() + 32 * n;
            const size_t count = std::min<size_t>(32, cell.slots.size() - 32 * n);
            uint32_t rows = whole ? (uint32_t)(((uint64_t)1 << count) - 1) : 0;
            if (!whole)
                for (size_t i = 0; i < count; i++) rows |= uint32_t(lives(slots[i])) << i;
            if (passing)
                for (uint32_t left = rows; left != 0; left &= left - 1) {
                    const int i = __builtin_ctz(left);
                    if (!passes(slots[i].id)) rows &= ~(1u << i);
                }
            found.live += (uint64_t)__builtin_popcount(rows);
            V bounds = splat(0);
            if (pruning) {
                bounds = tables.bounds(block);
                rows &= at_most(bounds, most);
            }
            while (rows != 0) {
                const int i = __builtin_ctz(rows);
                rows &= rows - 1;
                found.full++;
                best.offer({tables.distance(&block.row[0].word[i]), slots[i].id});
                if (!pruning) {
                    if (best.heap.size() < K) continue;
                    pruning = true;
                    theta = best.heap.front().first;
                    tables.fill_small(theta);
                    most = tables.threshold(theta);
                    bounds = tables.bounds(block);
                    rows &= at_most(bounds, most);
                } else if (best.heap.front().first != theta) {
                    theta = best.heap.front().first;
                    most = tables.threshold(theta);
                    rows &= at_most(bounds, most);
                }
            }
        }
    }

    // visits at most so many cells more
    void step(const Store& store, uint64_t budget) {
        uint32_t cell = 0;
        for (; budget > 0 && found.live < needed && walk.next(ranks, cell); budget--) {
            found.cells++;
            scan(store.cells[cell]);
        }
    }

    // the ten nearest of the visited rows, in order
    const std::vector<Pair>& answers() {
        std::sort_heap(best.heap.begin(), best.heap.end());
        return best.heap;
    }
};

struct Engine {
    Book book;
    Store store;
    Visit visit;

    explicit Engine(const std::vector<uint8_t>& bytes) : book(bytes) { store.cells.resize(book.k0 * book.k1); }

    uint32_t insert(uint32_t id, const uint8_t* x) {
        const uint32_t cell = book.cell(x);
        store.insert(id, cell, book.code(x));
        return cell;
    }

    // the ten nearest of the rows of the first cells that hold as many as are wanted
    const std::vector<Pair>& search(const uint8_t* x, uint64_t wanted) {
        visit.ask(book, x);
        visit.begin(store, wanted);
        visit.step(store, UINT64_MAX);
        return visit.answers();
    }
};

// a checksum of pairs in their order, after another
[[maybe_unused]] static uint64_t sum_of(const std::vector<Pair>& pairs, uint64_t sum = 0) {
    for (const Pair& pair : pairs) sum = sum * 31 + (pair.first ^ (uint64_t)pair.second << 40);
    return sum;
}

[[maybe_unused]] static int64_t now() {
    timespec t;
    clock_gettime(CLOCK_PROCESS_CPUTIME_ID, &t);
    return (int64_t)t.tv_sec * 1000000000 + t.tv_nsec;
}

[[maybe_unused]] static long long resident() {
    long long size = 0, pages = 0;
    if (FILE* f = fopen("/proc/self/statm", "r")) {
        if (fscanf(f, "%lld %lld", &size, &pages) != 2) pages = 0;
        fclose(f);
    }
    return pages * 4096;
}

[[maybe_unused]] static std::vector<uint8_t> bytes_of(const char* name) {
    std::vector<uint8_t> bytes;
    FILE* f = fopen(name, "rb");
    if (!f) return bytes;
    fseek(f, 0, SEEK_END);
    bytes.resize((size_t)ftell(f));
    fseek(f, 0, SEEK_SET);
    if (fread(bytes.data(), 1, bytes.size(), f) != bytes.size()) bytes.clear();
    fclose(f);
    return bytes;
}
