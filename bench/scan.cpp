// The pruned scan, exact distances of the same rows and the tables of a query in C++, timed as `bench_kernels scan` does: the
// words SHAPE SCALE CALL CELLS ROWS ROUNDS print a checksum, how many rows were full, and the nanoseconds spent.
#include <algorithm>
#include <cstdint>
#include <cstdio>
#include <cstdlib>
#include <ctime>
#include <string>
#include <utility>
#include <vector>
#include "columns.hpp"
#include "lanes.hpp"

static uint64_t state = 1;
static uint16_t number() {
    state = state * 6364136223846793005u + 1442695040888963407u;
    return (uint16_t)(state >> 48);
}

static int64_t now() {
    timespec t;
    clock_gettime(CLOCK_PROCESS_CPUTIME_ID, &t);
    return (int64_t)t.tv_sec * 1000000000 + t.tv_nsec;
}

#ifndef GROUPS
#define GROUPS 8
#endif
constexpr int D = 128, G = GROUPS, K = 10, QUERIES = 16;

struct Block { Row row[G]; };
struct Slot { uint64_t born, died; uint32_t id; };
struct Cell { std::vector<Slot> slots; std::vector<Block> blocks; size_t dead = 0; };
using Pair = std::pair<uint64_t, uint32_t>;
struct Done { uint64_t sum = 0, full = 0; int64_t spent = 0; };

template <int A, int B, int C, int E> struct Shape {
    static constexpr int FIELDS = E > 0 ? 4 : C > 0 ? 3 : 2;
    static constexpr int SUBS = G * FIELDS;
    static constexpr int WIDTHS[4] = {A, B, C, E};

    bool wide = false;
    int length[SUBS], start[SUBS];
    std::vector<Columns> lists;     // the words of each sub-quantizer
    std::vector<uint64_t> entries;  // one table after another
    int table[SUBS + 1];
    Table parts[SUBS] = {};
    uint64_t base = 0, step = 1;

    explicit Shape(bool is_wide) : wide(is_wide) {
        int at = 0, entry = 0;
        for (int j = 0; j < SUBS; j++) {
            length[j] = D / SUBS + (j < D % SUBS ? 1 : 0);
            start[j] = at;
            at += length[j];
            table[j] = entry;
            entry += 1 << WIDTHS[j % FIELDS];
        }
        table[SUBS] = entry;
        entries.resize((size_t)entry);
        for (int i = 0; i < D; i++) number();
        for (int j = 0; j < SUBS; j++) {
            const int count = 1 << WIDTHS[j % FIELDS];
            std::vector<uint16_t> words;
            for (int i = 0; i < length[j] * count; i++) words.push_back(number() & (wide ? 4095 : 255));
            lists.emplace_back(words.data(), count, length[j]);
        }
    }

    // the squared distances of each stretch of the query to the words of its sub-quantizer
    void fill(const uint8_t* query) {
        for (int j = 0; j < SUBS; j++) lists[j].distances(wide ? 4 : 0, query + start[j], entries.data() + table[j]);
    }

    uint64_t least(int j) const {
        return *std::min_element(entries.data() + table[j], entries.data() + table[j + 1]);
    }

    uint64_t base_sum() const {
        uint64_t sum = 0;
        for (int j = 0; j < SUBS; j++) sum += least(j);
        return sum;
    }

    // the small tables: steps above each least entry, at most 255
    void fill_small(uint64_t theta0) {
        base = base_sum();
        step = (theta0 - base) / 255 + 1;
        const uint64_t most = 255 * step, inverse = ((uint64_t)1 << 56) / step;
        for (int j = 0; j < SUBS; j++) {
            const uint64_t first = least(j);
            for (int w = table[j]; w < table[j + 1]; w++) {
                const uint64_t gap = std::min(entries[(size_t)w] - first, most);
                const uint64_t low = (gap * inverse) >> 56;  // the quotient, or one less
                parts[j][w - table[j]] = (uint8_t)(low + (gap - low * step >= step ? 1 : 0));
            }
        }
    }

    uint64_t distance_at(const uint16_t* word, size_t stride) const {
        uint64_t sum = 0;
        const uint64_t* t = entries.data();
        for (int w = 0; w < G; w++, word += stride) {
            const unsigned x = *word;
            sum += t[x & ((1 << A) - 1)];
            t += 1 << A;
            sum += t[(x >> A) & ((1 << B) - 1)];
            t += 1 << B;
            if constexpr (C > 0) { sum += t[(x >> (A + B)) & ((1 << C) - 1)]; t += 1 << C; }
            if constexpr (E > 0) { sum += t[(x >> (A + B + C)) & ((1 << E) - 1)]; t += 1 << E; }
        }
        return sum;
    }

    V bounds(const Block& block) const {
        V sum = splat(0);
        const Table* t = parts;
        for (const Row& row : block.row) sum = add_word<A, B, C>(sum, t, row);
        return sum;
    }
};

// The K least pairs, the greatest of them first.
struct Best {
    std::vector<Pair> heap;
    void offer(Pair pair) {
        if (heap.size() < K) {
            heap.push_back(pair);
            std::push_heap(heap.begin(), heap.end());
        } else if (pair < heap.front()) {
            std::pop_heap(heap.begin(), heap.end());
            heap.back() = pair;
            std::push_heap(heap.begin(), heap.end());
        }
    }
    uint64_t sum() {
        std::sort_heap(heap.begin(), heap.end());
        uint64_t sum = 0;
        for (const Pair& pair : heap) sum = sum * 31 + (pair.first ^ (uint64_t)pair.second << 40);
        return sum;
    }
};

// At the present stamp, a cell with no dead row is taken whole: its slots are read of the rows alone that are taken.
template <class S> static uint64_t scan(S& shape, const std::vector<Cell>& cells, uint64_t stamp, uint64_t present, Best& best) {
    uint64_t full = 0;
    bool pruning = false;
    for (const Cell& cell : cells) {
        const bool whole = cell.dead == 0 && stamp == present;
        for (size_t n = 0; n < cell.blocks.size(); n++) {
            const Block& block = cell.blocks[n];
            const Slot* slots = cell.slots.data() + 32 * n;
            const int count = (int)std::min<size_t>(32, cell.slots.size() - 32 * n);
            uint32_t rows = whole ? (uint32_t)(((uint64_t)1 << count) - 1) : 0;
            if (!whole) {
                for (int i = 0; i < count; i++) rows |= (uint32_t)(slots[i].born <= stamp && stamp < slots[i].died) << i;
            }
            V bounds = splat(0);
            uint8_t most = 255;
            uint64_t theta = 0;
            if (pruning) {
                theta = best.heap.front().first;
                most = (uint8_t)((theta - shape.base) / shape.step);
                bounds = shape.bounds(block);
                rows &= at_most(bounds, most);
            }
            while (rows != 0) {
                const int i = __builtin_ctz(rows);
                rows &= rows - 1;
                full++;
                best.offer({shape.distance_at(&block.row[0].word[i], 32), slots[i].id});
                if (!pruning) {
                    if (best.heap.size() < K) continue;
                    pruning = true;
                    theta = best.heap.front().first;
                    shape.fill_small(theta);
                    most = (uint8_t)((theta - shape.base) / shape.step);
                    bounds = shape.bounds(block);
                    rows &= at_most(bounds, most);
                } else if (best.heap.front().first != theta) {
                    theta = best.heap.front().first;
                    most = (uint8_t)((theta - shape.base) / shape.step);
                    rows &= at_most(bounds, most);
                }
            }
        }
    }
    return full;
}

template <class S> static void query_of(S&, uint8_t* query, int count) {
    for (int i = 0; i < count * D; i++) query[i] = (uint8_t)number();
}

template <class S> static Done fills(S& shape, bool small, uint64_t rounds) {
    uint8_t queries[QUERIES * D];
    Done done;
    query_of(shape, queries, small ? 1 : QUERIES);
    if (!small) {
        const int64_t start = now();
        for (uint64_t r = 0; r < rounds; r++)
            for (int q = 0; q < QUERIES; q++) shape.fill(queries + q * D);
        done.spent = now() - start;
        done.sum = shape.base_sum();
        return done;
    }
    const uint16_t zeros[G] = {};
    shape.fill(queries);
    const uint64_t theta0 = std::max(shape.distance_at(zeros, 1), shape.base_sum());
    const int64_t start = now();
    for (uint64_t r = 0; r < rounds * 16; r++) shape.fill_small(theta0 + r % 16);
    done.spent = now() - start;
    shape.fill_small(theta0);
    uint64_t sum = 0;
    for (const Table& part : shape.parts) sum += part[0];
    done.sum = std::min<uint64_t>(sum, 255);
    return done;
}

template <class S> static Done run(bool wide, const std::string& call, size_t cells, size_t rows, uint64_t rounds) {
    static S shape(wide);
    if (call == "full" || call == "small") return fills(shape, call == "small", rounds);
    int bits = 0;
    for (int width : S::WIDTHS) bits += width;
    std::vector<uint16_t> codes(cells * rows * G);
    for (uint16_t& word : codes) word = (uint16_t)(number() & ((1 << bits) - 1));
    // the rows come cell by cell, or dealt round the cells
    std::vector<Cell> store(call == "exact" ? 0 : cells);
    for (size_t id = 0; id < store.size() * rows; id++) {
        const size_t c = call == "mixed" ? id % cells : id / rows, r = store[c].slots.size();
        if (r % 32 == 0) store[c].blocks.push_back(Block{});
        for (size_t w = 0; w < G; w++) store[c].blocks.back().row[w].word[r % 32] = codes[id * G + w];
        store[c].slots.push_back({id + 1, UINT64_MAX, (uint32_t)id});
    }
    const uint64_t stamp = cells * rows;
    Done all;
    for (uint64_t r = 0; r < rounds; r++) {
        uint8_t query[D];
        query_of(shape, query, 1);
        shape.fill(query);
        Best best;
        best.heap.reserve(K);
        const int64_t start = now();
        if (call != "exact") {
            all.full += scan(shape, store, stamp, stamp, best);
        } else {
            for (size_t id = 0; id < cells * rows; id++) best.offer({shape.distance_at(&codes[id * G], 1), (uint32_t)id});
            all.full += cells * rows;
        }
        all.spent += now() - start;
        all.sum = all.sum * 31 + best.sum();
    }
    return all;
}

int main(int count, char** words) {
    if (count < 7) return 1;
    const std::string shape = words[1], call = words[3];
    const bool wide = atoll(words[2]) > 0;
    const size_t cells = (size_t)atoll(words[4]), rows = (size_t)atoll(words[5]);
    const uint64_t rounds = (uint64_t)atoll(words[6]);
    Done done;
    if (shape == "4-4-4-4") done = run<Shape<4, 4, 4, 4>>(wide, call, cells, rows, rounds);
    else if (shape == "5-5-5") done = run<Shape<5, 5, 5, 0>>(wide, call, cells, rows, rounds);
    else if (shape == "6-6-4") done = run<Shape<6, 6, 4, 0>>(wide, call, cells, rows, rounds);
    else done = run<Shape<8, 8, 0, 0>>(wide, call, cells, rows, rounds);
    printf("%llu %llu %lld\n", (unsigned long long)done.sum, (unsigned long long)done.full, (long long)done.spent);
}
