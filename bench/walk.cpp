// The cells of two ranked lists in rising order of their sums in C++, by a std::priority_queue, timed as
// `bench_kernels walk` does: the words CALL K CELLS ROUNDS print a checksum and the nanoseconds spent.
#include "columns.hpp"
#include <algorithm>
#include <cstdint>
#include <cstdio>
#include <cstdlib>
#include <ctime>
#include <functional>
#include <queue>
#include <string>
#include <vector>

struct Numbers {
    uint64_t state = 1;
    uint8_t byte() {
        state = state * 6364136223846793005u + 1442695040888963407u;
        return uint8_t(state >> 48);
    }
};

// a squared distance times 1024, and the number of a word
using Key = uint64_t;

static void fill_part(std::vector<Key>& part, const Columns& words, const uint8_t* query) {
    words.distances(0, query, part.data());
    for (size_t i = 0; i < words.count; i++) part[i] = part[i] << 10 | i;
    std::sort(part.begin(), part.begin() + words.count);
}

struct Ranks {
    std::vector<Key> part0, part1;
    size_t k0, k1;
};

struct Entry {
    uint64_t sum;
    uint32_t cell;
    uint16_t a, b;
};

struct ComesLater {
    bool operator()(const Entry& x, const Entry& y) const {
        return x.sum != y.sum ? x.sum > y.sum : x.cell > y.cell;
    }
};

// a queue that keeps its room when it is emptied
struct Queue : std::priority_queue<Entry, std::vector<Entry>, ComesLater> {
    Queue() { c.reserve(1024); }
    void clear() { c.clear(); }
};

static Entry entry_at(const Ranks& ranks, size_t a, size_t b) {
    Key p = ranks.part0[a], q = ranks.part1[b];
    return {(p >> 10) + (q >> 10), uint32_t((p & 1023) * ranks.k1 + (q & 1023)), uint16_t(a), uint16_t(b)};
}

static uint64_t walk(Queue& queue, const Ranks& ranks, uint64_t cells) {
    uint64_t sum = 0;
    queue.clear();
    queue.push(entry_at(ranks, 0, 0));
    for (uint64_t i = 0; i < cells && !queue.empty(); i++) {
        Entry first = queue.top();
        queue.pop();
        if (first.b + 1u < ranks.k1) queue.push(entry_at(ranks, first.a, first.b + 1));
        if (first.b == 0 && first.a + 1u < ranks.k0) queue.push(entry_at(ranks, first.a + 1, 0));
        sum = sum * 31 + (first.sum ^ first.cell);
    }
    return sum;
}

static uint64_t now() {
    timespec t;
    clock_gettime(CLOCK_PROCESS_CPUTIME_ID, &t);
    return uint64_t(t.tv_sec) * 1000000000u + uint64_t(t.tv_nsec);
}

int main(int count, char** words) {
    if (count < 5) return 0;
    std::string call = words[1];
    size_t k = strtoull(words[2], nullptr, 10);
    uint64_t cells = strtoull(words[3], nullptr, 10), rounds = strtoull(words[4], nullptr, 10);
    Numbers numbers;
    std::vector<uint16_t> words0(64 * k), words1(64 * k);
    for (auto& x : words0) x = numbers.byte();
    for (auto& x : words1) x = numbers.byte();
    Columns columns0(words0.data(), k, 64), columns1(words1.data(), k, 64);
    std::vector<uint8_t> queries(16 * 128);
    for (auto& x : queries) x = numbers.byte();
    std::vector<Ranks> all(16);
    for (size_t q = 0; q < 16; q++) {
        all[q].k0 = all[q].k1 = k;
        all[q].part0.resize(1024);
        all[q].part1.resize(1024);
        fill_part(all[q].part0, columns0, &queries[q * 128]);
        fill_part(all[q].part1, columns1, &queries[q * 128 + 64]);
    }
    Queue queue;
    uint64_t sum = 0, start = now();
    for (uint64_t round = 0; round < rounds; round++) {
        for (size_t q = 0; q < 16; q++) {
            if (call == "fill") {
                fill_part(all[0].part0, columns0, &queries[q * 128]);
                fill_part(all[0].part1, columns1, &queries[q * 128 + 64]);
                sum += (all[0].part0[0] & 1023) * k + (all[0].part1[0] & 1023);
            } else {
                sum += walk(queue, all[q], cells);
            }
        }
    }
    printf("%llu %llu\n", (unsigned long long)sum, (unsigned long long)(now() - start));
}
