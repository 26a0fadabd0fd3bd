// Sums of table entries for 32 codes at a time in C++, timed as `bench_kernels lanes` does: the words KERNEL SHAPE G ROUNDS
// print a checksum and the nanoseconds spent. KERNEL is `lanes`, written by hand with vector instructions, or `plain`.
#include <algorithm>
#include <cstdint>
#include <cstdio>
#include <cstdlib>
#include <ctime>
#include <string>
#include <vector>
#include "lanes.hpp"

struct Sums { uint8_t lane[32]; };

template <int A, int B, int C, int D> static Sums lanes(const Table* tables, const Row* rows, size_t g) {
    V sum = splat(0);
    const Table* t = tables;
    for (size_t w = 0; w < g; w++) sum = add_word<A, B, C>(sum, t, rows[w]);
    Sums out;
    store(out.lane, sum);
    return out;
}

template <int A, int B, int C, int D> static Sums plain(const Table* tables, const Row* rows, size_t g) {
    Sums out;
    for (size_t l = 0; l < 32; l++) {
        unsigned sum = 0;
        const Table* t = tables;
        for (size_t w = 0; w < g; w++) {
            unsigned word = rows[w].word[l];
            sum += (*t++)[word & ((1 << A) - 1)];
            sum += (*t++)[(word >> A) & ((1 << B) - 1)];
            if constexpr (C > 0) sum += (*t++)[(word >> (A + B)) & ((1 << C) - 1)];
            if constexpr (D > 0) sum += (*t++)[(word >> (A + B + C)) & ((1 << D) - 1)];
        }
        out.lane[l] = (uint8_t)std::min(sum, 255u);
    }
    return out;
}

static uint64_t state = 1;
static uint16_t number() {
    state = state * 6364136223846793005u + 1442695040888963407u;
    return (uint16_t)(state >> 48);
}

constexpr size_t BLOCKS = 8;

template <int A, int B, int C, int D> static uint64_t run(bool by_lanes, size_t g, uint64_t rounds) {
    const int widths[4] = {A, B, C, D};
    const size_t fields = D > 0 ? 4 : C > 0 ? 3 : 2;
    Table* tables = (Table*)calloc(g * fields, sizeof(Table));
    for (size_t j = 0; j < g * fields; j++)
        for (int at = 0; at < 1 << widths[j % fields]; at++) tables[j][at] = (uint8_t)(number() % 16);
    std::vector<Row> rows(g * BLOCKS);
    for (Row& row : rows)
        for (uint16_t& word : row.word) word = number();
    uint8_t total[32] = {};
    for (uint64_t round = 0; round < rounds; round++) {
        if (!rows.empty()) rows[0].word[0] = (uint16_t)(round % 1024);
        for (size_t block = 0; block < BLOCKS; block++) {
            const Row* at = rows.data() + block * g;
            Sums sums = by_lanes ? lanes<A, B, C, D>(tables, at, g) : plain<A, B, C, D>(tables, at, g);
            for (int l = 0; l < 32; l++) total[l] = (uint8_t)(total[l] + sums.lane[l]);
        }
    }
    uint64_t sum = 0;
    for (uint8_t lane : total) sum = sum * 31 + lane;
    return sum;
}

static int64_t spent() {
    timespec t;
    clock_gettime(CLOCK_PROCESS_CPUTIME_ID, &t);
    return (int64_t)t.tv_sec * 1000000000 + t.tv_nsec;
}

int main(int count, char** words) {
    if (count < 5) return 1;
    const bool by_lanes = std::string(words[1]) == "lanes";
    const std::string shape = words[2];
    const size_t g = (size_t)atoll(words[3]);
    const uint64_t rounds = (uint64_t)atoll(words[4]);
    const int64_t start = spent();
    uint64_t sum = 0;
    if (shape == "4-4-4-4") sum = run<4, 4, 4, 4>(by_lanes, g, rounds);
    else if (shape == "5-5-5") sum = run<5, 5, 5, 0>(by_lanes, g, rounds);
    else if (shape == "6-6-4") sum = run<6, 6, 4, 0>(by_lanes, g, rounds);
    else sum = run<8, 8, 0, 0>(by_lanes, g, rounds);
    printf("%llu %lld\n", (unsigned long long)sum, (long long)(spent() - start));
}
