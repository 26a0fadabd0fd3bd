// Distances of a vector to all words of a list by column (columns.hpp), timed as `bench_kernels distance` does for the call
// `all`: the words all D ROUNDS print a checksum and the nanoseconds spent. The word peak prints how many nanoseconds a
// pair of multiplication and addition of 16-bit numbers takes at the least, with a load from the first cache.
#include "columns.hpp"
#include <cstdio>
#include <cstdlib>
#include <cstring>
#include <ctime>

static int64_t now() {
    timespec t;
    clock_gettime(CLOCK_PROCESS_CPUTIME_ID, &t);
    return int64_t(t.tv_sec) * 1000000000 + t.tv_nsec;
}

static std::vector<uint16_t> numbers(size_t count, uint64_t state) {
    std::vector<uint16_t> made(count);
    for (auto& n : made) {
        state = state * 6364136223846793005u + 1442695040888963407u;
        n = uint16_t(state >> 48);
    }
    return made;
}

static double peak() {
    static int16_t room[8192];
    double best = 1e9;
    for (int run = 0; run < 30; run++) {
        Lanes sums[8], x = all32(3);
        for (auto& s : sums) s = all32(1);
        int64_t start = now();
        for (int round = 0; round < 400; round++) {
            for (size_t i = 0; i < 8192; i += 8 * sizeof(Lanes) / 2)
                for (size_t k = 0; k < 8; k++) sums[k] = add32(sums[k], pair_products(x, load(room + i + k * sizeof(Lanes) / 2)));
            asm volatile("" : "+x"(sums[0]), "+x"(sums[1]), "+x"(sums[2]), "+x"(sums[3]));
            asm volatile("" : "+x"(sums[4]), "+x"(sums[5]), "+x"(sums[6]), "+x"(sums[7]));
        }
        best = std::min(best, double(now() - start) / (400.0 * 8192));
    }
    return best;
}

int main(int count, char** words) {
    if (count > 1 && !strcmp(words[1], "peak")) printf("%.4f\n", peak());
    if (count < 4) return 0;
    size_t d = strtoull(words[2], nullptr, 10), rounds = strtoull(words[3], nullptr, 10);
    std::vector<uint16_t> row = numbers(d * 256, 2);
    std::vector<uint8_t> x;
    for (uint16_t n : numbers(d, 3)) x.push_back(uint8_t(n));
    Columns columns(row.data(), 256, d);
    uint64_t into[256], sum = 0;
    int64_t start = now();
    for (size_t round = 0; round < rounds; round++) {
        x[0] = uint8_t(round);
        columns.distances(4, x.data(), into);
        sum += into[round % 256];
    }
    printf("%llu %lld\n", (unsigned long long)sum, (long long)(now() - start));
}
