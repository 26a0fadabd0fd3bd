// The engine of engine.hpp, timed as `bench_queries engine` does. The words BOOK BASE QUERIES ROUNDS PASSING WANTED.. print a line for
// the inserts: a checksum of the cells, the nanoseconds spent and the bytes by which the process has grown; and for each WANTED a
// line: a checksum of the ten nearest of every query among PASSING ids of a list (among all ids if it is 0), the visited cells, the
// visited rows, the full rows, and the nanoseconds of the fastest of ROUNDS passes.
#include "engine.hpp"

// so many ids of so many rows, as far apart as they can be
static std::vector<uint32_t> spread_ids(uint32_t count, uint32_t rows) {
    std::vector<uint32_t> ids;
    const uint32_t apart = count == 0 ? 0 : std::max(rows / count, 1u);
    for (uint32_t n = 0; n < count; n++) ids.push_back(n * apart);
    return ids;
}

int main(int count, char** words) {
    if (count < 7) return 1;
    const std::vector<uint8_t> base = bytes_of(words[2]), queries = bytes_of(words[3]);
    static Engine engine(bytes_of(words[1]));
    const size_t size = engine.book.d + 4;
    const long long before = resident();
    uint64_t sum = 0;
    int64_t start = now();
    for (size_t row = 0; row < base.size() / size; row++) sum = sum * 31 + engine.insert((uint32_t)row, &base[row * size + 4]);
    const int64_t inserts = now() - start;
    printf("insert %llu %lld %lld\n", (unsigned long long)sum, (long long)inserts, resident() - before);
    const std::vector<uint32_t> passing = spread_ids((uint32_t)strtoul(words[5], nullptr, 10), (uint32_t)(base.size() / size));
    if (!passing.empty()) engine.visit.passing = &passing;
    for (int word = 6; word < count; word++) {
        Found found;
        int64_t least = INT64_MAX;
        for (int round = 0; round < atoi(words[4]); round++) {
            found = Found();
            start = now();
            for (size_t row = 0; row < queries.size() / size; row++) {
                found.sum = sum_of(engine.search(&queries[row * size + 4], strtoull(words[word], nullptr, 10)), found.sum);
                found.add(engine.visit.found);
            }
            least = std::min(least, now() - start);
        }
        printf("%s %llu %llu %llu %llu %lld\n", words[word], (unsigned long long)found.sum, (unsigned long long)found.cells, (unsigned long long)found.live, (unsigned long long)found.full, (long long)least);
    }
}
