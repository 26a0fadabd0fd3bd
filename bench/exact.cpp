// The plain form of the exact search: reads a bvecs file by stretches and keeps the k least pairs of (distance, row); and that of
// reranking: reads the rows of R made ids one by one and sorts their pairs. The words `make BASE D ROWS` write a base of made rows;
// BASE D ROWS QUERIES K, and for reranking R behind them, print a checksum and the nanoseconds of processor time spent.
#include <algorithm>
#include <cstdint>
#include <cstdio>
#include <cstdlib>
#include <cstring>
#include <ctime>
#include <fcntl.h>
#include <unistd.h>
#include <utility>
#include <vector>

struct Numbers {
    uint64_t state;
    uint8_t byte() {
        state = state * 6364136223846793005u + 1442695040888963407u;
        return uint8_t(state >> 48);
    }
    uint32_t wide() {
        state = state * 6364136223846793005u + 1442695040888963407u;
        return uint32_t(state >> 32);
    }
};

using Pair = std::pair<uint64_t, uint32_t>;

static uint32_t distance(const uint8_t *a, const uint8_t *b, size_t d) {
    uint32_t total = 0;
    for (size_t i = 0; i < d; i++) {
        int gap = int(a[i]) - int(b[i]);
        total += uint32_t(gap * gap);
    }
    return total;
}

// the k least in rising order: a heap whose top is the greatest
static std::vector<Pair> exact(int file, size_t d, uint32_t rows, const uint8_t *query, size_t k) {
    const size_t size = 4 + d, most = 65536 / size;
    std::vector<uint8_t> room(most * size);
    std::vector<Pair> best;
    for (uint32_t first = 0; first < rows;) {
        uint32_t count = std::min<uint32_t>(most, rows - first);
        if (pread(file, room.data(), count * size, off_t(first) * size) != ssize_t(count * size)) exit(1);
        for (uint32_t i = 0; i < count; i++) {
            const uint8_t *row = room.data() + i * size;
            uint32_t header;
            memcpy(&header, row, 4);
            if (header != d) exit(1);
            Pair pair(distance(query, row + 4, d), first + i);
            if (best.size() < k) {
                best.push_back(pair);
                std::push_heap(best.begin(), best.end());
            } else if (pair < best.front()) {
                std::pop_heap(best.begin(), best.end());
                best.back() = pair;
                std::push_heap(best.begin(), best.end());
            }
        }
        first += count;
    }
    std::sort_heap(best.begin(), best.end());
    return best;
}

// the k least of some rows in rising order
static std::vector<Pair> rerank(int file, size_t d, const std::vector<uint32_t> &ids, const uint8_t *query, size_t k) {
    const size_t size = 4 + d;
    std::vector<uint8_t> row(size);
    std::vector<Pair> pairs;
    for (uint32_t id : ids) {
        if (pread(file, row.data(), size, off_t(id) * size) != ssize_t(size)) exit(1);
        uint32_t header;
        memcpy(&header, row.data(), 4);
        if (header != d) exit(1);
        pairs.emplace_back(distance(query, row.data() + 4, d), id);
    }
    k = std::min(k, pairs.size());
    std::partial_sort(pairs.begin(), pairs.begin() + k, pairs.end());
    pairs.resize(k);
    return pairs;
}

static int make(const char *name, size_t d, uint32_t rows) {
    FILE *file = fopen(name, "wb");
    Numbers numbers{1};
    std::vector<uint8_t> row(4 + d);
    uint32_t header = uint32_t(d);
    memcpy(row.data(), &header, 4);
    for (uint32_t i = 0; i < rows; i++) {
        for (size_t j = 0; j < d; j++) row[4 + j] = numbers.byte();
        fwrite(row.data(), 1, row.size(), file);
    }
    return fclose(file);
}

int main(int argc, char **argv) {
    if (argc == 5 && !strcmp(argv[1], "make")) return make(argv[2], atoi(argv[3]), atoi(argv[4]));
    if (argc != 6 && argc != 7) return 0;
    size_t d = atoi(argv[2]), k = atoi(argv[5]), found = argc == 7 ? atoi(argv[6]) : 0;
    uint32_t rows = atoi(argv[3]), queries = atoi(argv[4]);
    timespec start, end;
    clock_gettime(CLOCK_PROCESS_CPUTIME_ID, &start);
    int file = open(argv[1], O_RDONLY);
    Numbers numbers{2};
    std::vector<uint8_t> query(d);
    uint64_t sum = 0;
    for (uint32_t q = 0; q < queries; q++) {
        for (auto &component : query) component = numbers.byte();
        std::vector<uint32_t> ids;
        for (size_t n = 0; n < found; n++) ids.push_back(numbers.wide() % rows);
        uint64_t one = 0;
        for (const Pair &pair : found ? rerank(file, d, ids, query.data(), k) : exact(file, d, rows, query.data(), k)) {
            one = one * 31 + pair.first;
            one = one * 31 + pair.second;
        }
        sum += one;
    }
    clock_gettime(CLOCK_PROCESS_CPUTIME_ID, &end);
    printf("%lu %lld\n", sum, (end.tv_sec - start.tv_sec) * 1000000000ll + (end.tv_nsec - start.tv_nsec));
}
