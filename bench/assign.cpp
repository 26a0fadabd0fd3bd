// The cell and the code of a vector in C++ over columns of words (columns.hpp), timed as `bench_kernels assign` does: the words
// CALL SHAPE ROUNDS print a checksum and the nanoseconds spent.
#include "columns.hpp"
#include <cstdint>
#include <cstdio>
#include <cstdlib>
#include <cstring>
#include <ctime>
#include <vector>

using std::size_t;

static const size_t D = 128, H = 64, PART = 256, G = 8, ROWS = 64;

struct Book {
    unsigned scale;
    Columns coarse0, coarse1;
    std::vector<unsigned> widths;
    std::vector<Columns> subs;
};

static uint32_t coarse(const Book& book, const uint8_t* vector) {
    return book.coarse0.nearest(book.scale, vector) * book.coarse1.count + book.coarse1.nearest(book.scale, vector + H);
}

static void encode(const Book& book, const uint8_t* vector, uint16_t* into) {
    size_t j = 0;
    for (size_t w = 0; w < G; w++) {
        unsigned word = 0, offset = 0;
        for (unsigned width : book.widths) {
            word |= book.subs[j].nearest(book.scale, vector) << offset;
            vector += book.subs[j].size;
            offset += width;
            j++;
        }
        into[w] = uint16_t(word);
    }
}

static std::vector<uint8_t> bytes_of(size_t count) {
    std::vector<uint8_t> made;
    uint64_t state = 5;
    for (size_t i = 0; i < count; i++) {
        state = state * 6364136223846793005ull + 1442695040888963407ull;
        made.push_back(uint8_t(state >> 48));
    }
    return made;
}

static int64_t spent() {
    timespec time;
    clock_gettime(CLOCK_PROCESS_CPUTIME_ID, &time);
    return time.tv_sec * 1000000000ll + time.tv_nsec;
}

int main(int argc, char** argv) {
    if (argc < 4) return 0;
    bool cells = !strcmp(argv[1], "coarse");
    int shape = atoi(argv[2]);
    uint64_t rounds = strtoull(argv[3], nullptr, 10);
    int64_t start = spent();
    std::vector<unsigned> widths = shape == 0 ? std::vector<unsigned>{4, 4, 4, 4} : std::vector<unsigned>{8, 8};
    uint32_t count = 1u << widths[0];
    size_t size = D / G / widths.size();
    std::vector<uint8_t> components = bytes_of(D * PART + D * count);
    std::vector<uint16_t> wide(components.begin(), components.end());
    const uint16_t* at = wide.data();
    auto take = [&](uint32_t n, size_t length) {
        Columns words(at, n, length);
        at += n * length;
        return words;
    };
    Columns coarse0 = take(PART, H), coarse1 = take(PART, D - H);
    Book book{0, coarse0, coarse1, widths, {}};
    for (size_t j = 0; j < G * widths.size(); j++) book.subs.push_back(take(count, size));
    std::vector<uint8_t> rows = bytes_of(D * ROWS);
    std::vector<uint16_t> words(G);
    uint64_t sum = 0;
    for (uint64_t round = 0; round < rounds; round++) {
        uint64_t more = 0;
        for (size_t row = 0; row < ROWS; row++) {
            if (cells) {
                more = more * 31 + coarse(book, &rows[row * D]);
            } else {
                encode(book, &rows[row * D], words.data());
                for (uint16_t word : words) more = more * 31 + word;
            }
        }
        sum = sum * 31 + more;
    }
    printf("%llu %lld\n", (unsigned long long)sum, (long long)(spent() - start));
}
