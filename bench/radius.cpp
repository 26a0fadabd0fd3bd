// Queries by radius in C++ by the rules of crates/radius_scan, timed as `bench_queries radius` does, for books of version 1, g 8 and
// shape 4-4-4-4 or 8-8. The words BOOK BASE QUERIES ROUNDS RADII.. print a line for the inserts: a checksum of the cells, and the
// nanoseconds spent; and for each RADII, which has a line with the radius of each query, a line for 30,000 and one for all rows
// wanted: a checksum of the pairs of every query, the visited cells, the visited rows, the full rows, the pairs, and the
// nanoseconds of the fastest of ROUNDS passes. The words BOOK BASE QUERIES choose DIR write such radii into the folder DIR: within
// those of `radii_0` no row of the base lies, and within those of `radii_10` and `radii_10000` so many or, where distances are equal,
// a few more; those of `radii_below` are 0, which is below the sum of the least entries of the tables.
#include <algorithm>
#include <array>
#include <cstdint>
#include <cstdio>
#include <cstdlib>
#include <cstring>
#include <ctime>
#include <queue>
#include <string>
#include <unordered_set>
#include <utility>
#include <vector>
#include "columns.hpp"
#include "lanes.hpp"

constexpr size_t D = 128, G = 8, HEADER = 4;

using Bytes = std::vector<uint8_t>;
using Pair = std::pair<uint64_t, uint32_t>;
using Code = std::array<uint16_t, G>;

// the widths of the fields of a word
template <int A, int B, int C, int E> struct Fields {
    static constexpr size_t COUNT = E > 0 ? 4 : C > 0 ? 3 : 2, SUBS = G * COUNT;
    static constexpr int WIDTHS[4] = {A, B, C, E}, OFFSETS[4] = {0, A, A + B, A + B + C};
    // where the table of a sub-quantizer begins among all entries
    static constexpr size_t table(size_t j) {
        size_t at = j / COUNT * ((1 << A) + (1 << B) + (C > 0 ? 1 << C : 0) + (E > 0 ? 1 << E : 0));
        for (size_t field = 0; field < j % COUNT; field++) at += size_t(1) << WIDTHS[field];
        return at;
    }
    static V add(V sum, const Table*& part, const Row& row) { return add_word<A, B, C>(sum, part, row); }
};

template <class S> struct Book {
    size_t h, k0, k1, start[S::SUBS];
    std::vector<Columns> coarse, subs;

    explicit Book(const Bytes& bytes) {
        auto number = [&](size_t at) { return size_t(bytes[at] | bytes[at + 1] << 8); };
        h = number(10), k0 = number(12), k1 = number(14);
        size_t at = 18 + 2 * S::SUBS, sum = 0;
        auto take = [&](size_t count, size_t length) {
            const std::vector<uint16_t> words(&bytes[at], &bytes[at] + count * length);
            at += count * length;
            return Columns(words.data(), uint32_t(count), length);
        };
        coarse.push_back(take(k0, h));
        coarse.push_back(take(k1, D - h));
        for (size_t j = 0; j < S::SUBS; j++) {
            const size_t length = number(18 + 2 * j);
            subs.push_back(take(size_t(1) << S::WIDTHS[j % S::COUNT], length));
            start[j] = sum;
            sum += length;
        }
    }

    uint32_t cell(const uint8_t* x) const { return uint32_t(coarse[0].nearest(0, x) * k1 + coarse[1].nearest(0, x + h)); }

    Code code(const uint8_t* x) const {
        Code words{};
        for (size_t j = 0; j < S::SUBS; j++)
            words[j / S::COUNT] |= uint16_t(subs[j].nearest(0, x + start[j]) << S::OFFSETS[j % S::COUNT]);
        return words;
    }
};

struct Slot { uint64_t born, died; uint32_t id; };
struct Block { Row row[G]; };
struct Cell {
    std::vector<Slot> slots;
    std::vector<Block> blocks;
    size_t dead = 0;
};

// rows by cell
struct Store {
    std::vector<Cell> cells;
    std::unordered_set<uint32_t> ids;
    uint64_t stamp = 0;

    void insert(uint32_t id, uint32_t number, const Code& code) {
        if (!ids.insert(id).second) return;
        Cell& cell = cells[number];
        const size_t at = cell.slots.size() % 32;
        if (at == 0) cell.blocks.emplace_back();
        for (size_t w = 0; w < G; w++) cell.blocks.back().row[w].word[at] = code[w];
        cell.slots.push_back({++stamp, UINT64_MAX, id});
    }

    // which of the rows of a block are live: all of them in a cell with no dead row, whose slots are not read
    uint32_t live(const Cell& cell, size_t n) const {
        const size_t count = std::min<size_t>(32, cell.slots.size() - 32 * n);
        if (cell.dead == 0) return uint32_t((uint64_t(1) << count) - 1);
        uint32_t rows = 0;
        for (size_t i = 0; i < count; i++) {
            const Slot& slot = cell.slots[32 * n + i];
            rows |= uint32_t(slot.born <= stamp && stamp < slot.died) << i;
        }
        return rows;
    }

    uint64_t count(const Cell& cell) const {
        if (cell.dead == 0) return cell.slots.size();
        uint64_t sum = 0;
        for (size_t n = 0; n < cell.blocks.size(); n++) sum += uint64_t(__builtin_popcount(live(cell, n)));
        return sum;
    }
};

// the coarse words of both parts by distance
struct Ranks {
    std::vector<Pair> parts[2];

    void fill(size_t part, const Columns& words, const uint8_t* x) {
        uint64_t to[1024];
        words.distances(0, x, to);
        parts[part].clear();
        for (uint32_t i = 0; i < words.count; i++) parts[part].emplace_back(to[i], i);
        std::sort(parts[part].begin(), parts[part].end());
    }
};

struct Entry {
    uint64_t sum;
    uint32_t cell;
    uint16_t a, b;
};

struct ComesLater {
    bool operator()(const Entry& x, const Entry& y) const { return x.sum != y.sum ? x.sum > y.sum : x.cell > y.cell; }
};

// the multi-sequence walk; the queue keeps its room when it is emptied
struct Walk : std::priority_queue<Entry, std::vector<Entry>, ComesLater> {
    Walk() { c.reserve(2048); }

    void push_at(const Ranks& ranks, size_t a, size_t b) {
        const Pair &x = ranks.parts[0][a], &y = ranks.parts[1][b];
        push({x.first + y.first, uint32_t(x.second * ranks.parts[1].size() + y.second), uint16_t(a), uint16_t(b)});
    }
    void start(const Ranks& ranks) {
        c.clear();
        push_at(ranks, 0, 0);
    }
    bool next(const Ranks& ranks, uint32_t& cell) {
        if (empty()) return false;
        const Entry first = top();
        pop();
        if (first.b + 1u < ranks.parts[1].size()) push_at(ranks, first.a, first.b + 1);
        if (first.b == 0 && first.a + 1u < ranks.parts[0].size()) push_at(ranks, first.a + 1, 0);
        cell = first.cell;
        return true;
    }
};

// the distances of a query's stretches to the words of their sub-quantizers, and the small entries that bound them
template <class S> struct Tables {
    uint64_t entries[S::table(S::SUBS)], least[S::SUBS], base = 0, step = 1;
    Table parts[S::SUBS] = {};

    void fill(const Book<S>& book, const uint8_t* x) {
        base = 0;
        for (size_t j = 0; j < S::SUBS; j++) {
            book.subs[j].distances(0, x + book.start[j], entries + S::table(j));
            least[j] = *std::min_element(entries + S::table(j), entries + S::table(j + 1));
            base += least[j];
        }
    }

    // fills the small entries for a radius that is not below the base, and gives its threshold
    uint8_t fill_small(uint64_t r) {
        step = (r - base) / 255 + 1;
        const uint64_t most = 255 * step, inverse = (uint64_t(1) << 56) / step;
        for (size_t j = 0; j < S::SUBS; j++) {
            const uint64_t* from = entries + S::table(j);
            for (size_t w = 0; w < S::table(j + 1) - S::table(j); w++) {
                const uint64_t gap = std::min(from[w] - least[j], most);
                const uint64_t low = (gap * inverse) >> 56;  // the quotient, or one less
                parts[j][w] = uint8_t(low + (gap - low * step >= step ? 1 : 0));
            }
        }
        return uint8_t((r - base) / step);
    }

    uint64_t distance(const Block& block, size_t lane) const {
        uint64_t sum = 0;
        for (size_t w = 0; w < G; w++) {
            const unsigned x = block.row[w].word[lane];
            for (size_t field = 0; field < S::COUNT; field++)
                sum += entries[S::table(w * S::COUNT + field) + (x >> S::OFFSETS[field] & ((1u << S::WIDTHS[field]) - 1))];
        }
        return sum;
    }

    V bounds(const Block& block) const {
        V sum = splat(0);
        const Table* part = parts;
        for (const Row& row : block.row) sum = S::add(sum, part, row);
        return sum;
    }
};

struct Found {
    uint64_t sum = 0, cells = 0, live = 0, full = 0, pairs = 0;
};

template <class S> struct Engine {
    Book<S> book;
    Store store;
    Ranks ranks;
    Walk walk;
    Tables<S> tables;
    std::vector<Pair> pairs;

    explicit Engine(const Bytes& bytes) : book(bytes) { store.cells.resize(book.k0 * book.k1); }

    uint32_t insert(uint32_t id, const uint8_t* x) {
        const uint32_t cell = book.cell(x);
        store.insert(id, cell, book.code(x));
        return cell;
    }

    // the pairs of the rows of a cell within a radius that has this threshold
    void scan(const Cell& cell, uint64_t r, uint8_t most, Found& found) {
        for (size_t n = 0; n < cell.blocks.size(); n++) {
            const Block& block = cell.blocks[n];
            uint32_t rows = store.live(cell, n);
            found.live += uint64_t(__builtin_popcount(rows));
            rows &= at_most(tables.bounds(block), most);
            found.full += uint64_t(__builtin_popcount(rows));
            for (; rows != 0; rows &= rows - 1) {
                const size_t i = size_t(__builtin_ctz(rows));
                const uint64_t distance = tables.distance(block, i);
                if (distance <= r) pairs.emplace_back(distance, cell.slots[32 * n + i].id);
            }
        }
    }

    // all rows within a radius, of the first cells that hold as many rows as are wanted
    void radius(const uint8_t* x, uint64_t r, uint64_t wanted, Found& found) {
        ranks.fill(0, book.coarse[0], x);
        ranks.fill(1, book.coarse[1], x + book.h);
        tables.fill(book, x);
        const bool reaches = r >= tables.base;
        const uint8_t most = reaches ? tables.fill_small(r) : 0;
        pairs.clear();
        walk.start(ranks);
        Found now;
        const uint64_t needed = std::min<uint64_t>(wanted, store.ids.size());
        uint32_t cell = 0;
        while (now.live < needed && walk.next(ranks, cell)) {
            now.cells++;
            if (reaches) scan(store.cells[cell], r, most, now);
            else now.live += store.count(store.cells[cell]);
        }
        std::sort(pairs.begin(), pairs.end());
        found.cells += now.cells;
        found.live += now.live;
        found.full += now.full;
        found.pairs += pairs.size();
        for (const Pair& pair : pairs) found.sum = found.sum * 31 + (pair.first ^ uint64_t(pair.second) << 40);
    }

    // the distances of all rows, in no order
    std::vector<uint64_t> distances(const uint8_t* x) {
        tables.fill(book, x);
        std::vector<uint64_t> all;
        for (const Cell& cell : store.cells)
            for (size_t row = 0; row < cell.slots.size(); row++) all.push_back(tables.distance(cell.blocks[row / 32], row % 32));
        return all;
    }
};

static int64_t now() {
    timespec t;
    clock_gettime(CLOCK_PROCESS_CPUTIME_ID, &t);
    return int64_t(t.tv_sec) * 1000000000 + t.tv_nsec;
}

static Bytes bytes_of(const char* name) {
    Bytes bytes;
    FILE* file = fopen(name, "rb");
    if (!file) return bytes;
    fseek(file, 0, SEEK_END);
    bytes.resize(size_t(ftell(file)));
    fseek(file, 0, SEEK_SET);
    if (fread(bytes.data(), 1, bytes.size(), file) != bytes.size()) bytes.clear();
    fclose(file);
    return bytes;
}

// the numbers of a file, a line each
static std::vector<uint64_t> radii_of(const char* name) {
    std::vector<uint64_t> radii;
    FILE* file = fopen(name, "r");
    unsigned long long radius;
    while (file && fscanf(file, "%llu", &radius) == 1) radii.push_back(radius);
    if (file) fclose(file);
    return radii;
}

// writes for each query the radii within which no row, 10 rows and 10,000 rows lie, and one that is below every distance
template <class S> static void choose(Engine<S>& engine, const Bytes& queries, const std::string& folder) {
    FILE* below = fopen((folder + "/radii_below").c_str(), "w");
    FILE* none = fopen((folder + "/radii_0").c_str(), "w");
    FILE* few = fopen((folder + "/radii_10").c_str(), "w");
    FILE* many = fopen((folder + "/radii_10000").c_str(), "w");
    for (size_t row = 0; row < queries.size() / (D + HEADER); row++) {
        std::vector<uint64_t> all = engine.distances(&queries[row * (D + HEADER) + HEADER]);
        std::sort(all.begin(), all.end());
        fprintf(below, "0\n");
        fprintf(none, "%llu\n", (unsigned long long)std::max<uint64_t>(all[0], 1) - 1);
        fprintf(few, "%llu\n", (unsigned long long)all[9]);
        fprintf(many, "%llu\n", (unsigned long long)all[9999]);
    }
    for (FILE* file : {below, none, few, many}) fclose(file);
}

// asks the queries by a list of radii, and prints what they found and the least time
template <class S> static void report(Engine<S>& engine, const Bytes& queries, const std::vector<uint64_t>& radii, int rounds, uint64_t wanted) {
    Found found;
    int64_t least = INT64_MAX;
    for (int round = 0; round < rounds; round++) {
        found = Found();
        const int64_t start = now();
        for (size_t row = 0; row < std::min(radii.size(), queries.size() / (D + HEADER)); row++)
            engine.radius(&queries[row * (D + HEADER) + HEADER], radii[row], wanted, found);
        least = std::min(least, now() - start);
    }
    for (const uint64_t number : {wanted, found.sum, found.cells, found.live, found.full, found.pairs}) printf("%llu ", (unsigned long long)number);
    printf("%lld\n", (long long)least);
}

template <class S> static void run(const Bytes& book, int count, char** words) {
    static Engine<S> engine(book);
    const Bytes base = bytes_of(words[2]), queries = bytes_of(words[3]);
    const size_t rows = base.size() / (D + HEADER);
    uint64_t sum = 0;
    const int64_t start = now();
    for (size_t row = 0; row < rows; row++) sum = sum * 31 + engine.insert(uint32_t(row), &base[row * (D + HEADER) + HEADER]);
    if (strcmp(words[4], "choose") == 0) return choose(engine, queries, words[5]);
    printf("insert %llu %lld\n", (unsigned long long)sum, (long long)(now() - start));
    engine.pairs.reserve(rows);
    for (int word = 5; word < count; word++) {
        const std::vector<uint64_t> radii = radii_of(words[word]);
        report(engine, queries, radii, atoi(words[4]), 30000);
        report(engine, queries, radii, atoi(words[4]), 4194304);
    }
}

int main(int count, char** words) {
    if (count < 6) return 1;
    const Bytes book = bytes_of(words[1]);
    if (book.size() < 18) return 1;
    if (book[16] == 0) run<Fields<4, 4, 4, 4>>(book, count, words);
    else run<Fields<8, 8, 0, 0>>(book, count, words);
}
