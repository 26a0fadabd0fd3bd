// The engine over residual codes in C++ by the rules of crates/residual_scan, timed as `bench_queries residual` does, for a residual
// book of shape 4-4-4-4 or 8-8, d 128 and g 8. The words BOOK BASE QUERIES ROUNDS WANTED.. print a line for the inserts: a
// checksum of the cells, and the nanoseconds spent; and for each WANTED and each number of kept tables a line: both, a checksum
// of the ten nearest of every query, the visited cells and rows, the halves that were filled, the full rows, and the nanoseconds
// of the fastest of ROUNDS passes.
#include <algorithm>
#include <array>
#include <cstdint>
#include <cstdio>
#include <cstdlib>
#include <ctime>
#include <map>
#include <queue>
#include <utility>
#include <vector>
#include "columns.hpp"
#include "lanes.hpp"

constexpr size_t D = 128, G = 8, K = 10, MOST_WORDS = 1024;

#ifdef __AVX2__
static inline Lanes sub32(Lanes a, Lanes b) { return _mm256_sub_epi32(a, b); }
static inline Lanes even_squares(Lanes v) { return _mm256_mul_epi32(v, v); }
static inline Lanes odd_squares(Lanes v) { return even_squares(_mm256_srli_epi64(v, 32)); }
#else
static inline Lanes sub32(Lanes a, Lanes b) { return _mm_sub_epi32(a, b); }
static inline Lanes even_squares(Lanes v) { return _mm_mul_epi32(v, v); }
static inline Lanes odd_squares(Lanes v) { return even_squares(_mm_srli_epi64(v, 32)); }
#endif

// The words of a sub-quantizer by column: of as many words as a register has lanes, component after component. The first half of
// these words stands in the even lanes, so that their squares come out in order.
struct SubWords {
    static constexpr size_t WIDE = Columns::WIDE;
    size_t count, length;
    std::vector<int32_t> columns;

    SubWords(const uint16_t* words, size_t count, size_t length) : count(count), length(length), columns(count * length) {
        for (size_t w = 0; w < count; w++) {
            const size_t lane = w % WIDE, place = lane < WIDE / 2 ? 2 * lane : 2 * lane - WIDE + 1;
            for (size_t i = 0; i < length; i++) columns[(w / WIDE * length + i) * WIDE + place] = words[w * length + i];
        }
    }

    // the squared distances of a residual, written 32768 higher, to each word
    void distances(const int32_t* residual, uint64_t* into) const {
        const int32_t* from = columns.data();
        for (size_t w = 0; w < count; w += WIDE) {
            Lanes low = all64(0), high = all64(0);
            for (size_t i = 0; i < length; i++, from += WIDE) {
                const Lanes gap = sub32(all32(residual[i]), load(from));
                low = add64(low, even_squares(gap));
                high = add64(high, odd_squares(gap));
            }
            store(into + w, low);
            store(into + w + WIDE / 2, high);
        }
    }
};

struct Book {
    size_t h, k0, k1, split = 0;  // so many sub-quantizers lie in part 0
    unsigned scale;
    std::vector<uint16_t> coarse0, coarse1;
    std::vector<Columns> parts;  // the coarse words of both parts
    std::vector<SubWords> subs;
    std::vector<size_t> start;

    Book(const std::vector<uint8_t>& bytes, size_t fields, size_t words) {
        auto number = [&](size_t at) { return uint16_t(bytes[at] | bytes[at + 1] << 8); };
        h = number(10), k0 = number(12), k1 = number(14), scale = bytes[18];
        size_t at = 19 + 2 * G * fields;
        auto take = [&](size_t count) {
            std::vector<uint16_t> components(count);
            for (uint16_t& component : components) component = number(at), at += 2;
            return components;
        };
        coarse0 = take(k0 * h);
        coarse1 = take(k1 * (D - h));
        parts.emplace_back(coarse0.data(), uint32_t(k0), h);
        parts.emplace_back(coarse1.data(), uint32_t(k1), D - h);
        for (size_t j = 0, sum = 0; j < G * fields; j++) {
            const size_t length = number(19 + 2 * j);
            subs.emplace_back(take(words * length).data(), words, length);
            start.push_back(sum);
            if (sum < h) split++;
            sum += length;
        }
    }

    uint32_t cell(const uint8_t* x) const {
        return uint32_t(parts[0].nearest(scale, x) * k1 + parts[1].nearest(scale, x + h));
    }

    // what is left of part 0 or 1 of x when a coarse word is taken off, written 32768 higher
    void residual(const uint8_t* x, size_t part, size_t word, int32_t* into) const {
        const size_t from = part == 0 ? 0 : h, length = part == 0 ? h : D - h;
        const uint16_t* coarse = (part == 0 ? coarse0 : coarse1).data() + word * length;
        for (size_t i = 0; i < length; i++) into[i] = (int32_t(x[from + i]) << scale) + 32768 - coarse[i];
    }
};

struct Slot { uint64_t born, died; uint32_t id; };
struct Block { Row row[G]; };
struct Cell {
    std::vector<Slot> slots;
    std::vector<Block> blocks;
    size_t dead = 0;
};

// rows by cell, and the cell of each id
struct Store {
    std::vector<Cell> cells;
    std::map<uint32_t, uint32_t> cell_of;
    uint64_t stamp = 0;

    void insert(uint32_t id, uint32_t number, const std::array<uint16_t, G>& code) {
        if (!cell_of.emplace(id, number).second) return;
        Cell& cell = cells[number];
        const size_t at = cell.slots.size() % 32;
        if (at == 0) cell.blocks.emplace_back();
        for (size_t w = 0; w < G; w++) cell.blocks.back().row[w].word[at] = code[w];
        cell.slots.push_back({++stamp, UINT64_MAX, id});
    }

    // the live rows of a block of a cell
    uint32_t live_in(const Cell& cell, size_t block) const {
        const Slot* slots = cell.slots.data() + 32 * block;
        const size_t count = std::min<size_t>(32, cell.slots.size() - 32 * block);
        if (cell.dead == 0) return uint32_t((uint64_t(1) << count) - 1);
        uint32_t rows = 0;
        for (size_t i = 0; i < count; i++) rows |= uint32_t(slots[i].born <= stamp && stamp < slots[i].died) << i;
        return rows;
    }
};

using Pair = std::pair<uint64_t, uint32_t>;

// the coarse words of both parts by distance
struct Ranks {
    std::vector<Pair> part0, part1;

    static void fill(std::vector<Pair>& part, const Columns& words, unsigned scale, const uint8_t* x) {
        alignas(32) uint64_t to[MOST_WORDS];
        words.distances(scale, x, to);
        part.clear();
        for (uint32_t i = 0; i < words.count; i++) part.emplace_back(to[i], i);
        std::sort(part.begin(), part.end());
    }
};

struct Entry {
    uint64_t sum;
    uint32_t cell;
    uint16_t a, b;
};

struct ComesLater {
    bool operator()(const Entry& x, const Entry& y) const { return x.sum != y.sum ? x.sum > y.sum : x.cell > y.cell; }
};

// the multi-sequence walk; the queue keeps its room when it is emptied
struct Walk : std::priority_queue<Entry, std::vector<Entry>, ComesLater> {
    Walk() { c.reserve(2048); }

    void push_at(const Ranks& ranks, size_t a, size_t b) {
        const Pair &x = ranks.part0[a], &y = ranks.part1[b];
        push({x.first + y.first, uint32_t(x.second * ranks.part1.size() + y.second), uint16_t(a), uint16_t(b)});
    }
    void start(const Ranks& ranks) {
        c.clear();
        push_at(ranks, 0, 0);
    }
    bool next(const Ranks& ranks, uint32_t& cell) {
        if (empty()) return false;
        const Entry first = top();
        pop();
        if (first.b + 1u < ranks.part1.size()) push_at(ranks, first.a, first.b + 1);
        if (first.b == 0 && first.a + 1u < ranks.part0.size()) push_at(ranks, first.a + 1, 0);
        cell = first.cell;
        return true;
    }
};

// the K least pairs, the greatest of them first
struct Best {
    std::vector<Pair> heap;
    Best() { heap.reserve(K); }
    void offer(Pair pair) {
        if (heap.size() < K) {
            heap.push_back(pair);
            std::push_heap(heap.begin(), heap.end());
        } else if (pair < heap.front()) {
            std::pop_heap(heap.begin(), heap.end());
            heap.back() = pair;
            std::push_heap(heap.begin(), heap.end());
        }
    }
};

// the distances of a query's residual at one coarse word to the words of each sub-quantizer of that part
template <size_t WORDS> struct Half {
    std::vector<uint64_t> entries, least;
    uint64_t base = 0;

    void fill(const Book& book, const uint8_t* x, size_t part, size_t word) {
        const size_t first = part == 0 ? 0 : book.split, end = part == 0 ? book.split : book.subs.size();
        entries.resize((end - first) * WORDS);
        least.resize(end - first);
        int32_t residual[D];
        book.residual(x, part, word, residual);
        base = 0;
        for (size_t j = first; j < end; j++) {
            uint64_t* table = &entries[(j - first) * WORDS];
            book.subs[j].distances(residual + book.start[j] - (part == 0 ? 0 : book.h), table);
            least[j - first] = *std::min_element(table, table + WORDS);
            base += least[j - first];
        }
    }
};

// The halves whose keys a query used last. The key of a coarse word is its number, and part 1 is counted on from part 0. With room
// for fewer than two the halves of a cell would take turns, so none is kept, and the two are filled for each cell.
template <size_t WORDS> struct Kept {
    static constexpr uint32_t NONE = UINT32_MAX;
    struct Link { uint32_t key, before, after; };
    uint32_t room, used = 0;
    std::vector<Half<WORDS>> halves;
    std::vector<Link> links;  // a ring of the used slots by last use, which begins at the link behind the last slot
    std::vector<uint32_t> slot_of;

    Kept(uint32_t room, size_t keys) : room(room), halves(std::max(room, 2u)), links(room + 1), slot_of(keys) {}

    void start() {
        used = 0;
        links[room] = {NONE, room, room};
        std::fill(slot_of.begin(), slot_of.end(), NONE);
    }

    void take_out(uint32_t slot) {
        links[links[slot].before].after = links[slot].after;
        links[links[slot].after].before = links[slot].before;
    }
    void put_first(uint32_t slot) {
        links[slot].before = room;
        links[slot].after = links[room].after;
        links[links[room].after].before = slot;
        links[room].after = slot;
    }

    const Half<WORDS>& half(const Book& book, const uint8_t* x, size_t part, size_t word, uint64_t& filled) {
        const uint32_t key = uint32_t(part == 0 ? word : book.k0 + word);
        uint32_t slot = room < 2 ? uint32_t(part) : slot_of[key];
        const bool fresh = room < 2 || slot == NONE;
        if (room >= 2) {
            if (!fresh) {
                take_out(slot);
            } else if (used < room) {
                slot = used++;
            } else {
                slot = links[room].before;
                take_out(slot);
                slot_of[links[slot].key] = NONE;
            }
            put_first(slot);
            links[slot].key = key;
            slot_of[key] = slot;
        }
        if (fresh) {
            halves[slot].fill(book, x, part, word);
            filled++;
        }
        return halves[slot];
    }
};

struct Found {
    uint64_t sum = 0, cells = 0, live = 0, halves = 0, full = 0;
};

// an engine over codes whose fields have WIDTH bits each
template <int WIDTH> struct Engine {
    static constexpr size_t FIELDS = 16 / WIDTH, SUBS = G * FIELDS, WORDS = size_t(1) << WIDTH;
    Book book;
    Store store;
    Ranks ranks;
    Walk walk;
    Best best;
    Table parts[SUBS] = {};

    explicit Engine(const std::vector<uint8_t>& bytes) : book(bytes, FIELDS, WORDS) { store.cells.resize(book.k0 * book.k1); }

    uint32_t insert(uint32_t id, const uint8_t* x) {
        const uint32_t cell = book.cell(x);
        int32_t residual[D];
        book.residual(x, 0, cell / book.k1, residual);
        book.residual(x, 1, cell % book.k1, residual + book.h);
        std::array<uint16_t, G> code{};
        for (size_t j = 0; j < SUBS; j++) {
            uint64_t to[WORDS];
            book.subs[j].distances(residual + book.start[j], to);
            code[j / FIELDS] |= uint16_t((std::min_element(to, to + WORDS) - to) << (j % FIELDS * WIDTH));
        }
        store.insert(id, cell, code);
        return cell;
    }

    // the small tables from `first` on: steps above each least entry, at most 255
    void fill_small(const Half<WORDS>& half, size_t first, uint64_t step) {
        const uint64_t most = 255 * step, inverse = ((uint64_t)1 << 56) / step;
        for (size_t j = 0; j < half.least.size(); j++) {
            for (size_t w = 0; w < WORDS; w++) {
                const uint64_t gap = std::min(half.entries[j * WORDS + w] - half.least[j], most);
                const uint64_t low = (gap * inverse) >> 56;  // the quotient, or one less
                parts[first + j][w] = (uint8_t)(low + (gap - low * step >= step ? 1 : 0));
            }
        }
    }

    V bounds(const Block& block) const {
        V sum = splat(0);
        const Table* t = parts;
        for (const Row& row : block.row) sum = add_word<WIDTH, WIDTH, WIDTH == 4 ? 4 : 0>(sum, t, row);
        return sum;
    }

    static uint64_t picked(const Half<WORDS>& half, size_t first, const uint16_t* word) {
        uint64_t sum = 0;
        for (size_t i = 0; i < half.least.size(); i++) {
            const size_t j = first + i;
            sum += half.entries[i * WORDS + (word[j / FIELDS * 32] >> (j % FIELDS * WIDTH) & (WORDS - 1))];
        }
        return sum;
    }

    // if K rows came before the cell, only rows whose bound is not above the threshold are full, and none if the cell lies too far
    void scan(const Cell& cell, const Half<WORDS>& low, const Half<WORDS>& high, Found& found) {
        const bool late = best.heap.size() == K;
        const uint64_t base = low.base + high.base;
        uint64_t theta = 0, step = 1;
        uint8_t most = 255;
        if (late) {
            theta = best.heap.front().first;
            if (theta < base) return;
            step = (theta - base) / 255 + 1;
            most = uint8_t((theta - base) / step);
            fill_small(low, 0, step);
            fill_small(high, book.split, step);
        }
        for (size_t n = 0; n < cell.blocks.size(); n++) {
            const Block& block = cell.blocks[n];
            uint32_t rows = store.live_in(cell, n);
            V bound = splat(0);
            if (late) {
                bound = bounds(block);
                rows &= at_most(bound, most);
            }
            while (rows != 0) {
                const int i = __builtin_ctz(rows);
                rows &= rows - 1;
                found.full++;
                const uint16_t* word = &block.row[0].word[i];
                best.offer({picked(low, 0, word) + picked(high, book.split, word), cell.slots[32 * n + size_t(i)].id});
                if (late && best.heap.front().first != theta) {
                    theta = best.heap.front().first;
                    most = uint8_t((theta - base) / step);  // (a row that came in lies at `base` at least)
                    rows &= at_most(bound, most);
                }
            }
        }
    }

    uint64_t live_of(const Cell& cell) const {
        if (cell.dead == 0) return cell.slots.size();
        uint64_t live = 0;
        for (size_t n = 0; n < cell.blocks.size(); n++) live += uint64_t(__builtin_popcount(store.live_in(cell, n)));
        return live;
    }

    // the ten nearest of the rows of the first cells that hold as many as are wanted
    void search(const uint8_t* x, uint64_t wanted, Kept<WORDS>& kept, Found& found) {
        Ranks::fill(ranks.part0, book.parts[0], book.scale, x);
        Ranks::fill(ranks.part1, book.parts[1], book.scale, x + book.h);
        walk.start(ranks);
        best.heap.clear();
        kept.start();
        const uint64_t needed = std::min<uint64_t>(wanted, store.cell_of.size());
        uint64_t seen = 0;
        uint32_t number = 0;
        while (seen < needed && walk.next(ranks, number)) {
            found.cells++;
            const Cell& cell = store.cells[number];
            const uint64_t live = live_of(cell);
            if (live == 0) continue;
            seen += live;
            const Half<WORDS>& low = kept.half(book, x, 0, number / book.k1, found.halves);
            const Half<WORDS>& high = kept.half(book, x, 1, number % book.k1, found.halves);
            scan(cell, low, high, found);
        }
        std::sort_heap(best.heap.begin(), best.heap.end());
        found.live += seen;
        for (const Pair& pair : best.heap) found.sum = found.sum * 31 + (pair.first ^ (uint64_t)pair.second << 40);
    }
};

static int64_t now() {
    timespec t;
    clock_gettime(CLOCK_PROCESS_CPUTIME_ID, &t);
    return (int64_t)t.tv_sec * 1000000000 + t.tv_nsec;
}

static std::vector<uint8_t> bytes_of(const char* name) {
    std::vector<uint8_t> bytes;
    FILE* f = fopen(name, "rb");
    if (!f) return bytes;
    fseek(f, 0, SEEK_END);
    bytes.resize((size_t)ftell(f));
    fseek(f, 0, SEEK_SET);
    if (fread(bytes.data(), 1, bytes.size(), f) != bytes.size()) bytes.clear();
    fclose(f);
    return bytes;
}

struct Data {
    std::vector<uint8_t> base, queries;
    int rounds;
};

template <int WIDTH> static void ask_rounds(Engine<WIDTH>& engine, const Data& data, uint64_t wanted, uint32_t cache) {
    Kept<Engine<WIDTH>::WORDS> kept(cache, engine.book.k0 + engine.book.k1);
    Found found;
    int64_t least = INT64_MAX;
    for (int round = 0; round < data.rounds; round++) {
        found = Found();
        const int64_t start = now();
        for (size_t at = 4; at < data.queries.size(); at += D + 4) engine.search(&data.queries[at], wanted, kept, found);
        least = std::min(least, now() - start);
    }
    printf("%llu %u %llu %llu %llu %llu %llu %lld\n", (unsigned long long)wanted, cache, (unsigned long long)found.sum, (unsigned long long)found.cells,
           (unsigned long long)found.live, (unsigned long long)found.halves, (unsigned long long)found.full, (long long)least);
}

template <int WIDTH> static void run(const std::vector<uint8_t>& book, const Data& data, const std::vector<uint64_t>& wanted) {
    static Engine<WIDTH> engine(book);
    uint64_t sum = 0;
    uint32_t id = 0;
    const int64_t start = now();
    for (size_t at = 4; at < data.base.size(); at += D + 4) sum = sum * 31 + engine.insert(id++, &data.base[at]);
    printf("insert %llu %lld\n", (unsigned long long)sum, (long long)(now() - start));
    for (uint64_t rows : wanted)
        for (uint32_t cache : {0, 128, 2048}) ask_rounds(engine, data, rows, cache);
}

int main(int count, char** words) {
    if (count < 6) return 1;
    const std::vector<uint8_t> book = bytes_of(words[1]);
    const Data data{bytes_of(words[2]), bytes_of(words[3]), atoi(words[4])};
    std::vector<uint64_t> wanted;
    for (int word = 5; word < count; word++) wanted.push_back(strtoull(words[word], nullptr, 10));
    if (book.size() < 19) return 1;
    if (book[16] == 0) run<4>(book, data, wanted);
    else run<8>(book, data, wanted);
}
