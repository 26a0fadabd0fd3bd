// Reading and writing an index file in C++ by the same rules as crates/index_file, over files in memory, by stretches of at most 8,192 bytes:
// a store by std::map from cells to their rows and from ids to their cells, timed as `bench_files index` does. The word ROWS prints a line for
// reading and one for writing: a checksum and the nanoseconds spent. A second word, hash, takes std::unordered_map for the ids.
#include <algorithm>
#include <array>
#include <cstdint>
#include <cstdio>
#include <cstdlib>
#include <cstring>
#include <ctime>
#include <map>
#include <optional>
#include <unordered_map>
#include <utility>
#include <vector>

struct Numbers {
    uint64_t state;
    uint32_t next_wide() {
        state = state * 6364136223846793005u + 1442695040888963407u;
        return uint32_t(state >> 32);
    }
    uint16_t next() { return uint16_t(next_wide() >> 16); }
    uint8_t next_byte() { return uint8_t(next()); }
};

using Bytes = std::vector<uint8_t>;
constexpr size_t STRETCH = 8192;
constexpr uint32_t G = 8;
using Code = std::array<uint16_t, G>;

static void put16(Bytes& to, uint16_t n) {
    to.push_back(uint8_t(n));
    to.push_back(uint8_t(n >> 8));
}

static void put32(Bytes& to, uint32_t n) {
    put16(to, uint16_t(n));
    put16(to, uint16_t(n >> 16));
}

static uint32_t number32(const uint8_t* at) { return uint32_t(at[0]) | uint32_t(at[1]) << 8 | uint32_t(at[2]) << 16 | uint32_t(at[3]) << 24; }
static uint16_t number16(const uint8_t* at) { return uint16_t(at[0] | at[1] << 8); }

// ---- the file that is read

static Bytes book_of() {
    Bytes bytes;
    for (char c : {'A', 'D', 'C', 'B', 'O', 'O', 'K', '1'}) bytes.push_back(uint8_t(c));
    for (int n : {128, 0, 64, 0, 0, 1, 0, 1, 0, int(G)}) bytes.push_back(uint8_t(n));
    for (uint32_t i = 0; i < G * 4; i++) put16(bytes, 4);
    Numbers numbers{5};
    for (int i = 0; i < 128 * 256 + 128 * 16; i++) bytes.push_back(numbers.next_byte());
    return bytes;
}

static Bytes index_of(uint32_t rows) {
    Bytes book = book_of();
    std::vector<uint32_t> counts(65536);
    Numbers numbers{1};
    for (uint32_t i = 0; i < rows; i++) counts[numbers.next()]++;
    Bytes bytes;
    for (char c : {'A', 'D', 'C', 'I', 'N', 'D', 'X', '2'}) bytes.push_back(uint8_t(c));
    put32(bytes, uint32_t(book.size()));
    bytes.insert(bytes.end(), book.begin(), book.end());
    put32(bytes, rows);
    put32(bytes, uint32_t(65536 - std::count(counts.begin(), counts.end(), 0u)));
    uint32_t row = 0;
    for (uint32_t cell = 0; cell < 65536; cell++) {
        if (counts[cell] == 0) continue;
        put32(bytes, cell);
        put32(bytes, counts[cell]);
        for (uint32_t i = 0; i < counts[cell]; i++, row++) {
            uint32_t id = (row * 2654435761u) & 4194303;
            put32(bytes, id);
            for (uint32_t at = 0; at < G; at++) put16(bytes, uint16_t(id * 2654435761u + at));
        }
    }
    return bytes;
}

// ---- the store

struct Slot {
    uint32_t id;
    uint64_t born, died;
};

struct Cell {
    std::vector<Slot> slots;
    std::vector<Code> codes;
};

struct Place {
    uint32_t cell;
    uint64_t born;
};

template <class Ids>
struct Store {
    std::map<uint32_t, Cell> cells;
    Ids ids;
    uint64_t stamp = 0;

    bool insert(uint32_t id, uint32_t cell, const Code& code) {
        if (!ids.emplace(id, Place{cell, stamp + 1}).second) return false;
        stamp++;
        Cell& rows = cells[cell];
        rows.slots.push_back({id, stamp, UINT64_MAX});
        rows.codes.push_back(code);
        return true;
    }
};

// ---- reading

// a place in a file, of which a stretch was fetched
struct Reader {
    const Bytes& file;
    std::array<uint8_t, STRETCH> buffer;
    size_t from = 0, size = 0, at = 0;

    explicit Reader(const Bytes& file) : file(file) {}

    // the next n bytes, if they are there
    const uint8_t* next(size_t n) {
        if (size - at < n) {
            from += at;
            at = 0;
            size = std::min(STRETCH, file.size() - from);
            memcpy(buffer.data(), file.data() + from, size);
            if (size < n) return nullptr;
        }
        const uint8_t* there = buffer.data() + at;
        at += n;
        return there;
    }

    bool ended() const { return from + at == file.size(); }
};

template <class Ids>
struct Index {
    Bytes book;
    Store<Ids> store;
};

template <class Ids>
static bool read_rows(Reader& reader, uint32_t cell, uint32_t count, Store<Ids>& store) {
    for (uint32_t i = 0; i < count; i++) {
        const uint8_t* row = reader.next(4 + 2 * G);
        if (!row) return false;
        uint32_t id = number32(row);
        if (id > 2147483647u) return false;
        Code code;
        for (uint32_t at = 0; at < G; at++) code[at] = number16(row + 4 + 2 * at);
        if (!store.insert(id, cell, code)) return false;
    }
    return true;
}

template <class Ids>
static bool read_groups(Reader& reader, uint32_t groups, uint32_t left, Store<Ids>& store) {
    uint32_t low = 0;
    for (; groups > 0; groups--) {
        const uint8_t* front = reader.next(8);
        if (!front) return false;
        uint32_t cell = number32(front), count = number32(front + 4);
        if (cell < low || cell >= 65536 || count > left - (groups - 1) || count < (groups == 1 ? left : 1)) return false;
        if (!read_rows(reader, cell, count, store)) return false;
        low = cell + 1;
        left -= count;
    }
    return true;
}

template <class Ids>
static std::optional<Index<Ids>> read_index(const Bytes& file) {
    Reader reader(file);
    const uint8_t* front = reader.next(12);
    if (!front || memcmp(front, "ADCINDX2", 8) != 0) return {};
    uint32_t length = number32(front + 8);
    if (length > 4194304) return {};
    Index<Ids> index;
    for (uint32_t i = 0; i < length; i++) {
        const uint8_t* byte = reader.next(1);
        if (!byte) return {};
        index.book.push_back(*byte);
    }
    const uint8_t* counts = reader.next(8);
    if (!counts) return {};
    uint32_t rows = number32(counts), groups = number32(counts + 4);
    if (rows > 4194304 || groups < std::min(1u, rows) || groups > std::min(rows, 65536u)) return {};
    if (!read_groups(reader, groups, rows, index.store) || !reader.ended()) return {};
    return index;
}

// ---- writing

// bytes that go to the end of a file by pieces
struct Pieces {
    Bytes& file;
    std::array<uint8_t, STRETCH> buffer;
    size_t size = 0;

    explicit Pieces(Bytes& file) : file(file) {}

    void flush() {
        file.insert(file.end(), buffer.begin(), buffer.begin() + ptrdiff_t(size));
        size = 0;
    }

    void put(const uint8_t* bytes, size_t n) {
        if (STRETCH - size < n) flush();
        memcpy(buffer.data() + size, bytes, n);
        size += n;
    }

    void number(uint32_t n) {
        uint8_t bytes[4] = {uint8_t(n), uint8_t(n >> 8), uint8_t(n >> 16), uint8_t(n >> 24)};
        put(bytes, 4);
    }
};

static void write_cell(Pieces& pieces, uint32_t number, const Cell& cell, uint64_t stamp) {
    auto lives = [stamp](const Slot& slot) { return slot.born <= stamp && stamp < slot.died; };
    uint32_t live = uint32_t(std::count_if(cell.slots.begin(), cell.slots.end(), lives));
    if (live == 0) return;
    pieces.number(number);
    pieces.number(live);
    for (size_t i = 0; i < cell.slots.size(); i++) {
        if (!lives(cell.slots[i])) continue;
        pieces.number(cell.slots[i].id);
        uint8_t words[2 * G];
        for (uint32_t at = 0; at < G; at++) {
            words[2 * at] = uint8_t(cell.codes[i][at]);
            words[2 * at + 1] = uint8_t(cell.codes[i][at] >> 8);
        }
        pieces.put(words, sizeof words);
    }
}

template <class Ids>
static Bytes write_index(const Index<Ids>& index) {
    Bytes file;
    Pieces pieces(file);
    pieces.put(reinterpret_cast<const uint8_t*>("ADCINDX2"), 8);
    pieces.number(uint32_t(index.book.size()));
    for (size_t at = 0; at < index.book.size(); at += STRETCH) pieces.put(index.book.data() + at, std::min(STRETCH, index.book.size() - at));
    pieces.number(uint32_t(index.store.ids.size()));
    pieces.number(uint32_t(index.store.cells.size()));
    for (const auto& [number, cell] : index.store.cells) write_cell(pieces, number, cell, index.store.stamp);
    pieces.flush();
    return file;
}

// ---- both, timed

static uint64_t now() {
    timespec t;
    clock_gettime(CLOCK_PROCESS_CPUTIME_ID, &t);
    return uint64_t(t.tv_sec) * 1000000000u + uint64_t(t.tv_nsec);
}

template <class Ids>
static void run(uint32_t rows) {
    Bytes file = index_of(rows);
    uint64_t start = now();
    auto index = read_index<Ids>(file);
    uint64_t spent = now() - start;
    if (!index) return;
    uint64_t sum = uint64_t(index->store.ids.size()) * 65537 + index->store.cells.size();
    printf("read %llu %llu\n", (unsigned long long)sum, (unsigned long long)spent);
    start = now();
    Bytes written = write_index(*index);
    spent = now() - start;
    sum = 0;
    for (uint8_t byte : written) sum = sum * 31 + byte;
    printf("write %llu %llu\n", (unsigned long long)sum, (unsigned long long)spent);
}

int main(int count, char** words) {
    if (count < 2) return 0;
    uint32_t rows = uint32_t(strtoul(words[1], nullptr, 10));
    if (rows == 0 || rows > 4194304) return 0;
    if (count > 2 && strcmp(words[2], "hash") == 0) {
        run<std::unordered_map<uint32_t, Place>>(rows);
    } else {
        run<std::map<uint32_t, Place>>(rows);
    }
}
