// The commands `build` and `search` in C++ by the same rules as crates/adc_program, over the engine of engine.hpp: for
// books of version 1, shape 4-4-4-4, g 8, indexes of version 2, and ten ids a query. The same words give the same files and texts:
//
//     build BOOK BASE INDEX          search INDEX QUERIES 10 WANTED OUT
//
// Inputs are checked as far as a read beyond their end or their limits could go wrong.
#include <cstdio>
#include <cstdlib>
#include <string>
#include "engine.hpp"

using Bytes = std::vector<uint8_t>;

[[noreturn]] static void fail(const char* what) {
    fprintf(stderr, "commands: %s\n", what);
    exit(1);
}

static uint32_t number32(const uint8_t* at) { return uint32_t(at[0]) | uint32_t(at[1]) << 8 | uint32_t(at[2]) << 16 | uint32_t(at[3]) << 24; }
static uint16_t number16(const uint8_t* at) { return uint16_t(at[0] | at[1] << 8); }

// a file that is read or written from its beginning
struct File {
    FILE* file;
    File(const char* name, const char* mode) : file(fopen(name, mode)) {
        if (!file) fail(name);
        setvbuf(file, nullptr, _IOFBF, 8192);
    }
    ~File() { fclose(file); }
    bool read(uint8_t* into, size_t n) { return fread(into, 1, n, file) == n; }
    void take(uint8_t* into, size_t n) {
        if (!read(into, n)) fail("a file is cut");
    }
    uint32_t take32() {
        uint8_t bytes[4];
        take(bytes, 4);
        return number32(bytes);
    }
    bool ended() { return fgetc(file) == EOF; }
    void put(const uint8_t* bytes, size_t n) {
        if (fwrite(bytes, 1, n, file) != n) fail("a file cannot be written");
    }
    void put32(uint32_t n) {
        const uint8_t bytes[4] = {uint8_t(n), uint8_t(n >> 8), uint8_t(n >> 16), uint8_t(n >> 24)};
        put(bytes, 4);
    }
};

// The rows of a bvecs file, each of d components: checked first as a whole, and then read one by one.
struct Vectors {
    File file;
    size_t d, rows = 0;
    Bytes row;

    Vectors(const char* name, size_t d_) : file(name, "rb"), d(d_), row(d_ + 4) {
        while (next()) rows++;
        rewind(file.file);
    }

    // the next row, or nothing behind the last one
    const uint8_t* next() {
        const size_t n = fread(row.data(), 1, d + 4, file.file);
        if (n == 0) return nullptr;
        if (n != d + 4 || number32(row.data()) != d) fail("malformed vectors");
        return row.data() + 4;
    }
};

static size_t used(const Store& store) {
    return size_t(std::count_if(store.cells.begin(), store.cells.end(), [](const Cell& cell) { return !cell.slots.empty(); }));
}

// ---- build

static void write_cell(File& file, uint32_t number, const Cell& cell) {
    if (cell.slots.empty()) return;
    file.put32(number);
    file.put32(uint32_t(cell.slots.size()));
    for (size_t i = 0; i < cell.slots.size(); i++) {
        file.put32(cell.slots[i].id);
        uint8_t words[2 * G];
        for (size_t w = 0; w < G; w++) {
            const uint16_t word = cell.blocks[i / 32].row[w].word[i % 32];
            words[2 * w] = uint8_t(word);
            words[2 * w + 1] = uint8_t(word >> 8);
        }
        file.put(words, sizeof words);
    }
}

static void build(char** words) {
    const Bytes book = bytes_of(words[0]);
    if (book.size() < 18 || memcmp(book.data(), "ADCBOOK1", 8) != 0) fail("not a book of version 1");
    Engine engine(book);
    Vectors base(words[1], engine.book.d);
    for (uint32_t id = 0; id < base.rows; id++) engine.insert(id, base.next());
    const Store& store = engine.store;
    File index(words[2], "wb");
    index.put((const uint8_t*)"ADCINDX2", 8);
    index.put32(uint32_t(book.size()));
    index.put(book.data(), book.size());
    index.put32(uint32_t(store.places.size()));
    index.put32(uint32_t(used(store)));
    for (size_t number = 0; number < store.cells.size(); number++) write_cell(index, uint32_t(number), store.cells[number]);
    printf("build rows %zu cells %zu\n", store.places.size(), used(store));
}

// ---- search and allowed

static void read_rows(File& file, uint32_t cell, uint32_t count, Store& store) {
    for (uint32_t i = 0; i < count; i++) {
        uint8_t row[4 + 2 * G];
        file.take(row, sizeof row);
        const uint32_t id = number32(row);
        if (id > 2147483647u) fail("malformed index");
        std::array<uint16_t, G> code;
        for (size_t w = 0; w < G; w++) code[w] = number16(row + 4 + 2 * w);
        const size_t before = store.places.size();
        store.insert(id, cell, code);
        if (store.places.size() == before) fail("malformed index");
    }
}

static Engine read_index(const char* name) {
    File file(name, "rb");
    uint8_t magic[8];
    file.take(magic, 8);
    const uint32_t length = file.take32();
    if (memcmp(magic, "ADCINDX2", 8) != 0 || length > 4194304) fail("malformed index");
    Bytes book(length);
    file.take(book.data(), length);
    Engine engine(book);
    uint32_t rows = file.take32();
    uint32_t low = 0;
    for (uint32_t groups = file.take32(); groups > 0; groups--) {
        const uint32_t cell = file.take32(), count = file.take32();
        if (cell < low || cell >= engine.store.cells.size() || count == 0 || count > rows) fail("malformed index");
        read_rows(file, cell, count, engine.store);
        low = cell + 1;
        rows -= count;
    }
    if (rows != 0 || !file.ended()) fail("malformed index");
    return engine;
}

static void write_ids(File& file, const std::vector<Pair>& pairs) {
    file.put32(K);
    for (size_t i = 0; i < K; i++) file.put32(i < pairs.size() ? pairs[i].second : UINT32_MAX);
}

static void search(char** words) {
    Engine engine = read_index(words[0]);
    Vectors queries(words[1], engine.book.d);
    File out(words[4], "wb");
    const uint64_t wanted = strtoull(words[3], nullptr, 10);
    for (size_t row = 0; row < queries.rows; row++) {
        write_ids(out, engine.search(queries.next(), wanted));
        const Found& found = engine.visit.found;
        printf("query %zu cells %llu live %llu full %llu\n", row, (unsigned long long)found.cells, (unsigned long long)found.live, (unsigned long long)found.full);
    }
    printf("search queries %zu\n", queries.rows);
}

int main(int count, char** words) {
    const std::string command = count > 1 ? words[1] : "";
    if (command == "build" && count == 5) {
        build(words + 2);
    } else if (command == "search" && count == 7 && strtoull(words[4], nullptr, 10) == K) {
        search(words + 2);
    } else {
        fail("unknown words");
    }
}
