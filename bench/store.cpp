// A store of rows by cell in C++, by std::map from cells to their rows and from ids to their cells, timed as
// `bench_queries store` does: the word ROWS prints a line a pass: its number, a checksum, the nanoseconds spent and the
// bytes that the process then has in memory.
#include <algorithm>
#include <array>
#include <cstdint>
#include <cstdio>
#include <cstdlib>
#include <ctime>
#include <map>
#include <utility>
#include <vector>

struct Numbers {
    uint64_t state;
    uint32_t next() {
        state = state * 6364136223846793005u + 1442695040888963407u;
        return uint32_t(state >> 32);
    }
};

using Code = std::array<uint16_t, 8>;

static Code code_of(uint32_t id) {
    Code code;
    for (uint32_t i = 0; i < 8; i++) code[i] = uint16_t(id * 2654435761u + i);
    return code;
}

// the rows of a cell in order
struct Cell {
    std::vector<uint32_t> ids;
    std::vector<Code> codes;
};

struct Store {
    std::map<uint32_t, Cell> cells;
    std::map<uint32_t, uint32_t> cell_of;

    void insert(uint32_t id, uint32_t cell, const Code& code) {
        if (!cell_of.emplace(id, cell).second) return;
        Cell& rows = cells[cell];
        rows.ids.push_back(id);
        rows.codes.push_back(code);
    }

    void remove(uint32_t id) {
        auto place = cell_of.find(id);
        if (place == cell_of.end()) return;
        auto cell = cells.find(place->second);
        Cell& rows = cell->second;
        auto at = std::find(rows.ids.begin(), rows.ids.end(), id) - rows.ids.begin();
        rows.ids.erase(rows.ids.begin() + at);
        rows.codes.erase(rows.codes.begin() + at);
        if (rows.ids.empty()) cells.erase(cell);
        cell_of.erase(place);
    }

    template <class Passes>
    uint32_t passing_up_to(Passes passes, uint32_t most) const {
        uint32_t count = 0;
        for (const auto& [number, cell] : cells) {
            for (uint32_t id : cell.ids) count += passes(id);
            if (most <= count) return most;
        }
        return count;
    }

    uint32_t live_up_to(uint32_t most) const { return std::min(most, uint32_t(cell_of.size())); }
};

static uint64_t walk_cell(const Cell& cell) {
    uint64_t sum = 0;
    for (uint32_t id : cell.ids) sum = sum * 31 + id;
    for (const Code& code : cell.codes) {
        for (uint16_t word : code) sum += word;
    }
    return sum;
}

static uint64_t walk(const Store& store) {
    uint64_t sum = 0;
    for (uint32_t number = 0; number < 65536; number++) {
        auto cell = store.cells.find(number);
        if (cell != store.cells.end()) sum += walk_cell(cell->second) * (number + 1);
    }
    return sum;
}

static uint64_t insert_all(Store& store, uint32_t rows) {
    Numbers numbers{1};
    for (uint32_t id = 0; id < rows; id++) store.insert(id, numbers.next() >> 16, code_of(id));
    return store.cell_of.size();
}

static uint64_t delete_all(Store& store, const uint32_t* ids, size_t count) {
    for (size_t i = 0; i < count; i++) store.remove(ids[i]);
    return store.cell_of.size();
}

static uint64_t count_all(const Store& store) {
    uint64_t sum = 0;
    for (int i = 0; i < 1000; i++) sum = sum * 31 + store.live_up_to(100);
    return sum;
}

static uint64_t count_ten(const Store& store) {
    uint64_t sum = 0;
    for (int i = 0; i < 10; i++) {
        sum = sum * 31 + store.passing_up_to([](uint32_t id) { return 1000 <= id && id <= 1009; }, 100);
    }
    return sum;
}

static uint64_t run(Store& store, const std::vector<uint32_t>& ids, int pass) {
    size_t half = ids.size() / 2;
    switch (pass) {
        case 0: return insert_all(store, uint32_t(ids.size()));
        case 1:
        case 5: return walk(store);
        case 2: return count_all(store);
        case 3: return count_ten(store);
        case 4: return delete_all(store, ids.data(), half);
        default: return delete_all(store, ids.data() + half, ids.size() - half);
    }
}

static uint64_t now() {
    timespec t;
    clock_gettime(CLOCK_PROCESS_CPUTIME_ID, &t);
    return uint64_t(t.tv_sec) * 1000000000u + uint64_t(t.tv_nsec);
}

static uint64_t resident() {
    unsigned long long size = 0, pages = 0;
    if (FILE* file = fopen("/proc/self/statm", "r")) {
        if (fscanf(file, "%llu %llu", &size, &pages) != 2) pages = 0;
        fclose(file);
    }
    return pages * 4096;
}

int main(int count, char** words) {
    if (count < 2) return 0;
    uint32_t rows = uint32_t(strtoul(words[1], nullptr, 10));
    std::vector<uint32_t> ids;
    for (uint32_t id = 0; id < rows; id++) ids.push_back(id);
    Numbers numbers{2};
    for (size_t last = 1; last < ids.size(); last++) std::swap(ids[last], ids[numbers.next() % (last + 1)]);
    Store store;
    printf("start 0 0 %llu\n", (unsigned long long)resident());
    for (int pass = 0; pass < 7; pass++) {
        uint64_t start = now();
        uint64_t sum = run(store, ids, pass);
        uint64_t spent = now() - start;
        printf("%d %llu %llu %llu\n", pass, (unsigned long long)sum, (unsigned long long)spent,
               (unsigned long long)resident());
    }
}
