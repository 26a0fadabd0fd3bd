// Sessions over the engine of engine.hpp, timed as `bench_sessions` does and with the same words and lines: the words BOOK
// BASE QUERIES WANTED and then SESSIONS BUDGET CHANGES, as often as is wanted.
#include "engine.hpp"
#include <memory>

constexpr size_t ROUNDS = 5, SIZE = 132;
constexpr uint64_t TURNS = 100, STRIDE = 617411;

// in turn a delete of one of the first rows, in a scattered order, and an insert of the vector of another under an id of its own
struct Feed {
    const std::vector<uint8_t>& base;
    uint64_t done = 0;

    uint64_t place(uint64_t n) const { return n * STRIDE % (base.size() / SIZE); }

    void change(Engine& engine) {
        const uint64_t rows = base.size() / SIZE, n = done / 2;
        if (done % 2 == 0) engine.store.remove((uint32_t)place(n));
        else engine.insert(uint32_t(rows + n), &base[place(n + rows / 2) * SIZE + 4]);
        done++;
    }
};

struct Trial {
    const std::vector<uint8_t>& queries;
    uint64_t sessions, wanted, budget, changes;

    const uint8_t* query(uint64_t n) const { return &queries[n * SIZE + 4]; }
};

static void ask_plain(Engine& engine, const Trial& trial) {
    Found found;
    int64_t whole = INT64_MAX, asks = INT64_MAX;
    for (size_t round = 0; round < ROUNDS; round++) {
        found = Found();
        const int64_t start = now();
        for (uint64_t n = 0; n < trial.sessions; n++) {
            found.sum += sum_of(engine.search(trial.query(n), trial.wanted));
            found.add(engine.visit.found);
        }
        const int64_t between = now();
        for (uint64_t n = 0; n < trial.sessions; n++) engine.visit.ask(engine.book, trial.query(n));
        whole = std::min(whole, between - start);
        asks = std::min(asks, now() - between);
    }
    printf("plain %llu %llu %llu %llu %lld %lld\n", (unsigned long long)found.sum, (unsigned long long)found.cells, (unsigned long long)found.live, (unsigned long long)found.full, (long long)whole, (long long)asks);
}

using Sessions = std::vector<std::unique_ptr<Visit>>;

static Sessions opened(Engine& engine, const Trial& trial) {
    Sessions sessions;
    for (uint64_t n = 0; n < trial.sessions; n++) {
        sessions.push_back(std::make_unique<Visit>());
        engine.store.pin();
        sessions.back()->ask(engine.book, trial.query(n));
        sessions.back()->begin(engine.store, trial.wanted);
    }
    return sessions;
}

static void step_all(const Engine& engine, Sessions& sessions, uint64_t budget) {
    for (auto& session : sessions) session->step(engine.store, budget);
}

static Found ended(Engine& engine, Sessions& sessions) {
    Found found;
    for (; !sessions.empty(); sessions.pop_back()) {
        found.sum += sum_of(sessions.back()->answers());
        found.add(sessions.back()->found);
        engine.store.unpin(sessions.back()->stamp);
    }
    return found;
}

static void run_sessions(Engine& engine, Feed& feed, const Trial& trial) {
    const long long before = resident();
    int64_t start = now();
    Sessions sessions = opened(engine, trial);
    const int64_t opening = now() - start;
    const long long between = resident();
    int64_t steps = 0, changes = 0;
    for (uint64_t turn = 0; turn < TURNS; turn++) {
        start = now();
        for (uint64_t n = 0; n < trial.changes / TURNS; n++) feed.change(engine);
        const int64_t middle = now();
        step_all(engine, sessions, trial.budget);
        changes += middle - start;
        steps += now() - middle;
    }
    start = now();
    step_all(engine, sessions, UINT64_MAX);
    steps += now() - start;
    const long long after = resident();
    start = now();
    const Found found = ended(engine, sessions);
    const int64_t ending = now() - start;
    printf("sessions %llu %llu %llu %llu %lld %lld %lld\n", (unsigned long long)found.sum, (unsigned long long)found.cells, (unsigned long long)found.live, (unsigned long long)found.full, (long long)opening, (long long)steps, (long long)ending);
    printf("changes %llu %lld\n", (unsigned long long)(trial.changes / TURNS * TURNS), (long long)changes);
    printf("bytes %lld %lld %zu\n", between - before, after - between, engine.store.places.size());
}

int main(int count, char** words) {
    if (count < 5) return 1;
    const std::vector<uint8_t> base = bytes_of(words[2]), queries = bytes_of(words[3]);
    static Engine engine(bytes_of(words[1]));
    const long long before = resident();
    uint64_t sum = 0;
    const int64_t start = now();
    for (size_t row = 0; row < base.size() / SIZE; row++) sum = sum * 31 + engine.insert((uint32_t)row, &base[row * SIZE + 4]);
    const int64_t spent = now() - start;
    printf("insert %llu %lld %lld %zu\n", (unsigned long long)sum, (long long)spent, resident() - before, engine.store.places.size());
    Feed feed{base};
    for (int word = 5; word + 2 < count; word += 3) {
        auto number = [&](int at) { return strtoull(words[at], nullptr, 10); };
        const Trial trial{queries, std::min<uint64_t>(number(word), queries.size() / SIZE), number(4), number(word + 1), number(word + 2)};
        ask_plain(engine, trial);
        run_sessions(engine, feed, trial);
    }
}
