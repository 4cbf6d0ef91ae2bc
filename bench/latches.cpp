// The steps of bench_latches by std::atomic, to be run by turns with it: SEED RUNS.
// Build: g++ -O3 -march=x86-64-v2 -std=c++20 latches.cpp -o latches -lpthread
#include <atomic>
#include <chrono>
#include <cstdint>
#include <cstdio>
#include <cstdlib>
#include <memory>
#include <thread>
#include <vector>
#include <immintrin.h>
#include <sched.h>

using Clock = std::chrono::steady_clock;
using Word = std::atomic<uint64_t>;

// What lies in a slot.
struct Spot {
    uint64_t count = 0;
    uint64_t sum = 0;
};

struct Table {
    explicit Table(size_t cells) : words(new Word[cells]()), slots(new Spot[cells]()) {}
    std::unique_ptr<Word[]> words;
    std::unique_ptr<Spot[]> slots;
};

struct Random {
    explicit Random(uint64_t seed) : state(seed + 88172645463325252u) {}
    uint64_t draw() {
        state ^= state << 13;
        state ^= state >> 7;
        state ^= state << 17;
        return state * 2685821657736338717u;
    }
    uint32_t below(uint32_t count) {
        uint64_t drawn = ((draw() >> 32) * count) >> 32;
        return drawn < count ? drawn : count - 1;
    }
    uint64_t state;
};

constexpr uint32_t FEW = 512, MANY = 1048576;
constexpr uint64_t CALLS = 50000, ROUNDS = 40, CALLS_OF_FOUR = 250000;
constexpr uint64_t LAST_WORD = UINT64_MAX - 1;

// Waits between looks, twice as long each time, and then leaves the processor to others.
struct Backoff {
    unsigned waits = 0;
    void wait() {
        if (waits >= 32) {
            sched_yield();
            return;
        }
        for (unsigned n = 1u << (waits < 6 ? waits : 6); n; n--) _mm_pause();
        waits++;
    }
};

// Takes a cell, changes what lies there, and gives it back: a load, a compare-exchange, two moves of 16 bytes out and
// two in, and a store.
static uint64_t touch(Table &table, uint32_t cell) {
    Word &word = table.words[cell];
    uint64_t found;
    for (Backoff backoff;; backoff.wait()) {
        found = word.load();
        if (found % 2 == 1 || found == LAST_WORD) continue;
        if (word.compare_exchange_strong(found, found + 1)) break;
    }
    Spot spot = table.slots[cell];
    table.slots[cell] = Spot{};
    std::atomic_signal_fence(std::memory_order_seq_cst);
    spot.count++;
    spot.sum += spot.count;
    table.slots[cell] = spot;
    word.store(found + 2);
    return spot.sum;
}

static uint64_t touch_many(Table &table, uint32_t below, uint64_t calls, Random &random) {
    uint64_t sum = 0;
    for (uint64_t n = 0; n < calls; n++) sum += touch(table, random.below(below));
    return sum;
}

static double since(Clock::time_point begun) {
    return std::chrono::duration<double, std::nano>(Clock::now() - begun).count();
}

template <class Call> static void time_rounds(const char *name, uint64_t calls, Call call) {
    double best = 1e18;
    uint64_t sum = 0;
    for (uint64_t round = 0; round < ROUNDS; round++) {
        auto begun = Clock::now();
        sum += call();
        double took = since(begun) / calls;
        if (took < best) best = took;
    }
    printf("%s %.1f %llu\n", name, best, (unsigned long long)sum);
}

struct alignas(128) Lap {
    double nanoseconds = 0;
    uint64_t calls = 0;
    uint64_t sum = 0;
};

// Four threads, each of which draws cells, or all of which touch the first one for a tenth of a second.
static void time_four(Table &table, bool first, uint64_t seed) {
    double best = 1e18;
    uint64_t all = 0, least = 100;
    for (int round = 0; round < 8; round++) {
        std::vector<Lap> laps(4);
        std::vector<std::thread> threads;
        for (int n = 0; n < 4; n++)
            threads.emplace_back([&table, &lap = laps[n], first, seed, n] {
                Random random(seed + n);
                auto begun = Clock::now();
                if (first) {
                    uint64_t calls = 0, sum = 0;
                    for (; calls % 16 != 0 || since(begun) < 1e8; calls++) sum += touch(table, 0);
                    lap.calls = calls;
                    lap.sum = sum;
                } else {
                    lap.calls = CALLS_OF_FOUR;
                    lap.sum = touch_many(table, MANY, CALLS_OF_FOUR, random);
                }
                lap.nanoseconds = since(begun);
            });
        for (auto &thread : threads) thread.join();
        double nanoseconds = 0;
        uint64_t calls = 0, fewest = UINT64_MAX;
        for (Lap &lap : laps) {
            nanoseconds += lap.nanoseconds / 4;
            calls += lap.calls;
            if (lap.calls < fewest) fewest = lap.calls;
        }
        double each = nanoseconds / (first ? calls : calls / 4);
        if (each < best) best = each;
        if (fewest * 400 / calls < least) least = fewest * 400 / calls;
        all += calls;
    }
    printf("%s %.1f %llu\n", first ? "one-cell-4" : "cell-far-4", best, (unsigned long long)all);
    if (first) printf("one-cell-least %llu %llu\n", (unsigned long long)least, (unsigned long long)all);
}

// Announces, loads the clock and pins, again and again.
static uint64_t pin_often(Word *words) {
    uint64_t sum = 0;
    for (uint64_t n = 0; n < CALLS; n++) {
        words[40].store(1);
        uint64_t start = words[8].load();
        words[40].store(start + 2);
        sum += start;
    }
    return sum;
}

int main(int count, char **words) {
    if (count < 3) return 0;
    uint64_t seed = strtoull(words[1], nullptr, 10), runs = strtoull(words[2], nullptr, 10);
    for (uint64_t run = 0; run < runs; run++) {
        Table table(MANY);
        Random random(seed);
        time_rounds("draw", CALLS, [&] {
            uint64_t sum = 0;
            for (uint64_t n = 0; n < CALLS; n++) sum += random.below(MANY);
            return sum;
        });
        time_rounds("cell", CALLS, [&] { return touch_many(table, FEW, CALLS, random); });
        time_rounds("cell-far", CALLS, [&] { return touch_many(table, MANY, CALLS, random); });
        time_four(table, false, seed);
        time_four(table, true, seed);
        std::unique_ptr<Word[]> pins(new Word[1024]());
        time_rounds("pin", CALLS, [&] { return pin_often(pins.get()); });
    }
}
