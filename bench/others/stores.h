// Times transactions of one edge each on a store of ordered rows.
//
//     PROGRAM GRAPH FOLDER THREADS [scan]
//
// GRAPH.v and GRAPH.e are loaded, and GRAPH.changes is made by so many threads, each of which has a part of it; no two
// changes are of one edge. A row has a source, a target and a weight: both arcs of each edge have one, and a vertex has
// one whose target is 0. A transaction looks up both vertices, and then adds, sets or drops both arcs. Nothing is made
// durable. With `scan` another thread reads whole snapshots meanwhile. FOLDER is for what the store writes.
//
// Prints a line for each step: its name, and how many a second. `sum` is a sum of all rows in the end, the same for all
// stores; `torn` is how many snapshots had one arc of an edge without the other, or with another weight.
#pragma once

#include <algorithm>
#include <atomic>
#include <optional>
#include <thread>

#include "common.h"

struct Row {
    uint32_t source, target, weight;
};

enum class Act { Add, Set, Drop };

struct Change {
    Act act;
    uint32_t source, target;

    /// The weight that an edge has afterwards.
    uint32_t weight() const { return act == Act::Set ? 2 : 1; }
};

/// What a scan has seen.
struct Seen {
    uint64_t rows = 0, sum = 0, difference = 0;

    void add(Row row) {
        ++rows;
        sum += uint64_t{row.source} * (uint64_t{row.target} + 7) * (uint64_t{row.weight} + 13);
        const auto [least, most] = std::minmax(row.source, row.target);
        const uint64_t mixed = (uint64_t{least} * 2654435761u ^ most) * (uint64_t{row.weight} + 13);
        if (least != 0) difference += row.source < row.target ? mixed : -mixed;
    }

    bool is_torn() const { return difference != 0; }
};

inline std::vector<Row> rows_of(const Edges& edges) {
    std::vector<Row> rows;
    for (uint32_t vertex = 1; vertex <= edges.vertices; ++vertex) rows.push_back({vertex, 0, 0});
    for (const Edge& edge : edges.list) {
        rows.push_back({edge.source + 1, edge.target + 1, edge.weight});
        rows.push_back({edge.target + 1, edge.source + 1, edge.weight});
    }
    std::sort(rows.begin(), rows.end(),
              [](const Row& a, const Row& b) { return std::pair(a.source, a.target) < std::pair(b.source, b.target); });
    return rows;
}

inline std::vector<Change> changes_of(const std::string& name) {
    const auto numbers = numbers_of(name);
    std::vector<Change> changes;
    for (size_t at = 0; at + 2 < numbers.size(); at += 3)
        changes.push_back({static_cast<Act>(numbers[at]), numbers[at + 1], numbers[at + 2]});
    return changes;
}

inline void say_rate(const char* name, uint64_t count, std::chrono::steady_clock::duration took) {
    std::printf("%s %.0f\n", name, count / std::chrono::duration<double>(took).count());
    std::fflush(stdout);
}

/// A store has `Store(folder)`, `load(rows)`, and for each thread a `Store::Session(store)` with `make(change)`, which
/// answers whether it was made, and `scan()`, which answers what was `Seen`.
template <class Store>
int run(int count, char** words) {
    if (count < 4) fail("PROGRAM GRAPH FOLDER THREADS [scan]");
    using Clock = std::chrono::steady_clock;
    const auto changes = changes_of(std::string(words[1]) + ".changes");
    const size_t threads = std::max(1, std::atoi(words[3]));
    Store store{std::string(words[2])};
    {
        const auto rows = rows_of(read_graph(words[1]));
        const auto begun = Clock::now();
        store.load(rows);
        say_rate("load", rows.size(), Clock::now() - begun);
    }

    std::atomic<uint64_t> made{0}, waiting{threads}, scanned{0}, torn{0};
    std::atomic<bool> may_begin{false}, is_done{false};
    const auto change_part = [&](size_t part) {
        typename Store::Session session(store);
        uint64_t own = 0;
        --waiting;
        while (!may_begin) std::this_thread::yield();
        for (size_t at = changes.size() * part / threads; at < changes.size() * (part + 1) / threads; ++at)
            own += session.make(changes[at]);
        made += own;
    };
    const auto scan_all = [&] {
        typename Store::Session session(store);
        while (!may_begin) std::this_thread::yield();
        while (!is_done) {
            const Seen seen = session.scan();
            scanned += seen.rows;
            torn += seen.is_torn();
        }
    };
    std::vector<std::thread> writers;
    for (size_t part = 0; part < threads; ++part) writers.emplace_back(change_part, part);
    std::optional<std::thread> scanner;
    if (count > 4) scanner.emplace(scan_all);
    while (waiting > 0) std::this_thread::yield();
    const auto begun = Clock::now();
    may_begin = true;
    for (auto& writer : writers) writer.join();
    const auto took = Clock::now() - begun;
    is_done = true;
    say_rate("transactions", made, took);
    if (scanner) {
        scanner->join();
        say_rate("scanned", scanned, Clock::now() - begun);
        std::printf("torn %lu\n", torn.load());
    }
    typename Store::Session session(store);
    const auto scan_begun = Clock::now();
    const Seen seen = session.scan();
    say_rate("scan", seen.rows, Clock::now() - scan_begun);
    std::printf("rows %lu\nsum %lu\n", seen.rows, seen.sum);
    std::fflush(stdout);
    // what the store would still tidy up isn't waited for
    std::_Exit(0);
}
