// Makes graphs, from the same numbers the same ones that teseo's measurements draw in memory.
//
//     graphs PREFIX VERTICES EDGES SEED              a power-law graph, as bench_kernels draws it
//     graphs PREFIX VERTICES EDGES SEED CHANGES      a graph by R-MAT, with changes of its edges, as bench_engine draws
//     them
//
// Writes PREFIX.v, PREFIX.e with weights from 1 to 1,000,000, and PREFIX.changes. Each line of that is a change of one
// edge: `0 U V` adds it with weight 1, `1 U V` gives it weight 2, and `2 U V` drops it. All of them can be made, in any
// order.

#include <algorithm>
#include <unordered_set>

#include "common.h"

/// SplitMix64 (Steele, Lea and Flood, 2014).
struct Random {
    uint64_t state;

    uint64_t next() {
        state += 0x9e3779b97f4a7c15;
        uint64_t word = state;
        word = (word ^ (word >> 30)) * 0xbf58476d1ce4e5b9;
        word = (word ^ (word >> 27)) * 0x94d049bb133111eb;
        return word ^ (word >> 31);
    }
};

/// The ends of an edge, from 1 on.
struct Ends {
    uint64_t source, target;
};

/// Goes down to a cell of the matrix, whose quarters have chances of 57, 19, 19 and 5 in 100 (Chakrabarti, Zhan and
/// Faloutsos, 2004).
Ends draw(Random& random, int levels) {
    Ends ends{0, 0};
    for (int level = 0; level < levels; ++level) {
        const uint64_t chance = random.next() % 100;
        ends.source = ends.source * 2 + (chance >= 76);
        ends.target = ends.target * 2 + (chance >= 95 || (57 <= chance && chance < 76));
    }
    return {ends.source + 1, ends.target + 1};
}

/// So many different edges by R-MAT, none of them a loop.
std::vector<Ends> rmat_edges(uint64_t seed, uint64_t vertices, uint64_t count) {
    int levels = 0;
    while (vertices > uint64_t{1} << levels) ++levels;
    Random random{seed};
    std::unordered_set<uint64_t> seen;
    std::vector<Ends> kept;
    for (uint64_t number = 0; number < count * 8 && kept.size() < count; ++number) {
        const Ends ends = draw(random, levels);
        const auto [least, most] = std::minmax(ends.source, ends.target);
        if (most <= vertices && least != most && seen.insert(least << 32 | most).second) kept.push_back(ends);
    }
    return kept;
}

/// Edges whose ends are drawn with a chance in proportion to their rank's power -2/3 (Chung and Lu, exponent 2.5), in
/// no order.
std::vector<Ends> power_law_edges(uint64_t seed, uint64_t vertices, uint64_t count) {
    uint64_t state = seed + 88172645463325252;
    const auto next = [&] {
        state ^= state << 13;
        state ^= state >> 7;
        state ^= state << 17;
        return state * 2685821657736338717;
    };
    const auto vertex = [&] {
        const uint64_t even = next() >> 44;
        const uint64_t rank = (((even * even >> 20) * even >> 20) * vertices) >> 20;
        return rank * 7368787 % vertices + 1;
    };
    std::vector<uint64_t> edges;
    for (int round = 0; round < 40; ++round) {
        for (uint64_t missing = count - edges.size(); missing > 0; --missing) {
            const uint64_t a = vertex(), b = vertex();
            if (a != b) edges.push_back(std::min(a, b) << 32 | std::max(a, b));
        }
        std::sort(edges.begin(), edges.end());
        edges.erase(std::unique(edges.begin(), edges.end()), edges.end());
    }
    for (size_t left = edges.size(); left > 1; --left) std::swap(edges[left - 1], edges[next() % left]);
    std::vector<Ends> ends;
    for (const uint64_t edge : edges) ends.push_back({edge >> 32, edge & UINT32_MAX});
    return ends;
}

/// The weight of an edge, whichever end is named first.
uint64_t weight_of(Ends ends) {
    const uint64_t mixed = std::min(ends.source, ends.target) * 11400714819323198485u ^
                           std::max(ends.source, ends.target) * 13787848793156543929u;
    return (mixed ^ mixed >> 29) * 2685821657736338717 % 1000000 + 1;
}

std::FILE* opened(const std::string& name) {
    std::FILE* file = std::fopen(name.c_str(), "w");
    if (!file) fail(name + " can't be written");
    return file;
}

void write_graph(const std::string& prefix, uint64_t vertices, const Ends* edges, uint64_t count) {
    std::FILE* file = opened(prefix + ".v");
    for (uint64_t id = 1; id <= vertices; ++id) std::fprintf(file, "%lu\n", id);
    std::fclose(file);
    file = opened(prefix + ".e");
    for (uint64_t at = 0; at < count; ++at)
        std::fprintf(file, "%lu %lu %lu\n", edges[at].source, edges[at].target, weight_of(edges[at]));
    std::fclose(file);
}

/// Half of the changes add an edge, a quarter sets one and a quarter drops one. Those that are set or dropped are as
/// far from one another in the order of drawing as they can be.
void write_changes(const std::string& prefix, const std::vector<Ends>& ends, uint64_t edges, uint64_t count) {
    std::FILE* file = opened(prefix + ".changes");
    const uint64_t apart = std::max<uint64_t>(1, edges / std::max<uint64_t>(1, count / 2));
    for (uint64_t number = 0; number < count; ++number) {
        const int act = number % 2 == 0 ? 0 : number % 4 == 1 ? 1 : 2;
        const Ends edge = act == 0 ? ends[edges + number / 2] : ends[number / 2 * apart];
        std::fprintf(file, "%d %lu %lu\n", act, edge.source, edge.target);
    }
    std::fclose(file);
}

int main(int count, char** words) {
    if (count < 5) fail("graphs PREFIX VERTICES EDGES SEED [CHANGES]");
    const std::string prefix = words[1];
    const uint64_t vertices = std::stoull(words[2]), edges = std::stoull(words[3]), seed = std::stoull(words[4]);
    if (count == 5) {
        const auto ends = power_law_edges(seed, vertices, edges);
        write_graph(prefix, vertices, ends.data(), ends.size());
    } else {
        const uint64_t changes = std::stoull(words[5]);
        const auto ends = rmat_edges(seed, vertices, edges + changes / 2 + 1);
        write_graph(prefix, vertices, ends.data(), edges);
        write_changes(prefix, ends, edges, changes);
    }
}
