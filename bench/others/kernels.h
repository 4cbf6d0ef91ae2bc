// Runs four kernels of LDBC Graphalytics over one library's graph, and times each from the built structure to the
// table.
//
//     PROGRAM GRAPH ROOT KERNELS [FOLDER]
//
// GRAPH.v and GRAPH.e are read, and the library's graph is built from arrays. KERNELS is a list such as
// bfs,wcc,cdlp,sssp. Prints a line for each step: its name, and microseconds. With FOLDER each table is written there,
// as teseo writes it.
#pragma once

#include "common.h"

/// The value of each vertex, in the order of their ids.
using Table = std::vector<uint64_t>;

/// The value of a vertex to which no walk leads.
constexpr uint64_t NO_WALK = 9223372036854775807;

/// How often labels are passed on.
constexpr int ROUNDS = 10;

/// Writes a table in the form of LDBC Graphalytics. Where no walk leads, `none` is written.
inline bool write_table(const std::string& name, const Table& table, const char* none) {
    std::string text;
    text.reserve(table.size() * 16);
    for (size_t vertex = 0; vertex < table.size(); ++vertex) {
        text += std::to_string(vertex + 1);
        text += ' ';
        text += table[vertex] == NO_WALK ? none : std::to_string(table[vertex]);
        text += '\n';
    }
    std::FILE* file = std::fopen(name.c_str(), "wb");
    if (!file || std::fwrite(text.data(), 1, text.size(), file) != text.size() || std::fclose(file) != 0)
        fail(name + " can't be written");
    return true;
}

/// The label that most of some vertices have, the least of several: the labels are counted in `counts`, which has a
/// zero for each vertex before and after.
template <class Vertices, class Label>
Label most_frequent(const Vertices& vertices, const std::vector<Label>& labels, std::vector<uint32_t>& counts,
                    Label own) {
    uint32_t most = 0;
    Label best = own;
    for (const auto vertex : vertices) {
        const Label label = labels[vertex];
        const uint32_t count = ++counts[label];
        if (count > most || (count == most && label < best)) {
            most = count;
            best = label;
        }
    }
    for (const auto vertex : vertices) counts[labels[vertex]] = 0;
    return best;
}

/// The least id of each vertex's component, from numbers of components.
template <class Components>
Table least_ids(const Components& component_of, uint32_t vertices) {
    Table least(vertices, 0), table(vertices);
    for (uint32_t vertex = 0; vertex < vertices; ++vertex) {
        uint64_t& id = least[component_of[vertex]];
        if (id == 0) id = vertex + 1;
        table[vertex] = id;
    }
    return table;
}

template <class Graph>
int run(int count, char** words) {
    if (count < 4) fail("PROGRAM GRAPH ROOT KERNELS [FOLDER]");
    const std::string kernels = words[3];
    const uint32_t root = static_cast<uint32_t>(std::atoi(words[2])) - 1;
    Edges edges = timed("read", [&] { return read_graph(words[1]); });
    const Graph graph = timed("build", [&] { return Graph(edges); });
    edges.list = {};
    const auto kernel = [&](const char* name, const char* none, auto call) {
        if (kernels.find(name) == std::string::npos) return;
        const Table table = timed(name, call);
        if (count > 4) timed("write", [&] { return write_table(std::string(words[4]) + "/" + name, table, none); });
    };
    kernel("bfs", "9223372036854775807", [&] { return graph.search(root); });
    kernel("wcc", "", [&] { return graph.components(); });
    kernel("cdlp", "", [&] { return graph.labels(); });
    kernel("sssp", "infinity", [&] { return graph.paths(root); });
    return 0;
}
