// Kernels by the C library of igraph, on one core. It has no labels of Graphalytics: those are a loop over its lists of
// neighbours. The words are told in kernels.h.

#include <igraph.h>

#include <numeric>

#include "kernels.h"

namespace {

/// The neighbours of a vertex, to be gone through.
struct Neighbours {
    const igraph_vector_int_t* list;
    const igraph_integer_t* begin() const { return list->stor_begin; }
    const igraph_integer_t* end() const { return list->end; }
};

class Igraph {
public:
    explicit Igraph(const Edges& edges) : vertices(edges.vertices) {
        igraph_vector_int_t ends;
        check(igraph_vector_int_init(&ends, 2 * edges.list.size()), "igraph_vector_int_init");
        check(igraph_vector_init(&weights, edges.list.size()), "igraph_vector_init");
        for (size_t at = 0; at < edges.list.size(); ++at) {
            VECTOR(ends)[2 * at] = edges.list[at].source;
            VECTOR(ends)[2 * at + 1] = edges.list[at].target;
            VECTOR(weights)[at] = edges.list[at].weight;
        }
        check(igraph_create(&graph, &ends, vertices, IGRAPH_UNDIRECTED), "igraph_create");
        igraph_vector_int_destroy(&ends);
    }

    Table search(uint32_t root) const {
        igraph_vector_int_t levels;
        check(igraph_vector_int_init(&levels, 0), "igraph_vector_int_init");
        check(igraph_bfs(&graph, root, nullptr, IGRAPH_ALL, false, nullptr, nullptr, nullptr, nullptr, nullptr, nullptr,
                         &levels, nullptr, nullptr),
              "igraph_bfs");
        Table table(vertices);
        for (uint32_t vertex = 0; vertex < vertices; ++vertex)
            table[vertex] = VECTOR(levels)[vertex] < 0 ? NO_WALK : VECTOR(levels)[vertex];
        igraph_vector_int_destroy(&levels);
        return table;
    }

    Table components() const {
        igraph_vector_int_t component_of;
        check(igraph_vector_int_init(&component_of, 0), "igraph_vector_int_init");
        check(igraph_connected_components(&graph, &component_of, nullptr, nullptr, IGRAPH_WEAK),
              "igraph_connected_components");
        Table table = least_ids(component_of.stor_begin, vertices);
        igraph_vector_int_destroy(&component_of);
        return table;
    }

    Table labels() const {
        igraph_adjlist_t lists;
        check(igraph_adjlist_init(&graph, &lists, IGRAPH_ALL, IGRAPH_LOOPS, IGRAPH_MULTIPLE), "igraph_adjlist_init");
        std::vector<uint32_t> old(vertices), now(vertices), counts(vertices, 0);
        std::iota(old.begin(), old.end(), 0);
        for (int round = 0; round < ROUNDS; ++round) {
            for (uint32_t vertex = 0; vertex < vertices; ++vertex)
                now[vertex] = most_frequent(Neighbours{igraph_adjlist_get(&lists, vertex)}, old, counts, old[vertex]);
            std::swap(old, now);
        }
        igraph_adjlist_destroy(&lists);
        Table table(old.begin(), old.end());
        for (uint64_t& label : table) ++label;
        return table;
    }

    Table paths(uint32_t root) const {
        igraph_matrix_t distances;
        check(igraph_matrix_init(&distances, 0, 0), "igraph_matrix_init");
        check(igraph_distances_dijkstra(&graph, &distances, igraph_vss_1(root), igraph_vss_all(), &weights, IGRAPH_ALL),
              "igraph_distances_dijkstra");
        Table table(vertices);
        for (uint32_t vertex = 0; vertex < vertices; ++vertex) {
            const double distance = MATRIX(distances, 0, vertex);
            table[vertex] = distance == IGRAPH_INFINITY ? NO_WALK : static_cast<uint64_t>(distance);
        }
        igraph_matrix_destroy(&distances);
        return table;
    }

private:
    uint32_t vertices;
    igraph_t graph;
    igraph_vector_t weights;
};

}  // namespace

int main(int count, char** words) { return run<Igraph>(count, words); }
