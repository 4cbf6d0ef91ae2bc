// Kernels by the Boost Graph Library over its compressed sparse rows, on one core. It has no labels of Graphalytics:
// those are a loop over its graph. The words are told in kernels.h.

#include <boost/graph/breadth_first_search.hpp>
#include <boost/graph/compressed_sparse_row_graph.hpp>
#include <boost/graph/connected_components.hpp>
#include <boost/graph/dijkstra_shortest_paths.hpp>
#include <boost/range/iterator_range.hpp>
#include <numeric>

#include "kernels.h"

namespace {

struct Weighted {
    uint64_t weight;
};

using Rows = boost::compressed_sparse_row_graph<boost::directedS, boost::no_property, Weighted, boost::no_property,
                                                uint32_t, uint32_t>;

/// Both arcs of each edge.
class Boost {
public:
    explicit Boost(const Edges& edges) : rows(rows_of(edges)) {}

    Table search(uint32_t root) const {
        Table table(num_vertices(rows), NO_WALK);
        table[root] = 0;
        const auto recorder = boost::record_distances(table.data(), boost::on_tree_edge());
        boost::breadth_first_search(rows, root, boost::visitor(boost::make_bfs_visitor(recorder)));
        return table;
    }

    Table components() const {
        std::vector<uint32_t> component_of(num_vertices(rows));
        boost::connected_components(rows, component_of.data());
        return least_ids(component_of, num_vertices(rows));
    }

    Table labels() const {
        const uint32_t vertices = num_vertices(rows);
        std::vector<uint32_t> old(vertices), now(vertices), counts(vertices, 0);
        std::iota(old.begin(), old.end(), 0);
        for (int round = 0; round < ROUNDS; ++round) {
            for (uint32_t vertex = 0; vertex < vertices; ++vertex)
                now[vertex] = most_frequent(boost::make_iterator_range(adjacent_vertices(vertex, rows)), old, counts,
                                            old[vertex]);
            std::swap(old, now);
        }
        Table table(old.begin(), old.end());
        for (uint64_t& label : table) ++label;
        return table;
    }

    Table paths(uint32_t root) const {
        Table table(num_vertices(rows));
        const auto distances = boost::make_iterator_property_map(table.begin(), boost::get(boost::vertex_index, rows));
        const auto weights = boost::get(&Weighted::weight, rows);
        boost::dijkstra_shortest_paths(rows, root,
                                       boost::weight_map(weights).distance_map(distances).distance_inf(NO_WALK));
        return table;
    }

private:
    static Rows rows_of(const Edges& edges) {
        std::vector<std::pair<uint32_t, uint32_t>> arcs;
        std::vector<Weighted> weights;
        arcs.reserve(2 * edges.list.size());
        weights.reserve(2 * edges.list.size());
        for (const Edge& edge : edges.list) {
            arcs.emplace_back(edge.source, edge.target);
            arcs.emplace_back(edge.target, edge.source);
            weights.insert(weights.end(), 2, {edge.weight});
        }
        return Rows(boost::edges_are_unsorted_multi_pass, arcs.begin(), arcs.end(), weights.begin(), edges.vertices);
    }

    Rows rows;
};

}  // namespace

int main(int count, char** words) { return run<Boost>(count, words); }
