// The four kernels. Each gives the values of this process's vertices, in their order. All processes call it together.
#pragma once

#include "graphs.hpp"

#include <boost/graph/distributed/breadth_first_search.hpp>
#include <boost/graph/distributed/connected_components.hpp>
#include <boost/graph/distributed/delta_stepping_shortest_paths.hpp>
#include <boost/graph/iteration_macros.hpp>
#include <boost/graph/visitors.hpp>

#include <functional>
#include <set>

namespace far {

using Values = std::vector<Number>;

// The values as a map of the library. A vertex of another process is a ghost cell there.
template <class Graph>
auto map_over(Values& values, const Graph& graph) {
    return boost::make_iterator_property_map(values.begin(), get(boost::vertex_index, graph));
}

inline Values search(const mpi_process_group& group, const Places& places, const Arcs& arcs, Number root) {
    Values hops(places.own(), text::no_walk);
    const auto source = vertex(root, arcs);
    auto map = map_over(hops, arcs);
    // In this role the map keeps the least of what several processes write to a vertex. Its consistency model stays
    // the default one.
    boost::set_property_map_role(boost::vertex_distance, map);
    if (places.owner(root) == places.rank()) put(map, source, 0);
    const auto record = boost::make_bfs_visitor(boost::record_distances(map, boost::on_tree_edge()));
    breadth_first_search(arcs, source, boost::visitor(record));
    synchronize(group);
    return hops;
}

// How much further than the nearest vertices a step of delta-stepping goes. The library's own choice divides by the
// greatest degree, which is poor where few vertices have many arcs, and divides by zero where there are none; this one
// is the greatest weight by the average degree.
inline Number step_width(const mpi::communicator& world, const Places& places, const Arcs& arcs) {
    Number greatest = 1, count = 0;
    // Walking edges(arcs) never ends in a distributed graph, so the arcs are walked by their sources.
    BGL_FORALL_VERTICES(place, arcs, Arcs) {
        BGL_FORALL_OUTEDGES(place, arc, arcs, Arcs) {
            greatest = std::max(greatest, get(get(&Weight::units, arcs), arc));
            ++count;
        }
    }
    greatest = mpi::all_reduce(world, greatest, mpi::maximum<Number>());
    count = mpi::all_reduce(world, count, std::plus<Number>());
    const Number degree = std::max<Number>(1, count / std::max<Number>(1, places.count()));
    return std::max<Number>(1, greatest / degree);
}

inline Values paths(const mpi::communicator& world, const mpi_process_group& group, const Places& places,
                    const Arcs& arcs, Number root) {
    Values sums(places.own(), text::no_walk);
    const auto width = step_width(world, places, arcs);
    boost::graph::distributed::delta_stepping_shortest_paths(arcs, vertex(root, arcs), boost::dummy_property_map(),
                                                             map_over(sums, arcs), get(&Weight::units, arcs), width);
    synchronize(group);
    return sums;
}

// The least id of each component: of the vertices that have the same parent, first on each process, and then among all.
inline Values components(const Places& places, const Edges& edges) {
    using Place = boost::graph_traits<Edges>::vertex_descriptor;
    std::vector<Place> parents(places.own());
    auto parent_map = boost::make_iterator_property_map(parents.begin(), get(boost::vertex_index, edges));
    boost::graph::distributed::cc_detail::parallel_connected_components(edges, parent_map);

    Values least(places.own(), text::no_walk);
    auto map = map_over(least, edges);
    boost::set_property_map_role(boost::vertex_distance, map);
    // Without this the library keeps some thousand ghost cells, and drops others that are still asked for.
    map.set_max_ghost_cells(0);
    std::set<Place> roots;
    for (Number index = 0; index < places.own(); ++index) {
        if (roots.insert(parents[index]).second) put(map, parents[index], places.id_of_own(index));
    }
    synchronize(map);
    map.clear();
    for (const Place& root : roots) request(map, root);
    synchronize(map);
    Values values;
    for (const Place& parent : parents) values.push_back(get(map, parent));
    synchronize(map);
    return values;
}

// The label that most of the vertices have that were met, the least of several; `own` where none was met.
inline Number most_frequent(Values& met, Number own) {
    std::sort(met.begin(), met.end());
    Number best = own, most = 0;
    for (auto begin = met.begin(); begin != met.end();) {
        const auto end = std::upper_bound(begin, met.end(), *begin);
        if (end - begin > most) {
            most = end - begin;
            best = *begin;
        }
        begin = end;
    }
    return best;
}

// The library has no label propagation: each round asks for the labels of the other processes' vertices, and then takes
// the new ones of its own.
inline Values labels(const mpi::communicator& world, const Places& places, const Arcs& arcs, Number rounds) {
    Values values, next(places.own()), met;
    for (Number index = 0; index < places.own(); ++index) values.push_back(places.id_of_own(index));
    auto map = map_over(values, arcs);
    map.set_max_ghost_cells(0);
    bool changed = true;
    for (Number round = 0; round < rounds && changed; ++round) {
        map.clear();
        BGL_FORALL_VERTICES(place, arcs, Arcs) {
            BGL_FORALL_OUTEDGES(place, arc, arcs, Arcs) {
                const auto other = target(arc, arcs);
                if (get(boost::vertex_owner, arcs, other) != world.rank()) request(map, other);
            }
        }
        synchronize(map);
        Number index = 0;
        BGL_FORALL_VERTICES(place, arcs, Arcs) {
            met.clear();
            BGL_FORALL_OUTEDGES(place, arc, arcs, Arcs) met.push_back(get(map, target(arc, arcs)));
            next[index] = most_frequent(met, values[index]);
            ++index;
        }
        const bool here = next != values;
        // Copied and not swapped: the map goes on pointing to the same numbers.
        std::copy(next.begin(), next.end(), values.begin());
        changed = mpi::all_reduce(world, here, std::logical_or<bool>());
    }
    return values;
}

}  // namespace far
