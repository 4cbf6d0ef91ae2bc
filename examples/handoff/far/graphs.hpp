// A graph of teseo's files on several processes. Each process has all ids, and the edges of its own vertices.
#pragma once

// This header comes first among those of the library: it chooses MPI for all of them.
#include <boost/graph/use_mpi.hpp>

#include <boost/graph/distributed/adjacency_list.hpp>
#include <boost/graph/distributed/compressed_sparse_row_graph.hpp>
#include <boost/graph/distributed/mpi_process_group.hpp>
#include <boost/mpi.hpp>
#include <boost/serialization/vector.hpp>

#include <algorithm>
#include <fstream>
#include <memory>
#include <string>
#include <tuple>
#include <utility>
#include <vector>

#include "../text.hpp"

namespace far {

namespace mpi = boost::mpi;
using boost::graph::distributed::mpi_process_group;
using text::Fault;
using text::Number;

// An arc between places: a vertex's place is that of its id among all ids in rising order.
struct Arc {
    Number source, target, weight;

    template <class Archive>
    void serialize(Archive& archive, unsigned) {
        archive & source & target & weight;
    }
    bool operator<(const Arc& other) const {
        return std::tie(source, target, weight) < std::tie(other.source, other.target, other.weight);
    }
    bool operator==(const Arc& other) const {
        return source == other.source && target == other.target && weight == other.weight;
    }
};

}  // namespace far

BOOST_IS_MPI_DATATYPE(far::Arc)
BOOST_IS_BITWISE_SERIALIZABLE(far::Arc)

namespace far {

// Weights are kept with 64 bits: the library adds up distances in the type of the weights.
struct Weight {
    Number units;

    template <class Archive>
    void serialize(Archive& archive, unsigned) {
        archive & units;
    }
};

using OnProcesses = boost::distributedS<mpi_process_group>;
using VectorOnProcesses = boost::distributedS<mpi_process_group, boost::vecS>;
using Arcs = boost::compressed_sparse_row_graph<boost::directedS, boost::no_property, Weight, boost::no_property,
                                                OnProcesses>;
// Components want an undirected type, and an index of each vertex in constant time, hence the two vectors.
using Edges = boost::adjacency_list<boost::vecS, VectorOnProcesses, boost::undirectedS>;
using Ends = std::pair<Number, Number>;

// How the two files are to be read.
struct Files {
    std::string vertices, edges;
    bool directed = false, weighted = false, cut = false;
    std::size_t digits = 0;
};

// Calls `use` with the fields of each line that begins in this process's share of a file.
template <class Use>
void each_line(const std::string& name, Number rank, Number processes, Use use) {
    std::ifstream file(name, std::ios::binary | std::ios::ate);
    if (!file) throw Fault("read failed " + name);
    const Number size = file.tellg(), end = size / processes * (rank + 1) + size % processes * (rank + 1) / processes;
    Number position = size / processes * rank + size % processes * rank / processes;
    std::string line;
    if (position > 0) {
        --position;
        file.seekg(position);
        std::getline(file, line);
        position += static_cast<Number>(line.size()) + 1;
    } else {
        file.seekg(0);
    }
    for (; position < end && std::getline(file, line); position += static_cast<Number>(line.size()) + 1) {
        try {
            const auto fields = text::fields_of(line);
            if (!fields.empty()) use(fields);
        } catch (const Fault& fault) {
            throw Fault(name + ": " + fault.what() + ": " + line);
        }
    }
}

// All ids, and which of them are this process's own: a run of them, as long as the others' to within one.
class Places {
public:
    Places(const mpi::communicator& world, const mpi_process_group& group, const std::string& name)
        : ids_(ids_in(name)), shares_(group, std::max<std::size_t>(ids_.size(), 1)), rank_(world.rank()) {
        first_ = static_cast<Number>(shares_.start(rank_));
        own_ = ids_.empty() ? 0 : shares_.block_size(rank_, count());
    }

    Number count() const { return static_cast<Number>(ids_.size()); }
    Number own() const { return own_; }
    Number id_of_own(Number index) const { return ids_[first_ + index]; }
    int rank() const { return rank_; }
    int owner(Number place) const { return static_cast<int>(shares_(place)); }
    const boost::parallel::block& shares() const { return shares_; }

    bool has(std::string_view id) const {
        return std::binary_search(ids_.begin(), ids_.end(), text::id_of(id));
    }

    Number place_of(std::string_view id) const {
        const auto value = text::id_of(id);
        const auto found = std::lower_bound(ids_.begin(), ids_.end(), value);
        if (found == ids_.end() || *found != value) throw Fault("unknown vertex");
        return found - ids_.begin();
    }

private:
    static std::vector<Number> ids_in(const std::string& name) {
        std::vector<Number> ids;
        each_line(name, 0, 1, [&](const std::vector<std::string_view>& fields) {
            text::need_fields(fields, 1, 1);
            ids.push_back(text::id_of(fields[0]));
        });
        std::sort(ids.begin(), ids.end());
        if (std::adjacent_find(ids.begin(), ids.end()) != ids.end()) throw Fault(name + ": duplicate vertex");
        return ids;
    }

    std::vector<Number> ids_;
    boost::parallel::block shares_;
    int rank_;
    Number first_ = 0, own_ = 0;
};

inline Arc arc_of(const std::vector<std::string_view>& fields, const Files& files, const Places& places) {
    text::need_fields(fields, files.weighted ? 3 : 2, 3);
    const Arc arc{places.place_of(fields[0]), places.place_of(fields[1]),
                  files.weighted ? text::units_of(fields[2], files.digits, files.cut) : 1};
    if (arc.source == arc.target) throw Fault("self loop");
    return arc;
}

// The arcs that this process has, in rising order. Each process reads a share of the file, and sends each arc to the
// process that has its source; and where `both_ways` is said, the arc the other way round likewise.
inline std::vector<Arc> arcs_of(const mpi::communicator& world, const Places& places, const Files& files,
                                bool both_ways) {
    std::vector<std::vector<Arc>> sent(world.size()), received;
    each_line(files.edges, world.rank(), world.size(), [&](const std::vector<std::string_view>& fields) {
        const Arc arc = arc_of(fields, files, places);
        sent[places.owner(arc.source)].push_back(arc);
        if (both_ways) sent[places.owner(arc.target)].push_back({arc.target, arc.source, arc.weight});
    });
    mpi::all_to_all(world, sent, received);
    sent = {};
    std::vector<Arc> arcs;
    for (auto& part : received) {
        arcs.insert(arcs.end(), part.begin(), part.end());
        part = {};
    }
    std::sort(arcs.begin(), arcs.end());
    // An undirected edge may be listed once each way round. Two arcs of a directed one count twice for labels.
    if (!files.directed) arcs.erase(std::unique(arcs.begin(), arcs.end()), arcs.end());
    return arcs;
}

inline std::unique_ptr<Arcs> make_arcs(const mpi_process_group& group, const Places& places,
                                       const std::vector<Arc>& arcs) {
    std::vector<Ends> ends;
    std::vector<Weight> weights;
    ends.reserve(arcs.size() + 1);
    weights.reserve(arcs.size());
    for (const Arc& arc : arcs) {
        ends.emplace_back(arc.source, arc.target);
        weights.push_back({arc.weight});
    }
    // The constructor reads one element behind the end of the ends, so there is one more.
    ends.emplace_back(0, 0);
    return std::make_unique<Arcs>(boost::edges_are_sorted, ends.begin(), ends.end() - 1, weights.begin(),
                                  places.count(), group, places.shares());
}

inline std::unique_ptr<Edges> make_edges(const mpi_process_group& group, const Places& places,
                                         const std::vector<Arc>& arcs) {
    std::vector<Ends> ends;
    ends.reserve(arcs.size());
    for (const Arc& arc : arcs) ends.emplace_back(arc.source, arc.target);
    auto edges = std::make_unique<Edges>(ends.begin(), ends.end(), places.count(), group, places.shares());
    synchronize(*edges);
    return edges;
}

}  // namespace far
