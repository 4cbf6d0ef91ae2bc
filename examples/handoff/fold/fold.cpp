// Folds a journal of teseo into a vertex file and an edge file: the graph behind its commits, or behind the first of
// them. The journal is read once, and what is kept is the graph. How to call it is in README.md.

#include <algorithm>
#include <filesystem>
#include <fstream>
#include <iostream>
#include <optional>
#include <string>
#include <string_view>
#include <unordered_map>
#include <utility>
#include <vector>

#include <unistd.h>

#include "../text.hpp"

namespace {

using text::Fault;
using text::Number;
using Fields = std::vector<std::string_view>;
using Ends = std::pair<Number, Number>;

namespace files = std::filesystem;

// What a load takes: vertices and edges together, where an undirected edge counts twice, and the bytes of a file.
constexpr std::size_t max_rows = 8388608;
constexpr std::uintmax_t max_bytes = 1073741824;

struct HashOfEnds {
    std::size_t operator()(const Ends& ends) const {
        const auto mixed = static_cast<std::uint64_t>(ends.first) * 0x9E3779B97F4A7C15u;
        return (mixed ^ (mixed >> 32)) + static_cast<std::uint64_t>(ends.second) * 0xC2B2AE3D27D4EB4Fu;
    }
};

// The graph, as far as the journal has been read. An undirected edge stands under its lesser end.
class Graph {
public:
    explicit Graph(bool directed) : directed_(directed) {}

    void add_vertex(Number vertex) {
        if (!edges_at_.emplace(vertex, 0).second) throw Fault("exists");
    }

    void remove_vertex(Number vertex) {
        const auto found = edges_at_.find(vertex);
        if (found == edges_at_.end()) throw Fault("no vertex");
        if (found->second > 0) throw Fault("has edges");
        edges_at_.erase(found);
    }

    void add_edge(Number source, Number target, Number weight) {
        if (source == target) throw Fault("self loop");
        const auto from = edges_at_.find(source), to = edges_at_.find(target);
        if (from == edges_at_.end() || to == edges_at_.end()) throw Fault("no vertex");
        if (!weights_.emplace(ends_of(source, target), weight).second) throw Fault("exists");
        ++from->second;
        ++to->second;
    }

    void set_weight(Number source, Number target, Number weight) {
        const auto found = weights_.find(ends_of(source, target));
        if (found == weights_.end()) throw Fault("no edge");
        found->second = weight;
    }

    void remove_edge(Number source, Number target) {
        if (weights_.erase(ends_of(source, target)) == 0) throw Fault("no edge");
        --edges_at_[source];
        --edges_at_[target];
    }

    std::size_t vertex_count() const { return edges_at_.size(); }
    std::size_t edge_count() const { return weights_.size(); }

    // As a load counts them.
    std::size_t rows() const { return edges_at_.size() + (directed_ ? 1 : 2) * weights_.size(); }

    std::vector<Number> vertices() const {
        std::vector<Number> rising;
        rising.reserve(edges_at_.size());
        for (const auto& entry : edges_at_) rising.push_back(entry.first);
        std::sort(rising.begin(), rising.end());
        return rising;
    }

    std::vector<std::pair<Ends, Number>> edges() const {
        std::vector<std::pair<Ends, Number>> rising(weights_.begin(), weights_.end());
        std::sort(rising.begin(), rising.end());
        return rising;
    }

private:
    Ends ends_of(Number source, Number target) const {
        return directed_ ? Ends(source, target) : Ends(std::min(source, target), std::max(source, target));
    }

    bool directed_;
    std::unordered_map<Number, std::size_t> edges_at_;  // how many edges each vertex has
    std::unordered_map<Ends, Number, HashOfEnds> weights_;
};

// Makes the write of a journal's line.
void write(Graph& graph, const Fields& fields) {
    const auto id = [&](std::size_t place) { return text::id_of(fields[place]); };
    const auto has = [&](std::string_view word, std::size_t count) {
        if (fields[0] != word) return false;
        text::need_fields(fields, count, count);
        return true;
    };
    if (has("vertex", 2)) {
        graph.add_vertex(id(1));
    } else if (has("unvertex", 2)) {
        graph.remove_vertex(id(1));
    } else if (has("edge", 4)) {
        graph.add_edge(id(1), id(2), text::weight_of(fields[3]));
    } else if (has("set", 4)) {
        graph.set_weight(id(1), id(2), text::weight_of(fields[3]));
    } else if (has("drop", 3)) {
        graph.remove_edge(id(1), id(2));
    } else {
        throw Fault("not a line of a journal");
    }
}

// The stamp of a line `commit STAMP start START by JOB.NUMBER`, which is the next one.
Number commit_of(const Fields& fields, Number last) {
    text::need_fields(fields, 6, 6);
    const auto stamp = text::number_of(fields[1], text::max_id, "stamp too large");
    const auto start = text::number_of(fields[3], text::max_id, "stamp too large");
    const auto point = fields[5].find('.');
    if (fields[2] != "start" || fields[4] != "by" || point == fields[5].npos) throw Fault("not a line of a journal");
    text::number_of(fields[5].substr(0, point), text::max_id, "job too large");
    text::number_of(fields[5].substr(point + 1), text::max_id, "number too large");
    if (stamp != last + 1) throw Fault("not the next commit");
    if (start >= stamp) throw Fault("starts behind itself");
    return stamp;
}

// What the load tells of the kind of its run, which no line of a journal says.
struct Load {
    std::size_t edges = 0;
    bool is_weighted = false;  // an edge weighs something else than 1
    std::size_t rows = 0;

    void look_at(const Fields& fields) {
        if (fields[0] != "edge") return;
        ++edges;
        is_weighted = is_weighted || text::weight_of(fields[3]) != 1;
    }
};

// Reads the commits up to a stamp into the graph, and what the first of them tells. How many they are.
Number read_journal(std::istream& journal, Number up_to, Graph& graph, Load& load) {
    Number commits = 0, number = 0;
    for (std::string line; std::getline(journal, line);) {
        ++number;
        try {
            if (journal.eof()) throw Fault("no line feed");
            const auto fields = text::fields_of(line);
            if (fields.empty()) throw Fault("not a line of a journal");
            if (fields[0] == "commit") {
                if (commits == up_to) return commits;
                commits = commit_of(fields, commits);
            } else if (commits == 0) {
                throw Fault("no commit before it");
            } else {
                write(graph, fields);
                if (commits == 1) {
                    load.look_at(fields);
                    load.rows = graph.rows();
                }
            }
        } catch (const Fault& fault) {
            throw Fault("line " + std::to_string(number) + ": " + fault.what());
        }
    }
    return commits;
}

struct Request {
    std::vector<std::string> names;  // the journal, the vertex file, the edge file
    bool directed = false;
    std::optional<std::size_t> digits;
    std::optional<Number> up_to;
};

// Whether two names are of one file, or will be. Links are followed.
bool are_one_file(const std::string& name, const std::string& other) {
    std::error_code ignored;
    if (name == other || files::equivalent(name, other, ignored)) return true;
    const auto place = files::weakly_canonical(files::absolute(name), ignored);
    return !ignored && place == files::weakly_canonical(files::absolute(other), ignored);
}

std::optional<Request> request_of(int count, char** words) {
    Request request;
    for (int place = 1; place < count; ++place) {
        const std::string_view word = words[place];
        if (word == "--directed") {
            request.directed = true;
        } else if ((word == "--weights" || word == "--upto") && place + 1 < count) {
            const bool is_weights = word == "--weights";
            const auto value = text::number_of(words[++place], is_weights ? 9 : text::max_id, "too large");
            if (is_weights) request.digits = static_cast<std::size_t>(value);
            else request.up_to = value;
        } else if (word.substr(0, 2) == "--") {
            return {};
        } else {
            request.names.emplace_back(word);
        }
    }
    const auto& names = request.names;
    if (names.size() != 3) return {};
    if (are_one_file(names[0], names[1]) || are_one_file(names[0], names[2]) || are_one_file(names[1], names[2])) return {};
    return request;
}

int end_with(int status, const std::string& said) {
    std::cout << said << std::endl;
    return status;
}

// Whether a name is of no file that another can take the place of, such as a pipe, or /dev/stdout wherever it leads.
bool is_written_directly(const files::path& name) {
    std::error_code ignored;
    if (name.string().rfind("/dev/", 0) == 0 || name.string().rfind("/proc/", 0) == 0) return true;
    return files::exists(name, ignored) && !files::is_regular_file(name, ignored);
}

// The file that a name leads to, by all links.
files::path place_of(const files::path& name) {
    std::error_code failed;
    const auto place = files::weakly_canonical(files::absolute(name), failed);
    return failed || is_written_directly(name) ? name : place;
}

// Where the text for a place is written first: beside it, so that it can take its place.
files::path draft_of(const files::path& place) {
    return is_written_directly(place) ? place : files::path(place.string() + ".part-" + std::to_string(getpid()));
}

template <class Items, class Write>
bool write_file(const files::path& name, const Items& items, Write write_item) {
    std::ofstream file(name);
    for (const auto& item : items) write_item(file, item);
    file.close();
    return bool(file);
}

// Takes the drafts away that were made, which are files of their own.
void remove_drafts(const std::vector<files::path>& places) {
    std::error_code ignored;
    for (const auto& place : places) {
        if (draft_of(place) != place) files::remove(draft_of(place), ignored);
    }
}

void warn(const std::string& what) {
    std::cerr << "fold: " << what << std::endl;
}

// Says where the words can't be those of the run, by what its load tells.
void warn_of_kind(const Request& request, const Load& load) {
    if (!request.digits && load.is_weighted) {
        warn("the load has weights other than 1, so its run had --weights. Say the same here, or all weights are in units");
    }
    if (request.digits.value_or(0) > 0 && load.edges > 0 && !load.is_weighted) {
        warn("each edge of the load weighs 1 unit, as in a run without --weights. With --weights " +
             std::to_string(*request.digits) + " that is " + text::decimal_of(1, *request.digits));
    }
    if (!request.directed && load.rows > max_rows) {
        warn("the load is larger than one without directions can be, so its run had --directed. Say it here too");
    }
}

// Says where a fault may come from the other kind.
void warn_of_fault(const Request& request, const std::string& fault) {
    const auto ends_with = [&](const std::string& end) {
        return fault.size() >= end.size() && fault.compare(fault.size() - end.size(), end.size(), end) == 0;
    };
    if (!request.directed && ends_with(": exists")) warn("if the run had --directed, say it here too");
    if (request.directed && ends_with(": no edge")) warn("if the run had no --directed, leave it out here too");
}

// Says where the next load can't take what was written.
void warn_of_load(const Graph& graph, const std::vector<files::path>& places) {
    if (graph.rows() > max_rows) {
        warn("the graph has " + std::to_string(graph.rows()) + " rows, and teseo loads " + std::to_string(max_rows) +
             ": the next run will say 'too many rows'");
    }
    for (const auto& place : places) {
        std::error_code ignored;
        const auto bytes = files::file_size(place, ignored);
        if (!ignored && bytes > max_bytes) warn(place.string() + " has " + std::to_string(bytes) + " bytes: 'too long'");
    }
}

// Writes both files under other names, and gives them theirs once both are whole. The name that failed, if one did.
std::optional<std::string> write_graph(const Graph& graph, const Request& request, const std::vector<files::path>& places) {
    const auto digits = request.digits.value_or(0);
    const auto write_vertex = [](std::ostream& file, Number vertex) { file << vertex << '\n'; };
    const auto write_edge = [digits](std::ostream& file, const std::pair<Ends, Number>& edge) {
        const auto& [ends, weight] = edge;
        file << ends.first << ' ' << ends.second << ' ' << text::decimal_of(weight, digits) << '\n';
    };
    if (!write_file(draft_of(places[0]), graph.vertices(), write_vertex)) return request.names[1];
    if (!write_file(draft_of(places[1]), graph.edges(), write_edge)) return request.names[2];
    for (std::size_t file = 0; file < places.size(); ++file) {
        std::error_code failed;
        const auto draft = draft_of(places[file]);
        if (draft != places[file]) files::rename(draft, places[file], failed);
        if (failed) return request.names[file + 1];
    }
    return {};
}

int fold(const Request& request) {
    const auto& journal = request.names[0];
    Graph graph(request.directed);
    Load load;
    std::ifstream source(journal);
    Number commits = 0;
    try {
        commits = read_journal(source, request.up_to.value_or(text::max_id), graph, load);
    } catch (const Fault& fault) {
        warn_of_kind(request, load);
        warn_of_fault(request, fault.what());
        return end_with(1, journal + " " + fault.what());
    }
    if (!source.is_open() || source.bad()) return end_with(4, "read failed " + journal);
    if (request.up_to && *request.up_to > commits) {
        return end_with(1, journal + ": the last commit is " + std::to_string(commits));
    }
    warn_of_kind(request, load);
    const std::vector<files::path> places = {place_of(request.names[1]), place_of(request.names[2])};
    const auto failed = write_graph(graph, request, places);
    if (failed) {
        remove_drafts(places);
        return end_with(5, "write failed " + *failed);
    }
    warn_of_load(graph, places);
    return end_with(0, "folded commits " + std::to_string(commits) + " vertices " + std::to_string(graph.vertex_count()) +
                           " edges " + std::to_string(graph.edge_count()));
}

}  // namespace

int main(int count, char** words) {
    try {
        const auto request = request_of(count, words);
        if (request) return fold(*request);
    } catch (const Fault&) {
        // A number of the command line isn't one.
    } catch (const std::bad_alloc&) {
        return end_with(3, "no memory");
    }
    return end_with(2, "bad words");
}
