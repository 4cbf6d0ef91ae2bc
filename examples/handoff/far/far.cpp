// The kernels of teseo on several processes, by the Parallel Boost Graph Library over MPI. How to call it: README.md.

#include "graphs.hpp"
#include "kernels.hpp"

#include <sys/resource.h>

#include <chrono>
#include <cstdio>
#include <iostream>
#include <optional>

namespace far {
namespace {

struct Request {
    Files files;
    std::vector<std::string> lines;  // of a script: the kernels
};

std::optional<Request> request_of(int count, char** words) {
    Request request;
    std::vector<std::string> texts;
    for (int place = 1; place < count; ++place) {
        const std::string word = words[place];
        if (word == "--directed") {
            request.files.directed = true;
        } else if (word == "--cut") {
            request.files.cut = true;
        } else if (word == "--weights" && place + 1 < count) {
            request.files.weighted = true;
            request.files.digits = static_cast<std::size_t>(text::number_of(words[++place], 9, "too large"));
        } else if (word.substr(0, 2) == "--") {
            return {};
        } else {
            texts.push_back(word);
        }
    }
    if (texts.size() < 3) return {};
    request.files.vertices = texts[0];
    request.files.edges = texts[1];
    request.lines.assign(texts.begin() + 2, texts.end());
    return request;
}

// Says what a step took: the seconds, and the most memory that any process has had so far.
class Clock {
public:
    explicit Clock(const mpi::communicator& world) : world_(world) {}

    void tell(const std::string& what) {
        rusage usage{};
        getrusage(RUSAGE_SELF, &usage);
        const long most = mpi::all_reduce(world_, static_cast<long>(usage.ru_maxrss), mpi::maximum<long>()) / 1024;
        const std::chrono::duration<double> seconds = std::chrono::steady_clock::now() - began_;
        if (world_.rank() == 0) std::printf("%-24s %8.3f s %6ld MB a process\n", what.c_str(), seconds.count(), most);
        std::fflush(stdout);
        began_ = std::chrono::steady_clock::now();
    }

private:
    const mpi::communicator& world_;
    std::chrono::steady_clock::time_point began_ = std::chrono::steady_clock::now();
};

// The graphs, each made when a kernel first asks for it, and the kernels on them.
class Engine {
public:
    Engine(const mpi::communicator& world, const Files& files)
        : world_(world), group_(world), files_(files), places_(world, group_, files.vertices) {}

    // Runs a kernel's line and writes its result. Where the root isn't a vertex there is none, as with teseo.
    void run(const std::string& line, Clock& clock) {
        const auto fields = text::fields_of(line);
        const bool has_number = !fields.empty() && fields[0] != "wcc";
        text::need_fields(fields, has_number ? 3 : 2, has_number ? 3 : 2);
        const bool is_paths = fields[0] == "sssp";
        if (fields[0] == "bfs" || is_paths) {
            if (!places_.has(fields[1])) return clock.tell("no vertex " + std::string(fields[1]));
        }
        const auto values = values_of(fields, clock);
        clock.tell(line);
        write(std::string(fields.back()), values, is_paths);
        clock.tell("  written");
    }

private:
    Values values_of(const std::vector<std::string_view>& fields, Clock& clock) {
        if (fields[0] == "wcc") return components(places_, edges(clock));
        if (fields[0] == "cdlp") {
            return labels(world_, places_, around(clock), text::number_of(fields[1], 1000000, "rounds too large"));
        }
        const bool is_paths = fields[0] == "sssp";
        if (!is_paths && fields[0] != "bfs") throw Fault("not a kernel");
        const Number root = places_.place_of(fields[1]);
        if (is_paths) return paths(world_, group_, places_, out(clock), root);
        return search(group_, places_, out(clock), root);
    }

    const Arcs& out(Clock& clock) {
        if (!out_) {
            out_ = make_arcs(group_, places_, arcs_of(world_, places_, files_, !files_.directed));
            clock.tell("arcs out");
        }
        return *out_;
    }

    // The arcs out and in, which labels go along. Where there are no directions, these are the arcs out.
    const Arcs& around(Clock& clock) {
        if (!files_.directed) return out(clock);
        if (!around_) {
            around_ = make_arcs(group_, places_, arcs_of(world_, places_, files_, true));
            clock.tell("arcs out and in");
        }
        return *around_;
    }

    const Edges& edges(Clock& clock) {
        if (!edges_) {
            edges_ = make_edges(group_, places_, arcs_of(world_, places_, files_, false));
            clock.tell("edges");
        }
        return *edges_;
    }

    // The processes write their shares one after the other.
    void write(const std::string& name, const Values& values, bool has_infinity) {
        for (int turn = 0; turn < world_.size(); ++turn, world_.barrier()) {
            if (turn != world_.rank()) continue;
            std::ofstream file(name, turn == 0 ? std::ios::trunc : std::ios::app);
            for (Number index = 0; index < places_.own(); ++index) {
                file << places_.id_of_own(index) << ' ';
                if (has_infinity && values[index] == text::no_walk) file << "infinity\n";
                else file << values[index] << '\n';
            }
            file.close();
            if (!file) throw Fault("write failed " + name);
        }
    }

    const mpi::communicator& world_;
    mpi_process_group group_;
    const Files& files_;
    Places places_;
    std::unique_ptr<Arcs> out_, around_;
    std::unique_ptr<Edges> edges_;
};

int run(const Request& request, const mpi::communicator& world) {
    Clock clock(world);
    Engine engine(world, request.files);
    clock.tell("ids");
    for (const auto& line : request.lines) engine.run(line, clock);
    return 0;
}

}  // namespace
}  // namespace far

int main(int count, char** words) {
    boost::mpi::environment environment(count, words);
    const boost::mpi::communicator world;
    try {
        const auto request = far::request_of(count, words);
        if (request) return far::run(*request, world);
        if (world.rank() == 0) std::cout << "bad words" << std::endl;
        return 2;
    } catch (const std::exception& fault) {
        // The other processes may wait for this one, so they are ended too.
        std::cout << fault.what() << std::endl;
        environment.abort(1);
    }
}
