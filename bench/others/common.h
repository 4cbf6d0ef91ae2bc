// What the programs beside this file have in common: files are read into arrays, and calls are timed.
#pragma once

#include <chrono>
#include <cstdint>
#include <cstdio>
#include <cstdlib>
#include <string>
#include <utility>
#include <vector>

/// An edge between two vertices, which are counted from 0.
struct Edge {
    uint32_t source, target, weight;
};

/// The edges of a graph without directions, each of them once, and how many vertices it has.
struct Edges {
    uint32_t vertices = 0;
    std::vector<Edge> list;
};

/// Ends the program, and says why.
[[noreturn]] inline void fail(const std::string& text) {
    std::fprintf(stderr, "%s\n", text.c_str());
    std::exit(1);
}

/// Fails where a library answers that a call did.
inline void check(int answer, const char* call) {
    if (answer != 0) fail(std::string(call) + " answers " + std::to_string(answer));
}

/// The numbers of a file of numbers, blanks and line feeds.
inline std::vector<uint32_t> numbers_of(const std::string& name) {
    std::FILE* file = std::fopen(name.c_str(), "rb");
    if (!file) fail(name + " can't be read");
    std::vector<uint32_t> numbers;
    std::vector<char> block(1 << 20);
    uint64_t number = 0;
    bool within = false;
    while (const size_t size = std::fread(block.data(), 1, block.size(), file)) {
        for (size_t at = 0; at < size; ++at) {
            const unsigned digit = static_cast<unsigned char>(block[at]) - '0';
            if (digit < 10) {
                number = number * 10 + digit;
                within = true;
            } else if (within) {
                numbers.push_back(static_cast<uint32_t>(number));
                number = 0;
                within = false;
            }
        }
    }
    std::fclose(file);
    return numbers;
}

/// Reads PREFIX.v, which has the ids from 1 on, and PREFIX.e, which has two ends and a weight on each line.
inline Edges read_graph(const std::string& prefix) {
    Edges edges;
    edges.vertices = static_cast<uint32_t>(numbers_of(prefix + ".v").size());
    const auto numbers = numbers_of(prefix + ".e");
    edges.list.reserve(numbers.size() / 3);
    for (size_t at = 0; at + 2 < numbers.size(); at += 3) {
        if (numbers[at] > edges.vertices || numbers[at + 1] > edges.vertices) fail("an end isn't a vertex");
        edges.list.push_back({numbers[at] - 1, numbers[at + 1] - 1, numbers[at + 2]});
    }
    return edges;
}

/// The answer of a call; prints a name, and the microseconds that the call took.
template <class Call>
auto timed(const char* name, Call call) {
    const auto begun = std::chrono::steady_clock::now();
    auto answer = call();
    const auto took = std::chrono::steady_clock::now() - begun;
    std::printf("%s %lld\n", name,
                static_cast<long long>(std::chrono::duration_cast<std::chrono::microseconds>(took).count()));
    std::fflush(stdout);
    return answer;
}
