// Lines, fields and numbers as teseo reads and writes them. The texts of faults are teseo's.
#pragma once

#include <algorithm>
#include <cstdint>
#include <limits>
#include <stdexcept>
#include <string>
#include <string_view>
#include <vector>

namespace text {

using Number = std::int64_t;

constexpr Number no_walk = std::numeric_limits<Number>::max();
constexpr Number max_id = no_walk - 1;
constexpr Number max_weight = 4294967295;

struct Fault : std::runtime_error {
    using std::runtime_error::runtime_error;
};

// The fields of a line: none where it is blank or a comment.
inline std::vector<std::string_view> fields_of(std::string_view line) {
    std::vector<std::string_view> fields;
    if (!line.empty() && line.back() == '\r') line.remove_suffix(1);
    if (!line.empty() && line.front() == '#') return fields;
    while (true) {
        const auto begin = line.find_first_not_of(" \t");
        if (begin == line.npos) return fields;
        line.remove_prefix(begin);
        const auto end = line.find_first_of(" \t");
        fields.push_back(line.substr(0, end));
        if (end == line.npos) return fields;
        line.remove_prefix(end);
    }
}

inline void need_fields(const std::vector<std::string_view>& fields, std::size_t least, std::size_t most) {
    if (fields.size() < least) throw Fault("missing field");
    if (fields.size() > most) throw Fault("extra field");
}

inline bool are_digits(std::string_view text) {
    return text.find_first_not_of("0123456789") == text.npos;
}

// The value of digits, of which there is at least one.
inline Number number_of(std::string_view text, Number most, const char* above) {
    if (text.empty() || !are_digits(text)) throw Fault("not a number");
    Number value = 0;
    for (const char digit : text) {
        const Number unit = digit - '0';
        if (value > (most - unit) / 10) throw Fault(above);
        value = value * 10 + unit;
    }
    return value;
}

inline Number id_of(std::string_view text) {
    return number_of(text, max_id, "id too large");
}

inline Number weight_of(std::string_view text) {
    return number_of(text, max_weight, "weight too large");
}

// A decimal weight in units of 10^-digits. Further digits have to be zeros, or are cut.
inline Number units_of(std::string_view text, std::size_t digits, bool cut) {
    const auto point = text.find('.');
    const auto whole = text.substr(0, point);
    const auto part = point == text.npos ? std::string_view() : text.substr(point + 1);
    if (whole.empty() && part.empty()) throw Fault("not a number");
    if (!are_digits(whole) || !are_digits(part)) throw Fault("not a number");
    const auto rest = part.substr(std::min(digits, part.size()));
    if (!cut && rest.find_first_not_of('0') != rest.npos) throw Fault("weight too fine");
    std::string read(part.substr(0, digits));
    read.resize(digits, '0');
    return weight_of("0" + std::string(whole) + read);
}

// A weight in units of 10^-digits, as an edge file has it.
inline std::string decimal_of(Number units, std::size_t digits) {
    auto written = std::to_string(units);
    if (digits == 0) return written;
    if (written.size() <= digits) written.insert(0, digits + 1 - written.size(), '0');
    return written.insert(written.size() - digits, ".");
}

}  // namespace text
