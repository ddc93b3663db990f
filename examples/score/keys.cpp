#include "keys.hpp"

#include <charconv>
#include <cstddef>
#include <system_error>

namespace {

constexpr std::size_t most_digits = 3;

std::optional<std::uint8_t> read_key(std::string_view word) {
    std::uint8_t key = 0;
    const char *end = word.data() + word.size();
    const auto [stop, error] = std::from_chars(word.data(), end, key);
    if (word.size() > most_digits || stop != end || error != std::errc{})
        return std::nullopt;
    return key;
}

} // namespace

std::optional<key_list> read_keys(std::string_view line) {
    key_list keys;
    for (bool more = !line.empty(); more;) {
        const std::size_t space = line.find(' ');
        const auto key = read_key(line.substr(0, space));
        if (!key)
            return std::nullopt;
        keys.push_back(*key);
        more = space != line.npos;
        line.remove_prefix(more ? space + 1 : line.size());
    }
    return keys;
}
