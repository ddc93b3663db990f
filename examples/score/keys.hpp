// A line of MIDI keys.
#ifndef KEYS_HPP
#define KEYS_HPP

#include <cstdint>
#include <optional>
#include <string_view>
#include <vector>

using key_list = std::vector<std::uint8_t>;

// The keys of a line: 0 to 255 in one to three digits, one space between. None where it can't be
// read; an empty line has no keys.
std::optional<key_list> read_keys(std::string_view line);

#endif
