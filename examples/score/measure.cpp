#include "measure.hpp"

#include <hemotusap.hpp>

#include <algorithm>
#include <array>
#include <cstddef>
#include <set>
#include <sstream>
#include <string_view>

namespace {

struct tone {
    char step;
    int alter;
};

// By pitch class, for the classes that the chord has.
using spelling = std::array<tone, 12>;

spelling spelled(const hemotusap::chord &chord) {
    constexpr std::string_view letters = "CDEFGAB";
    constexpr int naturals[] = {0, 2, 4, 5, 7, 9, 11};
    char text[hemotusap::tones_room];
    std::istringstream names{std::string(*hemotusap::tones(chord.root, chord.set, text))};
    spelling tones{};
    for (std::string name; names >> name;) {
        const auto signs = [&name](char sign) { return std::count(name.begin(), name.end(), sign); };
        const int alter = static_cast<int>(signs('#') + 2 * signs('x') - signs('b'));
        tones[(naturals[letters.find(name[0])] + alter + 12) % 12] = {name[0], alter};
    }
    return tones;
}

// The octave is that of the letter: the key below middle C may be Cb4. MusicXML has none below 0,
// and MIDI no whole one above 8; a key beyond them is drawn in the nearest.
pitch pitched(int key, tone named) {
    const int octave = (key - named.alter) / 12 - 1;
    return {named.step, named.alter, std::clamp(octave, 0, 8)};
}

measure made(const std::set<std::uint8_t> &keys, const hemotusap::chord &chord) {
    char element[hemotusap::harmony_room];
    measure result{std::string(*hemotusap::harmony(chord, element)), {}};
    const spelling tones = spelled(chord);
    for (const int key : keys)
        result.pitches.push_back(pitched(key, tones[key % 12]));
    return result;
}

std::size_t degrees(const measure &counted) {
    constexpr std::string_view tag = "<degree>";
    std::size_t count = 0;
    for (auto at = counted.harmony.find(tag); at != std::string::npos;
         at = counted.harmony.find(tag, at + tag.size()))
        count++;
    return count;
}

} // namespace

std::vector<measure> every_measure(const key_list &keys) {
    const std::set<std::uint8_t> rising(keys.begin(), keys.end());
    std::vector<measure> measures;
    for (std::uint32_t at = 0; const auto chord = hemotusap::candidate(keys, at); at++)
        measures.push_back(made(rising, *chord));
    return measures;
}

measure simplest(const std::vector<measure> &measures) {
    const auto is_simpler = [](const measure &a, const measure &b) {
        return degrees(a) < degrees(b);
    };
    return *std::min_element(measures.begin(), measures.end(), is_simpler);
}
