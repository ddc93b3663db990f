// Writes a score of every rooted set on C and of drawn chords on standard output, and into a file
// what each measure was made from: root, bass and set, with a dash for no bass.
//   write SEED DRAWS FILE >SCORE
#include "draw.h"
#include "score.hpp"

#include <hemotusap.hpp>

#include <cstdint>
#include <cstdlib>
#include <fstream>
#include <iostream>
#include <optional>
#include <string>
#include <vector>

namespace {

using hemotusap::chord;

// Of thirteen one has no bass.
chord drawn(std::uint64_t seed, std::uint64_t number) {
    std::uint64_t state = draws_of(seed, number);
    chord chosen{draw_below(&state, 12), draw_below(&state, 13), 2 * draw_below(&state, 2048) + 1};
    if (chosen.bass == 12)
        chosen.bass.reset();
    return chosen;
}

std::vector<chord> choose(std::uint64_t seed, std::uint64_t draws) {
    std::vector<chord> chosen;
    for (std::uint32_t set = 1; set < 4096; set += 2)
        chosen.push_back({0, std::nullopt, set});
    for (std::uint64_t number = 0; number < draws; number++)
        chosen.push_back(drawn(seed, number));
    return chosen;
}

} // namespace

int main(int count, char **words) {
    if (count != 4)
        return 2;
    const std::uint64_t seed = std::strtoull(words[1], nullptr, 10);
    const std::uint64_t draws = std::strtoull(words[2], nullptr, 10);
    std::ofstream given(words[3]);
    std::vector<measure> score;
    for (const chord &chosen : choose(seed, draws)) {
        char room[hemotusap::harmony_room];
        const auto element = hemotusap::harmony(chosen, room);
        if (!element)
            return 1;
        const auto bass = chosen.bass ? std::to_string(*chosen.bass) : "-";
        given << chosen.root << ' ' << bass << ' ' << chosen.set << '\n';
        // Any note will do below a symbol.
        score.push_back({std::string(*element), {{'C', 0, 4}}});
    }
    write_score(std::cout, score);
    return given.flush() && std::cout.flush() ? 0 : 1;
}
