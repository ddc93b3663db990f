// From lines of MIDI keys on standard input to a score in MusicXML on standard output: a measure
// for each line, its keys below the simplest of their symbols. An empty line is a rest.
//   score <KEYS >SCORE
//   score --all <KEYS >SCORE    a measure for each symbol that a line's keys may have
// A line that can't be read is told by its number, and then there is no score.
#include "keys.hpp"
#include "measure.hpp"
#include "score.hpp"

#include <iostream>
#include <string>
#include <string_view>
#include <vector>

namespace {

void add_line(std::vector<measure> &score, const key_list &keys, bool is_all) {
    const std::vector<measure> measures = every_measure(keys);
    if (measures.empty())
        score.emplace_back();
    else if (is_all)
        score.insert(score.end(), measures.begin(), measures.end());
    else
        score.push_back(simplest(measures));
}

int fail(std::string_view why) {
    std::cerr << "score: " << why << "\n";
    return 1;
}

} // namespace

int main(int count, char **words) {
    const bool is_all = count == 2 && std::string_view(words[1]) == "--all";
    if (count > 1 && !is_all)
        return fail("usage: score [--all] <KEYS >SCORE");
    std::vector<measure> score;
    int status = 0;
    std::string line;
    for (unsigned number = 1; std::getline(std::cin, line); number++) {
        if (const auto keys = read_keys(line))
            add_line(score, *keys, is_all);
        else
            status = fail("line " + std::to_string(number) + " can't be read");
    }
    if (status != 0)
        return status;
    if (score.empty())
        return fail("there is no line of keys");
    write_score(std::cout, score);
    return std::cout.flush() ? 0 : fail("the score can't be written");
}
