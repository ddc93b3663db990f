// Keys become measures of a score.
#ifndef MEASURE_HPP
#define MEASURE_HPP

#include "keys.hpp"

#include <string>
#include <vector>

// As MusicXML has it: middle C is {'C', 0, 4}.
struct pitch {
    char step;
    int alter;
    int octave;
};

struct measure {
    std::string harmony;        // the symbol, one element; empty for none
    std::vector<pitch> pitches; // rising; empty for a rest
};

// A measure for each candidate of the keys.
std::vector<measure> every_measure(const key_list &keys);

// Of some measures the one whose symbol has the fewest degrees, and the first of such.
measure simplest(const std::vector<measure> &measures);

#endif
