// Measures become a score in MusicXML.
#ifndef SCORE_HPP
#define SCORE_HPP

#include "measure.hpp"

#include <ostream>
#include <vector>

// One part with these measures; MusicXML wants one at least.
void write_score(std::ostream &out, const std::vector<measure> &measures);

#endif
