#include "score.hpp"

#include <cstddef>

namespace {

constexpr char head[] = R"(<?xml version="1.0" encoding="UTF-8"?>
<!DOCTYPE score-partwise PUBLIC "-//Recordare//DTD MusicXML 4.0 Partwise//EN"
  "http://www.musicxml.org/dtds/partwise.dtd">
<score-partwise version="4.0">
  <part-list>
    <score-part id="P1">
      <part-name>Chords</part-name>
      <score-instrument id="P1-I1"><instrument-name>Piano</instrument-name></score-instrument>
    </score-part>
  </part-list>
  <part id="P1">
)";

// A whole note is four divisions long.
constexpr char attributes[] = R"(      <attributes>
        <divisions>1</divisions>
        <key><fifths>0</fifths></key>
        <time><beats>4</beats><beat-type>4</beat-type></time>
        <clef><sign>G</sign><line>2</line></clef>
      </attributes>
)";

constexpr char rest[] = R"(      <note><rest measure="yes"/><duration>4</duration></note>
)";

constexpr char foot[] = R"(  </part>
</score-partwise>
)";

// Every note but the first says that it sounds with the one before.
void write_note(std::ostream &out, const pitch &sounding, bool is_first) {
    out << "      <note>" << (is_first ? "" : "<chord/>");
    out << "<pitch><step>" << sounding.step << "</step>";
    if (sounding.alter != 0)
        out << "<alter>" << sounding.alter << "</alter>";
    out << "<octave>" << sounding.octave << "</octave></pitch>";
    out << "<duration>4</duration><type>whole</type></note>\n";
}

// The symbol stands before the notes that it is for.
void write_measure(std::ostream &out, std::size_t number, const measure &written) {
    out << "    <measure number=\"" << number << "\">\n";
    if (number == 1)
        out << attributes;
    if (!written.harmony.empty())
        out << "      " << written.harmony << "\n";
    if (written.pitches.empty())
        out << rest;
    for (const pitch &note : written.pitches)
        write_note(out, note, &note == &written.pitches.front());
    out << "    </measure>\n";
}

} // namespace

void write_score(std::ostream &out, const std::vector<measure> &measures) {
    out << head;
    for (std::size_t at = 0; at < measures.size(); at++)
        write_measure(out, at + 1, measures[at]);
    out << foot;
}
