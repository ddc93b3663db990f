# What harmony elements say, by MusicXML's own rule: the kind's tones, less the subtracted, with the added. The tables
# are the standard's, and none of the library's.
import xml.etree.ElementTree as xml
from typing import NamedTuple, Optional

STEPS = {"C": 0, "D": 2, "E": 4, "F": 5, "G": 7, "A": 9, "B": 11}

# Semitones of the degrees of a dominant chord, from which the alter of an added one is counted.
DOMINANT = {1: 0, 2: 2, 3: 4, 4: 5, 5: 7, 6: 9, 7: 10, 9: 14, 11: 17, 13: 21}

# Semitones of the degrees of each kind.
KINDS = {
    "major": {1: 0, 3: 4, 5: 7},
    "minor": {1: 0, 3: 3, 5: 7},
    "augmented": {1: 0, 3: 4, 5: 8},
    "diminished": {1: 0, 3: 3, 5: 6},
    "dominant": {1: 0, 3: 4, 5: 7, 7: 10},
    "major-seventh": {1: 0, 3: 4, 5: 7, 7: 11},
    "minor-seventh": {1: 0, 3: 3, 5: 7, 7: 10},
    "diminished-seventh": {1: 0, 3: 3, 5: 6, 7: 9},
    "major-minor": {1: 0, 3: 3, 5: 7, 7: 11},
    "major-sixth": {1: 0, 3: 4, 5: 7, 6: 9},
    "minor-sixth": {1: 0, 3: 3, 5: 7, 6: 9},
}


class Degree(NamedTuple):
    type: str
    value: int
    alter: int

    def semitones(self):
        return DOMINANT[self.value] + self.alter


class Symbol(NamedTuple):
    root: int
    bass: Optional[int]
    kind: str
    degrees: tuple

    def of_type(self, type):
        return [degree for degree in self.degrees if degree.type == type]


# What a symbol stands for: classes, and the set of classes above the root.
class Chord(NamedTuple):
    root: int
    bass: Optional[int]
    set: int


def set_of(semitones):
    return sum(1 << tone for tone in {each % 12 for each in semitones})


def chord_of(symbol):
    tones = dict(KINDS[symbol.kind])
    for degree in symbol.of_type("alter"):
        tones[degree.value] += degree.alter
    for degree in symbol.of_type("subtract"):
        del tones[degree.value]
    added = [degree.semitones() for degree in symbol.of_type("add")]
    return Chord(symbol.root, symbol.bass, set_of([*tones.values(), *added]))


def read_class(symbol, name):
    part = symbol.find(name)
    if part is None:
        return None
    return (STEPS[part.findtext(f"{name}-step")] + int(part.findtext(f"{name}-alter", "0"))) % 12


def read_degree(degree):
    value, alter = (int(degree.findtext(f"degree-{name}")) for name in ("value", "alter"))
    return Degree(degree.findtext("degree-type"), value, alter)


def read_symbol(symbol):
    degrees = tuple(map(read_degree, symbol.findall("degree")))
    return Symbol(read_class(symbol, "root"), read_class(symbol, "bass"), symbol.findtext("kind"), degrees)


# The symbols of a score, which has one in each measure.
def read_score(path):
    return [read_symbol(measure.find("harmony")) for measure in xml.parse(path).getroot().iter("measure")]
