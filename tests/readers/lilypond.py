# What LilyPond reads where musicxml2ly wrote a symbol, and the faults of both by which it is another chord.
import re

from harmony import KINDS, STEPS, Chord, set_of

FAULTS = {
    "power": "a triad is written `:5`, `:m5`, `:aug5` or `:dim5`, which is a power chord: the third is lost",
    "once": "a degree has one tone: an added one takes the place of the one before",
    "whole": "a subtract takes every tone of its degree, an added one too",
    "second": "two subtracts are written `^3^5`, of which LilyPond complains: it reads the first, and no bass behind them",
}

TRIADS = ("major", "minor", "augmented", "diminished")


# The tones are pairs of a degree and semitones, the kind's own and the added.
def read(symbol, faults):
    own, added, bass = list(KINDS[symbol.kind].items()), [], symbol.bass

    def drop(tones, value):
        return [tone for tone in tones if tone[0] != value]

    for degree in symbol.of_type("add"):
        if "once" in faults:
            own, added = drop(own, degree.value), drop(added, degree.value)
        added.append((degree.value, degree.semitones()))
    subtracted = [degree.value for degree in symbol.of_type("subtract")]
    if "second" in faults and len(subtracted) > 1:
        subtracted, bass = subtracted[:1], None
    for value in subtracted:
        own = drop(own, value)
        if "whole" in faults:
            added = drop(added, value)
    if "power" in faults and symbol.kind in TRIADS:
        own = drop(own, 3)
    return Chord(symbol.root, bass, set_of(semitones for _, semitones in own + added))


# A line of pitches.ly: the bass or a dash, then the chord's classes from the root up.
def read_pitches(line):
    bass, root, *others = line.split()
    above = [int(pitch) - int(root) for pitch in others]
    return Chord(int(root), None if bass == "-" else int(bass), set_of([0, *above]))


# Names are Dutch, in which a flat ends with s: `des`, `es`.
def class_of(name):
    return (STEPS[name[0].upper()] - name.endswith("s")) % 12


# Root and bass of each symbol as musicxml2ly wrote it: `des1:7.9+/+f` is 1 and 5.
def read_names(text):
    symbols = re.search(r"\\chordmode \{(.*?)\}", text, re.DOTALL).group(1)
    written = re.findall(r"^\s*([a-g][es]*)1:[^\s/]*(?:/\+([a-g][es]*))?\s", symbols, re.MULTILINE)
    return [(class_of(root), class_of(bass) if bass else None) for root, bass in written]
