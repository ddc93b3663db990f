# Compares the chords that a score was made from with what each reader made of it: prints what differs by its cause, and fails
# where a root or a bass is lost or a cause is not listed. Each difference goes into the folder's `differences`.
#   compare.py FOLDER
import pathlib
import re
import sys

import lilypond
import musescore
from causes import Reader, find_differences, list_differences, show_causes
from harmony import Chord, chord_of, read_score

# They come first, so that the counts need no draw.
SETS_ON_C = 2048


def check(holds, why):
    if not holds:
        sys.exit(f"run-readers: {why}")


def read_given(line):
    root, bass, set = line.split()
    return Chord(int(root), None if bass == "-" else int(bass), int(set))


def read_lines(path, read_line):
    return [read_line(line) for line in path.read_text().splitlines()]


def read_chords(path):
    return [chord_of(symbol) for symbol in read_score(path)]


def check_places(reader, read, given):
    check(len(read) == len(given), f"{reader} has {len(read)} chords of {len(given)}")
    for measure, (one, wanted) in enumerate(zip(read, given), 1):
        check(one[:2] == wanted[:2], f"{reader} lost the root or bass of measure {measure}: {one}, and not {wanted}")


# LilyPond complains of how its own converter writes a second subtract, says at its end that it failed, and nothing else.
def check_complaints(text, symbols):
    seconds = sum(len(symbol.of_type("subtract")) > 1 for symbol in symbols)
    known = len(re.findall(r"error: Spurious garbage following chord: \(chord-caret ", text))
    every = len(re.findall("error: |warning: ", text))
    check(known == seconds and every == known + (known > 0), f"LilyPond complains otherwise:\n{text[-2000:].rstrip()}")


# musicxml2ly keeps every root and bass; of what LilyPond then reads the model tells.
def read_all(folder, given):
    saved, reopened = (read_chords(folder / f"{name}.musicxml") for name in ("saved", "reopened"))
    converted = lilypond.read_names((folder / "score.ly").read_text())
    pitches = read_lines(folder / "pitches", lilypond.read_pitches)
    check_places("MuseScore, saving as MusicXML,", saved, given)
    check_places("MuseScore, in its own format,", reopened, given)
    check_places("musicxml2ly", converted, given)
    check(len(pitches) == len(given), f"LilyPond has {len(pitches)} chords of {len(given)}")
    return (
        Reader("MuseScore, opened and saved as MusicXML", musescore.SAVED, musescore.saved, saved),
        Reader("MuseScore, saved in its own format and opened again", musescore.REOPENED, musescore.reopened, reopened),
        Reader("LilyPond, on what musicxml2ly wrote", lilypond.FAULTS, lilypond.read, pitches),
    )


def main(folder):
    given = read_lines(folder / "given", read_given)
    symbols = read_score(folder / "score.musicxml")
    check(list(map(chord_of, symbols)) == given, "the score has other chords than it was made from")
    check_complaints((folder / "complaints").read_text(), symbols)
    with (folder / "differences").open("w") as out:
        for reader in read_all(folder, given):
            found = find_differences(reader, symbols, given)
            on_c = [each for each in found if each.measure <= SETS_ON_C]
            print(f"{reader.name}: of {SETS_ON_C} sets on C {len(on_c)} are read as others, of {len(given)} chords {len(found)}")
            show_causes(reader, on_c)
            list_differences(reader, found, out)


main(pathlib.Path(sys.argv[1]))
