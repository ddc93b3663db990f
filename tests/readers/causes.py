# Where a reader makes another chord of a symbol, and by which faults of its own.
import sys
from typing import Callable, NamedTuple

from harmony import Chord, Symbol


class Reader(NamedTuple):
    name: str
    faults: dict  # by its name the sentence that tells of it
    model: Callable  # of a symbol and the names of some faults: the chord that is read with these
    chords: list  # those that were read


class Difference(NamedTuple):
    measure: int
    symbol: Symbol
    given: Chord
    read: Chord
    causes: list


# All faults together have to give the chord that was read; a cause is a fault that gives another chord than was given, alone.
def find_differences(reader, symbols, given):
    found = []
    for measure, (symbol, wanted, read) in enumerate(zip(symbols, given, reader.chords), 1):
        causes = [fault for fault in reader.faults if reader.model(symbol, {fault}) != wanted]
        if read != reader.model(symbol, reader.faults) or (read != wanted and not causes):
            sys.exit(f"run-readers: {reader.name}: measure {measure}, {wanted}, is read as {read} for no cause that is listed")
        if read != wanted:
            found.append(Difference(measure, symbol, wanted, read, causes))
    return found


def show_symbol(symbol):
    return symbol.kind + "".join(f", {type} {value}/{alter}" for type, value, alter in symbol.degrees)


# For each cause how many chords have it, how many have no other, and the first of these.
def show_causes(reader, found):
    print("\n| Cause | Sets | No other | Smallest | Its element | Read as |\n|---|---|---|---|---|---|")
    for fault, sentence in reader.faults.items():
        having = [each for each in found if fault in each.causes]
        alone = [each for each in having if each.causes == [fault]]
        first = (alone or having)[0]
        row = (sentence, len(having), len(alone), first.given.set, show_symbol(first.symbol), first.read.set)
        print("| " + " | ".join(map(str, row)) + " |")
    print()


def list_differences(reader, found, out):
    for measure, symbol, given, read, causes in found:
        print(f"{reader.name}: measure {measure}, {given}, {show_symbol(symbol)}, read as {read}: {' '.join(causes)}", file=out)
