# MuseScore's own faults, by which some symbols mean another chord once it has saved them.
from harmony import Degree, chord_of

EXTENSIONS = (9, 11, 13)

# In a score that it opened and saved as MusicXML.
SAVED = {
    "fused": "of the natural 9, 11 and 13 that are added to a `major-minor` the highest alone is kept",
}

# In one that it saved in its own format, which has a symbol's text alone, and opened again.
REOPENED = {
    "stacked": "a natural 9, 11 or 13 that is added to a `major-minor` brings the ones below it, but for an altered degree",
    "altered": "an added b5 or #5 becomes an `alter` of the kind's own fifth",
}


def is_natural_extension(degree):
    return degree.type == "add" and degree.value in EXTENSIONS and degree.alter == 0


# The natural extensions of a `major-minor` give way to those that `kept` tells of the highest.
def with_naturals(symbol, kept):
    naturals = [degree.value for degree in symbol.degrees if is_natural_extension(degree)]
    if symbol.kind != "major-minor" or not naturals:
        return symbol
    others = tuple(degree for degree in symbol.degrees if not is_natural_extension(degree))
    return symbol._replace(degrees=others + tuple(Degree("add", value, 0) for value in kept(max(naturals))))


def fused(symbol):
    return with_naturals(symbol, lambda highest: [highest])


def stacked(symbol):
    altered = {degree.value for degree in symbol.of_type("add") if degree.alter != 0}
    below = [value for value in EXTENSIONS if value not in altered]
    return with_naturals(symbol, lambda highest: [*(value for value in below if value < highest), highest])


def is_altered_fifth(degree):
    return degree.type == "add" and degree.value == 5 and degree.alter != 0


def altered(symbol):
    fifths = (degree._replace(type="alter") if is_altered_fifth(degree) else degree for degree in symbol.degrees)
    return symbol._replace(degrees=tuple(fifths))


def saved(symbol, faults):
    if "fused" in faults:
        symbol = fused(symbol)
    return chord_of(symbol)


def reopened(symbol, faults):
    if "stacked" in faults:
        symbol = stacked(symbol)
    if "altered" in faults:
        symbol = altered(symbol)
    return chord_of(symbol)
