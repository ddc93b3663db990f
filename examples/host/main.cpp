// A host in C++: each call of the library by its wrapper, in memory of the host's own.
#include <hemotusap.hpp>

#include <array>
#include <cstdint>
#include <cstdio>
#include <optional>
#include <string_view>
#include <vector>

namespace {

using hemotusap::interval;
using hemotusap::letter;

void print(std::string_view text) {
    std::printf(" %.*s", static_cast<int>(text.size()), text.data());
}

void print(hemotusap::note note) {
    char text[hemotusap::note_text_room];
    print(hemotusap::note_text(note, text).value_or("no note"));
}

// Sets or keys.
template <class Numbers>
void print(const Numbers &numbers) {
    for (const unsigned number : numbers)
        std::printf(" %u", number);
}

// Some refusals tell at which place.
void print(hemotusap::refusal why) {
    print(hemotusap::name(why));
    if (const auto place = why.place())
        std::printf(", at %zu", *place);
}

// An answer or a refusal: the value, or why there is none.
template <class T>
void show(const char *what, hemotusap::result<T> answer) {
    std::printf("%s%s", what, answer ? ":" : ": refused,");
    if (answer)
        print(*answer);
    else
        print(answer.error());
    std::printf("\n");
}

void symbols() {
    const std::array<std::uint8_t, 3> keys{60, 64, 67};
    char lines[hemotusap::candidates_room];
    std::printf("60 64 67 may be %zu chords:\n", hemotusap::candidate_count(keys));
    if (const auto chords = hemotusap::candidates(keys, lines))
        std::printf("%.*s", static_cast<int>(chords->size()), chords->data());

    char name[hemotusap::suffix_room];
    std::uint8_t sets[hemotusap::listing_room];
    show("suffix of 1169", hemotusap::suffix(1169, name));      // 7
    show("suffix of 4096", hemotusap::suffix(4096, name));      // refused, not a set
    show("sets of 7(b13)", hemotusap::listing("7(b13)", sets)); // 1297 1425 3345 3473
}

// For keys off a cable: 144 is a status byte.
void strict_symbols() {
    const std::array<std::uint8_t, 2> keys{60, 64};
    const std::vector<std::uint8_t> spoiled{60, 64, 144};
    char lines[hemotusap::candidates_room];
    if (const auto chords = hemotusap::candidates_strict(keys, lines))
        std::printf("60 64:\n%.*s", static_cast<int>(chords->size()), chords->data());
    show("60 64 144", hemotusap::candidates_strict(spoiled, lines));
}

// By the key's count of sharps, or minus that of its flats.
void keys() {
    const std::array<std::uint8_t, 3> codes{66, 69, 74};
    char flat[hemotusap::candidates_room], sharp[hemotusap::candidates_room];
    const auto flats = hemotusap::candidates(codes, flat);
    const auto sharps = hemotusap::candidates_sharp(codes, sharp);
    std::printf("the last of 66 69 74, in D and in F:");
    print(hemotusap::candidate_line(*flats, *sharps, 2, 2));  // D/F#
    print(hemotusap::candidate_line(*flats, *sharps, 2, -1)); // D/Gb
    std::printf("\n");
}

// Each candidate by its number, up to the one that is not there.
void elements() {
    const std::array<std::uint8_t, 3> keys{60, 64, 67};
    char element[hemotusap::harmony_room];
    for (std::uint32_t at = 0; const auto chord = hemotusap::candidate(keys, at); at++)
        show("in MusicXML", hemotusap::harmony(*chord, element));
}

void qualities() {
    if (const auto quality = hemotusap::quality(145))
        std::printf("145 is %s\n", *quality == hemotusap::chord_quality::maj ? "major" : "another");
}

void notes() {
    const hemotusap::note c{letter::C, 0}, e_flat{letter::E, -1}, g{letter::G, 0};
    char text[hemotusap::tones_room];
    show("tones of 73 on C", hemotusap::tones(0, 73, text));
    show("tones of 1177 on E", hemotusap::tones(4, 1177, text));
    show("a major third above Eb", hemotusap::get_note(e_flat, 4, 3));
    show("Eb moved as C to G", hemotusap::transpose(c, e_flat, g));
}

void voicings() {
    const std::vector<std::uint8_t> classes{0, 4, 7, 11};
    const interval intervals[] = {interval::unison, interval::major_third, interval::perfect_fifth,
                                  interval::major_seventh};
    std::uint8_t keys[hemotusap::voicing_room];
    const auto none = std::nullopt;
    show("CMa7", hemotusap::voicing(0, none, classes, intervals, none, keys)); // 36 52 59 79
    show("CMa7/E, lead 71", hemotusap::voicing(0, 4, classes, intervals, 71, keys));
    const auto on = [&](hemotusap::key_range within) {
        return hemotusap::voicing(0, none, classes, intervals, none, keys, within);
    };
    show("CMa7 on a vibraphone", on({51, 89}));  // 36 59 79 88
    show("CMa7 in the left hand", on({51, 67})); // 36 52 59 67
    show("CMa7 from 68 to 67", on({68, 67}));    // refused, bad range

    const std::array<std::uint8_t, 3> wrong{0, 4, 12}; // the last is no class
    show("classes 0 4 12", hemotusap::voicing(0, none, wrong, intervals, none, keys));
}

} // namespace

int main() {
    symbols();
    strict_symbols();
    keys();
    elements();
    qualities();
    notes();
    voicings();
}
