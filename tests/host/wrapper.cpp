// What hemotusap.hpp promises beyond the library: what a range may be made of, what a result is,
// and how refusals and absent numbers pass. Ends with 0 if all of it holds.
#include <hemotusap.hpp>

#include <array>
#include <cstdio>
#include <initializer_list>
#include <string>
#include <vector>

namespace {

using namespace hemotusap;

using bytes = range<const std::uint8_t>;
using room = range<std::uint8_t>;

template <class T, class Owner>
constexpr bool lends = std::is_convertible_v<Owner, range<T>>;

static_assert(lends<const std::uint8_t, const std::uint8_t (&)[3]>);
static_assert(lends<const std::uint8_t, std::array<std::uint8_t, 3>>);
static_assert(lends<const std::uint8_t, const std::vector<std::uint8_t> &>);
static_assert(lends<const char, std::string_view>);
static_assert(lends<const std::uint8_t, room>);
static_assert(lends<std::uint8_t, std::vector<std::uint8_t> &>);
static_assert(lends<char, std::string &>);
static_assert(!lends<std::uint8_t, const std::vector<std::uint8_t> &>, "what is const stays so");
static_assert(!lends<std::uint8_t, std::vector<std::uint8_t>>, "a temporary is not written to");
static_assert(!lends<std::uint8_t, bytes>);
static_assert(!lends<const std::uint8_t, const int (&)[3]>);
static_assert(!lends<const interval, bytes>, "a class is no interval");

static_assert(std::is_trivially_copyable_v<result<room>>);
static_assert(result<note>(note{letter::E, -1})->accidental == -1);
static_assert(result<int>(refusal::no_room).error() == refusal::no_room);
static_assert(!result<int>(refusal::no_room) && *result<int>(refusal::no_room) == 0);
static_assert(result<int>(refusal::no_room).value_or(5) == 5 && result<int>(4).value_or(5) == 4);

constexpr refusal third(refusal::bad_pair_class, 2);
static_assert(std::is_trivially_copyable_v<refusal>);
static_assert(third == refusal::bad_pair_class && third != refusal::bad_pair_interval);
static_assert(third.number() == 41 && third.place() == 2u);
static_assert(result<int>(third).error().place() == 2u && !result<int>(third));
static_assert(refusal(refusal::no_room).number() == 7 && !refusal(refusal::no_room).place());
static_assert(refusal{}.number() == 0 && !refusal{}.place());
static_assert(refusal{} != refusal::not_a_set && result<int>(4).error() == refusal{});

int failures = 0;

void expect(bool holds, const char *what) {
    if (holds)
        return;
    std::printf("not so: %s\n", what);
    failures++;
}

#define EXPECT(condition) expect((condition), #condition)

// Each refusal by a call that has it.
void refusals() {
    const std::array<std::uint8_t, 17> zeros{};
    const std::array<interval, 17> unisons{};
    std::uint8_t keys[voicing_room];
    char text[suffix_room];
    EXPECT(quality(4096).error() == refusal::not_a_set);
    EXPECT(suffix(2, text).error() == refusal::not_a_set);
    EXPECT(tones(12, 1, text).error() == refusal::bad_class);
    EXPECT(voicing(0, {}, zeros, unisons, {}, keys).error() == refusal::too_many_pairs);
    EXPECT(voicing(0, {}, {}, {}, {}, keys, key_range{60, 59}).error() == refusal::bad_range);
    EXPECT(note_text({letter{7}, 0}, text).error() == refusal::bad_note);
    EXPECT(transpose({}, {}, {letter::C, 7}).error() == refusal::bad_note);
    EXPECT(get_note({}, 0, 15).error() == refusal::bad_move);
    EXPECT(listing("7(b13)", room(keys, 7)).error() == refusal::no_room);
    EXPECT(candidates(zeros, {}).error() == refusal::no_room);
    EXPECT(candidates_strict(zeros, {}).error() == refusal::no_room);
    EXPECT(candidates_sharp(zeros, {}).error() == refusal::no_room);
    EXPECT(candidates_strict_sharp(zeros, {}).error() == refusal::no_room);
    EXPECT(harmony(0, {}, 2, text).error() == refusal::not_a_set);
    EXPECT(harmony(12, {}, 1, text).error() == refusal::bad_class);
    EXPECT(harmony(0, {}, 145, text).error() == refusal::no_room);
    EXPECT(name(refusal::no_room) == "no room" && name(refusal{}) == "none");
    EXPECT(!suffix(2, text).error().place() && suffix(2, text).error().number() == 1);
}

// As a host would switch on it.
std::string_view bad_part(refusal why) {
    switch (why) {
    case refusal::bad_pair_class: return "class";
    case refusal::bad_pair_interval: return "interval";
    default: return "neither";
    }
}

// Of two bad pairs the first, and of each the part that is bad.
void places() {
    const std::uint8_t classes[] = {0, 4, 7, 12};
    const interval intervals[] = {interval::unison, interval{23}, interval::unison, interval{255}};
    std::uint8_t keys[voicing_room];
    const refusal second = voicing(0, {}, classes, intervals, {}, keys).error();
    const refusal first = voicing(0, {}, bytes(classes + 3, 1), intervals, {}, keys).error();
    EXPECT(second == refusal::bad_pair_interval && second.number() == 42 && second.place() == 1u);
    EXPECT(first == refusal::bad_pair_class && first.number() == 41 && first.place() == 0u);
    EXPECT(bad_part(second) == "interval" && bad_part(first) == "class");
    EXPECT(name(second) == "bad interval of a pair" && name(first) == "bad class of a pair");
    EXPECT(bad_part(voicing(12, {}, classes, intervals, {}, keys).error()) == "neither");
}

// A place of any size, in no room too; and where every code is a key, what candidates answers.
void strict() {
    std::vector<std::uint8_t> codes(70000, 127);
    char one[candidates_room], other[candidates_room];
    EXPECT(*candidates_strict(codes, one) == *candidates(codes, other));
    EXPECT(candidates_strict({}, {}) && candidates_strict({}, {})->empty());
    for (const std::size_t place : {69999u, 65536u, 300u, 256u, 255u, 15u, 1u, 0u}) {
        codes[place] = 128;
        const refusal why = candidates_strict(codes, {}).error();
        EXPECT(why == refusal::not_a_key && why.number() == 11 && why.place() == place);
        EXPECT(name(why) == "not a key" && candidates(codes, other)->size() > 0);
        EXPECT(hemotusap_candidates_strict(codes.data(), codes.size(), nullptr, 0) ==
               -2816 - static_cast<std::int64_t>(place));
    }
    codes.assign(301, 60);
    codes[300] = 255;
    EXPECT(hemotusap_candidates_strict(codes.data(), codes.size(), nullptr, 0) == -3116);
    EXPECT(!candidates_strict(bytes(codes.data(), 300), {}).error().place());
}

// The same bytes, in the same place: a view is of the caller's own listing.
bool is_part(std::string_view view, std::string_view listing, std::size_t start,
             std::size_t length) {
    return view.data() == listing.data() + start && view.size() == length;
}

void keys() {
    const std::uint8_t codes[] = {66, 69, 74}, spoiled[] = {66, 69, 144};
    char one[candidates_room], other[candidates_room], strict[candidates_room];
    const std::string_view flat = *candidates(codes, one), sharp = *candidates_sharp(codes, other);
    EXPECT(flat.size() == sharp.size() && *candidates_strict_sharp(codes, strict) == sharp);
    EXPECT(candidates_strict_sharp(spoiled, strict).error() == refusal::not_a_key);
    EXPECT(candidates_strict_sharp(spoiled, strict).error().place() == 2u);
    const std::size_t last = flat.size() - 5;
    EXPECT(candidate_line(flat, sharp, 2, 2) == "D/F#");
    EXPECT(candidate_line(flat, sharp, 2, 0) == "D/Gb");
    EXPECT(is_part(candidate_line(flat, sharp, 2, 7), sharp, last, 4));
    EXPECT(is_part(candidate_line(flat, sharp, 2, -7), flat, last, 4));
    for (const std::int32_t fifths : {1, 0, 8, -8, INT32_MAX, INT32_MIN}) {
        EXPECT(is_part(candidate_line(flat, sharp, 3, fifths), flat, flat.size(), 0));
        EXPECT(is_part(candidate_line({}, {}, 0, fifths), {}, 0, 0));
    }
    EXPECT(is_part(candidate_line(flat, sharp, 2, 8), flat, flat.size(), 0));
    EXPECT(candidate_line(flat.substr(0, flat.size() - 1), sharp, 2, 0).empty());
}

// An answer, and what hemotusap.h reads off it.
struct parts {
    std::int64_t answer, number, place;
};

using reader = std::int64_t (*)(std::int64_t);

void read(std::initializer_list<parts> rows, reader number, reader place) {
    for (const parts &row : rows) {
        EXPECT(number(row.answer) == row.number);
        EXPECT(place(row.answer) == row.place);
    }
}

// Of whatever kind; of a strict call every size from 256 * 11 up is that number and a place.
void parts_of_answers() {
    read({{INT64_MAX, 0, -1}, {1024, 0, -1}, {0, 0, -1}, {-1, 1, -1}, {-7, 7, -1},
          {-255, 255, -1}, {-256, 1, 0}, {-257, 1, 1}, {-10496, 41, 0}, {-10511, 41, 15},
          {-10751, 41, 255}, {-10752, 42, 0}, {-10767, 42, 15},
          {INT64_MIN + 1, (INT64_C(1) << 55) - 1, 255}, {INT64_MIN, INT64_C(1) << 55, 0}},
         hemotusap_refusal_number, hemotusap_refusal_place);
    read({{INT64_MAX, 0, -1}, {840, 0, -1}, {0, 0, -1}, {-1, 1, -1}, {-7, 7, -1}, {-11, 11, -1},
          {-256, 256, -1}, {-2815, 2815, -1}, {-2816, 11, 0}, {-2817, 11, 1}, {-3071, 11, 255},
          {-3072, 11, 256}, {-3116, 11, 300}, {-68352, 11, 65536},
          {INT64_MIN + 1, 11, INT64_MAX - 2816}, {INT64_MIN, 11, INT64_MAX - 2815}},
         hemotusap_strict_refusal_number, hemotusap_strict_refusal_place);
}

// With a range and without: the same from 51 to 79, other keys within others, and a bad one is told
// before the pairs and behind the classes.
void ranges() {
    const std::uint8_t classes[] = {0, 4, 7, 11};
    const interval intervals[] = {interval::unison, interval::major_third, interval::perfect_fifth,
                                  interval{23}};
    std::uint8_t keys[voicing_room];
    const auto voiced = [&](std::size_t count, std::optional<key_range> within) {
        const auto found = voicing(0, {}, bytes(classes, count), intervals, {}, keys, within);
        return std::vector<std::uint8_t>(found->begin(), found->end());
    };
    const auto refused = [&](std::uint32_t root, key_range within) {
        return voicing(root, {}, classes, intervals, {}, keys, within).error();
    };
    EXPECT(voiced(3, {}) == voiced(3, key_range{51, 79}) && voiced(3, {}).back() == 79);
    EXPECT(voiced(3, key_range{51, 89}).back() == 88 && voiced(3, key_range{60, 60}).back() == 60);
    EXPECT(voiced(3, key_range{0, 47}) == (std::vector<std::uint8_t>{36, 0}));
    EXPECT(refused(0, {0, 128}) == refusal::bad_range && !refused(0, {0, 128}).place());
    EXPECT(refused(0, {0, 127}) == refusal::bad_pair_interval);
    EXPECT(refused(12, {1, 0}) == refusal::bad_class && refused(0, {1, 0}).number() == 16);
    EXPECT(name(refused(0, {1, 0})) == "bad range");
}

// Of what is absent or out of place, and of nothing at all.
void edges() {
    const std::uint8_t classes[] = {0, 4, 7};
    const interval intervals[] = {interval::unison, interval::major_third, interval::perfect_fifth};
    std::uint8_t keys[voicing_room], sets[listing_room];
    EXPECT(voicing(0, 255, classes, intervals, {}, keys).error() == refusal::bad_class);
    EXPECT(voicing(0, 256, classes, intervals, {}, keys).error() == refusal::bad_class);
    EXPECT(voicing(0, 4, classes, intervals, {}, keys)->size() == 5);
    EXPECT(*voicing(0, {}, classes, intervals, 256, keys)->begin() == 36);
    EXPECT(voicing(0, {}, {}, {}, 60, keys)->size() == 2);
    EXPECT(candidates({}, {}) && candidates({}, {})->empty() && candidate_count({}) == 0);
    EXPECT(listing("no suffix", {})->empty());
    EXPECT(listing("+", sets)->size() == 2 && (*listing("+", sets))[1] == 401);
    EXPECT(*quality(128) == chord_quality::bass && *quality(2577) == chord_quality::maj6);
    EXPECT(*transpose({letter::C, 0}, {letter::E, -1}, {letter::G, 0}) == (note{letter::B, -1}));
}

// A moved note, by its name: a double sharp has one byte, and six flats take the whole room.
void names() {
    char text[note_text_room], short_text[2];
    const note third = *get_note({letter::D, 1}, 4, 3);
    EXPECT(third == (note{letter::F, 2}) && *note_text(third, short_text) == "Fx");
    EXPECT(note_text({letter::F, 3}, short_text).error() == refusal::no_room);
    EXPECT(*note_text({letter::F, 3}, text) == "F#x" && *note_text({letter::F, -2}, text) == "Fbb");
    EXPECT(note_text({letter::C, -6}, text)->size() == note_text_room);
}

// From keys to elements: the first candidate has no bass, and behind the last there is none.
void elements() {
    const std::uint8_t keys[] = {64, 60, 67, 72};
    char one[harmony_room], other[harmony_room];
    EXPECT(candidate(keys, 0) == (chord{4, {}, 265}) && candidate(keys, 1) == (chord{0, 4, 145}));
    EXPECT(candidate(keys, 1) != candidate(keys, 2) && candidate(keys, 2)->bass == 4u);
    EXPECT(!candidate(keys, 3) && !candidate(keys, UINT32_MAX) && !candidate({}, 0));
    EXPECT(candidate(bytes(keys, 1), 0) == (chord{4, {}, 1}));
    EXPECT(*harmony(0, {}, 145, one) == "<harmony><root><root-step>C</root-step></root>"
                                        "<kind>major</kind></harmony>");
    EXPECT(*harmony(0, 4, 145, one) == *harmony(*candidate(keys, 1), other));
    EXPECT(*harmony(0, 0, 145, one) != *harmony(0, {}, 145, other));
    EXPECT(harmony(0, 255, 145, one).error() == refusal::bad_class);
    EXPECT(harmony(chord{0, 12, 145}, one).error() == refusal::bad_class);
}

} // namespace

int main() {
    refusals();
    places();
    strict();
    keys();
    parts_of_answers();
    ranges();
    edges();
    names();
    elements();
    return failures == 0 ? 0 : 1;
}
