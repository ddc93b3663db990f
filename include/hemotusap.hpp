// Hemotusap for C++17: hemotusap.h with types. Ranges are memory of the caller's, an answer or a
// refusal is one value, and nothing allocates or throws. What a call answers and when it refuses
// stands in hemotusap.h, beside the function of the same name.
#ifndef HEMOTUSAP_HPP
#define HEMOTUSAP_HPP

#include "hemotusap.h"

#include <cstddef>
#include <cstdint>
#include <iterator>
#include <optional>
#include <string_view>
#include <type_traits>
#include <utility>

namespace hemotusap {

// Why a call is refused, and at which place, where one is told. It is compared and switched on by
// its reason alone: a bad_pair_class equals refusal::bad_pair_class, whatever its place.
class refusal {
public:
    // The numbers are those of hemotusap.h, so that they stand in one place.
    enum reason : std::uint32_t {
        not_a_set = HEMOTUSAP_NOT_A_SET,
        bad_class = HEMOTUSAP_BAD_CLASS,
        bad_range = HEMOTUSAP_BAD_RANGE,
        too_many_pairs = HEMOTUSAP_TOO_MANY_PAIRS,
        bad_pair_class = HEMOTUSAP_BAD_PAIR_CLASS,
        bad_pair_interval = HEMOTUSAP_BAD_PAIR_INTERVAL,
        bad_note = HEMOTUSAP_BAD_NOTE,
        bad_move = HEMOTUSAP_BAD_MOVE,
        not_a_key = HEMOTUSAP_NOT_A_KEY,
        no_room = HEMOTUSAP_NO_ROOM
    };

    constexpr refusal() noexcept = default;
    constexpr refusal(reason why, std::optional<std::size_t> place = std::nullopt) noexcept
        : reason_(why), place_(place) {}

    constexpr operator reason() const noexcept { return reason_; }
    constexpr std::uint32_t number() const noexcept { return reason_; }
    constexpr std::optional<std::size_t> place() const noexcept { return place_; } // from 0

private:
    reason reason_{};
    std::optional<std::size_t> place_;
};

enum class chord_quality : std::uint32_t {
    maj = HEMOTUSAP_QUALITY_MAJ,
    maj6 = HEMOTUSAP_QUALITY_MAJ6,
    maj7 = HEMOTUSAP_QUALITY_MAJ7,
    dominant7 = HEMOTUSAP_QUALITY_DOMINANT7,
    mi = HEMOTUSAP_QUALITY_MI,
    mi6 = HEMOTUSAP_QUALITY_MI6,
    mi7 = HEMOTUSAP_QUALITY_MI7,
    mi_maj7 = HEMOTUSAP_QUALITY_MI_MAJ7,
    augmented = HEMOTUSAP_QUALITY_AUGMENTED,
    diminished = HEMOTUSAP_QUALITY_DIMINISHED,
    diminished7 = HEMOTUSAP_QUALITY_DIMINISHED7,
    power = HEMOTUSAP_QUALITY_POWER,
    bass = HEMOTUSAP_QUALITY_BASS
};

// A byte each, so that a range of them is lent as it stands.
enum class interval : std::uint8_t {
    unison = HEMOTUSAP_INTERVAL_UNISON,
    minor_second = HEMOTUSAP_INTERVAL_MINOR_SECOND,
    major_second = HEMOTUSAP_INTERVAL_MAJOR_SECOND,
    minor_third = HEMOTUSAP_INTERVAL_MINOR_THIRD,
    major_third = HEMOTUSAP_INTERVAL_MAJOR_THIRD,
    perfect_fourth = HEMOTUSAP_INTERVAL_PERFECT_FOURTH,
    augmented_fourth = HEMOTUSAP_INTERVAL_AUGMENTED_FOURTH,
    diminished_fifth = HEMOTUSAP_INTERVAL_DIMINISHED_FIFTH,
    perfect_fifth = HEMOTUSAP_INTERVAL_PERFECT_FIFTH,
    augmented_fifth = HEMOTUSAP_INTERVAL_AUGMENTED_FIFTH,
    minor_sixth = HEMOTUSAP_INTERVAL_MINOR_SIXTH,
    major_sixth = HEMOTUSAP_INTERVAL_MAJOR_SIXTH,
    diminished_seventh = HEMOTUSAP_INTERVAL_DIMINISHED_SEVENTH,
    minor_seventh = HEMOTUSAP_INTERVAL_MINOR_SEVENTH,
    major_seventh = HEMOTUSAP_INTERVAL_MAJOR_SEVENTH,
    octave = HEMOTUSAP_INTERVAL_OCTAVE,
    flat_ninth = HEMOTUSAP_INTERVAL_FLAT_NINTH,
    ninth = HEMOTUSAP_INTERVAL_NINTH,
    sharp_ninth = HEMOTUSAP_INTERVAL_SHARP_NINTH,
    eleventh = HEMOTUSAP_INTERVAL_ELEVENTH,
    sharp_eleventh = HEMOTUSAP_INTERVAL_SHARP_ELEVENTH,
    flat_thirteenth = HEMOTUSAP_INTERVAL_FLAT_THIRTEENTH,
    thirteenth = HEMOTUSAP_INTERVAL_THIRTEENTH
};

enum class letter : std::uint32_t {
    C = HEMOTUSAP_LETTER_C,
    D = HEMOTUSAP_LETTER_D,
    E = HEMOTUSAP_LETTER_E,
    F = HEMOTUSAP_LETTER_F,
    G = HEMOTUSAP_LETTER_G,
    A = HEMOTUSAP_LETTER_A,
    B = HEMOTUSAP_LETTER_B
};

struct note {
    hemotusap::letter letter;
    std::int32_t accidental; // the count of sharps; flats are negative
};

constexpr bool operator==(note a, note b) noexcept {
    return a.letter == b.letter && a.accidental == b.accidental;
}
constexpr bool operator!=(note a, note b) noexcept { return !(a == b); }

// A chord on its root, as a candidate is and as a harmony element holds it.
struct chord {
    std::uint32_t root;                // a class, 0..11
    std::optional<std::uint32_t> bass; // a class too, where there is a slash
    std::uint32_t set;                 // seen from the root
};

constexpr bool operator==(const chord &a, const chord &b) noexcept {
    return a.root == b.root && a.bass == b.bass && a.set == b.set;
}
constexpr bool operator!=(const chord &a, const chord &b) noexcept { return !(a == b); }

// Keys from the lowest to the highest, both among them.
struct key_range {
    std::uint32_t lowest;
    std::uint32_t highest;
};

// Room in which every answer fits, for an array of the caller's.
inline constexpr std::size_t suffix_room = HEMOTUSAP_SUFFIX_ROOM;
inline constexpr std::size_t listing_room = HEMOTUSAP_LISTING_ROOM;
inline constexpr std::size_t tones_room = HEMOTUSAP_TONES_ROOM;
inline constexpr std::size_t candidates_room = HEMOTUSAP_CANDIDATES_ROOM;
inline constexpr std::size_t note_text_room = HEMOTUSAP_NOTE_TEXT_ROOM;
inline constexpr std::size_t voicing_room = HEMOTUSAP_VOICING_ROOM;
inline constexpr std::size_t harmony_room = HEMOTUSAP_HARMONY_ROOM;

// Values that someone else owns, as std::span has them in C++20.
template <class T>
class range {
    // A temporary may be read, but what is written into it would be lost.
    template <class Owner>
    using if_lends = std::enable_if_t<
        !std::is_same_v<std::decay_t<Owner>, range> &&
        (std::is_const_v<T> || std::is_lvalue_reference_v<Owner>) &&
        std::is_convertible_v<
            std::remove_pointer_t<decltype(std::data(std::declval<Owner &>()))> (*)[], T (*)[]>>;

public:
    constexpr range() noexcept = default;
    constexpr range(T *first, std::size_t length) noexcept : first_(first), length_(length) {}

    // What has std::data and std::size: arrays, std::array, std::vector, std::string_view, ranges.
    template <class Owner, class = if_lends<Owner>>
    constexpr range(Owner &&owner) noexcept : range(std::data(owner), std::size(owner)) {}

    constexpr T *data() const noexcept { return first_; }
    constexpr std::size_t size() const noexcept { return length_; }
    constexpr bool empty() const noexcept { return length_ == 0; }
    constexpr T *begin() const noexcept { return first_; }
    constexpr T *end() const noexcept { return first_ + length_; }
    constexpr T &operator[](std::size_t at) const noexcept { return first_[at]; }

private:
    T *first_ = nullptr;
    std::size_t length_ = 0;
};

// An answer or a refusal, by the names that std::expected has. To ask for the one that it is not
// is harmless: the value is then T{}, an empty one, and the error a refusal{} that has no name.
template <class T>
class [[nodiscard]] result {
public:
    constexpr result(T value) noexcept : value_(value) {}
    constexpr result(refusal why) noexcept : error_(why) {}
    constexpr result(refusal::reason why) noexcept : error_(why) {} // no T of its number

    constexpr bool has_value() const noexcept { return error_ == refusal{}; }
    constexpr explicit operator bool() const noexcept { return has_value(); }
    constexpr const T &operator*() const noexcept { return value_; }
    constexpr const T *operator->() const noexcept { return &value_; }
    constexpr T value_or(T otherwise) const noexcept { return has_value() ? value_ : otherwise; }
    constexpr refusal error() const noexcept { return error_; }

private:
    T value_{};
    refusal error_{};
};

// The sets of a listing, read where they were written: two bytes each, the higher one first.
class set_list {
public:
    class iterator {
    public:
        constexpr explicit iterator(const std::uint8_t *at) noexcept : at_(at) {}
        constexpr std::uint32_t operator*() const noexcept { return at_[0] * 256u + at_[1]; }
        constexpr iterator &operator++() noexcept {
            at_ += 2;
            return *this;
        }
        constexpr bool operator!=(iterator other) const noexcept { return at_ != other.at_; }

    private:
        const std::uint8_t *at_;
    };

    constexpr set_list() noexcept = default;
    constexpr set_list(const std::uint8_t *first, std::size_t length) noexcept
        : bytes_(first, length) {}

    constexpr range<const std::uint8_t> bytes() const noexcept { return bytes_; }
    constexpr std::size_t size() const noexcept { return bytes_.size() / 2; }
    constexpr bool empty() const noexcept { return bytes_.empty(); }
    constexpr iterator begin() const noexcept { return iterator(bytes_.begin()); }
    constexpr iterator end() const noexcept { return iterator(bytes_.end()); }
    constexpr std::uint32_t operator[](std::size_t at) const noexcept {
        return *iterator(bytes_.data() + 2 * at);
    }

private:
    range<const std::uint8_t> bytes_;
};

// For messages.
constexpr std::string_view name(refusal why) noexcept {
    switch (why) {
    case refusal::not_a_set: return "not a set";
    case refusal::bad_class: return "bad class";
    case refusal::bad_range: return "bad range";
    case refusal::too_many_pairs: return "too many pairs";
    case refusal::bad_pair_class: return "bad class of a pair";
    case refusal::bad_pair_interval: return "bad interval of a pair";
    case refusal::bad_note: return "bad note";
    case refusal::bad_move: return "bad move";
    case refusal::not_a_key: return "not a key";
    case refusal::no_room: return "no room";
    }
    return "none";
}

namespace detail {

// A text is char to a host, and an interval has names; at the boundary both are bytes.
inline std::uint8_t *bytes(char *written) noexcept {
    return reinterpret_cast<std::uint8_t *>(written);
}
inline const std::uint8_t *bytes(const char *read) noexcept {
    return reinterpret_cast<const std::uint8_t *>(read);
}
inline const std::uint8_t *bytes(const interval *read) noexcept {
    return reinterpret_cast<const std::uint8_t *>(read);
}

constexpr refusal refused(std::int64_t number, std::int64_t place) noexcept {
    const auto why = static_cast<refusal::reason>(number);
    if (place < 0)
        return why;
    return refusal(why, static_cast<std::size_t>(place));
}

// What an answer below 0 tells..
using teller = refusal(std::int64_t) noexcept;

inline refusal told(std::int64_t answer) noexcept {
    return refused(hemotusap_refusal_number(answer), hemotusap_refusal_place(answer));
}

// ..and one of a strict call, whose place may be above 255.
inline refusal told_strictly(std::int64_t answer) noexcept {
    return refused(hemotusap_strict_refusal_number(answer), hemotusap_strict_refusal_place(answer));
}

// The answer as a value of T, made of the boundary's number by `make`, or the refusal.
template <class T, class Make>
constexpr result<T> answered(std::int64_t number, Make make, teller *tell = told) noexcept {
    if (number < 0)
        return tell(number);
    return make(static_cast<std::size_t>(number));
}

constexpr result<note> noted(std::int64_t number) noexcept {
    return answered<note>(number, [](std::size_t packed) {
        return note{static_cast<letter>(packed / 16), static_cast<std::int32_t>(packed % 16) - 6};
    });
}

// The part of the room that was written, as a View of it.
template <class View, class T>
constexpr result<View> written(range<T> room, std::int64_t number, teller *tell = told) noexcept {
    return answered<View>(
        number, [room](std::size_t count) { return View(room.data(), count); }, tell);
}

// At the boundary 255 is no bass. Here it is a class like any other above 11, and goes as 256.
constexpr std::uint32_t bass_number(std::optional<std::uint32_t> bass) noexcept {
    if (!bass)
        return HEMOTUSAP_NO_BASS;
    return *bass == HEMOTUSAP_NO_BASS ? HEMOTUSAP_NO_BASS + 1 : *bass;
}

} // namespace detail

inline result<chord_quality> quality(std::uint32_t set) noexcept {
    return detail::answered<chord_quality>(hemotusap_quality(set), [](std::size_t number) {
        return static_cast<chord_quality>(number);
    });
}

inline result<std::string_view> suffix(std::uint32_t set, range<char> out) noexcept {
    return detail::written<std::string_view>(
        out, hemotusap_suffix(set, detail::bytes(out.data()), out.size()));
}

// The text is a view and not a range, since the range of a literal would end with its NUL.
inline result<set_list> listing(std::string_view text, range<std::uint8_t> out) noexcept {
    return detail::written<set_list>(
        out, hemotusap_listing(detail::bytes(text.data()), text.size(), out.data(), out.size()));
}

inline result<std::string_view> tones(std::uint32_t root, std::uint32_t set,
                                      range<char> out) noexcept {
    return detail::written<std::string_view>(
        out, hemotusap_tones(root, set, detail::bytes(out.data()), out.size()));
}

inline result<std::string_view> candidates(range<const std::uint8_t> codes,
                                           range<char> out) noexcept {
    return detail::written<std::string_view>(
        out,
        hemotusap_candidates(codes.data(), codes.size(), detail::bytes(out.data()), out.size()));
}

inline result<std::string_view> candidates_strict(range<const std::uint8_t> codes,
                                                  range<char> out) noexcept {
    return detail::written<std::string_view>(
        out,
        hemotusap_candidates_strict(codes.data(), codes.size(), detail::bytes(out.data()),
                                    out.size()),
        detail::told_strictly);
}

inline result<std::string_view> candidates_sharp(range<const std::uint8_t> codes,
                                                 range<char> out) noexcept {
    return detail::written<std::string_view>(
        out, hemotusap_candidates_sharp(codes.data(), codes.size(), detail::bytes(out.data()),
                                        out.size()));
}

inline result<std::string_view> candidates_strict_sharp(range<const std::uint8_t> codes,
                                                        range<char> out) noexcept {
    return detail::written<std::string_view>(
        out,
        hemotusap_candidates_strict_sharp(codes.data(), codes.size(), detail::bytes(out.data()),
                                          out.size()),
        detail::told_strictly);
}

// A view into the listing that the key calls for; where there is no such line, an empty one at the
// end of the flat listing.
inline std::string_view candidate_line(std::string_view flat, std::string_view sharp,
                                       std::uint32_t number, std::int32_t fifths) noexcept {
    std::uint64_t start = 0, length = 0;
    const std::int64_t is_sharp = hemotusap_candidate_line(
        detail::bytes(flat.data()), flat.size(), detail::bytes(sharp.data()), sharp.size(), number,
        fifths, &start, &length);
    const std::string_view listing = is_sharp != 0 ? sharp : flat;
    return {listing.data() + start, static_cast<std::size_t>(length)};
}

inline std::size_t candidate_count(range<const std::uint8_t> codes) noexcept {
    return static_cast<std::size_t>(hemotusap_candidate_count(codes.data(), codes.size()));
}

// None where the list has no candidate of this number.
inline std::optional<chord> candidate(range<const std::uint8_t> codes,
                                      std::uint32_t number) noexcept {
    const std::int64_t packed = hemotusap_candidate(codes.data(), codes.size(), number);
    if (packed == 0)
        return std::nullopt;
    chord found{hemotusap_candidate_root(packed), std::nullopt, hemotusap_candidate_set(packed)};
    if (const std::uint32_t bass = hemotusap_candidate_bass(packed); bass != HEMOTUSAP_NO_BASS)
        found.bass = bass;
    return found;
}

inline result<std::string_view> harmony(std::uint32_t root, std::optional<std::uint32_t> bass,
                                        std::uint32_t set, range<char> out) noexcept {
    return detail::written<std::string_view>(
        out, hemotusap_harmony(root, detail::bass_number(bass), set, detail::bytes(out.data()),
                               out.size()));
}

inline result<std::string_view> harmony(const chord &named, range<char> out) noexcept {
    return harmony(named.root, named.bass, named.set, out);
}

inline result<std::string_view> note_text(note named, range<char> out) noexcept {
    return detail::written<std::string_view>(
        out, hemotusap_note_text(static_cast<std::uint32_t>(named.letter), named.accidental,
                                 detail::bytes(out.data()), out.size()));
}

inline result<note> get_note(note below, std::uint32_t semitones, std::uint32_t degree) noexcept {
    return detail::noted(hemotusap_get_note(static_cast<std::uint32_t>(below.letter),
                                            below.accidental, semitones, degree));
}

// `moved`, as `from` moves to `to`.
inline result<note> transpose(note from, note moved, note to) noexcept {
    return detail::noted(hemotusap_transpose(
        static_cast<std::uint32_t>(from.letter), from.accidental,
        static_cast<std::uint32_t>(moved.letter), moved.accidental,
        static_cast<std::uint32_t>(to.letter), to.accidental));
}

// A lead above 255 is none, as in hemotusap.h. Without a range it is 51 to 79.
inline result<range<std::uint8_t>>
voicing(std::uint32_t root, std::optional<std::uint32_t> bass, range<const std::uint8_t> classes,
        range<const interval> intervals, std::optional<std::uint32_t> lead,
        range<std::uint8_t> out, std::optional<key_range> within = std::nullopt) noexcept {
    const std::uint32_t below = detail::bass_number(bass);
    const std::uint32_t wanted = lead.value_or(HEMOTUSAP_NO_LEAD);
    const std::uint8_t *numbers = detail::bytes(intervals.data());
    return detail::written<range<std::uint8_t>>(
        out, within ? hemotusap_voicing_within(root, below, within->lowest, within->highest,
                                               classes.data(), classes.size(), numbers,
                                               intervals.size(), wanted, out.data(), out.size())
                    : hemotusap_voicing(root, below, classes.data(), classes.size(), numbers,
                                        intervals.size(), wanted, out.data(), out.size()));
}

} // namespace hemotusap

#endif
