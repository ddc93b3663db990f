/* Lists of MIDI codes: one for each set of classes and first class, and drawn ones. A key is a code
   that MIDI 1.0 has, 0..127. */
#ifndef LISTS_H
#define LISTS_H

#include <stdbool.h>
#include <stddef.h>
#include <stdint.h>

enum { CLASSES = 12, SETS = 1 << CLASSES, ALL_CLASSES = SETS - 1 };
enum { LONGEST_DRAWN = 400, LAST_KEY = 127, LAST_CODE = 255 };

/* In which each class has a code, and a key. */
enum { OCTAVES = 21, KEY_OCTAVES = 10 };

struct list {
    uint8_t codes[LONGEST_DRAWN];
    size_t length;
};

/* A code for each class of the set, from `first` upward and round, in octaves that differ, as many
   as this. */
struct list list_of_set(uint32_t set, unsigned first, unsigned octaves);

/* Whether this set's list is one of the few that are tried at length: one in some hundreds, and
   those of all classes. */
bool is_one_of_few(uint32_t set, unsigned first);

/* Of codes up to this one, which is 11 or higher, so that each class has a code. */
struct list drawn_list_up_to(uint64_t *state, uint32_t last);

/* Half are of keys alone, a quarter of any codes, and a quarter of keys but for one code or two,
   each at any place. */
struct list drawn_list(uint64_t *state);

#endif
