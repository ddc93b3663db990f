/* candidate_line, by a reader of bytes: in every key, on the listings of a few sets' lists and of
   drawn ones, which the oracle gives and the driver names by sharps too; on the former cut at every
   byte; and on any other bytes. */
#include <string.h>

#include "draw.h"
#include "length.h"
#include "line_calls.h"
#include "lists.h"
#include "numbers_above.h"
#include "other_listings.h"
#include "sharp_names.h"
#include "suite.h"

/* One in so many of the lists that the command says, since each is good for some hundred calls. */
enum { DRAWN_APART = 20 };

static struct range range_of(const struct lines *lines)
{
    return (struct range){lines->text, lines->length};
}

/* Either cut, or both; the lines around the cut. */
static void cut_at(struct run *run, const struct range *whole, size_t length, int64_t lines)
{
    const struct range flat = {whole[FLAT].bytes, length}, sharp = {whole[SHARP].bytes, length};
    expect_lines_around(run, (struct range[]){flat, whole[SHARP]}, lines);
    expect_lines_around(run, (struct range[]){whole[FLAT], sharp}, lines);
    expect_lines_around(run, (struct range[]){flat, sharp}, lines);
}

static void cut_everywhere(struct run *run, const struct range *whole)
{
    int64_t lines = 0;
    for (size_t length = 0; length < whole[FLAT].length; length++) {
        cut_at(run, whole, length, lines);
        lines += whole[FLAT].bytes[length] == '\n';
    }
}

/* Its sharp listing is tried beside the flat one of the list before too, since these have other
   lines, and mostly another number of them. */
static void one_list(struct run *run, struct range list, bool is_cut, uint64_t state)
{
    static struct lines flat_before;
    const char *answer = oracle_answer(run, CALL_ON(candidates, &list));
    if (answer == NULL)
        return;
    const struct listings both = listings_in(answer);
    const struct range own[] = {range_of(&both.flat), range_of(&both.sharp)};
    const struct range mixed[] = {range_of(&flat_before), range_of(&both.sharp)};
    int64_t count = both.flat.count, before = flat_before.count;
    expect_lines_up_to(run, own, count, state);
    expect_lines_up_to(run, mixed, count > before ? count : before, state);
    if (is_cut)
        cut_everywhere(run, own);
    flat_before = both.flat;
}

static void lists_of_sets(struct run *run)
{
    one_list(run, (struct range){NULL, 0}, true, run->seed);
    for (uint32_t set = 1; set < SETS; set++)
        for (unsigned first = 0; first < CLASSES; first++)
            if ((set >> first & 1) && is_one_of_few(set, first)) {
                struct list list = list_of_set(set, first, OCTAVES);
                one_list(run, (struct range){list.codes, list.length}, true,
                         draws_of(run->seed, set * CLASSES + first));
            }
}

static void every_list(struct run *run)
{
    lists_of_sets(run);
    for (uint64_t number = 0; number < run->count; number += DRAWN_APART) {
        uint64_t state = draws_of(run->seed, number);
        struct list list = drawn_list(&state);
        one_list(run, (struct range){list.codes, list.length}, false, state);
    }
}

/* Keys 62 66 69, as a host has them in D and elsewhere. */
static const char flat_text[] = "D\nGbmi(b6,omit5)/D\nA6sus(omit5)/D\n";
static const char sharp_text[] = "D\nF#mi(b6,omit5)/D\nA6sus(omit5)/D\n";

/* By hand, not by the reader. */
static const struct {
    const char *texts[LISTINGS];
    int64_t number, fifths;
    struct chosen_line want;
} rows[] = {
    {{flat_text, sharp_text}, 1, 2, {SHARP, {2, 16}}},
    {{flat_text, sharp_text}, 1, -2, {FLAT, {2, 16}}},
    {{flat_text, sharp_text}, 1, 0, {FLAT, {2, 16}}},
    {{flat_text, sharp_text}, 0, 7, {SHARP, {0, 1}}},
    {{flat_text, sharp_text}, 2, 1, {SHARP, {19, 14}}},
    {{flat_text, sharp_text}, 2, -7, {FLAT, {19, 14}}},
    {{flat_text, sharp_text}, 3, 2, {FLAT, {34, 0}}},
    {{flat_text, sharp_text}, 0, 8, {FLAT, {34, 0}}},
    {{flat_text, sharp_text}, 0, -8, {FLAT, {34, 0}}},
    {{"C\n", "C#\nD#"}, 0, 1, {SHARP, {0, 2}}},
    {{"C\n", "C#\nD#"}, 1, 1, {FLAT, {2, 0}}},
    {{"C\n", "C#\nD#\n"}, 1, 1, {SHARP, {3, 2}}},
    {{"C\n", "C#\nD#\n"}, 1, 0, {FLAT, {2, 0}}},
    {{"\n\nC\n", ""}, 1, 0, {FLAT, {1, 0}}},
    {{"\n\nC\n", ""}, 2, 0, {FLAT, {2, 1}}},
    {{"\n\nC\n", ""}, 0, 1, {FLAT, {4, 0}}},
    {{"", "\n"}, 0, 1, {SHARP, {0, 0}}},
    {{"", "\n"}, 0, 0, {FLAT, {0, 0}}},
    {{"", ""}, 0, 1, {FLAT, {0, 0}}},
};

static struct range text_range(const char *text)
{
    return (struct range){(const uint8_t *)text, strlen(text)};
}

static void lines_by_hand(struct run *run)
{
    for (unsigned at = 0; at < LENGTH(rows); at++) {
        const char *const *texts = rows[at].texts;
        const struct range listings[] = {text_range(texts[FLAT]), text_range(texts[SHARP])};
        expect_this_line(run, listings, rows[at].number, rows[at].fifths, &rows[at].want);
    }
}

/* A number cut to fewer bits would be one of twelve lines. */
static void expect_no_line(struct run *run, int64_t number)
{
    static const char twelve[] = "C\nDb\nD\nEb\nE\nF\nGb\nG\nAb\nA\nBb\nB\n";
    const struct range listings[] = {text_range(twelve), text_range(twelve)};
    expect_line(run, listings, number, 0);
    expect_line(run, listings, number, 1);
}

static void stated_lines(struct run *run)
{
    const struct range listings[] = {text_range(flat_text), text_range(sharp_text)};
    lines_by_hand(run);
    numbers_above(run, CLASSES, expect_no_line);
    other_keys(run, listings);
    other_listings(run);
}

const struct suite candidate_line_suite = {"candidate_line", every_list, stated_lines};
