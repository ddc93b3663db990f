#include "own_faults.h"

#include <string.h>

enum { MOST_TEXT = 4096, TABLES = 3 }; /* an edit may lengthen a text */

static const struct own_fault *const tables[FUNCTIONS][TABLES] = {
    [FUNCTION_candidates] = {faults_of_any_codes, faults_of_names, faults_of_moved_lines},
    [FUNCTION_candidate_count] = {faults_of_moved_counts},
    [FUNCTION_tones] = {faults_of_letters, faults_of_signs},
    [FUNCTION_note_text] = {faults_of_signs, faults_of_odd_sharps},
    [FUNCTION_voicing] = {faults_of_voicing},
    [FUNCTION_harmony] = {faults_of_harmony},
    [FUNCTION_candidate] = {faults_of_candidate},
    [FUNCTION_candidates_strict] = {faults_of_keys_alone, faults_of_names, faults_of_moved_lines},
    [FUNCTION_candidates_sharp] = {faults_of_any_codes, faults_of_names, faults_of_moved_lines},
    [FUNCTION_candidates_strict_sharp] = {faults_of_keys_alone, faults_of_names,
                                          faults_of_moved_lines},
    [FUNCTION_candidate_line] = {faults_of_fifths, faults_of_lines, faults_of_listings},
    [FUNCTION_voicing_within] = {faults_of_voicing, faults_of_ranges},
};

const struct own_fault *own_fault(const struct function *function, unsigned number)
{
    for (unsigned at = 0; at < TABLES; at++) {
        const struct own_fault *own = tables[function - functions][at];
        for (; own != NULL && own->name != NULL; own++)
            if (number-- == 0)
                return own;
    }
    return NULL;
}

/* Whether an answer is minus (256 * number + place). */
static bool tells_place(int64_t got)
{
    return got <= -256;
}

/* Edited where there is room for all of it, then written into the call's room. */
static int64_t call_edited(const struct call *call, uint8_t *out, void (*edit)(char *text))
{
    char text[MOST_TEXT];
    struct call roomy = *call;
    roomy.room = call->function->answers.high;
    int64_t got = __real_call_library(&roomy, (uint8_t *)text);
    if (got < 0)
        return got;
    text[got] = '\0';
    edit(text);
    got = (int64_t)strlen(text);
    if (got > call->room)
        return -HEMOTUSAP_NO_ROOM;
    memcpy(out, text, (size_t)got);
    return got;
}

int64_t call_with(const struct own_fault *fault, const struct call *call, uint8_t *out)
{
    if (fault->edit != NULL)
        return call_edited(call, out, fault->edit);
    if (fault->answer != NULL)
        return fault->answer(call);
    if (fault->call != NULL)
        return fault->call(call, out);
    int64_t got = __real_call_library(call, out);
    return tells_place(got) ? fault->retold(call, got) : got;
}
