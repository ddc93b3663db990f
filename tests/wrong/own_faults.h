/* Faults that one function alone can have, or few alike. */
#ifndef OWN_FAULTS_H
#define OWN_FAULTS_H

#include "functions.h"

struct own_fault {
    const char *name;
    bool is_read;  /* a reader of what is written finds it too, */
    bool is_seen;  /* and so does the fuzzer, which has no oracle, */
    bool is_moved; /* or the suite of a moved part, which has none either */
    /* One of the four: the text that was written is edited, another number is given back where
       none is written, a refusal that tells a place is told otherwise, or the call is made so. */
    void (*edit)(char *text);
    int64_t (*answer)(const struct call *call);
    int64_t (*retold)(const struct call *call, int64_t got);
    callee *call;
};

/* Up to one without a name. */
extern const struct own_fault faults_of_any_codes[];
extern const struct own_fault faults_of_keys_alone[];
extern const struct own_fault faults_of_names[];
extern const struct own_fault faults_of_letters[];
extern const struct own_fault faults_of_signs[];
extern const struct own_fault faults_of_odd_sharps[];
extern const struct own_fault faults_of_voicing[];
extern const struct own_fault faults_of_ranges[];
extern const struct own_fault faults_of_harmony[];
extern const struct own_fault faults_of_candidate[];
extern const struct own_fault faults_of_fifths[];
extern const struct own_fault faults_of_lines[];
extern const struct own_fault faults_of_listings[];
extern const struct own_fault faults_of_moved_lines[];
extern const struct own_fault faults_of_moved_counts[];

/* The function's own, by their numbers from 0; NULL: it has no more. */
const struct own_fault *own_fault(const struct function *function, unsigned number);

/* The call with this fault. */
int64_t call_with(const struct own_fault *fault, const struct call *call, uint8_t *out);

/* The library's call, where the linker has put another in its place. */
int64_t __real_call_library(const struct call *call, uint8_t *out);

#endif
