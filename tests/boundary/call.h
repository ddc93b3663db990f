/* A call of the library by its numbers and inputs: the oracle's request is made from it. */
#ifndef CALL_H
#define CALL_H

#include <stddef.h>
#include <stdint.h>
#include <stdio.h>

enum { NO_OUTPUT = -1 };

/* Bytes that a call is lent to read. */
struct range {
    const uint8_t *bytes;
    size_t length;
};

struct function;

struct call {
    const char *name;
    const struct function *function; /* NULL: the oracle's alone */
    const int64_t *numbers;
    size_t count;
    const struct range *inputs; /* behind the numbers, each as its length and its bytes */
    size_t input_count;
    int64_t room; /* of the lent output, which the oracle has no part in */
};

/* A request of plain numbers. */
#define REQUEST(name_, function_, ...)                                                   \
    (&(const struct call){.name = (name_),                                               \
                          .function = (function_),                                       \
                          .numbers = (const int64_t[]){__VA_ARGS__},                     \
                          .count = sizeof(int64_t[]){__VA_ARGS__} / sizeof(int64_t),     \
                          .room = NO_OUTPUT})

/* As the oracle's request, a line. */
void call_request(const struct call *call, FILE *to);

/* As part of a message, long inputs cut. */
void call_tell(const struct call *call, FILE *to);

#endif
