/* The largest stack use of each function: its calls are made on a stack of their own, painted, and
   the lowest byte that lost its paint tells. */
#include <stdlib.h>
#include <string.h>
#ifndef _WIN32
#include <ucontext.h>

#include "lent.h"
#endif
#include "fail.h"
#include "made.h"

enum { STACK = 1 << 14, PAINT = 0xA7 };

static uint8_t *stack;
static const struct made *making;
static _Alignas(uint64_t) uint8_t out[MOST_ROOM]; /* for words too */
static uint8_t *caller; /* where the frame of the call's maker begins */
static volatile int64_t answer;

/* The answer is kept, so that this is no jump that leaves no frame. */
static void make(void)
{
    caller = __builtin_frame_address(0);
    answer = making->call.function->callee(&making->call, out);
}

#ifdef _WIN32
/* There are no contexts, and the stack's register is set by hand. */
static void call_inside(void)
{
    __asm__ volatile("mov %%rsp, %%rbx; mov %0, %%rsp; sub $32, %%rsp; call *%1; mov %%rbx, %%rsp"
                     :
                     : "r"(stack + STACK), "r"(make)
                     : "rbx", "rax", "rcx", "rdx", "r8", "r9", "r10", "r11", "xmm0", "xmm1", "xmm2",
                       "xmm3", "xmm4", "xmm5", "memory", "cc");
}

static uint8_t *open_stack(void)
{
    static _Alignas(64) uint8_t bytes[STACK];
    return bytes;
}
#else
static void call_inside(void)
{
    static ucontext_t outside, inside;
    if (getcontext(&inside) != 0)
        fail("there is no context");
    inside.uc_stack.ss_sp = stack;
    inside.uc_stack.ss_size = STACK;
    inside.uc_link = &outside;
    makecontext(&inside, make, 0);
    if (swapcontext(&outside, &inside) != 0)
        fail("there is no way into a context");
}

/* Behind a page that faults. */
static uint8_t *open_stack(void)
{
    return lent_open(STACK).start;
}
#endif

/* The bytes below the maker's frame; those that were used are painted again. */
static size_t use_of(const struct made *made)
{
    making = made;
    call_inside();
    size_t lowest = 0;
    while (stack[lowest] == PAINT)
        lowest++;
    memset(stack + lowest, PAINT, STACK - lowest);
    return (size_t)(caller - (stack + lowest));
}

/* Each call as it was drawn, and with room for every answer. */
static size_t largest_use(unsigned function, uint64_t count)
{
    static struct made made;
    size_t largest = 0;
    for (uint64_t number = 0; number < count; number++) {
        draw_call(&made, function, number);
        for (unsigned roomy = 0; roomy < 2; roomy++) {
            if (roomy && made.call.room != NO_OUTPUT)
                made.call.room = MOST_ROOM;
            size_t use = use_of(&made);
            if (use > largest)
                largest = use;
        }
    }
    return largest;
}

/* What the header says of each: 1.5, 1.1 and 0.5 KiB. */
static size_t most_told(unsigned function)
{
    switch (function) {
    case FUNCTION_harmony:
        return 1536;
    case FUNCTION_candidates:
    case FUNCTION_candidates_strict:
    case FUNCTION_candidates_sharp:
    case FUNCTION_candidates_strict_sharp:
    case FUNCTION_voicing:
    case FUNCTION_voicing_within:
        return 1126;
    default:
        return 512;
    }
}

int main(int count, char **words)
{
    if (count != 3)
        fail("usage: stack MACHINE CALLS");
    stack = open_stack();
    memset(stack, PAINT, STACK);
    printf("stack, bytes, %s:", words[1]);
    for (unsigned function = 0; function < FUNCTIONS; function++) {
        size_t use = largest_use(function, strtoull(words[2], NULL, 10));
        printf("%s %s %zu", function == 0 ? "" : ",", functions[function].name, use);
        if (use > most_told(function))
            fail("%s uses more stack than the header says", functions[function].name);
    }
    printf("\n");
    return EXIT_SUCCESS;
}
