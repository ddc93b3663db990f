/* A host on Windows that breaks its duty: what it lends is no memory, and the call faults. A handler
   then goes up the stack by the tables of the library, as Windows does for a host that guards its
   calls, and the host goes on behind the call with the registers that it had. */
#include <stdlib.h>
#include <string.h>
#include <windows.h>

#include "fail.h"
#include "functions.h"

enum { NOWHERE = 64, LENGTH = 16, ROOM = 2000, MOST_FRAMES = 32 };

static volatile unsigned faults;
static volatile int64_t answer;

/* The answer is kept, so that this is no jump that leaves no frame. */
static __attribute__((noinline, noclone)) void attempt(const struct call *call)
{
    answer = call_library(call, (uint8_t *)NOWHERE);
}

/* One frame up. A function without a table has no frame but its return address. */
static void step_up(CONTEXT *at)
{
    DWORD64 base, frame;
    void *data;
    RUNTIME_FUNCTION *table = RtlLookupFunctionEntry(at->Rip, &base, NULL);
    if (table != NULL) {
        RtlVirtualUnwind(UNW_FLAG_NHANDLER, base, at->Rip, table, at, &data, &frame, NULL);
        return;
    }
    memcpy(&at->Rip, (const void *)at->Rsp, sizeof at->Rip);
    at->Rsp += sizeof at->Rip;
}

static bool is_attempt(DWORD64 address)
{
    DWORD64 base;
    const RUNTIME_FUNCTION *table = RtlLookupFunctionEntry(address, &base, NULL);
    return table != NULL && base + table->BeginAddress == (DWORD64)attempt;
}

static LONG CALLBACK on_fault(EXCEPTION_POINTERS *fault)
{
    CONTEXT at = *fault->ContextRecord;
    faults++;
    for (unsigned frames = 0; frames < MOST_FRAMES; frames++) {
        if (is_attempt(at.Rip)) {
            *fault->ContextRecord = at;
            return EXCEPTION_CONTINUE_EXECUTION;
        }
        step_up(&at);
    }
    fail("there is no way up the stack");
}

int main(void)
{
    static const int64_t numbers[MOST_PARAMETERS] = {1, 1, 1, 1, 1, 1};
    static const struct range inputs[MOST_INPUTS] = {{(const uint8_t *)NOWHERE, LENGTH},
                                                     {(const uint8_t *)NOWHERE, LENGTH}};
    unsigned lent = 0;
    AddVectoredExceptionHandler(1, on_fault);
    for (unsigned at = 0; at < FUNCTIONS; at++) {
        const struct function *function = &functions[at];
        if (!function_reads(function) && !function_writes(function))
            continue;
        attempt(&(const struct call){
            .function = function, .numbers = numbers, .inputs = inputs, .room = ROOM});
        if (faults != ++lent)
            fail("%s does not fault", function->name);
    }
    printf("unwind: %u calls that fault come back to the host, by the library's tables\n", lent);
    return EXIT_SUCCESS;
}
