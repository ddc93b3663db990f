#define _POSIX_C_SOURCE 200809L /* sigaction, sigsetjmp */

#include "fault.h"

#include <setjmp.h>
#include <signal.h>

#include "fail.h"

static sigjmp_buf before_call;
static volatile sig_atomic_t in_call;

/* A fault of the library ends its call; one of the driver itself comes back and kills it. */
static void faulted(int number)
{
    if (in_call)
        siglongjmp(before_call, 1);
    signal(number, SIG_DFL);
}

static void watch_faults(void)
{
    static bool watching;
    if (watching)
        return;
    watching = true;
    /* The jump never returns to the handler, so the signal must not stay blocked. */
    struct sigaction action = {.sa_handler = faulted, .sa_flags = SA_NODEFER};
    if (sigaction(SIGSEGV, &action, NULL) != 0 || sigaction(SIGBUS, &action, NULL) != 0)
        fail("faults cannot be watched");
}

bool called_without_fault(const struct call *call, uint8_t *out, int64_t *got)
{
    watch_faults();
    if (sigsetjmp(before_call, 0) != 0) {
        in_call = 0;
        return false;
    }
    in_call = 1;
    *got = call_library(call, out);
    in_call = 0;
    return true;
}
