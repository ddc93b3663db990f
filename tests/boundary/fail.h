/* How a test ends that has failed. */
#ifndef FAIL_H
#define FAIL_H

/* Says why and ends the program as failed. */
_Noreturn void fail(const char *format, ...);

#endif
