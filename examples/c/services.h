/* The four services of the machine. */

#ifndef SERVICES_H
#define SERVICES_H

#include <stddef.h>

/* Reads at most `length` bytes of the input; `descriptor` is 0. Answers how
   many, 0 at the input's end, or below 0: -9 for another descriptor, -14 for
   bytes outside memory. */
long read(int descriptor, void *bytes, size_t length);

/* Prints `length` bytes; `descriptor` is 1 or 2, which are one output.
   Answers `length`, or below 0 as `read`. */
long write(int descriptor, const void *bytes, size_t length);

/* Ends the program. */
_Noreturn void exit(int code);

/* Moves the heap's end by `increment` bytes. Answers where it was, or
   (void *)-1 where there is no room; it then stays. */
void *sbrk(long increment);

#endif
