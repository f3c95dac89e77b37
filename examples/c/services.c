#include "services.h"

enum { READ = 63, WRITE = 64, EXIT = 93, BRK = 214 };

static long service(long number, long first, long second, long third)
{
    register long a0 __asm__("a0") = first;
    register long a1 __asm__("a1") = second;
    register long a2 __asm__("a2") = third;
    register long a7 __asm__("a7") = number;

    __asm__ volatile("ecall" : "+r"(a0) : "r"(a1), "r"(a2), "r"(a7) : "memory");
    return a0;
}

long read(int descriptor, void *bytes, size_t length)
{
    return service(READ, descriptor, (long)bytes, (long)length);
}

long write(int descriptor, const void *bytes, size_t length)
{
    return service(WRITE, descriptor, (long)bytes, (long)length);
}

_Noreturn void exit(int code)
{
    for (;;)
        service(EXIT, code, 0, 0);
}

void *sbrk(long increment)
{
    unsigned long end = (unsigned long)service(BRK, 0, 0, 0);
    unsigned long wanted = end + (unsigned long)increment;

    if ((unsigned long)service(BRK, (long)wanted, 0, 0) != wanted)
        return (void *)-1;
    return (void *)end;
}
