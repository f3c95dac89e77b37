/* What picolibc wants of the machine, by its four services: the three streams,
   the heap, and an end. */

#include <errno.h>
#include <stdio-bufio.h>
#include <stdio.h>
#include <sys/types.h>
#include <unistd.h>

enum { READ = 63, WRITE = 64, EXIT = 93, BRK = 214 };

/* An answer from -4095 to -1 is an error's number. */
enum { LAST_ERROR = 4095 };

static long service(long number, long first, long second, long third)
{
    register long a0 __asm__("a0") = first;
    register long a1 __asm__("a1") = second;
    register long a2 __asm__("a2") = third;
    register long a7 __asm__("a7") = number;

    __asm__ volatile("ecall" : "+r"(a0) : "r"(a1), "r"(a2), "r"(a7) : "memory");
    return a0;
}

static long checked(long answer)
{
    if (answer < 0 && answer >= -LAST_ERROR) {
        errno = (int)-answer;
        return -1;
    }
    return answer;
}

ssize_t read(int descriptor, void *bytes, size_t length)
{
    return checked(service(READ, descriptor, (long)bytes, (long)length));
}

ssize_t write(int descriptor, const void *bytes, size_t length)
{
    return checked(service(WRITE, descriptor, (long)bytes, (long)length));
}

/* The streams have no place to go back to. */
off_t lseek(int descriptor, off_t to, int whence)
{
    (void)descriptor;
    (void)to;
    (void)whence;
    errno = ESPIPE;
    return -1;
}

int close(int descriptor)
{
    (void)descriptor;
    return 0;
}

_Noreturn void _exit(int code)
{
    for (;;)
        service(EXIT, code, 0, 0);
}

/* The heap grows up to the memory's end, by the service brk: picolibc's own
   sbrk would want to know that end from the linker. */
void *sbrk(ptrdiff_t increment)
{
    unsigned long end = (unsigned long)service(BRK, 0, 0, 0);
    unsigned long wanted = end + (unsigned long)increment;

    if ((unsigned long)service(BRK, (long)wanted, 0, 0) != wanted) {
        errno = ENOMEM;
        return (void *)-1;
    }
    return (void *)end;
}

static char input_room[256], output_room[256], error_room[64];

static struct __file_bufio input = FDEV_SETUP_BUFIO(
    0, input_room, sizeof input_room, read, write, lseek, close, __SRD, 0);
static struct __file_bufio output = FDEV_SETUP_BUFIO(
    1, output_room, sizeof output_room, read, write, lseek, close, __SWR, __BLBF);
static struct __file_bufio error = FDEV_SETUP_BUFIO(
    2, error_room, sizeof error_room, read, write, lseek, close, __SWR, __BLBF);

FILE *const stdin = &input.xfile.cfile.file;
FILE *const stdout = &output.xfile.cfile.file;
FILE *const stderr = &error.xfile.cfile.file;

/* The last of all destructors, so that what they print is written too. */
__attribute__((destructor(101))) static void flush_streams(void)
{
    fflush(stdout);
    fflush(stderr);
}

pid_t getpid(void)
{
    return 1;
}

/* abort and assert come here: they end as `trapped breakpoint`, status 1. */
int kill(pid_t process, int signal)
{
    (void)process;
    (void)signal;
    flush_streams();
    __builtin_trap();
}
