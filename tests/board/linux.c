/*
 * The start of a program on Linux with no C library of the system's, for the processors that
 * have no board in the tests: they run by themselves or in qemu's user mode.
 */

#include <stdint.h>

int main(int argc, char **argv);
int _read(int file, char *bytes, int count);
int _write(int file, const char *bytes, int count);
void _exit(int status) __attribute__((noreturn));
void start(intptr_t *stack) __attribute__((noreturn));

/* A call of the system. The first function is entered with the stack pointer as its
   argument: the number of words of the command line is there, and then the words. */
#if defined(__aarch64__)
enum { READ = 63, WRITE = 64, EXIT = 93 };
__asm__(".globl _start\n_start: mov x0, sp\n b start\n");

static intptr_t call(intptr_t number, intptr_t a, intptr_t b, intptr_t c)
{
    register intptr_t x8 __asm__("x8") = number;
    register intptr_t x0 __asm__("x0") = a;
    register intptr_t x1 __asm__("x1") = b;
    register intptr_t x2 __asm__("x2") = c;

    __asm__ volatile("svc 0" : "+r"(x0) : "r"(x8), "r"(x1), "r"(x2) : "memory");
    return x0;
}
#elif defined(__riscv)
enum { READ = 63, WRITE = 64, EXIT = 93 };
__asm__(".globl _start\n_start: mv a0, sp\n j start\n");

static intptr_t call(intptr_t number, intptr_t a, intptr_t b, intptr_t c)
{
    register intptr_t a7 __asm__("a7") = number;
    register intptr_t a0 __asm__("a0") = a;
    register intptr_t a1 __asm__("a1") = b;
    register intptr_t a2 __asm__("a2") = c;

    __asm__ volatile("ecall" : "+r"(a0) : "r"(a7), "r"(a1), "r"(a2) : "memory");
    return a0;
}
#elif defined(__x86_64__)
enum { READ = 0, WRITE = 1, EXIT = 60 };
__asm__(".globl _start\n_start: mov %rsp, %rdi\n call start\n");

static intptr_t call(intptr_t number, intptr_t a, intptr_t b, intptr_t c)
{
    __asm__ volatile("syscall" : "+a"(number) : "D"(a), "S"(b), "d"(c) : "rcx", "r11", "memory");
    return number;
}
#endif

int _read(int file, char *bytes, int count)
{
    return (int)call(READ, file, (intptr_t)bytes, count);
}

int _write(int file, const char *bytes, int count)
{
    return (int)call(WRITE, file, (intptr_t)bytes, count);
}

void _exit(int status)
{
    for (;;) {
        call(EXIT, status, 0, 0);
    }
}

void start(intptr_t *stack)
{
    _exit(main((int)stack[0], (char **)(stack + 1)));
}
