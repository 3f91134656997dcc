/*
 * A start-up for Cortex-M processors, to copy: the vector table, what has to be done
 * before main(), and input and output by semihosting, that is, by the debugger or the
 * emulator. link.ld belongs to it.
 *
 * _read(), _write() and _exit() are what a C library asks for (newlib has them by these
 * names; libc/ is a small one of our own). On a pad that runs by itself they are the
 * place for a serial line or a display: with no debugger there, a semihosting call is a
 * fault.
 */

#include <stdint.h>
#include <stdlib.h>

/* Where link.ld has put things. */
extern uint32_t stack_top, data_start, data_end, bss_start, bss_end;
extern const uint32_t data_in_flash;

int main(int argc, char **argv);
void reset(void);
void say_fault(void);
int _read(int file, char *bytes, int count);
int _write(int file, const char *bytes, int count);
void _exit(int status) __attribute__((noreturn));
void _fini(void);

/* Operations of semihosting. */
enum { SYS_OPEN = 0x01, SYS_WRITE = 0x05, SYS_READ = 0x06, SYS_GET_CMDLINE = 0x15, SYS_EXIT_EXTENDED = 0x20 };

static uintptr_t semihost(uintptr_t operation, const void *parameters)
{
    register uintptr_t r0 __asm__("r0") = operation;
    register const void *r1 __asm__("r1") = parameters;

    __asm__ volatile("bkpt 0xab" : "+r"(r0) : "r"(r1) : "memory");
    return r0;
}

/* The debugger's console, opened to read, to write and to append: standard input, output
   and error. */
static uintptr_t console[3];

static void open_console(void)
{
    int file;

    for (file = 0; file < 3; file++) {
        const uintptr_t parameters[3] = { (uintptr_t) ":tt", 4 * (uintptr_t)file, 3 };

        console[file] = semihost(SYS_OPEN, parameters);
    }
}

/* Semihosting answers how many bytes were not read, or not written. */
int _read(int file, char *bytes, int count)
{
    const uintptr_t parameters[3] = { console[file], (uintptr_t)bytes, (uintptr_t)count };

    return count - (int)semihost(SYS_READ, parameters);
}

int _write(int file, const char *bytes, int count)
{
    const uintptr_t parameters[3] = { console[file], (uintptr_t)bytes, (uintptr_t)count };

    return count - (int)semihost(SYS_WRITE, parameters);
}

void _exit(int status)
{
    const uintptr_t parameters[2] = { 0x20026 /* the program ends */, (uintptr_t)status };

    for (;;) {
        semihost(SYS_EXIT_EXTENDED, parameters);
    }
}

/* Newlib's exit() asks for this, which GCC's own start-up files have. */
__attribute__((weak)) void _fini(void)
{
}

/* Cuts the debugger's command line at its blanks, and gives the number of arguments. */
static int cut(char *command, char **arguments, int most)
{
    int count = 0;

    while (count < most) {
        while (*command == ' ') {
            *command++ = 0;
        }
        if (*command == 0) {
            break;
        }
        arguments[count++] = command;
        while (*command != 0 && *command != ' ') {
            command++;
        }
    }
    return count;
}

void reset(void)
{
    static char command[128];
    static char *arguments[8];
    uintptr_t parameters[2] = { (uintptr_t)command, sizeof command };
    const uint32_t *from = &data_in_flash;
    uint32_t *to;

#ifdef __ARM_FP
    /* Compiled to use the floating point unit, which is off after a reset. The library
       does not use it. */
    *(volatile uint32_t *)0xE000ED88 |= 0xF00000;
    __asm__ volatile("dsb\n isb" ::: "memory");
#endif
    for (to = &data_start; to < &data_end; to++) {
        *to = *from++;
    }
    for (to = &bss_start; to < &bss_end; to++) {
        *to = 0;
    }
    open_console();
    if (semihost(SYS_GET_CMDLINE, parameters) != 0) {
        command[0] = 0;
    }
    exit(main(cut(command, arguments, 8), arguments));
}

/* A fault ends the run. It may have been the end of the stack, so the stack begins anew. */
void say_fault(void)
{
    static const char said[] = "fault\n";

    _write(2, said, sizeof said - 1);
    _exit(70);
}

__attribute__((naked)) static void fault(void)
{
    __asm__("ldr r0, 1f\n mov sp, r0\n ldr r0, 2f\n bx r0\n"
            ".balign 4\n1: .word stack_top\n2: .word say_fault\n");
}

/* The first words of flash: where the stack starts, and where the processor goes after a
   reset and with a fault. Interrupts come behind them: the library needs none, and none
   disturbs it. */
struct vectors {
    uint32_t *stack;
    void (*handlers[15])(void);
};

__attribute__((section(".vectors"), used))
static const struct vectors vectors = { &stack_top, { reset, fault, fault, fault, fault, fault } };
