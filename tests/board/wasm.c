/*
 * The start of a program that tests/board/run.mjs runs in node, which gives it the words of
 * the command line, input and output.
 */

#include <stdint.h>

#define FROM_NODE(name) __attribute__((import_module("node"), import_name(name)))

FROM_NODE("words") int words(char *to, char **at);
FROM_NODE("read") int node_read(int file, char *bytes, int count);
FROM_NODE("write") int node_write(int file, const char *bytes, int count);
FROM_NODE("exit") void node_exit(int status) __attribute__((noreturn));

int main(int argc, char **argv);
int _read(int file, char *bytes, int count);
int _write(int file, const char *bytes, int count);
void _exit(int status) __attribute__((noreturn));

int _read(int file, char *bytes, int count)
{
    return node_read(file, bytes, count);
}

int _write(int file, const char *bytes, int count)
{
    return node_write(file, bytes, count);
}

void _exit(int status)
{
    node_exit(status);
}

__attribute__((export_name("start"))) void start(void)
{
    static char bytes[256];
    static char *at[8];
    const int count = words(bytes, at);

    _exit(main(count, at));
}
