/* A library that is loaded before a program (LD_PRELOAD), for tools/spawning.c: the program waits in front of its `main`, and each byte
   that comes in at ORDERS lets a copy of it run. What is written at NEWS is the copy's number, and once it ended its status, as waitpid
   has it: 4 bytes each. A run costs a fork and none of what loads a program. */

#define _GNU_SOURCE
#include <dlfcn.h>
#include <stdint.h>
#include <sys/wait.h>
#include <unistd.h>

enum { ORDERS = 198, NEWS = 199 };

typedef int entry(int, char **, char **);

static entry *entry_of_program;

static void tell(uint32_t number)
{
    if (write(NEWS, &number, 4) != 4) _exit(1);
}

static int serve(int count, char **words, char **surroundings)
{
    for (char order; read(ORDERS, &order, 1) == 1;) {
        pid_t copy = fork();
        if (copy < 0) _exit(1);
        if (copy == 0) {
            close(ORDERS);
            close(NEWS);
            return entry_of_program(count, words, surroundings);
        }
        tell((uint32_t)copy);
        int status;
        if (waitpid(copy, &status, 0) != copy) _exit(1);
        tell((uint32_t)status);
    }
    _exit(0);
}

int __libc_start_main(entry *program, int count, char **words, void (*begin)(void), void (*end)(void), void (*unload)(void), void *stack)
{
    int (*start)(entry *, int, char **, void (*)(void), void (*)(void), void (*)(void), void *) = dlsym(RTLD_NEXT, "__libc_start_main");
    entry_of_program = program;
    return start(serve, count, words, begin, end, unload, stack);
}
