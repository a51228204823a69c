/*
 * Runs a program one instruction after the other, prints the address of each, and ends as it ends; with 125 where the machine lets no program be
 * traced, and 126 where the program did not end by itself. One that waits for a lock never would; tools/c/offsets.c has none.
 */
#define _GNU_SOURCE
#include <elf.h>
#include <signal.h>
#include <stdio.h>
#include <sys/ptrace.h>
#include <sys/types.h>
#include <sys/uio.h>
#include <sys/user.h>
#include <sys/wait.h>
#include <unistd.h>

#if defined(__x86_64__)
#define PLACE rip
#else
#define PLACE pc
#endif

enum { MOST = 1000000, NOT_TRACED = 125, NOT_ENDED = 126 };

int main(int argc, char **argv)
{
    struct user_regs_struct registers;
    struct iovec into = {&registers, sizeof registers};
    int status = 0;
    long steps;
    pid_t child;
    if (argc != 2)
        return NOT_ENDED;
    child = fork();
    if (child == 0) {
        if (ptrace(PTRACE_TRACEME, 0, NULL, NULL) != 0)
            _exit(NOT_TRACED);
        execv(argv[1], argv + 1);
        _exit(NOT_ENDED);
    }
    if (child < 0 || waitpid(child, &status, 0) < 0)
        return NOT_TRACED;
    for (steps = 0; WIFSTOPPED(status) && steps < MOST; steps++) {
        if (ptrace(PTRACE_GETREGSET, child, (void *)NT_PRSTATUS, &into) != 0)
            break;
        printf("%llx\n", (unsigned long long)registers.PLACE);
        if (ptrace(PTRACE_SINGLESTEP, child, NULL, NULL) != 0 || waitpid(child, &status, 0) < 0)
            break;
    }
    if (WIFEXITED(status))
        return WEXITSTATUS(status);
    kill(child, SIGKILL);
    return steps == 0 ? NOT_TRACED : NOT_ENDED;
}
