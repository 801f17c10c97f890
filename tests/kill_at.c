// kill_at N PROGRAM WORDS..: runs a program and kills it before the Nth of its calls to the system that change a file: open, write, cut, flush, close, rename, remove.
// Exits with 0 if it was killed there, with 1 if it ended before, with 2 if it cannot be traced.
#include <errno.h>
#include <signal.h>
#include <stdio.h>
#include <stdlib.h>
#include <sys/ptrace.h>
#include <linux/ptrace.h>
#include <sys/syscall.h>
#include <sys/wait.h>
#include <unistd.h>

static int changes_a_file(unsigned long long number) {
    switch (number) {
    case SYS_write:
    case SYS_writev:
    case SYS_pwrite64:
    case SYS_ftruncate:
    case SYS_openat:
    case SYS_close:
    case SYS_fsync:
    case SYS_fdatasync:
    case SYS_renameat:
    case SYS_renameat2:
    case SYS_unlinkat:
#ifdef SYS_open
    case SYS_open:
#endif
#ifdef SYS_rename
    case SYS_rename:
#endif
#ifdef SYS_unlink
    case SYS_unlink:
#endif
        return 1;
    default:
        return 0;
    }
}

int main(int count, char **words) {
    if (count < 3) return 2;
    long left = atol(words[1]);
    pid_t child = fork();
    if (child < 0) return 2;
    if (child == 0) {
        if (ptrace(PTRACE_TRACEME, 0, 0, 0) != 0) _exit(127);
        execv(words[2], words + 2);
        _exit(127);
    }
    int status;
    if (waitpid(child, &status, 0) != child || !WIFSTOPPED(status)) return 2;
    if (ptrace(PTRACE_SETOPTIONS, child, 0, PTRACE_O_TRACESYSGOOD | PTRACE_O_EXITKILL) != 0) return 2;
    for (;;) {
        if (ptrace(PTRACE_SYSCALL, child, 0, 0) != 0) return 2;
        if (waitpid(child, &status, 0) != child) return 2;
        if (WIFEXITED(status) || WIFSIGNALED(status)) return 1;
        if (!WIFSTOPPED(status) || WSTOPSIG(status) != (SIGTRAP | 0x80)) continue;
        struct ptrace_syscall_info info;
        if (ptrace(PTRACE_GET_SYSCALL_INFO, child, sizeof info, &info) <= 0) return 2;
        if (info.op != PTRACE_SYSCALL_INFO_ENTRY || !changes_a_file(info.entry.nr)) continue;
        if (--left > 0) continue;
        kill(child, SIGKILL);
        waitpid(child, &status, 0);
        return 0;
    }
}
