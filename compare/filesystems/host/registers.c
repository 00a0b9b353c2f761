// Hides the registers beyond those of SSE from user-mode Linux, by a `ptrace` of its own. The one of Debian 12 has no room for the registers of a
// processor with AMX, and then starts no program.
#define _GNU_SOURCE
#include <elf.h>
#include <errno.h>
#include <stdarg.h>
#include <sys/ptrace.h>
#include <sys/syscall.h>
#include <unistd.h>

long ptrace(enum __ptrace_request request, ...)
{
    va_list rest;
    va_start(rest, request);
    long pid = va_arg(rest, long), address = va_arg(rest, long), data = va_arg(rest, long), word = 0;
    va_end(rest);
    if (request == PTRACE_GETREGSET && address == NT_X86_XSTATE) {
        errno = EIO;
        return -1;
    }
    // The system call writes what is peeked, and the function returns it.
    int peeks = request == PTRACE_PEEKTEXT || request == PTRACE_PEEKDATA || request == PTRACE_PEEKUSER;
    long result = syscall(SYS_ptrace, request, pid, address, peeks ? (long)&word : data);
    return result >= 0 && peeks ? word : result;
}
