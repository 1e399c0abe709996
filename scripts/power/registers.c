// Preloaded into the user-mode Linux of scripts/power-cut. That was built for processors with fewer registers: it hands as many bytes of them
// to ptrace as it knows, and a kernel refuses less than all that its processor has. The others are handed as they are.
#define _GNU_SOURCE
#include <dlfcn.h>
#include <elf.h>
#include <stdarg.h>
#include <string.h>
#include <sys/ptrace.h>
#include <sys/uio.h>

long ptrace(enum __ptrace_request request, ...) {
    static long (*call)(enum __ptrace_request, pid_t, void *, void *);
    static char bytes[1 << 16];
    va_list given;
    va_start(given, request);
    pid_t process = va_arg(given, pid_t);
    void *at = va_arg(given, void *), *data = va_arg(given, void *);
    va_end(given);
    if (!call) call = (long (*)(enum __ptrace_request, pid_t, void *, void *))dlsym(RTLD_NEXT, "ptrace");
    if (request != PTRACE_SETREGSET || at != (void *)NT_X86_XSTATE) return call(request, process, at, data);
    struct iovec all = { bytes, sizeof bytes }, *some = data;
    if (call(PTRACE_GETREGSET, process, at, &all) || all.iov_len <= some->iov_len) return call(request, process, at, data);
    memcpy(bytes, some->iov_base, some->iov_len);
    return call(request, process, at, &all);
}
