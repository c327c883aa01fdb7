/*
 * Loaded before the C library, this makes one call of the program go wrong. FAULT says which and how:
 *
 *   FAULT=rename:2:kill    the second rename ends the process, as a power cut would
 *   FAULT=write:1:28       the first write to a file fails with errno 28 (no space left), and every later one
 *   FAULT=rename:1:wait    before the first rename the file that GATE names is made, and waited for until it is gone
 *
 * The calls: rename, unlink, fsync, write (to a file), print (a write to standard output).
 */
#define _GNU_SOURCE
#include <dlfcn.h>
#include <errno.h>
#include <fcntl.h>
#include <signal.h>
#include <stdio.h>
#include <stdlib.h>
#include <string.h>
#include <unistd.h>

/* Makes the gate and waits until somebody removes it. */
static void wait_at_gate(void)
{
    const char *gate = getenv("GATE");
    close(open(gate, O_CREAT | O_WRONLY, 0600));
    while (access(gate, F_OK) == 0) {
        usleep(1000);
    }
}

/* Whether this call is to fail; where it is to end the process or to wait, that happens here. */
static int fails(const char *name)
{
    static __thread int calls;
    char call[16] = "", how[16] = "";
    int which = 0;
    const char *fault = getenv("FAULT");
    if (fault == NULL || sscanf(fault, "%15[^:]:%d:%15s", call, &which, how) != 3 || strcmp(call, name) != 0) {
        return 0;
    }
    calls++;
    if (calls < which) {
        return 0;
    }
    if (strcmp(how, "kill") == 0) {
        kill(getpid(), SIGKILL);
    }
    if (strcmp(how, "wait") == 0) {
        if (calls == which) {
            wait_at_gate();
        }
        return 0;
    }
    errno = atoi(how);
    return 1;
}

int rename(const char *from, const char *to)
{
    int (*real)(const char *, const char *);
    *(void **)&real = dlsym(RTLD_NEXT, "rename");
    return fails("rename") ? -1 : real(from, to);
}

int unlink(const char *name)
{
    int (*real)(const char *);
    *(void **)&real = dlsym(RTLD_NEXT, "unlink");
    return fails("unlink") ? -1 : real(name);
}

int fsync(int file)
{
    int (*real)(int);
    *(void **)&real = dlsym(RTLD_NEXT, "fsync");
    return fails("fsync") ? -1 : real(file);
}

ssize_t write(int file, const void *bytes, size_t count)
{
    ssize_t (*real)(int, const void *, size_t);
    *(void **)&real = dlsym(RTLD_NEXT, "write");
    if ((file > 2 && fails("write")) || (file == 1 && fails("print"))) {
        return -1;
    }
    return real(file, bytes, count);
}
