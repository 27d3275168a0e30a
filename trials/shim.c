/* Stands before the C library of a program that is tried: it refuses requests for memory, fails reads and writes, and moves
   few bytes at a time, as its environment says. Its counts stand in the file TRIAL_COUNTS, which the trial reads.

   TRIAL_REFUSE FIRST-LAST   the requests with these numbers, from 1, get no memory; the start of a thread is a request too
   TRIAL_READ N, TRIAL_WRITE N   the Nth read of standard input, the Nth write of standard output fails
   TRIAL_MOST N              a read or a write moves at most N bytes */
#define _GNU_SOURCE
#include <dlfcn.h>
#include <errno.h>
#include <fcntl.h>
#include <pthread.h>
#include <stdatomic.h>
#include <stdio.h>
#include <stdlib.h>
#include <sys/mman.h>
#include <sys/syscall.h>
#include <unistd.h>

void *__libc_malloc(size_t), *__libc_calloc(size_t, size_t), *__libc_realloc(void *, size_t);

struct counts { atomic_ulong requests, refused, reads, writes, failed; };

static struct counts *counts;
static unsigned long first, last, failing_read, failing_write, most;
static int (*start_thread)(pthread_t *, const pthread_attr_t *, void *(*)(void *), void *);

static unsigned long number(const char *name) {
    const char *text = getenv(name);
    return text ? strtoul(text, NULL, 10) : 0;
}

__attribute__((constructor)) static void begin(void) {
    const char *path = getenv("TRIAL_COUNTS"), *refuse = getenv("TRIAL_REFUSE");
    int file = path ? open(path, O_RDWR) : -1;
    if (file < 0) _exit(99);
    void *at = mmap(NULL, sizeof *counts, PROT_READ | PROT_WRITE, MAP_SHARED, file, 0);
    close(file);
    if (at == MAP_FAILED) _exit(99);
    start_thread = dlsym(RTLD_NEXT, "pthread_create");
    if (refuse) sscanf(refuse, "%lu-%lu", &first, &last);
    failing_read = number("TRIAL_READ");
    failing_write = number("TRIAL_WRITE");
    most = number("TRIAL_MOST");
    counts = at;
}

/* Counts one more request, and says whether it gets no memory. */
static int refuses(void) {
    if (!counts) return 0;
    unsigned long request = ++counts->requests;
    if (request < first || request > last) return 0;
    counts->refused++;
    errno = ENOMEM;
    return 1;
}

void *malloc(size_t size) { return refuses() ? NULL : __libc_malloc(size); }
void *calloc(size_t count, size_t size) { return refuses() ? NULL : __libc_calloc(count, size); }
void *realloc(void *at, size_t size) { return refuses() ? NULL : __libc_realloc(at, size); }

int pthread_create(pthread_t *thread, const pthread_attr_t *how, void *(*run)(void *), void *with) {
    return refuses() ? EAGAIN : start_thread(thread, how, run, with);
}

/* Moves bytes by a call of the system, unless it is the one that is to fail. */
static ssize_t move(long call, int file, void *bytes, size_t size, int counted, atomic_ulong *calls, unsigned long failing) {
    if (counts && counted && ++*calls == failing) {
        counts->failed++;
        errno = EIO;
        return -1;
    }
    return syscall(call, file, bytes, counted && most && size > most ? most : size);
}

ssize_t read(int file, void *bytes, size_t size) {
    return move(SYS_read, file, bytes, size, file == 0, &counts->reads, failing_read);
}

ssize_t write(int file, const void *bytes, size_t size) {
    return move(SYS_write, file, (void *)bytes, size, file == 1, &counts->writes, failing_write);
}

ssize_t __write(int file, const void *bytes, size_t size) { return write(file, bytes, size); }
