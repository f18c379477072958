// Counts what each thread of a program takes from the heap, before its first call of a device and from then on. Loaded before the C library
// (LD_PRELOAD) it hands on each call, and when the program ends it writes a line for each thread to the file that COUNTS names: whether it is
// the one that began the program, its calls of devices, its mallocs before the first of them, and its mallocs and reallocs from then on.
#define _GNU_SOURCE
#include <dlfcn.h>
#include <fcntl.h>
#include <stdatomic.h>
#include <stdio.h>
#include <stdlib.h>
#include <unistd.h>

enum { MOST = 4096 };

struct counts {
    long calls, before, after, regrown;
};

extern void *__libc_malloc(size_t);
extern void *__libc_realloc(void *, size_t);

static struct counts all[MOST];
static atomic_int threads;
static atomic_int told;
static __thread struct counts *mine __attribute__((tls_model("initial-exec")));

// The first that counts is the thread that began the program: it allocates before it starts others.
static struct counts *own(void) {
    if (!mine) {
        int place = atomic_fetch_add(&threads, 1);
        mine = &all[place < MOST ? place : MOST - 1];
    }
    return mine;
}

void *malloc(size_t size) {
    struct counts *counts = own();
    *(counts->calls ? &counts->after : &counts->before) += 1;
    return __libc_malloc(size);
}

void *realloc(void *block, size_t size) {
    struct counts *counts = own();
    counts->regrown += counts->calls > 0;
    return __libc_realloc(block, size);
}

#define DEVICE_CALL(result, name, params, args)                         \
    result name params {                                                \
        static result(*real) params;                                    \
        if (!real)                                                      \
            real = (result(*) params)dlsym(RTLD_NEXT, #name);           \
        own()->calls += 1;                                              \
        return real args;                                               \
    }

DEVICE_CALL(off_t, lseek, (int file, off_t at, int from), (file, at, from))
DEVICE_CALL(ssize_t, read, (int file, void *bytes, size_t len), (file, bytes, len))
DEVICE_CALL(ssize_t, write, (int file, const void *bytes, size_t len), (file, bytes, len))
DEVICE_CALL(int, fsync, (int file), (file))
DEVICE_CALL(int, fdatasync, (int file), (file))

static void tell(void) {
    const char *name = getenv("COUNTS");
    if (!name || atomic_exchange(&told, 1))
        return;
    int file = open(name, O_WRONLY | O_CREAT | O_TRUNC, 0600);
    for (int place = 0; place < threads && place < MOST; place++) {
        struct counts *it = &all[place];
        dprintf(file, "%d %ld %ld %ld %ld\n", place == 0, it->calls, it->before, it->after, it->regrown);
    }
    close(file);
}

__attribute__((constructor)) static void begin(void) { own(); }

__attribute__((destructor)) static void end(void) { tell(); }

void _exit(int status) {
    tell();
    _Exit(status);
}
