/* Records the allocations of a program, thread by thread, in one order:

       cc -O2 -fPIC -shared -o record/record.so record/record.c
       RECORD_FILE=mine LD_PRELOAD=$PWD/record/record.so PROGRAM

   The log is one shared map of a sparse file: a head of 32 bytes with the number of records, and records of 32 bytes, whose places
   come from one atomic counter. A free takes its place before the call and an allocation after it, so the free of an address always
   stands before the allocation that gets it again; a realloc is two records. The log is opened at the first call and not in a
   constructor, since constructors allocate. The file of a process that has ended, or that runs another program in its own place as a
   wrapper does, is begun anew; where another process writes it, as a child finds it, NAME.PROCESS is written. */
#define _GNU_SOURCE
#include <errno.h>
#include <fcntl.h>
#include <pthread.h>
#include <signal.h>
#include <stdatomic.h>
#include <stdint.h>
#include <stdio.h>
#include <stdlib.h>
#include <sys/mman.h>
#include <unistd.h>

#define MAGIC "record 1"
#define ROOM ((size_t)1 << 31)
#define OFF ((struct log *)MAP_FAILED)

enum { ALLOCATED = 1, FREED, BEFORE, AFTER };
struct record { uint32_t kind, thread; uint64_t address, size, alignment; };
struct log { char magic[8]; _Atomic uint64_t count; uint64_t process, unused; struct record records[]; };

extern void *__libc_malloc(size_t), *__libc_calloc(size_t, size_t), *__libc_realloc(void *, size_t), *__libc_memalign(size_t, size_t);
extern void __libc_free(void *);

static struct log *_Atomic the_log;
static pthread_mutex_t opening = PTHREAD_MUTEX_INITIALIZER;
static _Atomic uint32_t threads;
static __thread uint32_t thread __attribute__((tls_model("initial-exec")));
static __thread int inside __attribute__((tls_model("initial-exec")));

/* A child of fork has a log of its own. */
static void in_child(void) {
    pthread_mutex_init(&opening, NULL);
    the_log = NULL;
    threads = 0;
    thread = 0;
}

/* Whether a file has the log of this process, or of one that has ended. */
static int is_over(int file) {
    struct log head;
    if (read(file, &head, sizeof head) != (ssize_t)sizeof head || __builtin_memcmp(head.magic, MAGIC, sizeof head.magic)) return 0;
    return head.process == (uint64_t)getpid() || (kill((pid_t)head.process, 0) != 0 && errno == ESRCH);
}

/* The file of this name, empty, or that of NAME.PROCESS. */
static int opened_file(const char *name) {
    char other[4096];
    int file = open(name, O_RDWR | O_CREAT | O_EXCL | O_CLOEXEC, 0600);
    if (file >= 0 || errno != EEXIST) return file;
    file = open(name, O_RDWR | O_CLOEXEC);
    if (file >= 0 && is_over(file) && ftruncate(file, 0) == 0) return file;
    if (file >= 0) close(file);
    snprintf(other, sizeof other, "%s.%d", name, (int)getpid());
    return open(other, O_RDWR | O_CREAT | O_TRUNC | O_CLOEXEC, 0600);
}

static struct log *opened(void) {
    const char *name = getenv("RECORD_FILE");
    int file = name ? opened_file(name) : -1;
    if (file < 0) return OFF;
    struct log *made = OFF;
    if (ftruncate(file, ROOM) == 0) made = mmap(NULL, ROOM, PROT_READ | PROT_WRITE, MAP_SHARED | MAP_NORESERVE, file, 0);
    close(file);
    if (made == OFF) return OFF;
    __builtin_memcpy(made->magic, MAGIC, sizeof made->magic);
    made->process = (uint64_t)getpid();
    return made;
}

static struct log *get_log(void) {
    struct log *log = the_log;
    if (log || inside) return log ? log : OFF;
    inside = 1;
    pthread_mutex_lock(&opening);
    if (!the_log) {
        static int once;
        if (!once++) pthread_atfork(NULL, NULL, in_child);
        the_log = opened();
    }
    log = the_log;
    pthread_mutex_unlock(&opening);
    inside = 0;
    return log;
}

static void note(uint32_t kind, void *address, size_t size, size_t alignment) {
    int error = errno;
    struct log *log = get_log();
    if (log != OFF) {
        if (!thread) thread = atomic_fetch_add(&threads, 1) + 1;
        uint64_t at = atomic_fetch_add(&log->count, 1);
        if (at < ROOM / sizeof(struct record) - 1) log->records[at] = (struct record){kind, thread, (uint64_t)address, size, alignment};
    }
    errno = error;
}

static void *made(void *address, size_t size, size_t alignment) {
    if (address) note(ALLOCATED, address, size, alignment);
    return address;
}

void *malloc(size_t size) { return made(__libc_malloc(size), size, 0); }
void *calloc(size_t count, size_t size) { return made(__libc_calloc(count, size), count * size, 0); }
void *memalign(size_t alignment, size_t size) { return made(__libc_memalign(alignment, size), size, alignment); }
void *aligned_alloc(size_t alignment, size_t size) { return memalign(alignment, size); }
void *valloc(size_t size) { return memalign(4096, size); }

int posix_memalign(void **out, size_t alignment, size_t size) {
    if (alignment % sizeof(void *) || !alignment || (alignment & (alignment - 1))) return EINVAL;
    int error = errno;
    void *address = memalign(alignment, size);
    errno = error;
    if (!address) return ENOMEM;
    *out = address;
    return 0;
}

void free(void *address) {
    if (address) note(FREED, address, 0, 0);
    __libc_free(address);
}

void *realloc(void *address, size_t size) {
    if (!address) return malloc(size);
    note(BEFORE, address, 0, 0);
    void *now = __libc_realloc(address, size);
    note(AFTER, now, size, 0);
    return now;
}
