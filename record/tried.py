"""What `check` tries: a program in each kind of log, what is no log, and a program for the recorder."""

from heap import ALLOCATE, FREE

# A program of one thread in each kind of log. heaptrack's has a realloc as a free and an allocation.
SAME = {
    "text": "log 1\na 7 1000 24\na 7 2000 100\nr 7 2000 3000 900\nf 7 1000\na 7 1000 60\nf 7 3000\n",
    "mtrace": "= Start\n@ ./a:[0x1] + 0x1000 0x18\n@ ./a:(f+1)[0x1] + 0x2000 0x64\n@ ./a:[0x1] < 0x2000\n@ ./a:[0x1] > 0x3000 0x384\n"
    "@ ./a:[0x1] - 0x1000\n@ ./a:[0x1] + 0x1000 0x3c\n@ ./a:[0x1] - 0x3000\n= End\n",
    "valgrind": "==9== Memcheck, a memory error detector\n--9-- malloc(24) = 0x1000\n--9-- realloc(0x0,100)malloc(100) = 0x2000\n"
    "--9-- realloc(0x2000,900) = 0x3000\n--8-- malloc(5) = 0x9000\n--9-- _ZdlPv(0x1000)\n--9-- calloc(15,4) = 0x1000\n"
    "--9-- realloc(0x3000,0)free(0x3000)\n--9--  = 0\n",
    "ltrace": "9 a->malloc(24)  = 0x1000\n9 libx.so.1->calloc(25, 4 <unfinished ...>\n9 <... calloc resumed> ) = 0x2000\n"
    "9 a->realloc(0x2000, 900) = 0x3000\n9 a->free(0x1000 <unfinished ...>\n9 <... free resumed> ) = <void>\n"
    "9 a->memalign(16, 60) = 0x1000\n9 a->free(0x3000) = <void>\n9 +++ exited (status 0) +++\n",
}
HEAPTRACK = "v 10400 3\nx 4 /a/b\nt 1 0\n+ 18 1 1000\n+ 64 1 2000\n- 2000\n+ 384 1 3000\n- 1000\n+ 3c 1 1000\n- 3000\nc 1\n"
MADE = [(ALLOCATE, 0, made, size) for made, size in enumerate((24, 100, 900, 60))]
EVENTS = [*MADE[:3], (FREE, 0, 1, 100), (FREE, 0, 0, 24), MADE[3], (FREE, 0, 2, 900)]

# A trace whose first object stays until its last raw_ptr is reset by another thread.
POINTED = b"""trace 2 region 1 partitions 1 threads 2
0 A r0 p0 130
0 A r1 p0 8
0 C r0 r2
0 C r2 r3
0 C r2 r1
0 A r0 p0 50
0 X c0 r2
0 F r3
0 F r1
phase
0 F r0
0 F r0
1 D r5 0
1 X c0 r5
0 R r3
1 W r5 00000000000000ff
1 R r5
1 R r5
0 A r0 p0 40000000
"""

# A log of four objects, and its row by both versions. Their slots have 160, 640, 1,280 and 327,680 bytes, or 144, 576, 1,152 and 294,912;
# without the count word 128, 640, 1,024 and 327,680, or 128, 576, 1,024 and 294,912. Of each of the first three a page is committed.
COMPARED = (
    "log 1\na 0 10 128\na 0 20 520\na 0 30 1024\na 0 40 262200\nf 0 40\n",
    "| four | 0.26 | 20.0 | 11.1 | 19.9 | 11.0 | 0.34 | 0.31 | -10 % | 0.34 | 0.31 | -10 % |",
)

# What is no log, and a part of the reason.
REFUSED = (
    (b"", "no log that I know"),
    (b"hello\nworld\n", "no log that I know"),
    (b"\x7fELF\x02\xff", "no log that I know"),
    (b"log 1\n", "no events: was malloc called?"),
    (b"log 1\na 0 10 8\nf 0", "cut: line 3 has no line feed"),
    (b"log 1\na 0 10 8\nb 0 10\n", "line 3: this is no line"),
    (b"log 1\na 0 10 -8\n", "line 2: this is no line"),
    (b"log 1\na 0 10 8\nf 0 \xff\n", "line 3: there is a byte that isn't ASCII"),
    (b"log 1\na 0 10 8\na 1 10 8\n", "line 3: address 10 is live and is allocated again"),
    (b"trace 4 region 1 partitions 1 threads 1\n", "no log that I know"),
    (b"trace 1 region 1 partitions 1 threads 1\n", "no events: was malloc called?"),
    (b"trace 1 region 1 partitions 2 threads 1\n0 A r0 p0 8\n", "line 1: this is no line of a trace of one partition"),
    (b"trace 2 region 1 partitions 1 threads 1\n0 A r0 p0 8\n0 P\n", "line 3: this is no line of a trace of one partition"),
    (b"trace 2 region 1 partitions 1 threads 1\n1 A r0 p0 8\n", "line 2: this is no line of a trace of one partition"),
    (b"v 10400 3\na 18 4\n+ 0\n", "made with --raw"),
    (b"v 10400 3\n+ 18 1\n", "made with --raw"),
    (b"9 a->malloc(5) = 0x10\n9 a->calloc(5) = 0x20\n", "line 2: this is no line of ltrace's text"),
    (b"= Start\n@ a + 0x10 8 9\n", "line 2: this is no line of mtrace's text"),
    (b"==9== Memcheck\nhello\n", "line 2: this is no line of valgrind's text"),
    (b"\x28\xb5\x2f\xfd\x04", "zstd"),
    (b"\x1f\x8b\x08\x00", "cut: gzip"),
    (b"record 1", "cut: 0 records of 0"),
    (b"record 1" + bytes([2]) + bytes(23 + 32), "cut: 1 records of 2"),
    (b"record 1" + bytes([1]) + bytes(23) + bytes([9]) + bytes(31), "record 1: this is no record"),
)

# One arena and no lists of threads, so that what a thread frees another gets at once.
TUNABLES = "glibc.malloc.arena_max=1:glibc.malloc.tcache_count=0"

# Threads that allocate, hand on, move and free, and a child that allocates too.
THREADED = r"""
#include <pthread.h>
#include <stdlib.h>
#include <sys/wait.h>
#include <unistd.h>
static void *_Atomic box[8];
static pthread_barrier_t start;
static void *work(void *own) {
    pthread_barrier_wait(&start);
    for (int n = 1; n < 400; n++) {
        void *made = realloc(malloc(40), 300 + n % 3);
        void *old = __atomic_exchange_n(&box[n % 8], made, __ATOMIC_SEQ_CST);
        free(old);
    }
    return own;
}
int main(void) {
    pthread_t threads[4];
    pthread_barrier_init(&start, NULL, 4);
    for (int n = 0; n < 4; n++) pthread_create(threads + n, NULL, work, NULL);
    for (int n = 0; n < 4; n++) pthread_join(threads[n], NULL);
    void *large = calloc(70000, 2);
    if (fork() == 0) { free(malloc(5)); _exit(0); }
    wait(NULL);
    free(large);
    return 0;
}
"""
