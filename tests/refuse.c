/* For tests/refused.py, tests/held.py and tests/service_refused.py: loaded before the C library (LD_PRELOAD), it refuses
   the allocation that REFUSE numbers, counted from 1, and tells at the end on standard error how many were asked for, and
   how many bytes the program had at most at a time. With REFUSE_FILE, a file of six numbers of eight bytes that another
   process writes too, it says nothing, and refuses allocations while that process wants it to. */
#define _GNU_SOURCE
#include <dlfcn.h>
#include <fcntl.h>
#include <malloc.h>
#include <stddef.h>
#include <stdio.h>
#include <stdlib.h>
#include <sys/mman.h>
#include <sys/syscall.h>
#include <unistd.h>

static long asked, refused, held, most;
static void *(*grow)(size_t), *(*grow_again)(void *, size_t);
static void (*let_go)(void *);

/* What another process wants: whether it wants anything, how many were asked for since, the first and the last that is
   refused, how many were, and the bytes of the last one. */
static struct { long wanted, asked, first, last, refused, bytes; } *watched;

static void watch(void) {
    const char *file = getenv("REFUSE_FILE");
    int open_file = file ? open(file, O_RDWR | O_CLOEXEC) : -1;
    if (open_file < 0) return;
    void *shared = mmap(NULL, sizeof *watched, PROT_READ | PROT_WRITE, MAP_SHARED, open_file, 0);
    close(open_file);
    if (shared != MAP_FAILED) watched = shared;
}

static void find(void) {
    if (!grow) {
        const char *word = getenv("REFUSE");
        refused = word ? atol(word) : 0;
        watch();
        grow_again = dlsym(RTLD_NEXT, "realloc");
        let_go = dlsym(RTLD_NEXT, "free");
        grow = dlsym(RTLD_NEXT, "malloc");
    }
}

static int is_refused_now(size_t size) {
    if (!__atomic_load_n(&watched->wanted, __ATOMIC_SEQ_CST)) return 0;
    long number = __sync_add_and_fetch(&watched->asked, 1);
    if (number < watched->first || number > watched->last) return 0;
    __sync_add_and_fetch(&watched->refused, 1);
    watched->bytes = size;
    return 1;
}

static int is_refused(size_t size) {
    find();
    return watched ? is_refused_now(size) : __sync_add_and_fetch(&asked, 1) == refused;
}

static void *counted(void *block) {
    long now = __sync_add_and_fetch(&held, block ? (long)malloc_usable_size(block) : 0);
    if (now > most) most = now;
    return block;
}

void *malloc(size_t size) { return is_refused(size) ? NULL : counted(grow(size)); }

void *realloc(void *old, size_t size) {
    if (is_refused(size)) return NULL;
    long before = old ? (long)malloc_usable_size(old) : 0;
    void *block = grow_again(old, size);
    if (block) __sync_sub_and_fetch(&held, before);
    return block ? counted(block) : NULL;
}

void free(void *old) {
    find();
    if (old) __sync_sub_and_fetch(&held, (long)malloc_usable_size(old));
    let_go(old);
}

__attribute__((destructor)) static void told(void) {
    char text[96];
    if (watched) return;
    int length = snprintf(text, sizeof text, "\nallocations %ld\nbytes %ld\n", asked, most);
    if (write(2, text, length) < 0) syscall(SYS_exit_group, 9);
}

/* A program that may have threads ends so, and runs no destructor. */
void _exit(int status) {
    told();
    for (;;) syscall(SYS_exit_group, status);
}
