/* For tests/program.py: loaded before the C library (LD_PRELOAD), it appends a byte to the file that STARTED names for
   each thread that is started. */
#define _GNU_SOURCE
#include <dlfcn.h>
#include <fcntl.h>
#include <pthread.h>
#include <stdlib.h>
#include <unistd.h>

int pthread_create(pthread_t *thread, const pthread_attr_t *how, void *(*begin)(void *), void *argument) {
    int (*start)(pthread_t *, const pthread_attr_t *, void *(*)(void *), void *) = dlsym(RTLD_NEXT, "pthread_create");
    int file = open(getenv("STARTED"), O_WRONLY | O_APPEND | O_CLOEXEC);
    int fault = start(thread, how, begin, argument);
    if (fault || file < 0 || write(file, ".", 1) != 1) abort();
    close(file);
    return fault;
}
