/* Refuses one allocation of a program that it is preloaded to; for Linux with the GNU C library.

   REFUSED_CALL    the number of the allocation that is refused, counted from 1 over all threads; 0 refuses none
   REFUSED_REPORT  a file of the size of `struct report`, in which the count stands at the end, however the program ends

   The count begins with `main`: what the loader allocates before is not the program's. An allocation is a call of the
   allocator, a call of `mmap` for memory without a file, or the start of a thread, which needs memory for its stack. */

#define _GNU_SOURCE
#include <dlfcn.h>
#include <errno.h>
#include <fcntl.h>
#include <pthread.h>
#include <stdatomic.h>
#include <stdbool.h>
#include <stddef.h>
#include <stdint.h>
#include <stdlib.h>
#include <string.h>
#include <sys/mman.h>
#include <unistd.h>

struct report {
    _Atomic uint64_t calls;
    char refused[24]; /* the name of the function whose call was refused; empty where none was */
};

typedef int main_function(int, char **, char **);
typedef int start_function(main_function *, int, char **, void (*)(void), void (*)(void), void (*)(void), void *);
typedef void *map_function(void *, size_t, int, int, int, off_t);
typedef int thread_function(pthread_t *, const pthread_attr_t *, void *(*)(void *), void *);

extern void *__libc_malloc(size_t);
extern void *__libc_calloc(size_t, size_t);
extern void *__libc_realloc(void *, size_t);
extern void *__libc_memalign(size_t, size_t);

static main_function *program_main;
static map_function *system_map;
static thread_function *system_thread;
static uint64_t refused_call;
static struct report *report; /* null until `main` begins */

/* Counts a call, and tells whether it is the one to be refused. */
static bool is_refused(const char *name)
{
    if (report == NULL || atomic_fetch_add(&report->calls, 1) + 1 != refused_call)
        return false;
    strncpy(report->refused, name, sizeof report->refused - 1);
    errno = ENOMEM;
    return true;
}

void *malloc(size_t size)
{
    return is_refused("malloc") ? NULL : __libc_malloc(size);
}

void *calloc(size_t count, size_t size)
{
    return is_refused("calloc") ? NULL : __libc_calloc(count, size);
}

void *realloc(void *block, size_t size)
{
    return is_refused("realloc") ? NULL : __libc_realloc(block, size);
}

void *memalign(size_t alignment, size_t size)
{
    return is_refused("memalign") ? NULL : __libc_memalign(alignment, size);
}

void *aligned_alloc(size_t alignment, size_t size)
{
    return is_refused("aligned_alloc") ? NULL : __libc_memalign(alignment, size);
}

int posix_memalign(void **block, size_t alignment, size_t size)
{
    void *memory = is_refused("posix_memalign") ? NULL : __libc_memalign(alignment, size);
    if (memory == NULL)
        return ENOMEM;
    *block = memory;
    return 0;
}

void *mmap(void *address, size_t length, int protection, int flags, int file, off_t offset)
{
    if (system_map == NULL)
        system_map = (map_function *)dlsym(RTLD_NEXT, "mmap");
    if ((flags & MAP_ANONYMOUS) != 0 && is_refused("mmap"))
        return MAP_FAILED;
    return system_map(address, length, protection, flags, file, offset);
}

void *mmap64(void *address, size_t length, int protection, int flags, int file, off_t offset)
{
    return mmap(address, length, protection, flags, file, offset);
}

/* Of a thread without memory for its stack the system says EAGAIN. */
int pthread_create(pthread_t *thread, const pthread_attr_t *attributes, void *(*body)(void *), void *argument)
{
    return is_refused("pthread_create") ? EAGAIN : system_thread(thread, attributes, body, argument);
}

/* The report in the file, or null where there is none. */
static struct report *open_report(const char *path)
{
    int file = path == NULL ? -1 : open(path, O_RDWR | O_CLOEXEC);
    if (file == -1)
        return NULL;
    void *memory = mmap(NULL, sizeof(struct report), PROT_READ | PROT_WRITE, MAP_SHARED, file, 0);
    close(file);
    return memory == MAP_FAILED ? NULL : memory;
}

static int counted_main(int count, char **words, char **environment)
{
    const char *number = getenv("REFUSED_CALL");
    system_thread = (thread_function *)dlsym(RTLD_NEXT, "pthread_create");
    refused_call = number == NULL ? 0 : strtoull(number, NULL, 10);
    report = open_report(getenv("REFUSED_REPORT"));
    return program_main(count, words, environment);
}

int __libc_start_main(main_function *main, int count, char **words, void (*init)(void), void (*fini)(void),
                      void (*loader_fini)(void), void *stack_end)
{
    start_function *start = (start_function *)dlsym(RTLD_NEXT, "__libc_start_main");
    program_main = main;
    return start(counted_main, count, words, init, fini, loader_fini, stack_end);
}
