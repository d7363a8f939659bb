/* Makes a call of the C library fail under a program that is built as ever: loaded before the library (LD_PRELOAD), it takes the
 * place of a few of its functions. Which call fails stands in the environment, each number from 1:
 *
 *   REFUSE_ALLOCATION=N  the Nth allocation, of all threads, finds no memory
 *   REFUSE_READ=N        the Nth read fails, at an offset or not
 *   REFUSE_SHORT=1       each read gives one byte
 *   REFUSE_ENDLESS=1     each read gives one zero, without end
 *   REFUSE_THREAD=N      the Nth thread is not started
 *   REFUSE_ON=1          so does each read or thread after that one
 *   REFUSE_SEED=1        the system gives no random bytes
 *   REFUSE_AFTER=N       the standard output takes N bytes, and then fails (N from 0)
 *   REFUSE_WRITE=N       the Nth write to a file fails; the standard output and the standard error are none
 *   REFUSE_SYNC=1        no file is brought to the disk
 *   REFUSE_TOLD=D        one byte goes to the file descriptor D if a call failed so
 */
#define _GNU_SOURCE
#include <dlfcn.h>
#include <errno.h>
#include <pthread.h>
#include <stdatomic.h>
#include <stddef.h>
#include <stdlib.h>
#include <sys/syscall.h>
#include <unistd.h>

extern void *__libc_malloc(size_t);
extern void *__libc_calloc(size_t, size_t);
extern void *__libc_realloc(void *, size_t);
extern void *__libc_memalign(size_t, size_t);

static atomic_long allocations, reads, writes, threads, written;
static long refused_allocation, refused_read, refused_write, refused_thread, refused_seed, refused_sync;
static long is_short, is_endless, is_on, room = -1, told = -1;

static long number_in(const char *name, long otherwise) {
    const char *text = getenv(name);
    return text ? atol(text) : otherwise;
}

__attribute__((constructor)) static void start(void) {
    refused_allocation = number_in("REFUSE_ALLOCATION", 0);
    refused_read = number_in("REFUSE_READ", 0);
    is_short = number_in("REFUSE_SHORT", 0);
    is_on = number_in("REFUSE_ON", 0);
    is_endless = number_in("REFUSE_ENDLESS", 0);
    refused_thread = number_in("REFUSE_THREAD", 0);
    refused_seed = number_in("REFUSE_SEED", 0);
    refused_write = number_in("REFUSE_WRITE", 0);
    refused_sync = number_in("REFUSE_SYNC", 0);
    room = number_in("REFUSE_AFTER", -1);
    told = number_in("REFUSE_TOLD", -1);
    atomic_store(&allocations, 0);
}

static long fails(int error) {
    if (told >= 0) (void)!syscall(SYS_write, told, "!", 1);
    errno = error;
    return -1;
}

static int is_reached(atomic_long *count, long refused) {
    if (refused == 0) return 0;
    long number = atomic_fetch_add(count, 1) + 1;
    return number == refused || (is_on && number > refused);
}

static int is_refused(void) {
    if (refused_allocation == 0 || atomic_fetch_add(&allocations, 1) + 1 != refused_allocation) return 0;
    return fails(ENOMEM) != 0;
}

void *malloc(size_t size) { return is_refused() ? NULL : __libc_malloc(size); }
void *calloc(size_t count, size_t size) { return is_refused() ? NULL : __libc_calloc(count, size); }
void *realloc(void *old, size_t size) { return is_refused() ? NULL : __libc_realloc(old, size); }
void *memalign(size_t alignment, size_t size) { return is_refused() ? NULL : __libc_memalign(alignment, size); }
void *aligned_alloc(size_t alignment, size_t size) { return memalign(alignment, size); }

int posix_memalign(void **out, size_t alignment, size_t size) {
    void *block = memalign(alignment, size);
    if (block == NULL) return ENOMEM;
    *out = block;
    return 0;
}

ssize_t read(int descriptor, void *buffer, size_t size) {
    if (is_reached(&reads, refused_read)) return fails(EIO);
    if (is_endless && size > 0) return *(char *)buffer = 0, 1;
    return syscall(SYS_read, descriptor, buffer, is_short && size > 1 ? 1 : size);
}

ssize_t pread(int descriptor, void *buffer, size_t size, off_t offset) {
    if (is_reached(&reads, refused_read)) return fails(EIO);
    return syscall(SYS_pread64, descriptor, buffer, is_short && size > 1 ? 1 : size, offset);
}

ssize_t pread64(int descriptor, void *buffer, size_t size, off64_t offset) { return pread(descriptor, buffer, size, offset); }

int fsync(int descriptor) { return refused_sync ? (int)fails(EIO) : (int)syscall(SYS_fsync, descriptor); }

ssize_t write(int descriptor, const void *buffer, size_t size) {
    if (refused_write != 0 && descriptor > 2 && atomic_fetch_add(&writes, 1) + 1 == refused_write) return fails(ENOSPC);
    if (descriptor == 1 && room >= 0) {
        size_t left = room - atomic_load(&written);
        if (left == 0) return fails(ENOSPC);
        if (size > left) size = left;
        atomic_fetch_add(&written, size);
    }
    return syscall(SYS_write, descriptor, buffer, size);
}

int pthread_create(pthread_t *thread, const pthread_attr_t *attributes, void *(*start)(void *), void *argument) {
    static int (*create)(pthread_t *, const pthread_attr_t *, void *(*)(void *), void *);
    if (is_reached(&threads, refused_thread)) return fails(EAGAIN), EAGAIN;
    if (create == NULL) *(void **)&create = dlsym(RTLD_NEXT, "pthread_create");
    return create(thread, attributes, start, argument);
}

int getentropy(void *buffer, size_t size) {
    if (refused_seed != 0) return (int)fails(EIO);
    return syscall(SYS_getrandom, buffer, size, 0) == (long)size ? 0 : -1;
}
