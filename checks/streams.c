/* Cuts, interrupts and fails the streams of the program that it is loaded into (LD_PRELOAD): standard input, standard output, the
   files that the program opens for writing, and its sockets, received from and sent to. Delays or refuses its threads. Variables say
   how, each with the prefix IN_, OUT_, FILE_, RECEIVED_ or SENT_:

   MOST    the most bytes that a read or a write takes
   TIMES   how often each of them is interrupted before it is done
   LEFT    after how many bytes all further ones fail
   ONCE    after how many bytes one call fails, and the next is done
   AGAIN   after how many bytes one call fails as one that would block, and the next is done
   NOTHING 1 if a write that fails takes nothing and says no error

   The variable LATE says after how many milliseconds each thread that the program makes begins; a thread isn't made if it is below 0.

   The file that the variable COUNTS names, of 32 bytes, gets four numbers: the bytes read, the reads and the writes of standard streams,
   interrupted and failed ones included, and the reads that came after a write that failed. */
#define _GNU_SOURCE
#include <dlfcn.h>
#include <errno.h>
#include <fcntl.h>
#include <limits.h>
#include <pthread.h>
#include <stdarg.h>
#include <stdio.h>
#include <stdlib.h>
#include <sys/mman.h>
#include <sys/socket.h>
#include <sys/syscall.h>
#include <time.h>
#include <unistd.h>

struct stream {
    const char *name;
    long most, times, left, once, again, nothing, interrupted;
};

struct counts {
    long bytes, reads, writes, late;
};

static struct stream in = {"IN"}, out = {"OUT"}, file = {"FILE"}, received = {"RECEIVED"}, sent = {"SENT"};
static int file_number = -1;
static int has_failed;
static long late;
static struct counts own, *counts = &own;

static long told(const char *stream, const char *what, long otherwise) {
    char name[32];
    snprintf(name, sizeof name, "%s_%s", stream, what);
    const char *value = getenv(name);
    return value ? atol(value) : otherwise;
}

static void ask(struct stream *stream) {
    stream->most = told(stream->name, "MOST", LONG_MAX);
    stream->times = told(stream->name, "TIMES", 0);
    stream->left = told(stream->name, "LEFT", LONG_MAX);
    stream->once = told(stream->name, "ONCE", LONG_MAX);
    stream->again = told(stream->name, "AGAIN", LONG_MAX);
    stream->nothing = told(stream->name, "NOTHING", 0);
}

__attribute__((constructor)) static void begin(void) {
    ask(&in);
    ask(&out);
    ask(&file);
    ask(&received);
    ask(&sent);
    const char *delay = getenv("LATE");
    late = delay ? atol(delay) : 0;
    const char *path = getenv("COUNTS");
    if (path) {
        int number = syscall(SYS_openat, AT_FDCWD, path, O_RDWR, 0);
        void *shared = mmap(NULL, sizeof own, PROT_READ | PROT_WRITE, MAP_SHARED, number, 0);
        if (number < 0 || shared == MAP_FAILED) {
            abort();
        }
        counts = shared;
        syscall(SYS_close, number);
    }
}

/* Returns how many of `size` bytes a call may have; -1 if it is interrupted, fails, or would block. */
static long room(struct stream *stream, size_t size) {
    if (stream->interrupted < stream->times) {
        stream->interrupted++;
        errno = EINTR;
        return -1;
    }
    stream->interrupted = 0;
    if (stream->again == 0) {
        stream->again = LONG_MAX;
        errno = EAGAIN;
        return -1;
    }
    if (stream->once == 0) {
        stream->once = LONG_MAX;
        errno = EIO;
        return -1;
    }
    if (stream->left == 0) {
        errno = EIO;
        return -1;
    }
    long most = stream->most < stream->left ? stream->most : stream->left;
    most = most < stream->once ? most : stream->once;
    most = most < stream->again ? most : stream->again;
    return size < (size_t)most ? (long)size : most;
}

/* Notes what a call took, and returns it. */
static ssize_t took(struct stream *stream, ssize_t done) {
    if (done > 0) {
        stream->left -= stream->left == LONG_MAX ? 0 : done;
        stream->once -= stream->once == LONG_MAX ? 0 : done;
        stream->again -= stream->again == LONG_MAX ? 0 : done;
    }
    return done;
}

/* Returns what a write that may have nothing answers. */
static ssize_t failed(struct stream *stream) {
    has_failed |= errno != EINTR;
    return errno == EIO && stream->nothing ? 0 : -1;
}

ssize_t read(int number, void *bytes, size_t size) {
    if (number != 0) {
        return syscall(SYS_read, number, bytes, size);
    }
    counts->reads++;
    counts->late += has_failed;
    long most = room(&in, size);
    if (most < 0) {
        return -1;
    }
    ssize_t done = took(&in, syscall(SYS_read, number, bytes, (size_t)most));
    counts->bytes += done > 0 ? done : 0;
    return done;
}

ssize_t write(int number, const void *bytes, size_t size) {
    struct stream *stream = number == 1 ? &out : number == file_number ? &file : NULL;
    if (!stream) {
        return syscall(SYS_write, number, bytes, size);
    }
    counts->writes += stream == &out;
    long most = room(stream, size);
    return most < 0 ? failed(stream) : took(stream, syscall(SYS_write, number, bytes, (size_t)most));
}

ssize_t recv(int number, void *bytes, size_t size, int flags) {
    long most = room(&received, size);
    return most < 0 ? -1 : took(&received, syscall(SYS_recvfrom, number, bytes, (size_t)most, flags, NULL, NULL));
}

ssize_t send(int number, const void *bytes, size_t size, int flags) {
    long most = room(&sent, size);
    return most < 0 ? failed(&sent) : took(&sent, syscall(SYS_sendto, number, bytes, (size_t)most, flags, NULL, 0));
}

int open(const char *path, int flags, ...) {
    va_list rest;
    va_start(rest, flags);
    mode_t mode = flags & O_CREAT ? va_arg(rest, mode_t) : 0;
    va_end(rest);
    int number = syscall(SYS_openat, AT_FDCWD, path, flags, mode);
    if (number >= 0 && (flags & O_ACCMODE) != O_RDONLY) {
        file_number = number;
    }
    return number;
}

struct work {
    void *(*routine)(void *);
    void *given;
};

/* Does the work of a thread, late. */
static void *begin_late(void *given) {
    struct work work = *(struct work *)given;
    free(given);
    struct timespec rest = {late / 1000, late % 1000 * 1000000};
    while (nanosleep(&rest, &rest) != 0) {
    }
    return work.routine(work.given);
}

typedef int (*creator)(pthread_t *, const pthread_attr_t *, void *(*)(void *), void *);

int pthread_create(pthread_t *thread, const pthread_attr_t *how, void *(*routine)(void *), void *given) {
    creator create = (creator)dlsym(RTLD_NEXT, "pthread_create");
    if (late == 0) {
        return create(thread, how, routine, given);
    }
    struct work *work = malloc(sizeof *work);
    if (late < 0 || !work) {
        free(work);
        return EAGAIN;
    }
    *work = (struct work){routine, given};
    int status = create(thread, how, begin_late, work);
    if (status != 0) {
        free(work);
    }
    return status;
}
