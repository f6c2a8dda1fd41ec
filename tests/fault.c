// A library to be preloaded under the program: calls of the system fail in turn.
//
// FAULT_CALL names the call. From its call number FAULT_AT on, FAULT_COUNT calls fail (0: all), with the error FAULT_ERROR, a number; with
// `short` they do their work, of one byte; with `none` they take no byte. A `close` that fails has closed. A call that would block
// (EAGAIN) is told anew that it can go on, as the system does. The file FAULT_LOG gets a line at the first of them: the kind of descriptor,
// how many accepted connections are open, and how many files have been opened.
#define _GNU_SOURCE
#include <dlfcn.h>
#include <errno.h>
#include <fcntl.h>
#include <stdarg.h>
#include <stdio.h>
#include <stdlib.h>
#include <string.h>
#include <sys/epoll.h>
#include <sys/socket.h>
#include <sys/syscall.h>
#include <time.h>
#include <unistd.h>

enum { MOST = 256, NONE = -1, SHORT = -2 };
enum kind { OTHER, LISTENER, CONNECTION };

static enum kind kinds[MOST];
static struct { int poll; struct epoll_event event; } polled[MOST];
static int open_connections, opened, is_told;
static long calls, first = -1, count;
static int error;
static const char *name = "";

__attribute__((constructor)) static void begin(void) {
    const char *at = getenv("FAULT_AT"), *many = getenv("FAULT_COUNT"), *what = getenv("FAULT_ERROR");
    if (!at || !many || !what || !getenv("FAULT_CALL")) return;
    name = getenv("FAULT_CALL");
    first = atol(at);
    count = atol(many);
    error = !strcmp(what, "short") ? SHORT : !strcmp(what, "none") ? NONE : atoi(what);
}

static void tell(int fd) {
    static const char *words[] = {"other", "listener", "connection"};
    char line[64];
    const char *log = getenv("FAULT_LOG");
    if (is_told++ || !log) return;
    int n = snprintf(line, sizeof line, "%s %d %d\n", words[fd >= 0 && fd < MOST ? kinds[fd] : OTHER], open_connections, opened);
    int file = syscall(SYS_open, log, O_WRONLY | O_CREAT | O_TRUNC, 0644);
    if (file < 0 || syscall(SYS_write, file, line, n) != n) abort();
    syscall(SYS_close, file);
}

// Whether this call fails: the error, SHORT or NONE, or 0.
static int fault(const char *call, int fd) {
    if (strcmp(call, name)) return 0;
    calls++;
    if (calls < first || first < 0 || (count && calls >= first + count)) return 0;
    tell(fd);
    if (error == EAGAIN && fd >= 0 && fd < MOST && polled[fd].poll) {
        struct epoll_event event = polled[fd].event;
        syscall(SYS_epoll_ctl, polled[fd].poll, EPOLL_CTL_MOD, fd, &event);
    }
    if (error > 0) errno = error;
    return error;
}

static size_t length_of(int fault, size_t length) { return fault == SHORT && length > 1 ? 1 : length; }

#define NEXT(type, call) static type (*next)(); if (!next) next = (type (*)())dlsym(RTLD_NEXT, #call)

ssize_t read(int fd, void *buf, size_t n) {
    int it = fault("read", fd);
    if (it > 0) return -1;
    NEXT(ssize_t, read);
    return next(fd, buf, length_of(it, n));
}

static ssize_t put(int fd, const void *buf, size_t n) {
    int it = fault("write", fd);
    if (it > 0) return -1;
    if (it == NONE) return 0;
    NEXT(ssize_t, write);
    return next(fd, buf, length_of(it, n));
}
ssize_t write(int fd, const void *buf, size_t n) { return put(fd, buf, n); }
ssize_t __write(int fd, const void *buf, size_t n) { return put(fd, buf, n); }

ssize_t recv(int fd, void *buf, size_t n, int flags) {
    int it = fault("recv", fd);
    if (it > 0) return -1;
    NEXT(ssize_t, recv);
    return next(fd, buf, length_of(it, n), flags);
}

ssize_t send(int fd, const void *buf, size_t n, int flags) {
    int it = fault("send", fd);
    if (it > 0) return -1;
    NEXT(ssize_t, send);
    return next(fd, buf, length_of(it, n), flags);
}

int open(const char *path, int flags, ...) {
    va_list more;
    va_start(more, flags);
    int mode = flags & O_CREAT ? va_arg(more, int) : 0;
    va_end(more);
    if (fault("open", -1) > 0) return -1;
    NEXT(int, open);
    opened++;
    return next(path, flags, mode);
}

int close(int fd) {
    int it = fault("close", fd), saved = errno;
    NEXT(int, close);
    int done = next(fd);
    if (fd >= 0 && fd < MOST) {
        if (kinds[fd] == CONNECTION) open_connections--;
        kinds[fd] = OTHER;
        polled[fd].poll = 0;
    }
    if (it > 0) {
        errno = saved;
        return -1;
    }
    return done;
}

int socket(int domain, int type, int protocol) {
    if (fault("socket", -1) > 0) return -1;
    NEXT(int, socket);
    return next(domain, type, protocol);
}

int setsockopt(int fd, int level, int option, const void *value, socklen_t n) {
    if (fault("setsockopt", fd) > 0) return -1;
    NEXT(int, setsockopt);
    return next(fd, level, option, value, n);
}

int bind(int fd, const struct sockaddr *address, socklen_t n) {
    if (fault("bind", fd) > 0) return -1;
    NEXT(int, bind);
    return next(fd, address, n);
}

int listen(int fd, int backlog) {
    if (fault("listen", fd) > 0) return -1;
    NEXT(int, listen);
    int done = next(fd, backlog);
    if (!done && fd < MOST) kinds[fd] = LISTENER;
    return done;
}

int accept4(int fd, struct sockaddr *address, socklen_t *n, int flags) {
    int it = fault("accept4", fd);
    NEXT(int, accept4);
    if (it == ECONNABORTED) return -1;
    if (it > 0) return -1;
    int made = next(fd, address, n, flags);
    if (made >= 0 && made < MOST) {
        kinds[made] = CONNECTION;
        open_connections++;
    }
    return made;
}

int shutdown(int fd, int how) {
    if (fault("shutdown", fd) > 0) return -1;
    NEXT(int, shutdown);
    return next(fd, how);
}

int ioctl(int fd, unsigned long request, ...) {
    va_list more;
    va_start(more, request);
    void *value = va_arg(more, void *);
    va_end(more);
    if (fault("ioctl", fd) > 0) return -1;
    NEXT(int, ioctl);
    return next(fd, request, value);
}

int epoll_create1(int flags) {
    if (fault("epoll_create1", -1) > 0) return -1;
    NEXT(int, epoll_create1);
    return next(flags);
}

int epoll_ctl(int poll, int what, int fd, struct epoll_event *event) {
    if (fault("epoll_ctl", fd) > 0) return -1;
    NEXT(int, epoll_ctl);
    int done = next(poll, what, fd, event);
    if (!done && fd < MOST && event) {
        polled[fd].poll = poll;
        polled[fd].event = *event;
    }
    return done;
}

int epoll_wait(int poll, struct epoll_event *events, int most, int timeout) {
    int it = fault("epoll_wait", -1);
    if (it > 0) return -1;
    NEXT(int, epoll_wait);
    return next(poll, events, it == SHORT ? 1 : most, timeout);
}

int getentropy(void *buf, size_t n) {
    if (fault("getentropy", -1) > 0) return -1;
    NEXT(int, getentropy);
    return next(buf, n);
}

int clock_gettime(clockid_t clock, struct timespec *time) {
    if (fault("clock_gettime", -1) > 0) return -1;
    NEXT(int, clock_gettime);
    return next(clock, time);
}
