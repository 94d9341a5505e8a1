/* Makes calls of the system wrong, as a program with a fault might ask for them or take them: preloaded into a program, it
 * does what the word in WRONG says. checks/replay_served.py sees by it that its cases can fail. */
#define _GNU_SOURCE
#include <dlfcn.h>
#include <errno.h>
#include <netinet/in.h>
#include <netinet/tcp.h>
#include <pthread.h>
#include <stdlib.h>
#include <string.h>
#include <sys/socket.h>
#include <sys/syscall.h>
#include <sys/time.h>
#include <time.h>
#include <unistd.h>

#define REAL(type, name, ...) \
    static type (*real)(__VA_ARGS__); \
    if (!real) real = (type (*)(__VA_ARGS__))dlsym(RTLD_NEXT, #name)

/* Of sockets whose way out is closed, how often they were read since then. */
#define MOST 65536
static char is_closed[MOST];
static int reads[MOST];

static int is_wrong(const char *word) {
    const char *wrong = getenv("WRONG");
    return wrong && strcmp(wrong, word) == 0;
}

/* Both ways of a connection are closed in the place of one. Who reads for ever does not end what comes. */
int shutdown(int socket, int how) {
    REAL(int, shutdown, int, int);
    if (how == SHUT_RD) return is_wrong("read_for_ever") ? 0 : real(socket, how);
    if (socket >= 0 && socket < MOST) {
        is_closed[socket] = how == SHUT_WR;
        reads[socket] = 0;
    }
    return real(socket, how == SHUT_WR && is_wrong("both_ways") ? SHUT_RDWR : how);
}

static int is_bound(int level, int name) {
    return level == SOL_SOCKET && (name == SO_RCVTIMEO || name == SO_SNDTIMEO);
}

/* Replies wait for acknowledgements; one of the two waits has no bound, or none behind the end; bounds are in milliseconds. */
int setsockopt(int socket, int level, int name, const void *value, socklen_t size) {
    REAL(int, setsockopt, int, int, int, const void *, socklen_t);
    if (level == IPPROTO_TCP && name == TCP_NODELAY && is_wrong("delayed")) return 0;
    if (is_bound(level, name)) {
        if (name == SO_RCVTIMEO && is_wrong("read_for_ever") && socket >= 0 && socket < MOST && is_closed[socket]) return 0;
        if (name == SO_SNDTIMEO && is_wrong("writes_unbounded")) return 0;
        if (name == SO_RCVTIMEO && is_wrong("reads_unbounded")) return 0;
        if (is_wrong("milliseconds")) {
            struct timeval wait = *(const struct timeval *)value;
            wait.tv_usec = 1000 * wait.tv_sec + wait.tv_usec / 1000;
            wait.tv_sec = 0;
            return real(socket, level, name, &wait, sizeof wait);
        }
    }
    return real(socket, level, name, value, size);
}

/* A socket tells no error; or an end of what comes as one. */
int getsockopt(int socket, int level, int name, void *value, socklen_t *size) {
    REAL(int, getsockopt, int, int, int, void *, socklen_t *);
    int status = real(socket, level, name, value, size);
    if (level == SOL_SOCKET && name == SO_ERROR && status == 0) {
        char byte;
        if (is_wrong("no_errors")) *(int *)value = 0;
        if (is_wrong("ends_as_errors") && syscall(SYS_recvfrom, socket, &byte, 1, MSG_PEEK | MSG_DONTWAIT, NULL, NULL) == 0)
            *(int *)value = ECONNRESET;
    }
    return status;
}

/* What comes behind the end of a session is read once, or for ever; an interrupted read or write has failed. */
static int is_read_on(int socket) {
    if (socket < 0 || socket >= MOST || !is_closed[socket]) return 1;
    return ++reads[socket] == 1 || !is_wrong("read_once");
}

static ssize_t got(int socket, void *buffer, size_t size, ssize_t count) {
    if (count < 0 && errno == EINTR && is_wrong("gives_up")) errno = EIO;
    if (socket >= 0 && socket < MOST && is_closed[socket] && is_wrong("read_for_ever"))
        while (count > 0 && syscall(SYS_recvfrom, socket, buffer, size, MSG_DONTWAIT, NULL, NULL) > 0) {}
    return count;
}

ssize_t read(int file, void *buffer, size_t size) {
    REAL(ssize_t, read, int, void *, size_t);
    return is_read_on(file) ? got(file, buffer, size, real(file, buffer, size)) : 0;
}

ssize_t recv(int socket, void *buffer, size_t size, int flags) {
    REAL(ssize_t, recv, int, void *, size_t, int);
    return is_read_on(socket) ? got(socket, buffer, size, real(socket, buffer, size, flags)) : 0;
}

ssize_t recvfrom(int socket, void *buffer, size_t size, int flags, struct sockaddr *from, socklen_t *length) {
    REAL(ssize_t, recvfrom, int, void *, size_t, int, struct sockaddr *, socklen_t *);
    return is_read_on(socket) ? got(socket, buffer, size, real(socket, buffer, size, flags, from, length)) : 0;
}

/* Threads begin two seconds late. */
int pthread_create(pthread_t *thread, const pthread_attr_t *attributes, void *(*body)(void *), void *given) {
    REAL(int, pthread_create, pthread_t *, const pthread_attr_t *, void *(*)(void *), void *);
    if (is_wrong("late_threads")) sleep(2);
    return real(thread, attributes, body, given);
}

/* Replies are sent one by one; the rest of a write that took a part is lost. */
static size_t sent_at_once(size_t size) {
    return size > 15 && is_wrong("one_by_one") ? 15 : size;
}

static ssize_t put(ssize_t count, size_t size) {
    if (count < 0 && errno == EINTR && is_wrong("gives_up")) errno = EIO;
    return count > 0 && is_wrong("loses_rest") ? (ssize_t)size : count;
}

ssize_t write(int file, const void *buffer, size_t size) {
    REAL(ssize_t, write, int, const void *, size_t);
    size = sent_at_once(size);
    return put(real(file, buffer, size), size);
}

ssize_t send(int socket, const void *buffer, size_t size, int flags) {
    REAL(ssize_t, send, int, const void *, size_t, int);
    return real(socket, buffer, sent_at_once(size), flags);
}

ssize_t sendto(int socket, const void *buffer, size_t size, int flags, const struct sockaddr *to, socklen_t length) {
    REAL(ssize_t, sendto, int, const void *, size_t, int, const struct sockaddr *, socklen_t);
    return real(socket, buffer, sent_at_once(size), flags, to, length);
}

/* There is no pause where a connection cannot be accepted, or none that grows. */
static const struct timespec *paused(const struct timespec *wait) {
    static const struct timespec least = {0, 20000000};
    return is_wrong("short_pauses") ? &least : wait;
}

int nanosleep(const struct timespec *wait, struct timespec *left) {
    REAL(int, nanosleep, const struct timespec *, struct timespec *);
    return is_wrong("no_pause") ? 0 : real(paused(wait), left);
}

int clock_nanosleep(clockid_t clock, int flags, const struct timespec *wait, struct timespec *left) {
    REAL(int, clock_nanosleep, clockid_t, int, const struct timespec *, struct timespec *);
    return is_wrong("no_pause") ? 0 : real(clock, flags, paused(wait), left);
}
