// What bench/serve measures with: a bare server over the same kind of socket, and clients of either.
//
//   serve bare PATH              a thread for each connection; it answers each request with so many bytes as a reply has,
//                                and writes each line of standard input to every connection
//   serve load PATH LINKS CALLS HANDSHAKE    seconds that so many links take for so many calls each, made one after the
//                                other; HANDSHAKE is 1 for `login serve` and 0 for the bare server
//   serve hold PATH LINKS HANDSHAKE          opens so many links, says so, and holds them until it is ended
//   serve signals PATH COUNT HANDSHAKE       microseconds from a line on standard output to what it brings on a link, a
//                                line for each on standard error
#include <pthread.h>
#include <stdint.h>
#include <stdio.h>
#include <stdlib.h>
#include <string.h>
#include <sys/socket.h>
#include <sys/un.h>
#include <time.h>
#include <unistd.h>

enum { REQUEST = 104, REPLY = 40, MOST = 1024 };

static const char HANDSHAKE[] = "\0AUTH EXTERNAL\r\nDATA\r\nNEGOTIATE_UNIX_FD\r\nBEGIN\r\n";
static const char REPLIES[] = "DATA\r\nOK 0123456789abcdef0123456789abcdef\r\nERROR\r\n";

// Peer.Ping to the manager, as GLib writes it.
static const char PING[REQUEST] =
    "l\1\0\1\0\0\0\0\1\0\0\0U\0\0\0\1\1o\0\27\0\0\0/org/freedesktop/login1\0\2\1s\0\31\0\0\0"
    "org.freedesktop.DBus.Peer\0\0\0\0\0\0\0\3\1s\0\4\0\0\0Ping\0\0\0";

static const char *path;
static int calls, greets;
static int open_ones[MOST], open_count;
static pthread_mutex_t lock = PTHREAD_MUTEX_INITIALIZER;

static void fail(const char *what)
{
    perror(what);
    exit(1);
}

static double now(void)
{
    struct timespec t;
    clock_gettime(CLOCK_MONOTONIC, &t);
    return t.tv_sec + t.tv_nsec / 1e9;
}

static void put(int fd, const char *bytes, size_t count)
{
    for (size_t done = 0; done < count;) {
        ssize_t n = write(fd, bytes + done, count - done);
        if (n <= 0)
            fail("write");
        done += n;
    }
}

static void take(int fd, char *bytes, size_t count)
{
    for (size_t done = 0; done < count;) {
        ssize_t n = read(fd, bytes + done, count - done);
        if (n <= 0)
            fail("read");
        done += n;
    }
}

static struct sockaddr_un address(void)
{
    struct sockaddr_un a = {.sun_family = AF_UNIX};
    strncpy(a.sun_path, path, sizeof a.sun_path - 1);
    return a;
}

static void call(int fd, uint32_t serial)
{
    char message[REQUEST], reply[REPLY];
    memcpy(message, PING, REQUEST);
    memcpy(message + 8, &serial, 4);
    put(fd, message, REQUEST);
    take(fd, reply, REPLY);
}

static int begin(void)
{
    struct sockaddr_un a = address();
    char replies[sizeof REPLIES - 1];
    int fd = socket(AF_UNIX, SOCK_STREAM, 0);
    if (fd < 0 || connect(fd, (struct sockaddr *)&a, sizeof a) < 0)
        fail("connect");
    if (greets) {
        put(fd, HANDSHAKE, sizeof HANDSHAKE - 1);
        take(fd, replies, sizeof replies);
    }
    call(fd, 1);
    return fd;
}

static void *client(void *fd)
{
    for (int i = 0; i < calls; i++)
        call(*(int *)fd, i + 2);
    return NULL;
}

static void load(int links)
{
    pthread_t threads[MOST];
    int fds[MOST];
    for (int i = 0; i < links; i++)
        fds[i] = begin();
    double start = now();
    for (int i = 0; i < links; i++)
        if (pthread_create(&threads[i], NULL, client, &fds[i]))
            fail("thread");
    for (int i = 0; i < links; i++)
        pthread_join(threads[i], NULL);
    printf("%.6f\n", now() - start);
}

static void hold(int links)
{
    for (int i = 0; i < links; i++)
        begin();
    puts("held");
    fflush(stdout);
    pause();
}

static void signals(int count)
{
    char bytes[4096];
    int fd = begin();
    for (int i = 0; i < count; i++) {
        usleep(2000);
        double start = now();
        printf("add 226 %d drm seat-%d\n", i, i);
        fflush(stdout);
        if (read(fd, bytes, sizeof bytes) <= 0)
            fail("read");
        fprintf(stderr, "%.1f\n", 1e6 * (now() - start));
    }
}

static void *answer(void *arg)
{
    int fd = (int)(intptr_t)arg;
    char message[REQUEST];
    for (;;) {
        for (size_t done = 0; done < REQUEST;) {
            ssize_t n = read(fd, message + done, REQUEST - done);
            if (n <= 0)
                return NULL;
            done += n;
        }
        put(fd, message, REPLY);
    }
}

static void *accept_all(void *arg)
{
    int fd = *(int *)arg;
    for (;;) {
        int one = accept(fd, NULL, NULL);
        pthread_t thread;
        if (one < 0 || pthread_create(&thread, NULL, answer, (void *)(intptr_t)one))
            fail("accept");
        pthread_detach(thread);
        pthread_mutex_lock(&lock);
        open_ones[open_count++] = one;
        pthread_mutex_unlock(&lock);
    }
    return NULL;
}

static void bare(void)
{
    struct sockaddr_un a = address();
    char line[256];
    pthread_t thread;
    int fd = socket(AF_UNIX, SOCK_STREAM, 0);
    if (fd < 0 || bind(fd, (struct sockaddr *)&a, sizeof a) < 0 || listen(fd, MOST) < 0)
        fail("bind");
    if (pthread_create(&thread, NULL, accept_all, &fd))
        fail("thread");
    while (fgets(line, sizeof line, stdin) && strcmp(line, "stop\n")) {
        pthread_mutex_lock(&lock);
        for (int i = 0; i < open_count; i++)
            put(open_ones[i], line, strlen(line));
        pthread_mutex_unlock(&lock);
    }
}

int main(int argc, char **argv)
{
    if (argc < 3)
        return 2;
    path = argv[2];
    if (!strcmp(argv[1], "bare")) {
        bare();
    } else if (!strcmp(argv[1], "load") && argc == 6) {
        calls = atoi(argv[4]);
        greets = atoi(argv[5]);
        load(atoi(argv[3]));
    } else if (!strcmp(argv[1], "hold") && argc == 5) {
        greets = atoi(argv[4]);
        hold(atoi(argv[3]));
    } else if (!strcmp(argv[1], "signals") && argc == 5) {
        greets = atoi(argv[4]);
        signals(atoi(argv[3]));
    } else {
        return 2;
    }
    return 0;
}
