// Clients of a store over a Unix socket, all in one thread.
//
//     clients SOCKET CONNECTIONS LINES SECONDS
//
// Each connection runs transactions of a session of its own: begin, get, put, commit, with keys that are random ones of
// 20,000. It sends LINES lines at a time, which are whole transactions if there are several, and waits for all replies to
// them. At the end this prints, on one line: lines a second, committed transactions a second, the median and the 99th
// percentile of the time from sending lines to the last reply, in microseconds, and the fewest lines of a connection as a
// part of the mean. It ends with 1 if a connection breaks or a reply is none that a transaction may have.
#define _GNU_SOURCE
#include <errno.h>
#include <fcntl.h>
#include <stdint.h>
#include <stdio.h>
#include <stdlib.h>
#include <string.h>
#include <sys/epoll.h>
#include <sys/resource.h>
#include <sys/socket.h>
#include <sys/un.h>
#include <time.h>
#include <unistd.h>

enum { KEYS = 20000, MOST_TIMES = 4000000, ROOM = 65536, BATCH = 16384 };

struct client {
    int fd;
    int step;            // which line of its transaction comes next
    int waits;           // for so many replies
    int starts_line;     // what comes next begins a reply
    uint64_t random;
    int64_t sent_at;
    uint64_t lines;
    int number;
    size_t unsent, size; // of what it is to send
    char text[BATCH];
};

static uint64_t committed, wrong;
static uint32_t *times;
static size_t timed;

static int64_t now(void) {
    struct timespec t;
    clock_gettime(CLOCK_MONOTONIC, &t);
    return t.tv_sec * 1000000000LL + t.tv_nsec;
}

static void fail(const char *what) {
    fprintf(stderr, "clients: %s: %s\n", what, strerror(errno));
    exit(1);
}

static unsigned any(struct client *c, unsigned below) {
    c->random ^= c->random << 13;
    c->random ^= c->random >> 7;
    c->random ^= c->random << 17;
    return (c->random >> 20) % below;
}

static size_t put_line(struct client *c, char *to) {
    switch (c->step++ % 4) {
    case 0: return sprintf(to, "begin s%d\n", c->number);
    case 1: return sprintf(to, "get s%d k%u\n", c->number, any(c, KEYS));
    case 2: return sprintf(to, "put s%d k%u %u\n", c->number, any(c, KEYS), any(c, 1000000));
    default: return sprintf(to, "commit s%d\n", c->number);
    }
}

static void send_rest(struct client *c) {
    while (c->unsent < c->size) {
        ssize_t n = write(c->fd, c->text + c->unsent, c->size - c->unsent);
        if (n < 0 && errno == EAGAIN) return;
        if (n < 0) fail("write");
        c->unsent += n;
    }
}

static void send_lines(struct client *c, int lines) {
    c->size = c->unsent = 0;
    for (int i = 0; i < lines; i++) c->size += put_line(c, c->text + c->size);
    c->waits = lines;
    c->sent_at = now();
    send_rest(c);
}

// begun, value, absent, done, committed, conflict, unsafe, and what follows a transaction that was aborted: ! 2 idle
static void note_start(const char *at, const char *end) {
    if (end - at >= 3 && !memcmp(at, "com", 3)) committed++;
    if (!strchr("bvadcu!gp", *at)) wrong++; // get and put: of a server that writes back what it reads
}

static void take(struct client *c, int lines) {
    static char room[ROOM];
    for (;;) {
        ssize_t n = read(c->fd, room, sizeof room);
        if (n < 0 && errno == EAGAIN) return;
        if (n <= 0) fail("read");
        for (char *at = room, *end = room + n; at < end;) {
            if (c->starts_line) note_start(at, end);
            char *feed = memchr(at, '\n', end - at);
            c->starts_line = feed != NULL;
            if (!feed) break;
            at = feed + 1;
            c->waits--;
            c->lines++;
        }
        if (c->waits == 0) {
            if (timed < MOST_TIMES) times[timed++] = (now() - c->sent_at) / 1000;
            send_lines(c, lines);
        }
    }
}

static int by_size(const void *a, const void *b) {
    uint32_t x = *(const uint32_t *)a, y = *(const uint32_t *)b;
    return x < y ? -1 : x > y;
}

int main(int count, char **words) {
    if (count != 5) return fprintf(stderr, "usage: clients SOCKET CONNECTIONS LINES SECONDS\n"), 2;
    int connections = atoi(words[2]), lines = atoi(words[3]), seconds = atoi(words[4]);
    if (lines > BATCH / 32) return fprintf(stderr, "clients: too many lines\n"), 2;
    struct sockaddr_un address = {.sun_family = AF_UNIX};
    strncpy(address.sun_path, words[1], sizeof address.sun_path - 1);
    struct client *clients = calloc(connections, sizeof *clients);
    times = malloc(MOST_TIMES * sizeof *times);
    int poll = epoll_create1(0);
    if (!clients || !times || poll < 0) fail("start");
    for (int i = 0; i < connections; i++) {
        struct client *c = &clients[i];
        c->fd = socket(AF_UNIX, SOCK_STREAM, 0);
        if (c->fd < 0) fail("socket");
        while (connect(c->fd, (struct sockaddr *)&address, sizeof address)) {
            if (errno != EAGAIN) fail("connect");
            usleep(1000);
        }
        fcntl(c->fd, F_SETFL, O_NONBLOCK);
        c->number = i;
        c->starts_line = 1;
        c->random = 88172645463325252ULL + i * 0x9E3779B97F4A7C15ULL;
        struct epoll_event event = {.events = EPOLLIN | EPOLLOUT | EPOLLET, .data.ptr = c};
        if (epoll_ctl(poll, EPOLL_CTL_ADD, c->fd, &event)) fail("epoll");
    }
    int64_t start = now(), end = start + seconds * 1000000000LL;
    for (int i = 0; i < connections; i++) send_lines(&clients[i], lines);
    struct epoll_event events[256];
    while (now() < end) {
        int n = epoll_wait(poll, events, 256, 1000);
        for (int i = 0; i < n; i++) {
            struct client *c = events[i].data.ptr;
            if (events[i].events & EPOLLOUT) send_rest(c);
            if (events[i].events & (EPOLLIN | EPOLLHUP)) take(c, lines);
        }
    }
    double took = (now() - start) / 1e9;
    uint64_t all = 0, fewest = UINT64_MAX;
    for (int i = 0; i < connections; i++) {
        all += clients[i].lines;
        if (clients[i].lines < fewest) fewest = clients[i].lines;
    }
    qsort(times, timed, sizeof *times, by_size);
    if (!timed) return fprintf(stderr, "clients: no reply\n"), 1;
    printf("%.0f %.0f %u %u %.2f\n", all / took, committed / took, times[timed / 2], times[timed * 99 / 100],
        fewest * (double)connections / all);
    return wrong != 0;
}
