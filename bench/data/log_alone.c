// A server over a Unix socket that only writes the log of a store, to compare `ssi serve --data` with: one thread, by
// readiness. It replies to each line by its first letter. In a turn it reads from all clients that are ready, writes their
// lines over zeros that are on the disk, has them synced, and only then sends the replies.
//
//     log_alone SOCKET FILE
//
// After `stop` it ends, and prints how many turns it had and how many microseconds a sync took.
#define _GNU_SOURCE
#include <errno.h>
#include <fcntl.h>
#include <signal.h>
#include <stdint.h>
#include <stdio.h>
#include <stdlib.h>
#include <string.h>
#include <sys/epoll.h>
#include <sys/socket.h>
#include <sys/un.h>
#include <time.h>
#include <unistd.h>

enum { AHEAD = 1 << 20, ROOM = 16384, MOST = 1024, LONGEST = 16 };

struct client {
    int fd;
    size_t kept, owed; // bytes of a line that isn't whole yet, and of replies
    char line[ROOM], replies[ROOM * LONGEST];
};

static int file, is_stopped;
static char *lines; // of this turn
static size_t filled;
static off_t end, room;
static uint64_t turns;
static int64_t waited;

static void fail(const char *what) {
    fprintf(stderr, "log_alone: %s: %s\n", what, strerror(errno));
    exit(1);
}

static int64_t now(void) {
    struct timespec t;
    clock_gettime(CLOCK_MONOTONIC, &t);
    return t.tv_sec * 1000000000LL + t.tv_nsec;
}

static void put(const char *from, size_t size, off_t at) {
    while (size) {
        ssize_t n = pwrite(file, from, size, at);
        if (n < 0) fail("write");
        from += n, size -= n, at += n;
    }
}

static void sync_file(void) {
    int64_t start = now();
    if (fdatasync(file)) fail("sync");
    waited += now() - start;
}

// zeros, on the disk before they are written over; the first zero ends the log
static void make_room(void) {
    static char zeros[AHEAD];
    while (end + (off_t)filled >= room) {
        put(zeros, AHEAD, room);
        if (fdatasync(file)) fail("sync");
        room += AHEAD;
    }
}

static const char *reply_to(const char *line) {
    switch (*line) {
    case 'b': return "begun 17\n";
    case 'g': return "value 5\n";
    case 'c': return "committed\n";
    case 's': return is_stopped = 1, "stopped\n";
    default: return "done\n";
    }
}

static void take_lines(struct client *c) {
    char *at = c->line, *stop = c->line + c->kept, *feed;
    while ((feed = memchr(at, '\n', stop - at))) {
        size_t size = feed + 1 - at;
        const char *reply = reply_to(at);
        size_t length = strlen(reply);
        if (c->owed + length > sizeof c->replies) fail("too many replies");
        memcpy(c->replies + c->owed, reply, length);
        c->owed += length;
        if (!is_stopped) {
            memcpy(lines + filled, at, size);
            filled += size;
        }
        at = feed + 1;
    }
    c->kept = stop - at;
    memmove(c->line, at, c->kept);
}

// the clients here read what they are owed, so that all of it can be written at once
static int settle(struct client *c) {
    for (size_t sent = 0; sent < c->owed;) {
        ssize_t n = write(c->fd, c->replies + sent, c->owed - sent);
        if (n < 0 && errno != EAGAIN) return 0;
        if (n > 0) sent += n;
    }
    c->owed = 0;
    return 1;
}

static void leave(struct client *c) {
    close(c->fd);
    free(c);
}

int main(int count, char **words) {
    if (count != 3) return fprintf(stderr, "usage: log_alone SOCKET FILE\n"), 2;
    file = open(words[2], O_RDWR | O_CREAT | O_TRUNC, 0600);
    lines = malloc((size_t)MOST * ROOM);
    if (file < 0 || !lines) fail("start");
    make_room();
    signal(SIGPIPE, SIG_IGN);
    struct sockaddr_un address = {.sun_family = AF_UNIX};
    strncpy(address.sun_path, words[1], sizeof address.sun_path - 1);
    int listener = socket(AF_UNIX, SOCK_STREAM, 0), poll = epoll_create1(0);
    if (bind(listener, (struct sockaddr *)&address, sizeof address) || listen(listener, 4096)) fail("socket");
    struct epoll_event event = {.events = EPOLLIN, .data.ptr = NULL}, events[MOST];
    epoll_ctl(poll, EPOLL_CTL_ADD, listener, &event);
    while (!is_stopped) {
        int n = epoll_wait(poll, events, MOST, -1);
        for (int i = 0; i < n; i++) {
            struct client *c = events[i].data.ptr;
            if (!c) {
                c = calloc(1, sizeof *c);
                c->fd = accept4(listener, NULL, NULL, SOCK_NONBLOCK);
                event.data.ptr = c;
                if (c->fd >= 0) epoll_ctl(poll, EPOLL_CTL_ADD, c->fd, &event);
                events[i].data.ptr = NULL;
                continue;
            }
            ssize_t size = read(c->fd, c->line + c->kept, ROOM - c->kept);
            if (size <= 0) {
                if (size < 0 && errno == EAGAIN) continue;
                leave(c);
                events[i].data.ptr = NULL;
                continue;
            }
            c->kept += size;
            take_lines(c);
        }
        if (filled) {
            make_room();
            put(lines, filled, end);
            sync_file();
            end += filled;
            filled = 0;
            turns++;
        }
        for (int i = 0; i < n; i++)
            if (events[i].data.ptr && !settle(events[i].data.ptr)) leave(events[i].data.ptr);
    }
    unlink(words[1]);
    printf("%lu %.0f\n", turns, turns ? waited / 1e3 / turns : 0);
}
