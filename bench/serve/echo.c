// A server over a Unix socket that writes back what it reads, to all clients at once: one thread, by readiness.
//
//     echo SOCKET
#define _GNU_SOURCE
#include <errno.h>
#include <stdio.h>
#include <stdlib.h>
#include <string.h>
#include <sys/epoll.h>
#include <sys/socket.h>
#include <sys/un.h>
#include <unistd.h>

enum { ROOM = 16384 };

// what a client hasn't taken yet is kept by nobody: the clients here read what they are owed
static int echo(int fd) {
    static char room[ROOM];
    ssize_t n = read(fd, room, sizeof room);
    if (n <= 0) return n < 0 && errno == EAGAIN;
    return write(fd, room, n) == n;
}

int main(int count, char **words) {
    if (count != 2) return fprintf(stderr, "usage: echo SOCKET\n"), 2;
    struct sockaddr_un address = {.sun_family = AF_UNIX};
    strncpy(address.sun_path, words[1], sizeof address.sun_path - 1);
    int listener = socket(AF_UNIX, SOCK_STREAM, 0), poll = epoll_create1(0);
    if (bind(listener, (struct sockaddr *)&address, sizeof address) || listen(listener, 4096)) return perror("echo"), 1;
    struct epoll_event event = {.events = EPOLLIN, .data.fd = listener}, events[256];
    epoll_ctl(poll, EPOLL_CTL_ADD, listener, &event);
    for (;;) {
        int n = epoll_wait(poll, events, 256, -1);
        for (int i = 0; i < n; i++) {
            int fd = events[i].data.fd;
            if (fd == listener) {
                event.data.fd = accept4(listener, NULL, NULL, SOCK_NONBLOCK);
                event.events = EPOLLIN;
                if (event.data.fd >= 0) epoll_ctl(poll, EPOLL_CTL_ADD, event.data.fd, &event);
            } else if (!echo(fd)) {
                close(fd);
            }
        }
    }
}
