// A plain server over epoll beside uahist: one thread, sockets that don't wait, and answers that say nothing.
//   echo PORT ASKED:ANSWERED ..
// A message of ASKED bytes, its four letters and its size in the first eight, is answered by one of ANSWERED bytes: the
// same letters, its own size, and zeros. While an answer isn't written whole nothing more of its connection is answered.
#define _GNU_SOURCE
#include <arpa/inet.h>
#include <errno.h>
#include <stdint.h>
#include <stdio.h>
#include <stdlib.h>
#include <string.h>
#include <sys/epoll.h>
#include <sys/socket.h>
#include <unistd.h>
enum { PLACES = 4096, ROOM = 65536 };
static struct place {
    size_t have, at, left; // bytes that came; where the rest of an answer begins, and how much it is
    char in[ROOM], out[ROOM];
} places[PLACES];
static int epoll, kinds;
static unsigned asked[16], answered[16];
static void watch(int how, int file, uint32_t events) {
    struct epoll_event event = {.events = events, .data.fd = file};
    if (epoll_ctl(epoll, how, file, &event) < 0) exit(3);
}
// Writes what is left of an answer; 0 where the connection is over.
static int written(int file, struct place *p) {
    while (p->left) {
        ssize_t n = send(file, p->out + p->at, p->left, MSG_NOSIGNAL);
        if (n < 0) return errno == EAGAIN;
        p->at += n, p->left -= n;
    }
    return 1;
}
// Answers the whole messages that came, as far as answers can be written; 0 where the connection is over.
static int answers(int file, struct place *p) {
    size_t begin = 0;
    uint32_t size;
    while (!p->left && p->have - begin >= 8) {
        memcpy(&size, p->in + begin + 4, 4);
        if (size < 8 || size > ROOM) return 0;
        if (size > p->have - begin) break;
        int kind = 0;
        while (kind < kinds && asked[kind] != size) kind++;
        if (kind == kinds) return 0;
        memset(p->out, 0, answered[kind]);
        memcpy(p->out, p->in + begin, 4);
        memcpy(p->out + 4, &answered[kind], 4);
        p->at = 0, p->left = answered[kind], begin += size;
        if (!written(file, p)) return 0;
    }
    memmove(p->in, p->in + begin, p->have -= begin);
    return 1;
}
// A turn of a connection that is ready; 0 where it is over.
static int turn(int file, struct place *p, uint32_t events) {
    int was_full = p->left > 0;
    if (was_full && !written(file, p)) return 0;
    if (!p->left && events & ~EPOLLOUT && p->have < ROOM) {
        ssize_t n = read(file, p->in + p->have, ROOM - p->have);
        if (n == 0 || (n < 0 && errno != EAGAIN)) return 0;
        if (n > 0) p->have += n;
    }
    if (!answers(file, p)) return 0;
    if (was_full != (p->left > 0)) watch(EPOLL_CTL_MOD, file, p->left ? EPOLLOUT : EPOLLIN);
    return 1;
}
int main(int count, char **words) {
    if (count < 3 || count > 18) return 2;
    for (int k = 2; k < count; k++, kinds++)
        if (sscanf(words[k], "%u:%u", &asked[kinds], &answered[kinds]) != 2 || answered[kinds] < 8 || answered[kinds] > ROOM) return 2;
    struct sockaddr_in address = {.sin_family = AF_INET, .sin_port = htons(atoi(words[1])), .sin_addr.s_addr = htonl(INADDR_LOOPBACK)};
    int listener = socket(AF_INET, SOCK_STREAM | SOCK_NONBLOCK, 0);
    if (bind(listener, (struct sockaddr *)&address, sizeof address) < 0 || listen(listener, 1024) < 0) return 1;
    epoll = epoll_create1(0);
    watch(EPOLL_CTL_ADD, listener, EPOLLIN);
    for (;;) {
        struct epoll_event ready[64];
        int found = epoll_wait(epoll, ready, 64, -1);
        for (int k = 0; k < found; k++) {
            int file = ready[k].data.fd;
            if (file == listener) {
                int come = accept4(listener, 0, 0, SOCK_NONBLOCK);
                if (come < 0) continue;
                if (come >= PLACES) return 4;
                places[come].have = places[come].left = 0;
                watch(EPOLL_CTL_ADD, come, EPOLLIN);
            } else if (!turn(file, &places[file], ready[k].events)) close(file);
        }
    }
}
