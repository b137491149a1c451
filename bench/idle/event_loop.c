// A server that looks at nothing, over event loops: it answers each line with the same reply. Connections go to its threads in turn.
// What it takes for a line is what an event loop, a read and a write of a socket cost at least.
#include <pthread.h>
#include <sys/epoll.h>
#include <unistd.h>

#include "../common.h"

enum { MOST_THREADS = 64, BACKLOG = 4096, EVENTS = 256 };

static const char USAGE[] =
    "usage: event_loop PORT THREADS BYTES\n"
    "\n"
    "Answers each line of any number of connections to 127.0.0.1 with a reply of BYTES bytes, until it is killed.\n"
    "The first line on standard output says that it listens.\n";

struct loop {
    pthread_t thread;
    int poll;
    struct room room;
};

static _Noreturn void *serve(void *argument) {
    struct loop *loop = argument;
    struct epoll_event events[EVENTS];
    for (;;) {
        int ready = epoll_wait(loop->poll, events, EVENTS, -1);
        if (ready < 0 && errno != EINTR) fail("epoll_wait");
        for (int at = 0; at < ready; at++)
            if (!is_answered(events[at].data.fd, &loop->room)) close(events[at].data.fd);
    }
}

static void start(struct loop *loop) {
    loop->poll = epoll_create1(0);
    if (loop->poll < 0) fail("epoll_create1");
    errno = pthread_create(&loop->thread, NULL, serve, loop);
    if (errno) fail("pthread_create");
}

// Gives the next connection to a loop.
static void accept_for(struct loop *loop, int listener) {
    int made = accept(listener, NULL, NULL);
    if (made < 0 && errno == EINTR) return;
    if (made < 0) fail("accept");
    send_at_once(made);
    struct epoll_event event = {.events = EPOLLIN, .data.fd = made};
    if (epoll_ctl(loop->poll, EPOLL_CTL_ADD, made, &event)) fail("epoll_ctl");
}

int main(int count, char **words) {
    struct told told = told_by(count, words, USAGE, MOST_THREADS);
    struct loop *all = calloc((size_t)told.threads, sizeof *all);
    if (!all) fail("calloc");
    int listener = listen_on(told.port, BACKLOG);
    for (long at = 0; at < told.threads; at++) start(&all[at]);
    say_listening(told.port);
    for (size_t at = 0;; at++) accept_for(&all[at % (size_t)told.threads], listener);
}
