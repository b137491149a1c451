// A server that looks at nothing: it answers each line with the same reply, one thread a connection.
// What it takes for a line is what a read and a write of a socket cost at least.
#include <pthread.h>
#include <unistd.h>

#include "../common.h"

enum { MOST_SESSIONS = 64 };

static const char USAGE[] =
    "usage: idle PORT SESSIONS BYTES\n"
    "\n"
    "Answers each line of SESSIONS connections to 127.0.0.1 with a reply of BYTES bytes,\n"
    "and ends when all are over. The first line on standard output says that it listens.\n";

struct session {
    pthread_t thread;
    int socket;
    struct room room;
};

static void *serve(void *argument) {
    struct session *session = argument;
    while (is_answered(session->socket, &session->room));
    close(session->socket);
    return NULL;
}

static void start(struct session *session, int listener) {
    do session->socket = accept(listener, NULL, NULL);
    while (session->socket < 0 && errno == EINTR);
    if (session->socket < 0) fail("accept");
    send_at_once(session->socket);
    errno = pthread_create(&session->thread, NULL, serve, session);
    if (errno) fail("pthread_create");
}

int main(int count, char **words) {
    struct told told = told_by(count, words, USAGE, MOST_SESSIONS);
    struct session *all = calloc((size_t)told.threads, sizeof *all);
    if (!all) fail("calloc");
    int listener = listen_on(told.port, MOST_SESSIONS);
    say_listening(told.port);
    for (long at = 0; at < told.threads; at++) start(&all[at], listener);
    for (long at = 0; at < told.threads; at++) pthread_join(all[at].thread, NULL);
    free(all);
    close(listener);
    return 0;
}
