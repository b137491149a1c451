// What the small programs of the benchmarks share, which listen on 127.0.0.1 or connect to it.
#include <arpa/inet.h>
#include <errno.h>
#include <netinet/in.h>
#include <netinet/tcp.h>
#include <stdio.h>
#include <stdlib.h>
#include <string.h>
#include <sys/socket.h>

// Ends the program with what failed and why.
static void fail(const char *what) {
    fprintf(stderr, "%s: %s: %s\n", program_invocation_short_name, what, errno ? strerror(errno) : "the server broke the protocol");
    exit(1);
}

// The word as a number from 1 to most, or 0 where it is none.
static long number_of(const char *word, long most) {
    char *end;
    errno = 0;
    long number = strtol(word, &end, 10);
    return errno || end == word || *end || number < 1 || number > most ? 0 : number;
}

// Ends the program where it is asked for help.
static inline void help(int count, char **words, const char *usage) {
    if (count != 2 || strcmp(words[1], "--help")) return;
    fputs(usage, stdout);
    exit(0);
}

static inline struct sockaddr_in loopback(long port) {
    return (struct sockaddr_in){.sin_family = AF_INET, .sin_port = htons((in_port_t)port), .sin_addr.s_addr = htonl(INADDR_LOOPBACK)};
}

// Has what is written to a socket sent at once.
static inline void send_at_once(int socket) {
    int yes = 1;
    if (setsockopt(socket, IPPROTO_TCP, TCP_NODELAY, &yes, sizeof yes)) fail("setsockopt");
}

// Whether all bytes went out. Its clients take their replies, so that it may wait.
static inline int is_sent(int socket, const char *bytes, size_t left) {
    while (left > 0) {
        ssize_t sent = send(socket, bytes, left, MSG_NOSIGNAL);
        if (sent < 0 && errno == EINTR) continue;
        if (sent <= 0) return 0;
        bytes += sent;
        left -= (size_t)sent;
    }
    return 1;
}

// Servers that look at nothing answer each line with the same reply.
enum { MOST_REPLY = 65536, INPUT_ROOM = 65536, OUTPUT_ROOM = 1 << 20 };

static char reply[MOST_REPLY];
static size_t reply_size;

// Where such a server listens, and how many threads it has at most.
struct told {
    long port, threads;
};

// Where a thread of it has what it reads and writes.
struct room {
    char input[INPUT_ROOM];
    char output[OUTPUT_ROOM];
};

// The same bytes in each reply: one JSON text, and a newline.
static inline void make_reply(long bytes) {
    reply_size = (size_t)bytes;
    memset(reply, 'x', reply_size);
    reply[0] = '"';
    reply[reply_size - 2] = '"';
    reply[reply_size - 1] = '\n';
}

// What its words say: PORT THREADS BYTES, of which the last make its reply. Ends the program where they are none, or ask for help.
static inline struct told told_by(int count, char **words, const char *usage, long most_threads) {
    help(count, words, usage);
    long port = count == 4 ? number_of(words[1], 65535) : 0;
    long threads = count == 4 ? number_of(words[2], most_threads) : 0;
    long bytes = count == 4 ? number_of(words[3], MOST_REPLY) : 0;
    if (!port || !threads || bytes < 3) {
        fputs(usage, stderr);
        exit(2);
    }
    make_reply(bytes);
    return (struct told){port, threads};
}

// Reads once, and answers the lines that end in what came, in as few writes as fit. Whether the connection goes on.
static inline int is_answered(int socket, struct room *room) {
    ssize_t got = recv(socket, room->input, INPUT_ROOM, 0);
    if (got < 0 && errno == EINTR) return 1;
    if (got <= 0) return 0;
    size_t size = 0;
    for (ssize_t at = 0; at < got; at++) {
        if (room->input[at] != '\n') continue;
        if (size + reply_size > OUTPUT_ROOM) {
            if (!is_sent(socket, room->output, size)) return 0;
            size = 0;
        }
        memcpy(room->output + size, reply, reply_size);
        size += reply_size;
    }
    return is_sent(socket, room->output, size);
}

static inline int listen_on(long port, int backlog) {
    int listener = socket(AF_INET, SOCK_STREAM, 0), yes = 1;
    if (listener < 0) fail("socket");
    if (setsockopt(listener, SOL_SOCKET, SO_REUSEADDR, &yes, sizeof yes)) fail("setsockopt");
    struct sockaddr_in address = loopback(port);
    if (bind(listener, (struct sockaddr *)&address, sizeof address)) fail("bind");
    if (listen(listener, backlog)) fail("listen");
    return listener;
}

static inline void say_listening(long port) {
    printf("listening on 127.0.0.1:%ld\n", port);
    if (fflush(stdout)) fail("write");
}
