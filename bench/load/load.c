// A client of many connections to 127.0.0.1, over one epoll: each keeps a number of requests in flight, for a time.
// It says how many replies came and in how many seconds. Each line of a file is a request, or a key that Redis is asked for.
#include <sys/epoll.h>
#include <time.h>
#include <unistd.h>

#include "../common.h"

enum { MOST_CONNECTIONS = 65536, MOST_IN_FLIGHT = 1024, ROOM = 1 << 18, EVENTS = 256 };

static const char USAGE[] =
    "usage: load lines|redis PORT CONNECTIONS IN_FLIGHT MILLISECONDS FILE\n"
    "\n"
    "Sends the lines of a file to a server on 127.0.0.1, again and again, over connections with IN_FLIGHT on each.\n"
    "lines: each is sent as it is, and a reply is a line. redis: each is a key that GET asks for.\n"
    "Says how many replies came, and in how many seconds.\n";

// A request as it is sent.
struct request {
    char *bytes;
    size_t size;
};

// What is left of a reply that has begun: the bytes after its head, once this has come whole.
struct connection {
    int socket;
    size_t next;
    size_t in_body;
    size_t head;
    char digits[24];
};

static struct request *requests;
static size_t request_count;
static size_t in_flight;
static int is_redis;
static char input[ROOM];
static char output[ROOM];

static double now(void) {
    struct timespec time;
    clock_gettime(CLOCK_MONOTONIC, &time);
    return (double)time.tv_sec + (double)time.tv_nsec / 1e9;
}

static struct request request_of(const char *line, size_t size) {
    struct request made = {.bytes = malloc(size + 64)};
    if (!made.bytes) fail("malloc");
    int head = is_redis ? sprintf(made.bytes, "*2\r\n$3\r\nGET\r\n$%zu\r\n", size) : 0;
    memcpy(made.bytes + head, line, size);
    made.size = (size_t)head + size;
    made.bytes[made.size] = '\r';
    made.bytes[made.size + (size_t)is_redis] = '\n';
    made.size += 1 + (size_t)is_redis;
    if (made.size > ROOM) fail("a line is too long");
    return made;
}

static void read_requests(const char *path) {
    FILE *file = fopen(path, "r");
    char *line = NULL;
    size_t capacity = 0, most = 0;
    if (!file) fail(path);
    for (ssize_t size; (size = getline(&line, &capacity, file)) > 0;) {
        if (line[size - 1] == '\n') size--;
        if (request_count == most) requests = realloc(requests, (most = most * 2 + 1024) * sizeof *requests);
        if (!requests) fail("realloc");
        requests[request_count++] = request_of(line, (size_t)size);
    }
    free(line);
    fclose(file);
    if (!request_count) fail("the file has no line");
}

static int connect_to(long port) {
    int made = socket(AF_INET, SOCK_STREAM, 0);
    if (made < 0) fail("socket");
    struct sockaddr_in address = loopback(port);
    if (connect(made, (struct sockaddr *)&address, sizeof address)) fail("connect");
    send_at_once(made);
    return made;
}

// What is in flight is little enough for a socket's buffer, so that a send may wait.
static void send_all(int socket, const char *bytes, size_t left) {
    if (!is_sent(socket, bytes, left)) fail("send");
}

// Sends the next requests of a connection, in one write if they fit.
static void ask(struct connection *it, size_t count) {
    size_t size = 0;
    for (; count > 0; count--) {
        struct request *request = &requests[it->next++ % request_count];
        if (size + request->size > ROOM) {
            send_all(it->socket, output, size);
            size = 0;
        }
        memcpy(output + size, request->bytes, request->size);
        size += request->size;
    }
    if (size) send_all(it->socket, output, size);
}

static size_t lines_in(const char *bytes, size_t count) {
    size_t lines = 0;
    const char *end = bytes + count;
    while ((bytes = memchr(bytes, '\n', (size_t)(end - bytes)))) {
        lines++;
        bytes++;
    }
    return lines;
}

// The size of what follows a reply's head, the last two bytes included. A key that is not there is an error here.
static size_t body_of(struct connection *it) {
    it->digits[it->head] = 0;
    long size = it->digits[0] == '$' ? strtol(it->digits + 1, NULL, 10) : -1;
    it->head = 0;
    if (size < 0) {
        errno = 0;
        fail("no reply to GET");
    }
    return (size_t)size + 2;
}

// How many replies of Redis end in these bytes.
static size_t bulks_in(struct connection *it, const char *bytes, size_t count) {
    size_t ended = 0;
    while (count > 0) {
        if (it->in_body) {
            size_t part = it->in_body < count ? it->in_body : count;
            it->in_body -= part;
            ended += !it->in_body;
            bytes += part;
            count -= part;
            continue;
        }
        if (it->head + 1 >= sizeof it->digits) fail("reply");
        it->digits[it->head++] = *bytes;
        if (*bytes == '\n') it->in_body = body_of(it);
        bytes++;
        count--;
    }
    return ended;
}

// Takes what has come, and how many replies ended in it.
static size_t take(struct connection *it) {
    ssize_t got = recv(it->socket, input, ROOM, 0);
    if (got < 0 && errno == EINTR) return 0;
    if (got <= 0) fail("receive");
    return is_redis ? bulks_in(it, input, (size_t)got) : lines_in(input, (size_t)got);
}

// Keeps all connections busy until the time is over. How many replies came.
static size_t run(struct connection *all, size_t count, double last) {
    struct epoll_event events[EVENTS];
    size_t replies = 0;
    int poll = epoll_create1(0);
    if (poll < 0) fail("epoll_create1");
    for (size_t at = 0; at < count; at++) {
        struct epoll_event event = {.events = EPOLLIN, .data.ptr = &all[at]};
        if (epoll_ctl(poll, EPOLL_CTL_ADD, all[at].socket, &event)) fail("epoll_ctl");
        ask(&all[at], in_flight);
    }
    while (now() < last) {
        int ready = epoll_wait(poll, events, EVENTS, 100);
        if (ready < 0 && errno != EINTR) fail("epoll_wait");
        for (int at = 0; at < ready; at++) {
            struct connection *it = events[at].data.ptr;
            size_t ended = take(it);
            replies += ended;
            if (ended) ask(it, ended);
        }
    }
    close(poll);
    return replies;
}

int main(int count, char **words) {
    help(count, words, USAGE);
    is_redis = count == 7 && !strcmp(words[1], "redis");
    long port = count == 7 ? number_of(words[2], 65535) : 0;
    long connections = count == 7 ? number_of(words[3], MOST_CONNECTIONS) : 0;
    in_flight = count == 7 ? (size_t)number_of(words[4], MOST_IN_FLIGHT) : 0;
    long milliseconds = count == 7 ? number_of(words[5], 3600000) : 0;
    if (!port || !connections || !in_flight || !milliseconds || (!is_redis && strcmp(words[1], "lines"))) {
        fputs(USAGE, stderr);
        return 2;
    }
    read_requests(words[6]);
    struct connection *all = calloc((size_t)connections, sizeof *all);
    if (!all) fail("calloc");
    for (size_t at = 0; at < (size_t)connections; at++) {
        all[at].socket = connect_to(port);
        all[at].next = at * request_count / (size_t)connections;
    }
    double start = now();
    size_t replies = run(all, (size_t)connections, start + (double)milliseconds / 1e3);
    printf("%zu %.6f\n", replies, now() - start);
    for (size_t at = 0; at < (size_t)connections; at++) close(all[at].socket);
    for (size_t at = 0; at < request_count; at++) free(requests[at].bytes);
    free(requests);
    free(all);
    return 0;
}
