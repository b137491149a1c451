// Loaded with a program that is fuzzed: stands in for the network, and aborts at a status that the documents do not have.
//
// With FUZZ_SESSION, a session is accepted once the stream was read to its end, and reads standard input. Without it, a session
// ends at once.
#define _GNU_SOURCE
#include <arpa/inet.h>
#include <fcntl.h>
#include <stdatomic.h>
#include <stdbool.h>
#include <stdlib.h>
#include <string.h>
#include <sys/socket.h>
#include <sys/syscall.h>
#include <unistd.h>

static const useconds_t PAUSE = 100;
static atomic_bool stream_ended = false;

static bool reads_input(void) {
    return getenv("FUZZ_SESSION") != NULL;
}

static int no_file(void) {
    return open("/dev/null", O_RDWR | O_CLOEXEC);
}

int socket(int domain, int type, int protocol) {
    (void)domain, (void)type, (void)protocol;
    return no_file();
}

int bind(int socket, const struct sockaddr *address, socklen_t length) {
    (void)socket, (void)address, (void)length;
    return 0;
}

int listen(int socket, int backlog) {
    (void)socket, (void)backlog;
    return 0;
}

int setsockopt(int socket, int level, int option, const void *value, socklen_t length) {
    (void)socket, (void)level, (void)option, (void)value, (void)length;
    return 0;
}

int accept4(int socket, struct sockaddr *address, socklen_t *length, int flags) {
    (void)socket, (void)flags;
    while (reads_input() && !stream_ended) usleep(PAUSE);
    struct sockaddr_in peer = {.sin_family = AF_INET, .sin_addr.s_addr = htonl(INADDR_LOOPBACK), .sin_port = htons(1)};
    if (address && length) {
        memcpy(address, &peer, *length < sizeof peer ? *length : sizeof peer);
        *length = sizeof peer;
    }
    return no_file();
}

ssize_t read(int file, void *bytes, size_t size) {
    ssize_t count = syscall(SYS_read, file, bytes, size);
    if (count == 0 && file > STDERR_FILENO) stream_ended = true;
    return count;
}

ssize_t recv(int socket, void *bytes, size_t size, int flags) {
    (void)socket, (void)flags;
    return reads_input() ? syscall(SYS_read, STDIN_FILENO, bytes, size) : 0;
}

ssize_t send(int socket, const void *bytes, size_t size, int flags) {
    (void)socket, (void)bytes, (void)flags;
    return (ssize_t)size;
}

void _exit(int status) {
    if (status != 0 && status != 1) abort();
    for (;;) syscall(SYS_exit_group, status);
}
