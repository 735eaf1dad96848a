/* How many requests a second `uaserver serve` answers over loopback, and how long one Read takes there and back,
 * beside a bare echo of the same sizes.
 *
 *   cc -O2 -o /tmp/load scripts/lab/load.c
 *   out/uaserver serve data/line.toml --port 4840 &
 *   /tmp/load read 4840 CLIENTS SECONDS      # each client has one Read of one value under way at a time
 *   /tmp/load echo 4841 &                    # a loop over epoll that answers each request with as many bytes
 *   /tmp/load ping 4841 CLIENTS SECONDS
 *
 * Bounded by SECONDS, which are at most 60, and by 1000 clients. It talks to 127.0.0.1 alone. */
#include <arpa/inet.h>
#include <netinet/tcp.h>
#include <stdint.h>
#include <stdio.h>
#include <stdlib.h>
#include <string.h>
#include <sys/epoll.h>
#include <sys/socket.h>
#include <time.h>
#include <unistd.h>

enum { MOST_CLIENTS = 1000, ANSWER = 64 };

static const char HELLO[] = "HELF\x38\0\0\0\0\0\0\0\0\0\x01\0\0\0\x01\0\0\0\0\0\0\0\0\0\x18\0\0\0opc.tcp://localhost:4840";
static const char OPEN[] =
    "OPNF\x84\0\0\0\0\0\0\0\x2f\0\0\0http://opcfoundation.org/UA/SecurityPolicy#None\xff\xff\xff\xff\xff\xff\xff\xff\x01\0\0\0\x01\0\0\0"
    "\x01\0\xbe\x01\0\0\0\0\0\0\0\0\0\0\x01\0\0\0\0\0\0\0\xff\xff\xff\xff\0\0\0\0\0\0\0\0\0\0\0\0\0\0\0\x01\0\0\0\xff\xff\xff\xff\x80\xee\x36\0";
static const char HEADER[] = "\0\0\0\0\0\0\0\0\x07\0\0\0\0\0\0\0\xff\xff\xff\xff\0\0\0\0\0\0\0";
/* CreateSession with nothing said, ActivateSession of an unnamed user, a Read of the value of ns=1;i=11 without times. */
static const char NO_CLIENT[] =
    "\xff\xff\xff\xff\xff\xff\xff\xff\0\x01\0\0\0\xff\xff\xff\xff\xff\xff\xff\xff\xff\xff\xff\xff\xff\xff\xff\xff\xff\xff\xff\xff\xff\xff\xff\xff"
    "\xff\xff\xff\xff\xff\xff\xff\xff\xff\xff\0\0\0\0\0\0\0\0\0\0\0\0";
static const char NO_USER[] =
    "\xff\xff\xff\xff\xff\xff\xff\xff\xff\xff\xff\xff\xff\xff\xff\xff\0\0\0\xff\xff\xff\xff\xff\xff\xff\xff";
static const char ONE_VALUE[] = "\0\0\0\0\0\0\0\0\x03\0\0\0\x01\0\0\0\x01\x01\x0b\0\x0d\0\0\0\xff\xff\xff\xff\0\0\xff\xff\xff\xff";

struct client {
    int socket;
    uint32_t channel, sequence;
    char token[27];
    size_t got;
    double sent;
};

static void stop(const char *why) {
    perror(why);
    exit(1);
}

static double now(void) {
    struct timespec t;
    clock_gettime(CLOCK_MONOTONIC, &t);
    return t.tv_sec + t.tv_nsec / 1e9;
}

static void put32(char *at, uint32_t n) {
    for (int i = 0; i < 4; i++) at[i] = (char)(n >> 8 * i);
}

static uint32_t get32(const char *at) {
    uint32_t n = 0;
    for (int i = 0; i < 4; i++) n |= (uint32_t)(uint8_t)at[i] << 8 * i;
    return n;
}

static void write_all(int s, const char *bytes, size_t n) {
    while (n > 0) {
        ssize_t done = write(s, bytes, n);
        if (done <= 0) stop("write");
        bytes += done;
        n -= (size_t)done;
    }
}

static void read_all(int s, char *bytes, size_t n) {
    while (n > 0) {
        ssize_t done = read(s, bytes, n);
        if (done <= 0) stop("read");
        bytes += done;
        n -= (size_t)done;
    }
}

/* Reads one frame whole. */
static size_t frame(int s, char *bytes, size_t room) {
    read_all(s, bytes, 8);
    size_t size = get32(bytes + 4);
    if (size < 8 || size > room || memcmp(bytes, "ERR", 3) == 0) stop("frame");
    read_all(s, bytes + 8, size - 8);
    return size;
}

static int connected(int port) {
    int s = socket(AF_INET, SOCK_STREAM, 0), yes = 1;
    struct sockaddr_in to = {.sin_family = AF_INET, .sin_port = htons((uint16_t)port), .sin_addr.s_addr = htonl(INADDR_LOOPBACK)};
    if (s < 0 || connect(s, (struct sockaddr *)&to, sizeof to) < 0) stop("connect");
    setsockopt(s, IPPROTO_TCP, TCP_NODELAY, &yes, sizeof yes);
    return s;
}

/* A request in one chunk; its length. */
static size_t request(struct client *c, char *out, uint32_t type_id, const char *token, size_t token_size, const char *fields, size_t fields_size) {
    size_t size = 24 + 4 + token_size + 27 + fields_size;
    c->sequence += 1;
    memcpy(out, "MSGF", 4);
    put32(out + 4, (uint32_t)size);
    put32(out + 8, c->channel);
    put32(out + 12, 1);
    put32(out + 16, c->sequence);
    put32(out + 20, c->sequence);
    put32(out + 24, 1 | type_id << 16);
    memcpy(out + 28, token, token_size);
    memcpy(out + 28 + token_size, HEADER, 27);
    memcpy(out + 55 + token_size, fields, fields_size);
    return size;
}

static void greet(struct client *c) {
    static char bytes[1 << 16];
    write_all(c->socket, HELLO, 56);
    frame(c->socket, bytes, sizeof bytes);
    write_all(c->socket, OPEN, 132);
    frame(c->socket, bytes, sizeof bytes);
    c->channel = get32(bytes + 8);
    c->sequence = 1;
    write_all(c->socket, bytes, request(c, bytes, 461, "\0", 2, NO_CLIENT, sizeof NO_CLIENT - 1));
    frame(c->socket, bytes, sizeof bytes);
    /* behind the chunk's headers, the type id, the response header and the session id */
    int session = bytes[52] == 2 ? 7 : bytes[52] == 1 ? 4 : 2;
    memcpy(c->token, bytes + 52 + session, sizeof c->token);
    write_all(c->socket, bytes, request(c, bytes, 467, c->token, sizeof c->token, NO_USER, sizeof NO_USER - 1));
    frame(c->socket, bytes, sizeof bytes);
    if (get32(bytes + 40) != 0) stop("session");
}

static size_t ask(struct client *c, char *out, int echo) {
    if (echo) {
        memset(out, 'x', ANSWER);
        return ANSWER;
    }
    return request(c, out, 631, c->token, sizeof c->token, ONE_VALUE, sizeof ONE_VALUE - 1);
}

static int by_size(const void *a, const void *b) {
    float x = *(const float *)a, y = *(const float *)b;
    return (x > y) - (x < y);
}

static void load(int port, int clients, double seconds, int echo) {
    static struct client all[MOST_CLIENTS];
    static float times[20000000];
    static char bytes[1 << 16];
    int poll = epoll_create1(0);
    for (int i = 0; i < clients; i++) {
        all[i].socket = connected(port);
        if (!echo) greet(&all[i]);
        struct epoll_event e = {.events = EPOLLIN, .data.ptr = &all[i]};
        epoll_ctl(poll, EPOLL_CTL_ADD, all[i].socket, &e);
    }
    double start = now(), end = start + seconds;
    for (int i = 0; i < clients; i++) {
        all[i].sent = now();
        write_all(all[i].socket, bytes, ask(&all[i], bytes, echo));
    }
    size_t count = 0;
    while (now() < end && count < sizeof times / sizeof *times - MOST_CLIENTS) {
        struct epoll_event ready[64];
        int n = epoll_wait(poll, ready, 64, 1000);
        if (n <= 0) stop("no answer");
        for (int i = 0; i < n; i++) {
            struct client *c = ready[i].data.ptr;
            ssize_t done = read(c->socket, bytes, sizeof bytes);
            if (done <= 0) stop("read");
            c->got += (size_t)done;
            if (c->got < ANSWER) continue;
            if (c->got > ANSWER || (!echo && memcmp(bytes, "MSGF", 4) != 0)) stop("answer");
            c->got = 0;
            times[count++] = (float)(now() - c->sent);
            c->sent = now();
            write_all(c->socket, bytes, ask(c, bytes, echo));
        }
    }
    double took = now() - start;
    for (int i = 0; i < clients && !echo; i++) {
        /* what is under way is read first, and then the session is closed, so that the next run has room for its own */
        if (frame(all[i].socket, bytes + all[i].got, sizeof bytes - all[i].got) == 0) stop("answer");
        write_all(all[i].socket, bytes, request(&all[i], bytes, 473, all[i].token, sizeof all[i].token, "\1", 1));
        frame(all[i].socket, bytes, sizeof bytes);
    }
    qsort(times, count, sizeof *times, by_size);
    printf("%d clients: %.0f a second, there and back %.1f us in the middle, %.1f us for 99 of 100\n", clients, count / took,
           times[count / 2] * 1e6, times[count * 99 / 100] * 1e6);
}

static void serve_echo(int port) {
    static char bytes[1 << 16];
    int s = socket(AF_INET, SOCK_STREAM, 0), yes = 1, poll = epoll_create1(0);
    struct sockaddr_in at = {.sin_family = AF_INET, .sin_port = htons((uint16_t)port), .sin_addr.s_addr = htonl(INADDR_LOOPBACK)};
    setsockopt(s, SOL_SOCKET, SO_REUSEADDR, &yes, sizeof yes);
    if (bind(s, (struct sockaddr *)&at, sizeof at) < 0 || listen(s, 128) < 0) stop("listen");
    struct epoll_event e = {.events = EPOLLIN, .data.fd = s};
    epoll_ctl(poll, EPOLL_CTL_ADD, s, &e);
    double end = now() + 300;
    while (now() < end) {
        struct epoll_event ready[64];
        int n = epoll_wait(poll, ready, 64, 100);
        for (int i = 0; i < n; i++) {
            int fd = ready[i].data.fd;
            if (fd == s) {
                int c = accept(s, 0, 0);
                setsockopt(c, IPPROTO_TCP, TCP_NODELAY, &yes, sizeof yes);
                struct epoll_event of = {.events = EPOLLIN, .data.fd = c};
                epoll_ctl(poll, EPOLL_CTL_ADD, c, &of);
                continue;
            }
            ssize_t done = read(fd, bytes, sizeof bytes);
            if (done <= 0) close(fd);
            else write_all(fd, bytes, (size_t)done);
        }
    }
}

int main(int count, char **words) {
    if (count == 3 && strcmp(words[1], "echo") == 0) {
        serve_echo(atoi(words[2]));
        return 0;
    }
    int clients = count == 5 ? atoi(words[3]) : 0;
    double seconds = count == 5 ? atof(words[4]) : 0;
    if (clients < 1 || clients > MOST_CLIENTS || seconds <= 0 || seconds > 60) {
        fprintf(stderr, "load read|ping PORT CLIENTS SECONDS, or load echo PORT\n");
        return 2;
    }
    load(atoi(words[2]), clients, seconds, strcmp(words[1], "ping") == 0);
    return 0;
}
