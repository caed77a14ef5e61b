/* What bench/serve.py measures with: a broker that counts, devices that send, and plain programs for scale.
 *
 *   serve relay LISTEN_PORT BROKER_PORT               the relay: each datagram is a PUBLISH, written at once
 *   serve cast LISTEN_PORT BROKER_PORT [BESIDE KEPT SHARED]
 *                                                     messages alone: each is sent to all who subscribed, with a
 *                                                     thread beside where BESIDE is 1, KEPT bytes are kept of each
 *                                                     datagram, and where SHARED is 1 another thread sends half
 *   serve minus BROKER_PORT COUNT                     PUBLISHes at QoS -1, 100 on the way at most: a second
 *   serve burst BROKER_PORT COUNT                     PUBLISHes at QoS -1 without a pause: how many arrive
 *   serve one BROKER_PORT COUNT WINDOW                PUBLISHes at QoS 1 of one session: a second, p50, p99
 *   serve fan BROKER_PORT COUNT DEVICES               messages to so many devices: a second, p50, p99
 *
 * The last four listen as a broker on BROKER_PORT and wait for the gateway, whose UDP port is a line of
 * standard input. One connection, loopback alone, every wait bounded by 20 s. */
#define _GNU_SOURCE
#include <arpa/inet.h>
#include <errno.h>
#include <netinet/tcp.h>
#include <poll.h>
#include <pthread.h>
#include <signal.h>
#include <stdatomic.h>
#include <stdio.h>
#include <stdlib.h>
#include <string.h>
#include <sys/socket.h>
#include <time.h>
#include <unistd.h>

/* More on the way than WINDOW would not fit into the usual buffer of a socket, and be lost. */
enum { SECONDS = 20, WINDOW = 100, DEVICES = 128 };

/* A burst is over when so many ms nothing more arrives. */
enum { QUIET_MS = 1000 };

static atomic_long arrived;
static int broker_side = -1;

static void stop(const char *what) {
    fprintf(stderr, "bench: %s: %s\n", what, strerror(errno));
    exit(1);
}

static double now(void) {
    struct timespec t;
    clock_gettime(CLOCK_MONOTONIC, &t);
    return t.tv_sec + t.tv_nsec / 1e9;
}

static struct sockaddr_in local(int port) {
    struct sockaddr_in a = {.sin_family = AF_INET, .sin_port = htons(port)};
    a.sin_addr.s_addr = htonl(INADDR_LOOPBACK);
    return a;
}

static int datagrams(int bound, int peer) {
    int s = socket(AF_INET, SOCK_DGRAM, 0);
    struct sockaddr_in a = local(bound), b = local(peer);
    struct timeval t = {SECONDS, 0};
    int size = 4 << 20;
    setsockopt(s, SOL_SOCKET, SO_RCVTIMEO, &t, sizeof t);
    setsockopt(s, SOL_SOCKET, SO_RCVBUF, &size, sizeof size);
    if (bind(s, (void *)&a, sizeof a) < 0) stop("bind");
    if (peer && connect(s, (void *)&b, sizeof b) < 0) stop("connect");
    return s;
}

static void write_all(int fd, const unsigned char *p, size_t n) {
    while (n) {
        ssize_t k = write(fd, p, n);
        if (k <= 0) stop("write");
        p += k;
        n -= k;
    }
}

/* An MQTT PUBLISH of the data of a PUBLISH of MQTT-SN, under the short name, or as `t/1`. */
static size_t publish(unsigned char *to, const unsigned char *from, size_t n, unsigned id) {
    size_t data = n - 7, at = 0;
    int one = (from[2] & 0x60) == 0x20;
    const char *name = one ? "t/1" : "ab";
    to[at++] = one ? 0x32 : 0x30;
    to[at++] = 2 + strlen(name) + (one ? 2 : 0) + data;
    to[at++] = 0;
    to[at++] = strlen(name);
    memcpy(to + at, name, strlen(name));
    at += strlen(name);
    if (one) {
        to[at++] = id >> 8;
        to[at++] = id;
    }
    memcpy(to + at, from + 7, data);
    return at + data;
}

/* A connection to the broker, begun as a gateway does. */
static int upstream(int broker_port) {
    int tcp = socket(AF_INET, SOCK_STREAM, 0), on = 1;
    struct sockaddr_in a = local(broker_port);
    if (connect(tcp, (void *)&a, sizeof a) < 0) stop("broker");
    setsockopt(tcp, IPPROTO_TCP, TCP_NODELAY, &on, sizeof on);
    write_all(tcp, (const unsigned char *)"\x10\x0f\0\4MQTT\4\2\0\x3c\0\3gw1", 17);
    return tcp;
}

/* A socket that waits for datagrams without an end. */
static int served(int listen_port) {
    int udp = datagrams(listen_port, 0);
    struct timeval none = {0, 0};
    setsockopt(udp, SOL_SOCKET, SO_RCVTIMEO, &none, sizeof none);
    return udp;
}

static void relay(int listen_port, int broker_port) {
    int tcp = upstream(broker_port), udp = served(listen_port);
    struct sockaddr_in from;
    unsigned char in[2048], out[2100], rest[4096];
    for (unsigned id = 1;; id = id % 65535 + 1) {
        socklen_t size = sizeof from;
        ssize_t n = recvfrom(udp, in, sizeof in, 0, (void *)&from, &size);
        if (n < 7) continue;
        write_all(tcp, out, publish(out, in, n, id));
        if ((in[2] & 0x60) == 0x20) {
            unsigned char ack[7] = {7, 0x0d, in[3], in[4], in[5], in[6], 0};
            sendto(udp, ack, 7, 0, (void *)&from, size);
        }
        while (recv(tcp, rest, sizeof rest, MSG_DONTWAIT) > 0) {}
    }
}

/* Who subscribed. */
static struct sockaddr_in subscribers[DEVICES];
static atomic_int subscribed;

/* Takes a datagram: lets in who connects and subscribes. */
static void let_in(int udp) {
    unsigned char in[2048];
    struct sockaddr_in from;
    socklen_t size = sizeof from;
    ssize_t n = recvfrom(udp, in, sizeof in, 0, (void *)&from, &size);
    if (n > 6 && in[1] == 0x04) sendto(udp, "\3\5\0", 3, 0, (void *)&from, size);
    if (n > 6 && in[1] == 0x12 && subscribed < DEVICES) {
        subscribers[subscribed] = from;
        subscribed++;
        sendto(udp, "\x08\x13\0\0\0\0\1\0", 8, 0, (void *)&from, size);
    }
}

static void *let_in_for_ever(void *udp) {
    for (;;) let_in((int)(long)udp);
    return udp;
}

/* What is sent to all: one datagram, or one kept for each. */
struct load {
    int udp;
    const unsigned char *bytes;
    size_t size, step;
    int count;
};

/* Sends to every subscriber from this one on, or to every other one. */
static void send_from(const struct load *l, int first, int every) {
    for (int i = first; i < l->count; i += every)
        sendto(l->udp, l->bytes + i * l->step, l->size, 0, (void *)&subscribers[i], sizeof subscribers[i]);
}

/* What the other sender is given, where there is one: it is there from its start until it is sent. */
static pthread_mutex_t lock = PTHREAD_MUTEX_INITIALIZER;
static pthread_cond_t given = PTHREAD_COND_INITIALIZER, sent_all = PTHREAD_COND_INITIALIZER;
static const struct load *shared;

static void *send_shared_for_ever(void *none) {
    for (;;) {
        pthread_mutex_lock(&lock);
        while (!shared) pthread_cond_wait(&given, &lock);
        pthread_mutex_unlock(&lock);
        send_from(shared, 1, 2);
        pthread_mutex_lock(&lock);
        shared = NULL;
        pthread_cond_signal(&sent_all);
        pthread_mutex_unlock(&lock);
    }
    return none;
}

static void send_by_two(const struct load *l) {
    pthread_mutex_lock(&lock);
    shared = l;
    pthread_cond_signal(&given);
    pthread_mutex_unlock(&lock);
    send_from(l, 0, 2);
    pthread_mutex_lock(&lock);
    while (shared) pthread_cond_wait(&sent_all, &lock);
    pthread_mutex_unlock(&lock);
}

/* Sends a datagram to all, of which it keeps so many bytes for each. */
static void send_to_all(int udp, const unsigned char *out, size_t size, size_t kept_bytes, int is_shared) {
    struct load l = {udp, out, size, 0, subscribed};
    if (kept_bytes) {
        unsigned char *kept = calloc(l.count, kept_bytes);
        if (!kept) stop("memory");
        for (int i = 0; i < l.count; i++) memcpy(kept + i * kept_bytes, out, size);
        l.bytes = kept;
        l.step = kept_bytes;
    }
    if (is_shared)
        send_by_two(&l);
    else
        send_from(&l, 0, 1);
}

/* Lets in who connects and subscribes, and sends each message of the broker, of 127 bytes at most behind its
 * length, to each of them: the same calls as those of a gateway, and no decision. With a thread beside, that one
 * waits for devices, as a gateway's workers do; else one thread waits for both. */
static void cast(int listen_port, int broker_port, int has_beside, size_t kept_bytes, int is_shared) {
    int tcp = upstream(broker_port), udp = served(listen_port);
    struct pollfd both[2] = {{tcp, POLLIN, 0}, {udp, POLLIN, 0}};
    unsigned char in[4096], out[2048] = {0, 0x0c, 0x02};
    size_t held = 0;
    pthread_t beside, other;
    if (is_shared && pthread_create(&other, NULL, send_shared_for_ever, NULL)) stop("thread");
    if (has_beside && pthread_create(&beside, NULL, let_in_for_ever, (void *)(long)udp)) stop("thread");
    for (;;) {
        if (poll(both, has_beside ? 1 : 2, -1) < 0) stop("poll");
        if (!has_beside && both[1].revents) let_in(udp);
        if (!both[0].revents) continue;
        ssize_t n = read(tcp, in + held, sizeof in - held);
        if (n <= 0) return;
        held += n;
        size_t at = 0;
        while (held - at >= 2 && held - at >= 2u + in[at + 1]) {
            size_t name = in[at] >> 4 == 3 ? 2 + in[at + 3] : 0, data = in[at + 1] - name;
            if (name) {
                out[0] = 7 + data;
                memcpy(out + 3, in + at + 4, 2);
                out[5] = out[6] = 0;
                memcpy(out + 7, in + at + 2 + name, data);
                send_to_all(udp, out, 7 + data, kept_bytes, is_shared);
            }
            at += 2 + in[at + 1];
        }
        memmove(in, in + at, held -= at);
    }
}

/* Answers what the gateway sends, and counts its PUBLISHes. */
static void *answer(void *port) {
    int s = socket(AF_INET, SOCK_STREAM, 0), on = 1;
    struct sockaddr_in a = local((int)(long)port);
    setsockopt(s, SOL_SOCKET, SO_REUSEADDR, &on, sizeof on);
    if (bind(s, (void *)&a, sizeof a) < 0 || listen(s, 4) < 0) stop("broker");
    int fd = accept(s, NULL, NULL);
    if (fd < 0) stop("accept");
    setsockopt(fd, IPPROTO_TCP, TCP_NODELAY, &on, sizeof on);
    static unsigned char in[1 << 18], out[1 << 18];
    size_t held = 0;
    for (;;) {
        ssize_t n = read(fd, in + held, sizeof in - held);
        if (n <= 0) return NULL;
        held += n;
        size_t at = 0, made = 0;
        long count = 0;
        while (held - at >= 2 && held - at >= 2u + in[at + 1]) {
            unsigned char *p = in + at;
            if (p[0] == 0x10) made += (memcpy(out + made, "\x20\2\0\0", 4), 4);
            if (p[0] == 0x82) {
                unsigned char ack[5] = {0x90, 3, p[2], p[3], 1};
                made += (memcpy(out + made, ack, 5), 5);
            }
            if ((p[0] & 0xf0) == 0x30) {
                count++;
                if (p[0] & 2) {
                    size_t id = 4 + (p[2] << 8 | p[3]);
                    unsigned char ack[4] = {0x40, 2, p[id], p[id + 1]};
                    made += (memcpy(out + made, ack, 4), 4);
                }
            }
            at += 2 + p[1];
        }
        memmove(in, in + at, held -= at);
        if (made) write_all(fd, out, made);
        broker_side = fd;
        atomic_fetch_add(&arrived, count);
    }
}

static int udp_port(void) {
    int port;
    if (scanf("%d", &port) != 1) stop("port");
    return port;
}

static void waits_for(double end) {
    if (now() > end) stop("in 20 s nothing");
    sched_yield();
}

static int by_size(const void *a, const void *b) {
    double x = *(const double *)a, y = *(const double *)b;
    return (x > y) - (x < y);
}

static void told(long count, double seconds, double *trips, long n) {
    printf("rate %.0f", count / seconds);
    if (n) {
        qsort(trips, n, sizeof *trips, by_size);
        printf(" p50 %.1f p99 %.1f", trips[n / 2] * 1e6, trips[n * 99 / 100] * 1e6);
    }
    printf("\n");
    fflush(stdout);
}

static void exchange(int s, const unsigned char *frame, size_t n, int kind, unsigned char *got) {
    if (send(s, frame, n, 0) < 0) stop("send");
    ssize_t k = recv(s, got, 2048, 0);
    if (k < 2 || got[1] != kind) stop("another answer than was wanted");
}

static void minus(long count) {
    int s = datagrams(0, udp_port());
    unsigned char frame[39] = {39, 0x0c, 0x62, 'a', 'b', 0, 0};
    double begun = now(), end = begun + SECONDS;
    long sent = 0, warm = count / 10;
    while (atomic_load(&arrived) < count + warm) {
        if (atomic_load(&arrived) < warm) begun = now();
        while (sent - atomic_load(&arrived) < WINDOW && sent < count + warm)
            sent += send(s, frame, sizeof frame, 0) > 0;
        waits_for(end);
    }
    told(count, now() - begun, NULL, 0);
}

/* Sends so many without a pause, and waits until nothing more arrives. */
static void burst(long count) {
    int s = datagrams(0, udp_port());
    unsigned char frame[39] = {39, 0x0c, 0x62, 'a', 'b', 0, 0};
    double begun = now(), last = begun;
    for (long sent = 0; sent < count; sent++)
        if (send(s, frame, sizeof frame, 0) < 0) stop("send");
    double sending = now() - begun;
    for (long seen = 0; now() - last < QUIET_MS / 1e3; usleep(1000)) {
        long come = atomic_load(&arrived);
        if (come != seen) last = now();
        seen = come;
    }
    printf("rate %.0f arrived %ld\n", count / sending, atomic_load(&arrived));
    fflush(stdout);
}

/* Publishes that were refused, since too much is on the way to the broker: each is sent again after a while, as a
 * device would, and nothing else waits for that. */
enum { REFUSED = 65536 };
static const double PAUSE = 100e-6;
static unsigned refused[REFUSED];
static double due[REFUSED];
static unsigned refused_first, refused_last;

static void ask(int s, unsigned char *frame, unsigned id) {
    frame[5] = id >> 8;
    frame[6] = id;
    if (send(s, frame, frame[0], 0) < 0) stop("send");
}

/* Sends again what is due. Whether an answer may be read now: else the next one is due first. */
static int sends_again(int s, unsigned char *frame) {
    for (; refused_first != refused_last && due[refused_first % REFUSED] <= now(); refused_first++)
        ask(s, frame, refused[refused_first % REFUSED]);
    if (refused_first == refused_last) return 1;
    double left = due[refused_first % REFUSED] - now();
    struct timespec t = {0, left > 0 ? left * 1e9 : 0};
    struct pollfd answer = {s, POLLIN, 0};
    return ppoll(&answer, 1, &t, NULL) > 0;
}

static void one(long count, long window) {
    int s = datagrams(0, udp_port());
    unsigned char got[2048], frame[39] = {39, 0x0c, 0x20, 0, 1};
    double *trips = calloc(count, sizeof *trips), *begun = calloc(65536, sizeof *begun);
    if (getenv("SESSION")) {
        exchange(s, (const unsigned char *)"\x08\4\4\1\0\0s1", 8, 5, got);
        exchange(s, (const unsigned char *)"\x09\x0a\0\0\0\1t/1", 9, 0x0b, got);
    }
    double start = now();
    long sent = 0, taken = 0;
    while (taken < count) {
        while (sent - taken < window && sent < count) {
            unsigned id = sent++ % 65535 + 1;
            begun[id] = now();
            ask(s, frame, id);
        }
        if (!sends_again(s, frame)) continue;
        ssize_t k = recv(s, got, sizeof got, 0);
        if (k != 7 || got[1] != 0x0d) stop("no PUBACK");
        unsigned id = got[4] << 8 | got[5];
        if (got[6]) {
            refused[refused_last % REFUSED] = id;
            due[refused_last++ % REFUSED] = now() + PAUSE;
            continue;
        }
        trips[taken++] = now() - begun[id];
    }
    told(count, now() - start, trips, count);
}

static void fan(long count, int devices) {
    int port = udp_port();
    struct pollfd all[DEVICES];
    unsigned char got[2048];
    double *trips = calloc(count, sizeof *trips);
    for (int i = 0; i < devices; i++) {
        unsigned char connect[16] = {10, 4, 4, 1, 0, 0};
        sprintf((char *)connect + 6, "d%03d", i);
        all[i] = (struct pollfd){datagrams(0, port), POLLIN, 0};
        exchange(all[i].fd, connect, 10, 5, got);
        exchange(all[i].fd, (const unsigned char *)"\x07\x12\0\0\1ab", 7, 0x13, got);
    }
    while (broker_side < 0) sched_yield();
    usleep(200000);
    unsigned char message[38] = {0x30, 36, 0, 2, 'a', 'b'};
    double start = now();
    for (long m = 0; m < count; m++) {
        double begun = now();
        write_all(broker_side, message, sizeof message);
        for (int i = 0; i < devices; i++)
            if (recv(all[i].fd, got, sizeof got, 0) != 39) stop("no message");
        trips[m] = now() - begun;
    }
    told(count * devices, now() - start, trips, count);
}

int main(int n, char **words) {
    signal(SIGPIPE, SIG_IGN);
    if (n >= 4 && !strcmp(words[1], "relay")) relay(atoi(words[2]), atoi(words[3]));
    if (n >= 4 && !strcmp(words[1], "cast"))
        cast(atoi(words[2]), atoi(words[3]), n >= 6 && atoi(words[4]), n >= 6 ? atol(words[5]) : 0,
             n >= 7 && atoi(words[6]));
    if (n < 4) return 2;
    pthread_t broker;
    pthread_create(&broker, NULL, answer, (void *)(long)atoi(words[2]));
    long count = atol(words[3]);
    if (!strcmp(words[1], "minus")) minus(count);
    if (!strcmp(words[1], "burst")) burst(count);
    if (!strcmp(words[1], "one")) one(count, atol(words[4]));
    if (!strcmp(words[1], "fan")) fan(count, atoi(words[4]));
    return 0;
}
