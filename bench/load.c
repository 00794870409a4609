/* The senders of bench/serving.py, and an echo to compare with. Python is slower than the gateway.

   load echo                                    binds a port of the loopback, writes it, and sends each datagram back
   load send PORT SENDER COUNT WINDOW LINES     sends so many requests of AuditValue, with at most WINDOW on the way

   Both take what is there until nothing is, at most 256 datagrams, then send, as the gateway does. A request is lost
   where nothing came for half a second while it was on the way. A sender writes how many were lost, when it began and
   when it ended in nanoseconds, and the delay of each answer in nanoseconds: numbers of 64 bits. */
#define _GNU_SOURCE
#include <arpa/inet.h>
#include <errno.h>
#include <poll.h>
#include <stdint.h>
#include <stdio.h>
#include <stdlib.h>
#include <string.h>
#include <sys/socket.h>
#include <time.h>
#include <unistd.h>

enum { BURST = 256, SILENCE = 500, NUMBERS = 65536 };

static char held[BURST][2048];

static uint64_t now(void) {
    struct timespec t;
    clock_gettime(CLOCK_MONOTONIC, &t);
    return (uint64_t)t.tv_sec * 1000000000u + (uint64_t)t.tv_nsec;
}

static struct sockaddr_in loopback(int port) {
    struct sockaddr_in at = {.sin_family = AF_INET, .sin_port = htons((uint16_t)port)};
    at.sin_addr.s_addr = htonl(INADDR_LOOPBACK);
    return at;
}

static int echo(void) {
    int fd = socket(AF_INET, SOCK_DGRAM | SOCK_NONBLOCK, 0);
    struct sockaddr_in at = loopback(0);
    socklen_t size = sizeof at;
    if (fd < 0 || bind(fd, (struct sockaddr *)&at, sizeof at) || getsockname(fd, (struct sockaddr *)&at, &size)) {
        return 1;
    }
    printf("%d\n", ntohs(at.sin_port));
    fflush(stdout);
    static struct sockaddr_in from[BURST];
    static ssize_t length[BURST];
    for (;;) {
        int count = 0;
        while (count < BURST) {
            size = sizeof from[count];
            length[count] = recvfrom(fd, held[count], sizeof held[count], 0, (struct sockaddr *)&from[count], &size);
            if (length[count] < 0) {
                break;
            }
            count++;
        }
        for (int i = 0; i < count; i++) {
            sendto(fd, held[i], (size_t)length[i], 0, (struct sockaddr *)&from[i], sizeof from[i]);
        }
        if (count == 0) {
            struct pollfd wait = {.fd = fd, .events = POLLIN};
            poll(&wait, 1, -1);
        }
    }
}

/* What is on the way in a place of the window: its number, 0 where nothing is, and when it was sent. */
struct place {
    uint64_t number, at;
};

/* The requests of a sender. In which place of the window a number is on the way, `places_of` says. */
struct sender {
    int fd, window, lines;
    uint64_t count, next, done, lost;
    const char *mid;
    struct place *places;
    uint16_t places_of[NUMBERS];
};

static void request(struct sender *s, int at) {
    s->places[at].number = 0;
    if (s->next > s->count) {
        return;
    }
    char text[256];
    uint64_t number = s->next++;
    int length = snprintf(text, sizeof text, "MEGACO/1 %s Transaction=%llu{Context=-{AuditValue=L/%llu{Audit{}}}}",
                          s->mid, (unsigned long long)number, (unsigned long long)(number % (uint64_t)s->lines));
    s->places_of[number % NUMBERS] = (uint16_t)at;
    s->places[at].number = number;
    s->places[at].at = now();
    send(s->fd, text, (size_t)length, 0);
}

/* The number of a request or of its reply, which both write behind the first `=`. */
static uint64_t number_in(char *text, ssize_t length) {
    text[length] = 0;
    char *behind = strchr(text, '=');
    return behind ? strtoull(behind + 1, NULL, 10) : 0;
}

/* All that is on the way is lost. */
static void lose(struct sender *s) {
    for (int at = 0; at < s->window; at++) {
        if (s->places[at].number) {
            s->lost++, s->done++;
        }
        request(s, at);
    }
}

/* Takes the answers that are there; each frees its place for the next request. */
static uint64_t take(struct sender *s, uint64_t *delays) {
    uint64_t answered = 0;
    ssize_t length;
    while ((length = recv(s->fd, held[0], sizeof held[0] - 1, 0)) >= 0) {
        uint64_t number = number_in(held[0], length);
        int at = s->places_of[number % NUMBERS];
        if (number && s->places[at].number == number) {
            delays[answered++] = now() - s->places[at].at;
            s->done++;
            request(s, at);
        }
    }
    return answered;
}

static int sending(int port, int number, uint64_t count, int window, int lines) {
    static struct sender s;
    char mid[32];
    snprintf(mid, sizeof mid, "[10.0.1.%d]:2944", number);
    s.fd = socket(AF_INET, SOCK_DGRAM | SOCK_NONBLOCK, 0);
    s.window = window, s.lines = lines, s.count = count, s.next = 1, s.mid = mid;
    s.places = calloc((size_t)window, sizeof *s.places);
    uint64_t *out = malloc((count + 3) * sizeof *out), answered = 0;
    struct sockaddr_in to = loopback(port);
    if (s.fd < 0 || !s.places || !out || connect(s.fd, (struct sockaddr *)&to, sizeof to)) {
        return 1;
    }
    out[1] = now();
    lose(&s);
    while (s.done < count) {
        struct pollfd wait = {.fd = s.fd, .events = POLLIN};
        if (poll(&wait, 1, SILENCE) == 0) {
            lose(&s);
        }
        answered += take(&s, out + 3 + answered);
    }
    out[2] = now();
    out[0] = s.lost;
    return fwrite(out, sizeof *out, 3 + answered, stdout) != 3 + answered;
}

int main(int words, char **word) {
    if (words == 2 && !strcmp(word[1], "echo")) {
        return echo();
    }
    if (words == 7 && !strcmp(word[1], "send")) {
        return sending(atoi(word[2]), atoi(word[3]), strtoull(word[4], NULL, 10), atoi(word[5]), atoi(word[6]));
    }
    fprintf(stderr, "usage: load echo | load send PORT SENDER COUNT WINDOW LINES\n");
    return 2;
}
