/* Sends the frames of standard input over links on the loopback, shared out among them one after another, so many in a write, and reads what comes
   beside that, to the end. It prints the seconds from the first byte that is sent to the last that comes, and how many bytes came over each link:
   asker TOGETHER PORT ...
   It ends with 2 where the words or the frames are none. */
#include <arpa/inet.h>
#include <errno.h>
#include <fcntl.h>
#include <netinet/in.h>
#include <netinet/tcp.h>
#include <poll.h>
#include <stdio.h>
#include <stdlib.h>
#include <string.h>
#include <sys/socket.h>
#include <time.h>
#include <unistd.h>

/* What comes wakes it by so many bytes, which are 32 replies, or at the end: the less it runs, the more of the machine is the server's. */
enum { HEADER = 8, LENGTH_AT = 4, MOST_LINKS = 64, PIECE = 1 << 20, WAKING = 32 * 350 };

/* What is sent over a link, whose writes end at these places, and how far it is; and how much came. */
struct link {
    unsigned char *bytes;
    size_t length, *ends, writes, at, next, came;
    struct pollfd polled;
};

static void failed(const char *what)
{
    fprintf(stderr, "bench/asker: %s: %s\n", what, strerror(errno));
    exit(1);
}

static void *grown(void *old, size_t bytes)
{
    void *new = realloc(old, bytes);
    if (new == NULL)
        failed("realloc");
    return new;
}

static unsigned char *input(size_t *length)
{
    unsigned char *bytes = NULL;
    for (size_t room = PIECE;; room *= 2) {
        bytes = grown(bytes, room);
        *length += fread(bytes + *length, 1, room - *length, stdin);
        if (ferror(stdin))
            failed("read");
        if (*length < room)
            return bytes;
    }
}

static void dial(struct link *link, int port)
{
    struct sockaddr_in to = {.sin_family = AF_INET, .sin_port = htons(port), .sin_addr = {htonl(INADDR_LOOPBACK)}};
    int file = socket(AF_INET, SOCK_STREAM, 0), one = 1;
    if (file < 0 || connect(file, (struct sockaddr *)&to, sizeof to) != 0)
        failed("connect");
    int waking = WAKING;
    if (setsockopt(file, IPPROTO_TCP, TCP_NODELAY, &one, sizeof one) != 0 || setsockopt(file, SOL_SOCKET, SO_RCVLOWAT, &waking, sizeof waking) != 0 ||
        fcntl(file, F_SETFL, O_NONBLOCK) != 0)
        failed("set");
    link->polled = (struct pollfd){file, POLLIN | POLLOUT, 0};
}

/* Writes what a link takes now, by whole writes. Behind the last it says that no more comes. */
static void send_on(struct link *link)
{
    while (link->next < link->writes) {
        ssize_t sent = send(link->polled.fd, link->bytes + link->at, link->ends[link->next] - link->at, MSG_NOSIGNAL);
        if (sent < 0 && errno == EAGAIN)
            return;
        if (sent < 0)
            failed("send");
        link->at += sent;
        link->next += link->at == link->ends[link->next];
    }
    shutdown(link->polled.fd, SHUT_WR);
    link->polled.events = POLLIN;
}

/* Reads what is there; whether the link ended. */
static int receive_on(struct link *link)
{
    static unsigned char piece[PIECE];
    ssize_t got = recv(link->polled.fd, piece, sizeof piece, 0);
    if (got < 0 && errno != EAGAIN)
        failed("recv");
    link->came += got > 0 ? got : 0;
    return got == 0;
}

static double now(void)
{
    struct timespec time;
    clock_gettime(CLOCK_MONOTONIC, &time);
    return time.tv_sec + time.tv_nsec / 1e9;
}

int main(int count, char **words)
{
    static struct link links[MOST_LINKS];
    int many = count - 2, open = many;
    if (many < 1 || many > MOST_LINKS || atoi(words[1]) < 1)
        return 2;
    size_t length = 0, together = atoi(words[1]), number = 0;
    unsigned char *bytes = input(&length);
    for (size_t at = 0; at < length; number++) {
        const unsigned char *body = bytes + at + LENGTH_AT;
        if (length - at < HEADER)
            return 2;
        size_t whole = HEADER + ((size_t)body[0] << 24 | body[1] << 16 | body[2] << 8 | body[3]);
        struct link *link = &links[number % many];
        if (whole > length - at)
            return 2;
        link->bytes = grown(link->bytes, link->length + whole);
        memcpy(link->bytes + link->length, bytes + at, whole);
        link->length += whole;
        if (number / many % together == 0)
            link->ends = grown(link->ends, ++link->writes * sizeof *link->ends);
        if (link->writes > 0)
            link->ends[link->writes - 1] = link->length;
        at += whole;
    }
    struct pollfd polled[MOST_LINKS];
    for (int i = 0; i < many; i++)
        dial(&links[i], atoi(words[2 + i]));
    double began = now();
    while (open > 0) {
        for (int i = 0; i < many; i++)
            polled[i] = links[i].polled;
        if (poll(polled, many, -1) < 0)
            failed("poll");
        for (int i = 0; i < many; i++) {
            if (polled[i].revents & POLLOUT)
                send_on(&links[i]);
            if (polled[i].revents & (POLLIN | POLLHUP | POLLERR) && receive_on(&links[i])) {
                close(links[i].polled.fd);
                links[i].polled.fd = -1;
                open--;
            }
        }
    }
    printf("%.9f", now() - began);
    for (int i = 0; i < many; i++)
        printf(" %zu", links[i].came);
    printf("\n");
    return 0;
}
