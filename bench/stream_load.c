/* Sends frames through a switch with stream ports and counts those that come out. Behind each path is a host; the first and
 * the second are a pair, the third and the fourth are the next one, and so on. The first host of each pair sends FRAMES
 * packets of SIZE octets to the second, or both do so, or the first host of all sends them to all others. It prints the time
 * in s, from the first frame that is sent to the last one that is received.
 *
 * Before that each host claims its addresses by duplicate address detection, and sends packets until one from each address
 * came, so that all addresses are valid and all stations known. Never more than WINDOW packets of a sender are on their way:
 * with 1 each waits for the one before. A packet that doesn't come within 10 s is lost, and the load fails.
 * usage: stream_load [-a] [-b] [-p] [-f FRAMES] [-s SIZE] [-w WINDOW] [-g BATCH] [-n ADDRESSES] [-t GAP] PATH PATH..
 *   -a  from the first host to all others     -b  both ways in each pair
 *   -p  to the second host and back: it is a process of its own, which answers each packet by one of its own. What is
 *       printed is the median of the FRAMES times that this took, in s
 *   BATCH: how many packets one write has at most     ADDRESSES: how many source addresses a sender uses in turn
 *   -t  a line in front for each time of GAP microseconds or more in which no packet came to a host, between two that came
 *       there: the host's number, when it began and when it ended, in s of CLOCK_MONOTONIC; and such a line of the whole
 *       time, with the number 0; not with -p */
#include <errno.h>
#include <poll.h>
#include <signal.h>
#include <stdint.h>
#include <stdio.h>
#include <stdlib.h>
#include <string.h>
#include <sys/socket.h>
#include <sys/un.h>
#include <sys/wait.h>
#include <time.h>
#include <unistd.h>

#define HOSTS 16
#define ADDRESSES 64 /* as many as a port of the switch may hold */
#define LENGTH 4
#define BODY (LENGTH + 54) /* behind the length, an Ethernet header and an IPv6 header */
#define LEAST 64           /* these headers, a mark of 8 octets, the number of the source address, and one octet more */
#define MOST 1514
#define CLAIM 78
#define ROOM (1 << 16)
#define AGAIN 20       /* ms: while an address isn't valid yet, its packets are dropped */
#define PATIENCE 10000 /* ms */
#define ALL 0          /* in the place of a host's number: all nodes */

static const unsigned char mark[8] = { 't', 'h', 'e', ' ', 'l', 'o', 'a', 'd' };

/* A host: its number (from 1, the last octet of its MAC address), its socket, and what came in and isn't whole yet. Of the
 * packets that came it keeps how many there were, and by which source addresses; `came` is when the last ones came, and
 * `known` how many there were then. Where it is a sender, `packets` are some packets that go out in turn, and `to` is whom
 * they are for. */
struct host {
    int fd;
    unsigned char number, to;
    unsigned char in[ROOM], came_by[ADDRESSES];
    size_t have;
    long received, sent, known;
    double came;
    unsigned char *packets;
};

static struct host host[HOSTS];
static int hosts;
static int is_to_all, is_both_ways, is_ping_pong;
static long frames = 100000, size = LEAST, window = 128, batch = 1, addresses = 1, gap = 0;

static void fail(const char *what)
{
    fprintf(stderr, "stream_load: %s\n", what);
    exit(1);
}

static double now(void)
{
    struct timespec t;
    clock_gettime(CLOCK_MONOTONIC, &t);
    return (double)t.tv_sec + 1e-9 * (double)t.tv_nsec;
}

/* A path may be there a moment before somebody listens at it. */
static void meet(struct host *h, const char *path, int number)
{
    struct sockaddr_un name = { .sun_family = AF_UNIX };
    if (strlen(path) >= sizeof name.sun_path)
        fail("a path is too long");
    strcpy(name.sun_path, path);
    h->fd = socket(AF_UNIX, SOCK_STREAM, 0);
    h->number = (unsigned char)number;
    double began = now();
    while (connect(h->fd, (struct sockaddr *)&name, sizeof name) < 0) {
        if (errno != ECONNREFUSED || now() - began > 1e-3 * PATIENCE)
            fail("nobody listens at a path");
        poll(NULL, 0, 1);
    }
}

static void give(const struct host *h, const unsigned char *octets, size_t count)
{
    while (count > 0) {
        ssize_t n = send(h->fd, octets, count, MSG_NOSIGNAL);
        if (n < 0 && errno != EINTR)
            fail("a write failed");
        if (n > 0) {
            octets += n;
            count -= (size_t)n;
        }
    }
}

/* A frame with its length in front, from a host, with an IPv6 header; its body begins at BODY. */
static void put_head(unsigned char *out, size_t octets, const struct host *from, unsigned char next, unsigned char hop)
{
    memset(out, 0, LENGTH + octets);
    out[2] = (unsigned char)(octets >> 8);
    out[3] = (unsigned char)octets;
    out[10] = 2;
    out[15] = from->number;
    out[16] = 0x86;
    out[17] = 0xdd;
    out[18] = 0x60;
    out[22] = (unsigned char)((octets - 54) >> 8);
    out[23] = (unsigned char)(octets - 54);
    out[24] = next;
    out[25] = hop;
}

/* The address of a host with this number. */
static void put_address(unsigned char *out, unsigned char of, int number)
{
    out[0] = 0xfe;
    out[1] = 0x80;
    out[14] = of;
    out[15] = (unsigned char)(number + 1);
}

/* A solicitation from `::` for an address of the host (RFC 4862 section 5.4.2). */
static void claim(const struct host *h, int number)
{
    static const unsigned char group[16] = { 0xff, 2, 0, 0, 0, 0, 0, 0, 0, 0, 0, 1, 0xff };
    unsigned char out[LENGTH + CLAIM];
    put_head(out, CLAIM, h, 58, 255);
    memcpy(out + 4, "\x33\x33\xff\0", 4);
    memcpy(out + 42, group, 16);
    out[BODY] = 135;
    put_address(out + 66, h->number, number);
    memcpy(out + 8, out + 80, 2);
    memcpy(out + 56, out + 80, 2);
    uint32_t sum = 24 + 58;
    for (int i = 26; i < LENGTH + CLAIM; i += 2)
        sum += (uint32_t)out[i] << 8 | out[i + 1];
    while (sum >> 16)
        sum = (sum & 0xffff) + (sum >> 16);
    out[60] = (unsigned char)(~sum >> 8);
    out[61] = (unsigned char)~sum;
    give(h, out, sizeof out);
}

/* A packet from one of a host's addresses to the first one of another, or to all nodes. */
static void put_packet(unsigned char *out, size_t octets, const struct host *from, int number, unsigned char to)
{
    static const unsigned char nodes[16] = { 0xff, 2, 0, 0, 0, 0, 0, 0, 0, 0, 0, 0, 0, 0, 0, 1 };
    put_head(out, octets, from, 59, 64);
    put_address(out + 26, from->number, number);
    if (to == ALL) {
        memcpy(out + 4, "\x33\x33\0\0\0\1", 6);
        memcpy(out + 42, nodes, sizeof nodes);
    } else {
        out[4] = 2;
        out[9] = to;
        put_address(out + 42, to, 0);
    }
    memcpy(out + BODY, mark, sizeof mark);
    out[BODY + sizeof mark] = (unsigned char)number;
}

/* Counts the packets among the frames that are whole, and keeps the rest. */
static void count(struct host *h)
{
    size_t at = 0;
    while (h->have - at >= LENGTH) {
        const unsigned char *in = h->in + at;
        size_t whole = LENGTH + ((size_t)in[2] << 8 | in[3]);
        if (in[0] || in[1] || whole > ROOM)
            fail("a frame that is too long came");
        if (h->have - at < whole)
            break;
        if (whole >= LENGTH + LEAST && memcmp(in + BODY, mark, sizeof mark) == 0) {
            h->received++;
            h->came_by[in[BODY + sizeof mark] % ADDRESSES] = 1;
        }
        at += whole;
    }
    h->have -= at;
    memmove(h->in, h->in + at, h->have);
}

static void take(struct host *h)
{
    ssize_t n = read(h->fd, h->in + h->have, sizeof h->in - h->have);
    if (n <= 0)
        fail("the switch ended");
    h->have += (size_t)n;
    count(h);
}

/* Waits for octets at any host, and answers whether some came. */
static int take_any(int patience)
{
    struct pollfd wait[HOSTS];
    for (int i = 0; i < hosts; i++)
        wait[i] = (struct pollfd){ .fd = host[i].fd, .events = POLLIN };
    if (poll(wait, (nfds_t)hosts, patience) <= 0)
        return 0;
    for (int i = 0; i < hosts; i++)
        if (wait[i].revents)
            take(&host[i]);
    return 1;
}

/* The other one of a pair. */
static struct host *other(const struct host *h)
{
    return &host[(h - host) ^ 1];
}

static int is_sender(const struct host *h)
{
    return is_both_ways || (is_to_all ? h == host : (h - host) % 2 == 0);
}

static int has_come(const struct host *h, int by)
{
    for (int i = 0; i < by; i++)
        if (!h->came_by[i])
            return 0;
    return 1;
}

/* Sends a packet from each address until one from each came, and then takes those that are still on their way. */
static void reach(struct host *from, struct host *to, int by)
{
    unsigned char out[LENGTH + LEAST];
    double began = now();
    while (!has_come(to, by)) {
        if (now() - began > 1e-3 * PATIENCE)
            fail("no packet comes");
        for (int i = 0; i < by; i++) {
            put_packet(out, LEAST, from, i, to->number);
            give(from, out, sizeof out);
        }
        take_any(AGAIN);
    }
    while (take_any(AGAIN))
        ;
}

static void join(char **paths)
{
    for (int i = 0; i < hosts; i++)
        meet(&host[i], paths[i], i + 1);
    for (struct host *h = host; h < host + hosts; h++)
        for (int i = 0; i < (is_sender(h) ? (int)addresses : 1); i++)
            claim(h, i);
    for (struct host *h = host; h < host + hosts && hosts % 2 == 0; h++)
        reach(h, other(h), is_sender(h) ? (int)addresses : 1);
    for (int i = 1; i < hosts && is_to_all; i++)
        reach(&host[0], &host[i], (int)addresses);
    for (int i = 0; i < hosts; i++)
        host[i].received = 0;
}

/* What a sender sends in turn: a whole number of batches, and of rounds through its addresses. */
static void prepare(struct host *h)
{
    size_t whole = LENGTH + (size_t)size;
    h->to = is_to_all ? ALL : other(h)->number;
    h->packets = malloc((size_t)(batch * addresses) * whole);
    if (h->packets == NULL)
        fail("there is no memory");
    for (long i = 0; i < batch * addresses; i++)
        put_packet(h->packets + (size_t)i * whole, (size_t)size, h, (int)(i % addresses), h->to);
}

/* How many packets of a sender have come to all whom they are for. */
static long arrived(const struct host *h)
{
    if (h->to != ALL)
        return other(h)->received;
    long least = host[1].received;
    for (int i = 2; i < hosts; i++)
        least = host[i].received < least ? host[i].received : least;
    return least;
}

/* Sends what the window has room for. */
static void fill(struct host *h)
{
    size_t whole = LENGTH + (size_t)size;
    long limit = arrived(h) + window;
    if (limit > frames)
        limit = frames;
    while (h->sent < limit) {
        long at = h->sent % (batch * addresses), n = batch - at % batch;
        if (n > limit - h->sent)
            n = limit - h->sent;
        give(h, h->packets + (size_t)at * whole, (size_t)n * whole);
        h->sent += n;
    }
}

static int is_over(void)
{
    for (const struct host *h = host; h < host + hosts; h++)
        if (is_sender(h) && arrived(h) < frames)
            return 0;
    return 1;
}

/* Tells how long nothing came to the hosts to which packets have come now, where that is long. */
static void tell_gaps(void)
{
    double moment = now();
    for (struct host *h = host; h < host + hosts; h++) {
        if (h->received == h->known)
            continue;
        if (h->came > 0 && moment - h->came >= 1e-6 * (double)gap)
            printf("%d %.6f %.6f\n", h->number, h->came, moment);
        h->came = moment;
        h->known = h->received;
    }
}

static void run(void)
{
    while (!is_over()) {
        for (struct host *h = host; h < host + hosts; h++)
            if (is_sender(h))
                fill(h);
        if (!take_any(PATIENCE))
            fail("a packet is lost");
        if (gap > 0)
            tell_gaps();
    }
}

/* Answers each packet that comes by one, until the process is killed. */
static void answer(struct host *h)
{
    for (;;) {
        long before = h->received;
        take(h);
        for (; before < h->received; before++)
            give(h, h->packets, LENGTH + (size_t)size);
    }
}

static int compare(const void *a, const void *b)
{
    double x = *(const double *)a, y = *(const double *)b;
    return (x > y) - (x < y);
}

/* The median of the times that packets take to the second host and back, in s. */
static double ping_pong(void)
{
    double *took = calloc((size_t)frames, sizeof *took);
    pid_t second = fork();
    if (took == NULL || second < 0)
        fail("there is no memory");
    if (second == 0)
        answer(&host[1]);
    for (long i = 0; i < frames; i++) {
        double began = now();
        give(&host[0], host[0].packets, LENGTH + (size_t)size);
        while (host[0].received == i)
            take(&host[0]);
        took[i] = now() - began;
    }
    kill(second, SIGKILL);
    waitpid(second, NULL, 0);
    qsort(took, (size_t)frames, sizeof *took, compare);
    return took[frames / 2];
}

/* Ends what goes in, and takes what still comes out. */
static void leave(void)
{
    for (int i = 0; i < hosts; i++)
        shutdown(host[i].fd, SHUT_WR);
    for (int i = 0; i < hosts; i++)
        while (read(host[i].fd, host[i].in, sizeof host[i].in) > 0)
            ;
}

/* Reads the options. Answers whether they can be meant. */
static int read_options(int argc, char **argv)
{
    int option;
    while ((option = getopt(argc, argv, "abpf:s:w:g:n:t:")) != -1) {
        switch (option) {
        case 'a': is_to_all = 1; break;
        case 'b': is_both_ways = 1; break;
        case 'p': is_both_ways = is_ping_pong = 1; break;
        case 'f': frames = atol(optarg); break;
        case 's': size = atol(optarg); break;
        case 'w': window = atol(optarg); break;
        case 'g': batch = atol(optarg); break;
        case 'n': addresses = atol(optarg); break;
        case 't': gap = atol(optarg); break;
        default: return 0;
        }
    }
    hosts = argc - optind;
    return hosts >= 2 && hosts <= HOSTS && (is_to_all ? !is_both_ways : hosts % 2 == 0) && frames >= 1 && size >= LEAST &&
           size <= MOST && window >= 1 && batch >= 1 && batch <= 1000 && addresses >= 1 && addresses <= ADDRESSES &&
           gap >= 0 && (gap == 0 || !is_ping_pong);
}

int main(int argc, char **argv)
{
    if (!read_options(argc, argv)) {
        fprintf(stderr, "usage: stream_load [-a] [-b] [-p] [-f FRAMES] [-s SIZE] [-w WINDOW] [-g BATCH] [-n ADDRESSES] "
                        "[-t GAP] PATH PATH..\n(SIZE from %d to %d, at most %d ADDRESSES and %d paths, an even number but "
                        "with -a)\n",
                LEAST, MOST, ADDRESSES, HOSTS);
        return 2;
    }
    join(argv + optind);
    for (struct host *h = host; h < host + hosts; h++)
        if (is_sender(h))
            prepare(h);
    if (is_ping_pong) {
        printf("%.7f\n", ping_pong());
    } else {
        double began = now();
        run();
        double ended = now();
        if (gap > 0)
            printf("0 %.6f %.6f\n", began, ended);
        printf("%.6f\n", ended - began);
    }
    leave();
    return 0;
}
