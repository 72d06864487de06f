/* A hub over Unix stream sockets: each frame that comes in at a port goes out at every other one. It does the octet work of
 * the switch's live mode and judges nothing: that mode is measured beside it, and in lab/ it stands in for a switch without
 * rules.
 *
 * A port is a path. The relay makes it and listens there; one peer comes, and the path is removed then. A frame is its
 * length in 4 octets, the highest first, and that many octets, both ways: what QEMU's `-netdev stream` speaks. Ports may
 * stay without a peer. What comes in at a port ends where its peer ends it, or says a length above 262,144 octets. The
 * relay ends once that of each peer that came has ended and all is written, or by SIGTERM or SIGINT, and prints what it
 * did.
 *
 * Each frame takes one read (of its octets and of the length behind it) and one write for each port to which it goes. A
 * frame for a port whose peer doesn't read is left out and counted; one that was begun there is finished first. Nothing is
 * allocated once it listens.
 * usage: relay PATH..     (from 1 to 16) */
#define _GNU_SOURCE
#include <errno.h>
#include <poll.h>
#include <signal.h>
#include <stdint.h>
#include <stdio.h>
#include <stdlib.h>
#include <string.h>
#include <sys/socket.h>
#include <sys/un.h>
#include <unistd.h>

#define PORTS 16
#define LENGTH 4
#define LONGEST 262144
#define ROOM (LENGTH + LONGEST + LENGTH)

/* `fd` listens until a peer has come, and is then the peer; -1 once it is neither read nor written. */
struct port {
    const char *path;
    int fd, has_peer, is_read, is_written;
    size_t have;           /* octets in `in`, from the first one of a length */
    size_t rest, rest_at;  /* what is still to be written of a frame that was begun */
    uint64_t frames, written, left_out;
    unsigned char in[ROOM], out[ROOM];
};

static struct port port[PORTS];
static int ports;
static volatile sig_atomic_t is_stopped;

static void stop(int signal)
{
    (void)signal;
    is_stopped = 1;
}

static void fail(const char *what)
{
    perror(what);
    exit(1);
}

/* Takes over a path at which nobody listens, and no other one. */
static void clear_path(const struct sockaddr_un *name)
{
    int tried = socket(AF_UNIX, SOCK_STREAM, 0);
    if (tried < 0)
        fail("socket");
    if (connect(tried, (const struct sockaddr *)name, sizeof *name) < 0 && errno == ECONNREFUSED)
        unlink(name->sun_path);
    close(tried);
}

static void open_port(struct port *p, const char *path)
{
    struct sockaddr_un name = { .sun_family = AF_UNIX };
    if (strlen(path) >= sizeof name.sun_path) {
        errno = ENAMETOOLONG;
        fail(path);
    }
    strcpy(name.sun_path, path);
    clear_path(&name);
    p->path = path;
    p->fd = socket(AF_UNIX, SOCK_STREAM | SOCK_NONBLOCK, 0);
    if (p->fd < 0 || bind(p->fd, (struct sockaddr *)&name, sizeof name) < 0 || listen(p->fd, 1) < 0)
        fail(path);
}

static void meet(struct port *p)
{
    int peer = accept4(p->fd, NULL, NULL, SOCK_NONBLOCK);
    if (peer < 0)
        return;
    close(p->fd);
    unlink(p->path);
    p->fd = peer;
    p->has_peer = p->is_read = p->is_written = 1;
}

static void close_ended(struct port *p)
{
    if (p->has_peer && p->fd >= 0 && !p->is_read && !p->is_written) {
        close(p->fd);
        p->fd = -1;
    }
}

static void end_output(struct port *p)
{
    p->is_written = 0;
    p->rest = 0;
}

/* Whether a call failed for good. */
static int has_failed(ssize_t n)
{
    return n < 0 && errno != EAGAIN && errno != EINTR;
}

/* Writes what is left of the frame that was begun. */
static void finish(struct port *p)
{
    ssize_t n = send(p->fd, p->out + p->rest_at, p->rest, MSG_NOSIGNAL);
    if (has_failed(n))
        end_output(p);
    else if (n > 0) {
        p->rest_at += (size_t)n;
        p->rest -= (size_t)n;
    }
}

static void give(struct port *p, const unsigned char *frame, size_t size)
{
    ssize_t n = p->rest > 0 ? 0 : send(p->fd, frame, size, MSG_NOSIGNAL);
    if (has_failed(n))
        end_output(p);
    if (n <= 0) {
        p->left_out++;
        return;
    }
    p->written++;
    p->rest = size - (size_t)n;
    p->rest_at = 0;
    memcpy(p->out, frame + n, p->rest);
}

static size_t length_of(const unsigned char *in)
{
    return (size_t)in[0] << 24 | (size_t)in[1] << 16 | (size_t)in[2] << 8 | (size_t)in[3];
}

static int has_frame(const struct port *p)
{
    return p->have >= LENGTH && length_of(p->in) <= LONGEST && p->have >= LENGTH + length_of(p->in);
}

static void forward(struct port *from)
{
    size_t size = LENGTH + length_of(from->in);
    from->frames++;
    for (struct port *to = port; to < port + ports; to++)
        if (to != from && to->is_written)
            give(to, from->in, size);
    from->have -= size;
    memmove(from->in, from->in + size, from->have);
}

/* One read: of a length, or of the rest of a frame with the length behind it. */
static void take(struct port *p)
{
    size_t want = p->have < LENGTH ? LENGTH : LENGTH + length_of(p->in) + LENGTH;
    ssize_t n = read(p->fd, p->in + p->have, want - p->have);
    if (n == 0 || has_failed(n))
        p->is_read = 0;
    if (n <= 0)
        return;
    p->have += (size_t)n;
    while (has_frame(p))
        forward(p);
    if (p->have >= LENGTH && length_of(p->in) > LONGEST) {
        fprintf(stderr, "relay: %s: a length above %d octets\n", p->path, LONGEST);
        p->is_read = 0;
    }
}

static void serve(struct port *p, short happened)
{
    if (!p->has_peer) {
        meet(p);
        return;
    }
    if (happened & POLLOUT && p->rest > 0)
        finish(p);
    if (p->is_read && happened & (POLLIN | POLLHUP | POLLERR))
        take(p);
    else if (happened & (POLLHUP | POLLERR))
        end_output(p);
}

/* Whether somebody came, what comes in from each who came has ended, and nothing is left to be written. */
static int is_over(void)
{
    int came = 0, busy = 0;
    for (int i = 0; i < ports; i++) {
        came |= port[i].has_peer;
        busy |= port[i].is_read || port[i].rest > 0;
    }
    return came && !busy;
}

static short events_of(const struct port *p)
{
    return (short)((!p->has_peer || p->is_read ? POLLIN : 0) | (p->rest > 0 ? POLLOUT : 0));
}

/* Signals come only while it waits, so that none is missed. */
static void run(const sigset_t *outside)
{
    struct pollfd wait[PORTS];
    while (!is_stopped && !is_over()) {
        for (int i = 0; i < ports; i++)
            wait[i] = (struct pollfd){ .fd = port[i].fd, .events = events_of(&port[i]) };
        if (ppoll(wait, (nfds_t)ports, NULL, outside) < 0) {
            if (errno != EINTR)
                fail("poll");
            continue;
        }
        for (int i = 0; i < ports; i++)
            if (wait[i].fd >= 0 && wait[i].revents)
                serve(&port[i], wait[i].revents);
        for (int i = 0; i < ports; i++)
            close_ended(&port[i]);
    }
}

static void catch_signals(sigset_t *outside)
{
    struct sigaction action = { .sa_handler = stop };
    sigset_t caught;
    sigemptyset(&caught);
    sigaddset(&caught, SIGTERM);
    sigaddset(&caught, SIGINT);
    sigprocmask(SIG_BLOCK, &caught, outside);
    sigaction(SIGTERM, &action, NULL);
    sigaction(SIGINT, &action, NULL);
}

int main(int argc, char **argv)
{
    sigset_t outside;
    ports = argc - 1;
    if (ports < 1 || ports > PORTS) {
        fprintf(stderr, "usage: relay PATH.. (from 1 to %d)\n", PORTS);
        return 2;
    }
    catch_signals(&outside);
    for (int i = 0; i < ports; i++)
        open_port(&port[i], argv[i + 1]);
    run(&outside);
    uint64_t frames = 0, written = 0, left_out = 0;
    for (int i = 0; i < ports; i++) {
        if (!port[i].has_peer)
            unlink(port[i].path);
        frames += port[i].frames;
        written += port[i].written;
        left_out += port[i].left_out;
    }
    printf("frames %llu written %llu left out %llu\n", (unsigned long long)frames, (unsigned long long)written,
           (unsigned long long)left_out);
    return 0;
}
