/* The octet work of a replay, without any judgement. It reads the captures 1.pcap, 2.pcap and so on in order of stamp, and
 * writes each record to the output of the port where its destination was seen last, or of each other port where it wasn't
 * seen within 300 s: 1.copy, 2.copy and so on, by one write(2) each. It writes the entries of the journal to copy.txt: a line
 * for each record with its frame in hexadecimal, one for each output that it went to, and one for each end. Only the journal's
 * header isn't written.
 *
 * It takes little-endian captures with microseconds and without fault, of frames of at least 14 octets from at most 32,768
 * stations.
 *
 * usage: copy PORTS
 */
#include <fcntl.h>
#include <stdint.h>
#include <stdio.h>
#include <stdlib.h>
#include <string.h>
#include <unistd.h>

enum { PORTS = 16, PIECE = 65536, FRAME = 1518, RECORD = 16, LINES = 8192 };

/* places of the table of stations, and the most that are used; how many stations a port has at most, and for how many ms */
enum { PLACES = 65536, USED = 32768, STATIONS = 256, AGEING = 300000 };

struct input {
    int fd;
    size_t at, len;
    unsigned char piece[PIECE];
    int known;
    uint64_t stamp;
    uint32_t size;
    unsigned char frame[FRAME];
};

static struct input in[PORTS];
static int out[PORTS], journal, ports;
static unsigned char text[PIECE + LINES];
static size_t pending;
static uint64_t entries, moment;

/* where a MAC address was seen last, and when: found by a hash of the address, or in the places behind it */
static struct station {
    uint64_t mac, last;
    int used, port;
} table[PLACES];
static int used;

static uint64_t mac_at(const unsigned char *p)
{
    uint64_t mac = 0;
    for (int k = 0; k < 6; k++)
        mac = mac << 8 | p[k];
    return mac;
}

/* the place of an address, or the empty one where it would be */
static struct station *find(uint64_t mac)
{
    size_t k = (mac * 0x9e3779b97f4a7c15ull) >> 48;
    while (table[k].used && table[k].mac != mac)
        k = (k + 1) % PLACES;
    return &table[k];
}

static int is_live(const struct station *s)
{
    return s->used && moment < s->last + AGEING;
}

static int is_full(int port)
{
    int count = 0;
    for (int k = 0; k < PLACES; k++)
        count += is_live(&table[k]) && table[k].port == port;
    return count >= STATIONS;
}

/* the port where this address is known, or -1; the address of a group is nowhere */
static int known_port(const unsigned char *mac)
{
    const struct station *s = mac[0] & 1 ? NULL : find(mac_at(mac));
    return s && is_live(s) ? s->port : -1;
}

static void learn(const unsigned char *mac, int port)
{
    struct station *s = find(mac_at(mac));
    if (!(is_live(s) && s->port == port) && is_full(port))
        return;
    if (!s->used && ++used > USED) {
        fprintf(stderr, "copy: too many stations\n");
        exit(1);
    }
    *s = (struct station){ .mac = mac_at(mac), .last = moment, .used = 1, .port = port };
}

static int fill(struct input *p, unsigned char *into, size_t want)
{
    size_t have = 0;
    while (have < want) {
        if (p->at == p->len) {
            ssize_t n = read(p->fd, p->piece, PIECE);
            if (n <= 0)
                return 0;
            p->at = 0;
            p->len = (size_t)n;
        }
        size_t n = p->len - p->at;
        if (n > want - have)
            n = want - have;
        memcpy(into + have, p->piece + p->at, n);
        p->at += n;
        have += n;
    }
    return 1;
}

static uint32_t le32(const unsigned char *p)
{
    return (uint32_t)p[0] | (uint32_t)p[1] << 8 | (uint32_t)p[2] << 16 | (uint32_t)p[3] << 24;
}

static void put32(unsigned char *p, uint32_t n)
{
    p[0] = (unsigned char)n;
    p[1] = (unsigned char)(n >> 8);
    p[2] = (unsigned char)(n >> 16);
    p[3] = (unsigned char)(n >> 24);
}

static void whole(int fd, const unsigned char *p, size_t n)
{
    if (write(fd, p, n) != (ssize_t)n) {
        perror("write");
        exit(1);
    }
}

static void put_text(const char *s)
{
    size_t n = strlen(s);
    memcpy(text + pending, s, n);
    pending += n;
}

/* the number in decimal, and the text behind it */
static void put_number(uint64_t n, const char *behind)
{
    unsigned char digits[20];
    size_t k = sizeof digits;
    do {
        digits[--k] = (unsigned char)('0' + n % 10);
        n /= 10;
    } while (n > 0);
    memcpy(text + pending, digits + k, sizeof digits - k);
    pending += sizeof digits - k;
    put_text(behind);
}

static void begin_entry(int pass)
{
    put_number(entries++, " ");
    put_number((uint64_t)pass, " ");
    put_number(moment, " ");
}

static void put_end(int pass, const char *who, int number)
{
    begin_entry(pass);
    put_text(who);
    if (number > 0)
        put_number((uint64_t)number, "");
    put_text(" end\n");
}

/* the next record of a port, or the end of its input */
static void look(int i)
{
    struct input *p = &in[i];
    unsigned char head[RECORD];
    p->known = 0;
    if (fill(p, head, RECORD)) {
        p->size = le32(head + 8);
        if (p->size <= FRAME && fill(p, p->frame, p->size)) {
            p->stamp = 1000ull * le32(head) + le32(head + 4) / 1000;
            p->known = 1;
        }
    }
    if (!p->known)
        put_end(i, "E in", i + 1);
}

/* the port whose record has the least stamp, and of equals the first; -1 where no record is left */
static int least(void)
{
    int best = -1;
    for (int i = 0; i < ports; i++)
        if (in[i].known && (best < 0 || in[i].stamp < in[best].stamp))
            best = i;
    return best;
}

static void forward(int i)
{
    static const char digit[] = "0123456789abcdef";
    struct input *p = &in[i];
    unsigned char record[RECORD + FRAME];
    int first = 1, outs[PORTS], count = 0;
    if (p->stamp > moment)
        moment = p->stamp;
    int known = known_port(p->frame);
    for (int j = 0; j < ports; j++)
        if (j != i && (known < 0 || known == j))
            outs[count++] = j;
    learn(p->frame + 6, i);
    begin_entry(i);
    put_text("F ");
    put_number((uint64_t)i + 1, " ");
    put_number(p->stamp, " ");
    for (uint32_t k = 0; k < p->size; k++) {
        text[pending++] = (unsigned char)digit[p->frame[k] >> 4];
        text[pending++] = (unsigned char)digit[p->frame[k] & 15];
    }
    put_text(" pass-all ");
    for (int k = 0; k < count; k++) {
        put_text(first ? "" : ",");
        put_number((uint64_t)outs[k] + 1, "");
        first = 0;
    }
    put_text(count ? " - 0 0\n" : "- - 0 0\n");
    put32(record, (uint32_t)(moment / 1000));
    put32(record + 4, (uint32_t)(1000 * (moment % 1000)));
    put32(record + 8, p->size);
    put32(record + 12, p->size);
    memcpy(record + RECORD, p->frame, p->size);
    for (int k = 0; k < count; k++) {
        begin_entry(ports + 2 + outs[k]);
        put_text("D ");
        put_number((uint64_t)outs[k] + 1, " 1\n");
        whole(out[outs[k]], record, RECORD + p->size);
    }
    if (pending >= PIECE) {
        whole(journal, text, pending);
        pending = 0;
    }
}

int main(int argc, char **argv)
{
    static const unsigned char header[24] = { 0xd4, 0xc3, 0xb2, 0xa1, 2, 0, 4, 0, 0, 0, 0, 0,
                                              0, 0, 0, 0, 0xff, 0xff, 0, 0, 1, 0, 0, 0 };
    ports = argc == 2 ? atoi(argv[1]) : 0;
    if (ports < 2 || ports > PORTS) {
        fprintf(stderr, "usage: copy PORTS\n");
        return 2;
    }
    journal = open("copy.txt", O_WRONLY | O_CREAT | O_TRUNC, 0666);
    for (int i = 0; i < ports; i++) {
        unsigned char head[24];
        char name[16];
        snprintf(name, sizeof name, "%d.pcap", i + 1);
        in[i].fd = open(name, O_RDONLY);
        snprintf(name, sizeof name, "%d.copy", i + 1);
        out[i] = open(name, O_WRONLY | O_CREAT | O_TRUNC, 0666);
        if (journal < 0 || in[i].fd < 0 || out[i] < 0 || !fill(&in[i], head, sizeof head)) {
            perror("copy");
            return 1;
        }
        whole(out[i], header, sizeof header);
    }
    put_end(ports, "E control", 0);
    for (int i = 0; i < ports; i++)
        look(i);
    for (int i = least(); i >= 0; i = least()) {
        forward(i);
        look(i);
    }
    put_end(ports + 1, "E ticker", 0);
    for (int i = 0; i < ports; i++)
        put_end(ports + 2 + i, "E out", i + 1);
    put_text("end ");
    put_number(entries, "\n");
    whole(journal, text, pending);
    return 0;
}
