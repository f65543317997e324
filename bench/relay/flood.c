/* Sends packets of the multicast network to a relay's feed, at a steady rate, and says how many it sent.
 *
 * usage: flood FEED RATE SECONDS GROUP
 *
 * RATE is in packets a second. A packet is UDP over IPv4 to the group with that number. Two sources take turns, by
 * which a relay with two workers gives each of them every other packet. A sender that was preempted doesn't make up for
 * what it has missed: the burst would be a higher rate than the one that is asked for.
 */
#include "bench.h"
#include <sys/prctl.h>

enum { BATCH = 32, SOURCES = 2 };

/* The longest arrears that are still sent, in seconds. */
static const double ARREARS = 0.001;

static uint8_t packets[SOURCES][PACKET];

static void make_packet(uint8_t *packet, uint32_t source, uint32_t group) {
    packet[0] = 0x45;
    put16(packet + 2, PACKET);
    packet[8] = 4;
    packet[9] = IPPROTO_UDP;
    put32(packet + 12, source);
    put32(packet + 16, group);
    put16(packet + 10, checksum(packet, 20));
    put16(packet + 20, 5000);
    put16(packet + 22, 5000);
    put16(packet + 24, PACKET - 20);
}

/* Sends so many packets, at most a batch, by one call of the system. */
static int send_batch(int from, struct sockaddr_in *feed, long sent, int count) {
    struct mmsghdr messages[BATCH];
    struct iovec octets[BATCH];
    memset(messages, 0, sizeof messages);
    for (int at = 0; at < count; at++) {
        octets[at] = (struct iovec){packets[(sent + at) % SOURCES], PACKET};
        messages[at].msg_hdr.msg_iov = &octets[at];
        messages[at].msg_hdr.msg_iovlen = 1;
        messages[at].msg_hdr.msg_name = feed;
        messages[at].msg_hdr.msg_namelen = sizeof *feed;
    }
    int done = sendmmsg(from, messages, count, 0);
    if (done < 0) {
        stop("sendmmsg");
    }
    return done;
}

static long flood(int from, struct sockaddr_in *feed, double rate, double seconds) {
    const struct timespec pause = {0, 20000};
    double begin = seconds_now(), end = begin + seconds, now;
    long sent = 0, since = 0;
    while ((now = seconds_now()) < end) {
        double due = (now - begin) * rate - since;
        if (due > rate * ARREARS + BATCH) {
            begin = now - ARREARS;
            since = 0;
        } else if (due < 1) {
            nanosleep(&pause, NULL);
        } else {
            int done = send_batch(from, feed, sent, due < BATCH ? (int)due : BATCH);
            sent += done;
            since += done;
        }
    }
    return sent;
}

int main(int count, char **words) {
    if (count != 5) {
        fprintf(stderr, "usage: flood FEED RATE SECONDS GROUP\n");
        return 2;
    }
    struct sockaddr_in feed = address_of(words[1]), any = {.sin_family = AF_INET};
    for (int at = 0; at < SOURCES; at++) {
        make_packet(packets[at], 0xc6336409 + at, group_of(atoi(words[4])));
    }
    /* Sleeps are as long as they are asked to be, and not 50 us more. */
    prctl(PR_SET_TIMERSLACK, 1);
    printf("offered %ld\n", flood(socket_at(any), &feed, atof(words[2]), atof(words[3])));
    return 0;
}
