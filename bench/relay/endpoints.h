/* Tunnel endpoints that join their groups at a relay: Request, Query, Update (RFC 7450, sections 5.1.3 to 5.1.5).
 *
 * Of kind `shared` each has a socket, and all join one group. Of kind `own` each joins a group of its own and has an
 * address of its own in 127.0.0.0/8, all by one socket: no process may open 65,536 of them.
 */
#include "bench.h"

/* How many datagrams may be on their way unanswered, and how long an answer is waited for, in milliseconds. */
enum { WINDOW = 256, PATIENCE = 200, TRIES = 50 };

/* Nonces of Requests that ask only whether all before them was taken. */
static const uint32_t BARRIER = 0x80000000;

struct endpoints {
    struct sockaddr_in relay;
    int is_own;
    int count;
    int *sockets;
    uint32_t sockets_open;
    uint8_t (*mac)[6];
    uint8_t *has_mac;
    /* Whether the last awaited Query said that the relay has no room for more endpoints (its L flag). */
    int is_full;
};

static struct endpoints endpoints_of(const char *kind, int count) {
    struct endpoints made = {.is_own = !strcmp(kind, "own"), .count = count};
    struct sockaddr_in any = {.sin_family = AF_INET};
    any.sin_addr.s_addr = htonl(made.is_own ? INADDR_ANY : INADDR_LOOPBACK);
    made.sockets_open = made.is_own ? 1 : count;
    made.sockets = calloc(made.sockets_open, sizeof *made.sockets);
    for (uint32_t at = 0; at < made.sockets_open; at++) {
        made.sockets[at] = socket_at(any);
    }
    made.mac = calloc(count, sizeof *made.mac);
    made.has_mac = calloc(count, 1);
    return made;
}

/* Sends to the relay, from the socket or the address that is the endpoint's. */
static void send_from(struct endpoints *all, int index, const uint8_t *octets, size_t length) {
    struct iovec part = {(void *)octets, length};
    struct msghdr message = {.msg_iov = &part, .msg_iovlen = 1};
    message.msg_name = &all->relay;
    message.msg_namelen = sizeof all->relay;
    char control[CMSG_SPACE(sizeof(struct in_pktinfo))] = "";
    if (all->is_own) {
        message.msg_control = control;
        message.msg_controllen = sizeof control;
        struct cmsghdr *head = CMSG_FIRSTHDR(&message);
        head->cmsg_level = IPPROTO_IP;
        head->cmsg_type = IP_PKTINFO;
        head->cmsg_len = CMSG_LEN(sizeof(struct in_pktinfo));
        ((struct in_pktinfo *)CMSG_DATA(head))->ipi_spec_dst.s_addr = htonl(0x7f010000 + index);
    }
    if (sendmsg(all->sockets[all->is_own ? 0 : index], &message, 0) < 0) {
        stop("sendmsg");
    }
}

static void send_request(struct endpoints *all, int index, uint32_t nonce) {
    uint8_t request[8] = {3};
    put32(request + 4, nonce);
    send_from(all, index, request, sizeof request);
}

/* An IGMPv3 report of one record, MODE_IS_EXCLUDE of no source (RFC 3376, section 4.2), with the Query's MAC. */
static void send_update(struct endpoints *all, int index) {
    static const uint8_t blank[52] = {
        5, 0, 0, 0, 0, 0, 0, 0, 0, 0, 0, 0,
        0x46, 0xc0, 0, 40, 0, 0, 0, 0, 1, 2, 0, 0, 10, 0, 0, 2, 224, 0, 0, 22, 0x94, 4, 0, 0,
        0x22, 0, 0, 0, 0, 0, 0, 1, 2, 0, 0, 0, 0, 0, 0, 0};
    uint8_t update[sizeof blank];
    memcpy(update, blank, sizeof blank);
    memcpy(update + 2, all->mac[index], 6);
    put32(update + 8, index);
    put32(update + 48, group_of(all->is_own ? index : 0));
    put16(update + 22, checksum(update + 12, 24));
    put16(update + 38, checksum(update + 36, 16));
    send_from(all, index, update, sizeof update);
}

/* The longest reports: as many records as a datagram holds, of two kinds by turns, on so many groups over and over.
 * A record lists this many sources, each another one.
 */
struct long_report {
    const char *name;
    uint8_t kinds[2];
    uint32_t groups, sources;
};

enum { TO_IN = 3, TO_EX, ALLOW, BLOCK };

static const struct long_report LONG_REPORTS[] = {
    {"joined", {TO_EX, TO_IN}, 60, 0},
    {"unchanged", {ALLOW, BLOCK}, 60, 0},
    {"allowed", {ALLOW, ALLOW}, 60, 1},
    {"left", {TO_IN, TO_IN}, 8000, 0},
    {"refused", {TO_EX, TO_EX}, 8000, 0},
};

enum { LONG_HEAD = 44, LONG_RECORDS = 64000 };

/* An Update of such a report, with the Query's MAC. */
static void send_long_update(struct endpoints *all, int index, const struct long_report *report) {
    static uint8_t update[LONG_HEAD + LONG_RECORDS];
    static const uint8_t head[36] = {5, 0, 0, 0, 0, 0, 0, 0, 0, 0, 0, 0, 0x46, 0xc0, 0, 0, 0, 0, 0, 0, 1, 2, 0, 0, 10,
        0, 0, 2, 224, 0, 0, 22, 0x94, 4, 0, 0};
    uint32_t size = 8 + 4 * report->sources, count = LONG_RECORDS / size, length = LONG_HEAD + size * count;
    memcpy(update, head, sizeof head);
    memcpy(update + 2, all->mac[index], 6);
    put32(update + 8, index);
    put16(update + 14, length - 12);
    put16(update + 22, checksum(update + 12, 24));
    memset(update + 36, 0, length - 36);
    update[36] = 0x22;
    put16(update + 42, count);
    for (uint32_t at = 0; at < count; at++) {
        uint8_t *record = update + LONG_HEAD + size * at;
        record[0] = report->kinds[at / report->groups % 2];
        put16(record + 2, report->sources);
        put32(record + 4, group_of(at % report->groups));
        for (uint32_t source = 0; source < report->sources; source++) {
            put32(record + 8 + 4 * source, 0x0a000000 + at * report->sources + source);
        }
    }
    put16(update + 38, checksum(update + 36, length - 36));
    send_from(all, index, update, length);
}

/* Waits for a Query at any socket, and gives its nonce; 0 with `none` where none came in time. */
static uint32_t next_query(struct endpoints *all, uint8_t *query, int *none) {
    static struct pollfd waiting[64];
    for (uint32_t at = 0; at < all->sockets_open; at++) {
        waiting[at] = (struct pollfd){.fd = all->sockets[at], .events = POLLIN};
    }
    *none = 0;
    while (poll(waiting, all->sockets_open, PATIENCE) > 0) {
        for (uint32_t at = 0; at < all->sockets_open; at++) {
            if (!waiting[at].revents || recv(waiting[at].fd, query, 128, MSG_DONTWAIT) < 12 || query[0] != 4) {
                continue;
            }
            return (uint32_t)query[8] << 24 | query[9] << 16 | query[10] << 8 | query[11];
        }
    }
    *none = 1;
    return 0;
}

/* Asks for all that have no MAC yet, a window at a time; gives how many still have none. */
static int ask_for_macs(struct endpoints *all) {
    int asked = 0, answered = 0, none = 0, next = 0;
    uint8_t query[128];
    while (!none) {
        for (; next < all->count && asked - answered < WINDOW; next++) {
            if (!all->has_mac[next]) {
                send_request(all, next, next);
                asked++;
            }
        }
        if (asked == answered) {
            break;
        }
        uint32_t index = next_query(all, query, &none);
        if (!none && index < (uint32_t)all->count && !all->has_mac[index]) {
            memcpy(all->mac[index], query + 2, 6);
            all->has_mac[index] = 1;
            answered++;
        }
    }
    return asked - answered + (all->count - next);
}

/* Waits until the relay has answered this barrier, and so has taken all that was sent before it. */
static void await(struct endpoints *all, uint32_t barrier) {
    uint8_t query[128];
    for (int tries = 0, none; tries < TRIES; tries += none) {
        uint32_t nonce = next_query(all, query, &none);
        if (!none && nonce >= barrier) {
            all->is_full = query[1] >> 1 & 1;
            return;
        }
        if (none) {
            send_request(all, 0, barrier);
        }
    }
    fprintf(stderr, "the relay doesn't answer\n");
    exit(1);
}

/* One Update of each, at most two windows ahead of the relay; gives the seconds until the last one was taken. */
static double update_all(struct endpoints *all) {
    double begin = seconds_now();
    uint32_t barrier = BARRIER;
    for (int index = 0; index < all->count; index++) {
        send_update(all, index);
        if (index % WINDOW == WINDOW - 1) {
            send_request(all, 0, ++barrier);
            await(all, barrier - 1 > BARRIER ? barrier - 1 : BARRIER + 1);
        }
    }
    send_request(all, 0, ++barrier);
    await(all, barrier);
    return seconds_now() - begin;
}

/* So many Updates of such a report of the first endpoint, one at a time. The barriers are those after `past`. */
static void update_at_length(struct endpoints *all, const struct long_report *report, int count, int past) {
    for (int at = 0; at < count; at++) {
        send_long_update(all, 0, report);
        send_request(all, 0, BARRIER + past + at);
        await(all, BARRIER + past + at);
    }
}

static void join_all(struct endpoints *all, struct sockaddr_in relay) {
    all->relay = relay;
    for (int tries = 0; ask_for_macs(all); tries++) {
        if (tries == TRIES) {
            fprintf(stderr, "the relay doesn't answer\n");
            exit(1);
        }
    }
    update_all(all);
}
