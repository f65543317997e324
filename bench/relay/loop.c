/* The least that a relay can do: a plain loop of `recv` and `sendto`, which relay.sh sets beside the real one.
 *
 * usage: loop FILE [--turns T] [--workers W]
 *
 * FILE has the settings of a relay, of which `listen` and `feed` are read. A Request is answered with a Query of no
 * MAC, an Update is believed, and every packet goes to all who named its group, whatever their filter. There is no
 * lifetime and no end: it runs until it is killed.
 */
#include "bench.h"
#include <fcntl.h>

/* Groups are told apart by the low half of their numbers. */
enum { GROUPS = 65536, MESSAGE = 65536 };

struct members {
    int count;
    struct sockaddr_in *of;
};

static struct members groups[GROUPS];
static uint8_t message[MESSAGE + 2];

/* The peer that a line `key = "PEER"` of the file names. */
static struct sockaddr_in setting(const char *file, const char *key) {
    char line[256], name[32], peer[64];
    FILE *lines = fopen(file, "r");
    while (lines && fgets(line, sizeof line, lines)) {
        if (sscanf(line, "%31s = \"%63[^\"]\"", name, peer) == 2 && !strcmp(name, key)) {
            fclose(lines);
            return address_of(peer);
        }
    }
    fprintf(stderr, "%s has no %s\n", file, key);
    exit(1);
}

/* Takes the group of the report's first record, which begins after 12, 24 and 8 octets. */
static void take_update(const struct sockaddr_in *from, ssize_t length) {
    if (length < 52) {
        return;
    }
    struct members *members = &groups[message[50] << 8 | message[51]];
    for (int at = 0; at < members->count; at++) {
        if (!memcmp(&members->of[at], from, sizeof *from)) {
            return;
        }
    }
    members->of = realloc(members->of, (members->count + 1) * sizeof *from);
    members->of[members->count++] = *from;
}

static void take_datagram(int link) {
    struct sockaddr_in from;
    socklen_t size = sizeof from;
    memset(&from, 0, sizeof from);
    ssize_t length = recvfrom(link, message, MESSAGE, 0, (struct sockaddr *)&from, &size);
    if (length >= 8 && message[0] == 3) {
        uint8_t query[12] = {4};
        memcpy(query + 8, message + 4, 4);
        sendto(link, query, sizeof query, 0, (struct sockaddr *)&from, size);
    } else if (length > 0 && message[0] == 5) {
        take_update(&from, length);
    }
}

static void copy_packet(int link, ssize_t length) {
    struct members *members = &groups[message[20] << 8 | message[21]];
    message[0] = 6;
    message[1] = 0;
    for (int at = 0; at < members->count; at++) {
        sendto(link, message, length + 2, 0, (struct sockaddr *)&members->of[at], sizeof members->of[at]);
    }
}

int main(int count, char **words) {
    if (count < 2) {
        fprintf(stderr, "usage: loop FILE [--turns T] [--workers W]\n");
        return 2;
    }
    int link = socket_at(setting(words[1], "listen")), feed = socket_at(setting(words[1], "feed"));
    fcntl(feed, F_SETFL, O_NONBLOCK);
    for (;;) {
        ssize_t length = recv(feed, message + 2, MESSAGE, 0);
        if (length >= 20) {
            copy_packet(link, length);
            continue;
        }
        /* Only where no packet is there, the link is looked at. */
        struct pollfd both[] = {{.fd = link, .events = POLLIN}, {.fd = feed, .events = POLLIN}};
        if (poll(both, 2, -1) > 0 && both[0].revents) {
            take_datagram(link);
        }
    }
}
