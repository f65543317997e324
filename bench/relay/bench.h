/* What the programs of relay.sh share: addresses, sockets, clocks, octets. A program stops at the first error. */
#define _GNU_SOURCE
#include <arpa/inet.h>
#include <errno.h>
#include <netinet/in.h>
#include <poll.h>
#include <stdint.h>
#include <stdio.h>
#include <stdlib.h>
#include <string.h>
#include <sys/socket.h>
#include <time.h>
#include <unistd.h>

/* Octets of a packet of the feed, and of the Multicast Data message around it (RFC 7450, section 5.1.6). */
enum { PACKET = 1344, COPY = PACKET + 2 };

/* What a receive buffer is asked to hold, as a relay asks: the usual one holds a millisecond of a fast feed. */
enum { RECEIVE_BUFFER = 4 << 20 };

__attribute__((unused)) static void stop(const char *what) {
    perror(what);
    exit(1);
}

__attribute__((unused)) static double seconds_now(void) {
    struct timespec now;
    clock_gettime(CLOCK_MONOTONIC, &now);
    return now.tv_sec + now.tv_nsec / 1e9;
}

/* The IPv4 address and port of a text ADDRESS:PORT. */
__attribute__((unused)) static struct sockaddr_in address_of(const char *text) {
    struct sockaddr_in address = {.sin_family = AF_INET};
    char host[16] = "";
    const char *colon = strrchr(text, ':');
    if (colon && (size_t)(colon - text) < sizeof host) {
        memcpy(host, text, colon - text);
        address.sin_port = htons(atoi(colon + 1));
    }
    if (inet_pton(AF_INET, host, &address.sin_addr) != 1) {
        fprintf(stderr, "no address: %s\n", text);
        exit(1);
    }
    return address;
}

/* A socket at this address. Port 0 is one of the system's choice, and a smaller buffer than asked for will do. */
__attribute__((unused)) static int socket_at(struct sockaddr_in address) {
    int made = socket(AF_INET, SOCK_DGRAM, 0), octets = RECEIVE_BUFFER;
    setsockopt(made, SOL_SOCKET, SO_RCVBUF, &octets, sizeof octets);
    if (made < 0 || bind(made, (struct sockaddr *)&address, sizeof address) < 0) {
        stop("bind");
    }
    return made;
}

/* Writes a number of 16 bits in network order. */
__attribute__((unused)) static void put16(uint8_t *at, uint16_t number) {
    at[0] = number >> 8;
    at[1] = number & 255;
}

__attribute__((unused)) static void put32(uint8_t *at, uint32_t number) {
    put16(at, number >> 16);
    put16(at + 2, number & 0xffff);
}

/* The Internet checksum (RFC 1071) of an even number of octets. */
__attribute__((unused)) static uint16_t checksum(const uint8_t *octets, size_t length) {
    uint32_t sum = 0;
    for (size_t at = 0; at < length; at += 2) {
        sum += octets[at] << 8 | octets[at + 1];
    }
    sum = (sum >> 16) + (sum & 0xffff);
    return ~((sum >> 16) + sum);
}

/* The group that belongs to an endpoint with this number: 239.1.0.0 and up. */
__attribute__((unused)) static uint32_t group_of(uint32_t number) {
    return 0xef010000 + number;
}
