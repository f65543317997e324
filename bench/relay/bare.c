/* A bare loop of `sendto`, of messages as large as a relay's copies: what every figure of relay.sh stands beside.
 *
 * usage: bare SECONDS RECEIVER..
 *
 * The receivers take turns. Says how many messages were sent.
 */
#include "bench.h"

int main(int count, char **words) {
    if (count < 3) {
        fprintf(stderr, "usage: bare SECONDS RECEIVER..\n");
        return 2;
    }
    int receivers = count - 2;
    struct sockaddr_in *to = calloc(receivers, sizeof *to), any = {.sin_family = AF_INET};
    for (int at = 0; at < receivers; at++) {
        to[at] = address_of(words[2 + at]);
    }
    uint8_t message[COPY] = {6};
    int from = socket_at(any);
    long sent = 0;
    for (double end = seconds_now() + atof(words[1]); seconds_now() < end;) {
        for (int at = 0; at < 16; at++, sent++) {
            struct sockaddr_in *one = &to[sent % receivers];
            if (sendto(from, message, COPY, 0, (struct sockaddr *)one, sizeof *one) != COPY) {
                stop("sendto");
            }
        }
    }
    printf("offered %ld\n", sent);
    return 0;
}
