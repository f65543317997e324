/* One trial of relay.sh: endpoints join at a relay, a command is run that makes copies come, and they are counted.
 *
 * usage: trial RELAY PROCESS shared|own COUNT COMMAND..
 *        trial - 0 shared COUNT COMMAND..     no relay: the receivers' addresses follow the words of the command
 *        trial RELAY PROCESS long 1 -         no command: an endpoint sends the longest Updates
 *
 * PROCESS is the relay's, whose processor time is measured while the command runs; without a relay it's the command's.
 * What is printed, besides what the command prints:
 *
 *   arrived      copies that were received
 *   dropped      copies that the system dropped since this program was late: the relay did send them
 *   other        datagrams that are no copy of a packet
 *   rate         arrived and dropped a second, from the first that arrived to the last
 *   processor    seconds of processor time
 *   lasted       seconds, from the start of the command until all was quiet
 *   updates      Updates a second: each endpoint has joined, and renews its membership once
 *   full         1 where the relay then has no room for more endpoints
 *
 * and of the longest Updates, microseconds of processor time for each, and a Request after it:
 *
 *   joined       8,000 records that join and leave 60 groups over and over
 *   unchanged    8,000 records that allow and block no source, on 60 groups
 *   allowed      5,333 records that allow a source each, on 60 groups
 *   left         8,000 records that leave 8,000 groups, none of which was joined
 *   refused      8,000 records that join 8,000 groups, more than the limit
 */
#include "endpoints.h"
#include <linux/sock_diag.h>
#include <sys/resource.h>
#include <sys/wait.h>

enum { BATCH = 64, HEAD = 8 };

/* The trial is over where nothing has come for so many milliseconds, or so many seconds after the command. */
enum { QUIET = 200, LIMIT_S = 5 };

/* How many of the longest Updates of a kind are sent. */
enum { LONG_UPDATES = 300 };

struct counts {
    long arrived, other;
    double first, last;
};

/* The seconds of processor time that all threads of a process have taken. */
static double processor_of(pid_t process) {
    struct timespec used;
    clockid_t clock;
    if (clock_getcpuclockid(process, &clock) || clock_gettime(clock, &used)) {
        fprintf(stderr, "the relay has ended\n");
        exit(1);
    }
    return used.tv_sec + used.tv_nsec / 1e9;
}

/* What the system has dropped at a socket since its buffer was full. */
static long dropped_at(int socket) {
    uint32_t memory[SK_MEMINFO_VARS];
    socklen_t size = sizeof memory;
    if (getsockopt(socket, SOL_SOCKET, SO_MEMINFO, memory, &size) < 0) {
        stop("SO_MEMINFO");
    }
    return memory[SK_MEMINFO_DROPS];
}

static long dropped(struct endpoints *all) {
    long sum = 0;
    for (uint32_t at = 0; at < all->sockets_open; at++) {
        sum += dropped_at(all->sockets[at]);
    }
    return sum;
}

/* Takes what has come to a socket, at most a batch. Only the first octets are read; the length is the whole one's. */
static void count_batch(int socket, struct counts *counts) {
    static uint8_t heads[BATCH][HEAD];
    struct mmsghdr messages[BATCH];
    struct iovec parts[BATCH];
    memset(messages, 0, sizeof messages);
    for (int at = 0; at < BATCH; at++) {
        parts[at] = (struct iovec){heads[at], HEAD};
        messages[at].msg_hdr.msg_iov = &parts[at];
        messages[at].msg_hdr.msg_iovlen = 1;
    }
    int taken = recvmmsg(socket, messages, BATCH, MSG_DONTWAIT | MSG_TRUNC, NULL);
    for (int at = 0; at < taken; at++) {
        int is_copy = messages[at].msg_len == COPY && heads[at][0] == 6 && heads[at][1] == 0;
        counts->arrived += is_copy;
        counts->other += !is_copy;
    }
    if (taken > 0) {
        counts->last = seconds_now();
        counts->first = counts->first ? counts->first : counts->last;
    }
}

/* Whether the command has ended; if it failed, so does the trial. */
static int has_ended(pid_t command) {
    int status = 0;
    if (waitpid(command, &status, WNOHANG) != command) {
        return 0;
    }
    if (status) {
        fprintf(stderr, "the command failed\n");
        exit(1);
    }
    return 1;
}

/* Counts until the command has ended and all is quiet, or a slow relay has had its time to come to an end. */
static struct counts count_all(struct endpoints *all, pid_t command) {
    static struct pollfd waiting[64];
    for (uint32_t at = 0; at < all->sockets_open; at++) {
        waiting[at] = (struct pollfd){.fd = all->sockets[at], .events = POLLIN};
    }
    struct counts counts = {0};
    double limit = 0;
    for (int ready = 1; !limit || (ready && seconds_now() < limit);) {
        if (!limit && has_ended(command)) {
            limit = seconds_now() + LIMIT_S;
        }
        ready = poll(waiting, all->sockets_open, QUIET);
        for (uint32_t at = 0; ready > 0 && at < all->sockets_open; at++) {
            if (waiting[at].revents) {
                count_batch(waiting[at].fd, &counts);
            }
        }
    }
    return counts;
}

/* Starts the command; without a relay the receivers' addresses follow its words. */
static pid_t start(char **words, int count, struct endpoints *all, int has_relay) {
    static char texts[64][32];
    char *line[128] = {0};
    memcpy(line, words, count * sizeof *words);
    for (uint32_t at = 0; !has_relay && at < all->sockets_open; at++) {
        struct sockaddr_in own;
        socklen_t size = sizeof own;
        getsockname(all->sockets[at], (struct sockaddr *)&own, &size);
        snprintf(texts[at], sizeof texts[at], "%s:%d", inet_ntoa(own.sin_addr), ntohs(own.sin_port));
        line[count + at] = texts[at];
    }
    pid_t made = fork();
    if (!made) {
        execvp(line[0], line);
        stop(line[0]);
    }
    return made;
}

static void print(struct counts *counts, long lost, double processor, double lasted) {
    double between = counts->last - counts->first;
    printf("arrived %ld\ndropped %ld\nother %ld\n", counts->arrived, lost, counts->other);
    printf("rate %.0f\n", between > 0 ? (counts->arrived + lost) / between : 0);
    printf("processor %.6f\nlasted %.6f\n", processor, lasted);
}

int main(int count, char **words) {
    if (count < 6 || atoi(words[4]) < 1 || (strcmp(words[3], "own") && atoi(words[4]) > 64)) {
        fprintf(stderr, "usage: trial RELAY PROCESS shared|own COUNT COMMAND..\n");
        return 2;
    }
    int has_relay = strcmp(words[1], "-");
    pid_t relay = atoi(words[2]);
    struct endpoints all = endpoints_of(words[3], atoi(words[4]));
    if (has_relay) {
        join_all(&all, address_of(words[1]));
        printf("updates %.0f\n", all.count / update_all(&all));
        printf("full %d\n", all.is_full);
    }
    if (!strcmp(words[3], "long")) {
        for (uint32_t at = 0; at < sizeof LONG_REPORTS / sizeof *LONG_REPORTS; at++) {
            double began = processor_of(relay);
            update_at_length(&all, &LONG_REPORTS[at], LONG_UPDATES, 0x10000 + at * LONG_UPDATES);
            printf("%s %.0f\n", LONG_REPORTS[at].name, (processor_of(relay) - began) * 1e6 / LONG_UPDATES);
        }
        return 0;
    }
    fflush(stdout);
    long before = dropped(&all);
    double processor = has_relay ? processor_of(relay) : 0, begin = seconds_now();
    pid_t command = start(words + 5, count - 5, &all, has_relay);
    struct counts counts = count_all(&all, command);
    struct rusage used;
    getrusage(RUSAGE_CHILDREN, &used);
    double own = used.ru_utime.tv_sec + used.ru_stime.tv_sec + (used.ru_utime.tv_usec + used.ru_stime.tv_usec) / 1e6;
    print(&counts, dropped(&all) - before, has_relay ? processor_of(relay) - processor : own, seconds_now() - begin);
    return 0;
}
