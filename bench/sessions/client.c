// A peer that asks as fast as it is answered, over many connections at once, each in a thread of its own.
//
//   client PORT CONNECTIONS ROUNDS AHEAD poll|ask|share
//
// Each connection says hello as a tenant of its own, and uploads a credential; then, from when all have done that, it
// sends so many rounds: `poll 7` of a search that isn't there, or `ask`, `wait` and `end` of one search. AHEAD is 0 where
// each line is sent once the one before it is answered, else so many rounds are sent at once before their replies are read.
// With `share` all are sessions of one tenant, ask as with `ask`, and each line is sent once the one before it is answered.
// Every line has a reply of one line, also where the port's owner only echoes. Prints the nanoseconds from the first round's
// beginning to the last one's end.
#include <arpa/inet.h>
#include <pthread.h>
#include <stdio.h>
#include <stdlib.h>
#include <string.h>
#include <time.h>
#include <unistd.h>

enum { MOST_AHEAD = 256, ROUND = 128 };

static int port, rounds, ahead, asks, shares;
static pthread_barrier_t begun, ended;

static void check(int holds, const char *what) {
    if (!holds) {
        perror(what);
        exit(1);
    }
}

// Sends the lines, and reads until as many lines came back. Keeps the end of what was read.
static void say_and_keep(int peer, const char *text, size_t length, char *kept, size_t room) {
    int waiting = 0;
    for (size_t at = 0; at < length; at++) waiting += text[at] == '\n';
    for (size_t sent = 0; sent < length;) {
        ssize_t more = write(peer, text + sent, length - sent);
        check(more > 0, "write");
        sent += more;
    }
    char reply[65536];
    while (waiting > 0) {
        ssize_t more = read(peer, reply, sizeof reply);
        check(more > 0, "read");
        for (ssize_t at = 0; at < more; at++) waiting -= reply[at] == '\n';
        size_t end = (size_t)more < room ? (size_t)more : room - 1;
        memcpy(kept, reply, end);
        kept[end] = 0;
    }
}

static void say(int peer, const char *text, size_t length) {
    char kept[ROUND];
    say_and_keep(peer, text, length, kept, sizeof kept);
}

static void say_line(int peer, const char *text) { say(peer, text, strlen(text)); }

// The lines of a round, each alone or one after the other.
static size_t round_of(char lines[3][ROUND], int tenant, int number) {
    if (!asks) {
        strcpy(lines[0], "poll 7\n");
        return 1;
    }
    snprintf(lines[0], ROUND, "ask Tenant%d.r D\n", tenant);
    snprintf(lines[1], ROUND, "wait %d\n", number);
    snprintf(lines[2], ROUND, "end %d\n", number);
    return 3;
}

static void one_by_one(int peer, int tenant) {
    char lines[3][ROUND];
    for (int number = 1; number <= rounds; number++) {
        size_t count = round_of(lines, tenant, number);
        for (size_t line = 0; line < count; line++) say_line(peer, lines[line]);
    }
}

// Each search is told apart from those of the tenant's other sessions by the number that its opening was answered.
static void in_one_tenant(int peer) {
    static const char ask[] = "ask Tenant1.r D\n";
    for (int round = 0; round < rounds; round++) {
        char line[ROUND], reply[ROUND];
        int number = 0;
        say_and_keep(peer, ask, sizeof ask - 1, reply, sizeof reply);
        check(sscanf(reply, "search %d", &number) == 1, reply);
        snprintf(line, sizeof line, "wait %d\n", number);
        say_line(peer, line);
        snprintf(line, sizeof line, "end %d\n", number);
        say_line(peer, line);
    }
}

static void many_at_once(int peer, int tenant) {
    char lines[3][ROUND], block[3 * ROUND * MOST_AHEAD];
    for (int number = 1; number <= rounds;) {
        size_t length = 0;
        for (int more = 0; more < ahead && number <= rounds; more++, number++) {
            size_t count = round_of(lines, tenant, number);
            for (size_t line = 0; line < count; line++) {
                strcpy(block + length, lines[line]);
                length += strlen(lines[line]);
            }
        }
        say(peer, block, length);
    }
}

static void *talk(void *place) {
    int tenant = shares ? 1 : 1 + (int)(size_t)place, peer = socket(AF_INET, SOCK_STREAM, 0);
    struct sockaddr_in address = {.sin_family = AF_INET, .sin_port = htons(port), .sin_addr.s_addr = htonl(INADDR_LOOPBACK)};
    check(peer >= 0 && connect(peer, (struct sockaddr *)&address, sizeof address) == 0, "connect");
    char text[ROUND];
    snprintf(text, sizeof text, "hello Tenant%d word\nput Tenant%d.r <- D\n", tenant, tenant);
    say_line(peer, text);
    pthread_barrier_wait(&begun);
    if (shares) in_one_tenant(peer);
    else if (ahead == 0) one_by_one(peer, tenant);
    else many_at_once(peer, tenant);
    pthread_barrier_wait(&ended);
    close(peer);
    return NULL;
}

static long long now(void) {
    struct timespec time;
    clock_gettime(CLOCK_MONOTONIC, &time);
    return time.tv_sec * 1000000000LL + time.tv_nsec;
}

int main(int count, char **words) {
    check(count == 6, "client PORT CONNECTIONS ROUNDS AHEAD poll|ask|share");
    int connections = atoi(words[2]);
    port = atoi(words[1]), rounds = atoi(words[3]), ahead = atoi(words[4]), asks = strcmp(words[5], "ask") == 0;
    shares = strcmp(words[5], "share") == 0;
    check(connections > 0 && ahead <= MOST_AHEAD, "the numbers");
    pthread_t threads[connections];
    pthread_barrier_init(&begun, NULL, connections + 1);
    pthread_barrier_init(&ended, NULL, connections + 1);
    for (int place = 0; place < connections; place++)
        check(pthread_create(&threads[place], NULL, talk, (void *)(size_t)place) == 0, "thread");
    pthread_barrier_wait(&begun);
    long long from = now();
    pthread_barrier_wait(&ended);
    printf("%lld\n", now() - from);
    for (int place = 0; place < connections; place++) pthread_join(threads[place], NULL);
    return 0;
}
