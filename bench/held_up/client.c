// How long a peer waits for its `sees` while others are told long replies, or have much to be done.
//
//   client PORT MEMBERS STEPS ASKED ROLES
//
// Tenant `Wide` has a role of so many members, tenant `Chain` a member along a chain whose proof has so many steps, and tenant
// `Dense` so many roles, each of which includes the ten behind it, in a circle, and one of which has 1,150 members: so each has
// these, and a search of one sends 11,500 letters for each role. Tenant `Short` says `sees` ASKED times, each a millisecond after
// the one before it is answered. Prints a line for each of what others say meanwhile: its name, the microseconds of a `sees` at
// the 50th and at the 99th of 100 and of the longest one, and those of what they say, on the average and the longest.
#include <arpa/inet.h>
#include <netinet/tcp.h>
#include <pthread.h>
#include <stdatomic.h>
#include <stdio.h>
#include <stdlib.h>
#include <string.h>
#include <time.h>
#include <unistd.h>

enum { LINE = 128, AT_ONCE = 500, AHEAD = 10, MEMBERS = 1150, MOST = 1000000, ENDED = 8 };

static int port;
static atomic_int goes_on;

// A connection, with what was read of it and not looked at yet.
struct peer {
    int socket;
    size_t at, end;
    char read[1 << 16];
};

static void check(int holds, const char *what) {
    if (!holds) {
        perror(what);
        exit(1);
    }
}

static long long now(void) {
    struct timespec time;
    clock_gettime(CLOCK_MONOTONIC, &time);
    return time.tv_sec * 1000000000LL + time.tv_nsec;
}

static void send_all(struct peer *peer, const char *text) {
    size_t length = strlen(text);
    for (size_t sent = 0; sent < length;) {
        ssize_t more = write(peer->socket, text + sent, length - sent);
        check(more > 0, "write");
        sent += more;
    }
}

// Reads so many lines, and keeps the beginning of the first.
static void read_lines(struct peer *peer, long count, char first[LINE]) {
    size_t kept = 0;
    int is_first = 1;
    while (count > 0) {
        if (peer->at == peer->end) {
            ssize_t more = read(peer->socket, peer->read, sizeof peer->read);
            check(more > 0, "read");
            peer->at = 0, peer->end = more;
        }
        char byte = peer->read[peer->at++];
        if (byte == '\n') count--, is_first = 0;
        else if (is_first && kept < LINE - 1) first[kept++] = byte;
    }
    first[kept] = 0;
}

// Says the line and reads its reply, whose first line has to begin so. A proof and a vault tell how many lines follow.
static void say(struct peer *peer, const char *line, const char *begins) {
    char first[LINE];
    send_all(peer, line);
    read_lines(peer, 1, first);
    check(strncmp(first, begins, strlen(begins)) == 0, first);
    long more = 0;
    if (sscanf(first, "proof %ld", &more) == 1 || sscanf(first, "vault %ld", &more) == 1) {
        char next[LINE];
        read_lines(peer, more, next);
    }
}

static struct peer *connect_as(const char *tenant) {
    struct peer *peer = calloc(1, sizeof *peer);
    check(peer != NULL, "memory");
    peer->socket = socket(AF_INET, SOCK_STREAM, 0);
    struct sockaddr_in address = {.sin_family = AF_INET, .sin_port = htons(port), .sin_addr.s_addr = htonl(INADDR_LOOPBACK)};
    check(connect(peer->socket, (struct sockaddr *)&address, sizeof address) == 0, "connect");
    int at_once = 1;
    check(setsockopt(peer->socket, IPPROTO_TCP, TCP_NODELAY, &at_once, sizeof at_once) == 0, "no delay");
    char text[LINE];
    snprintf(text, sizeof text, "hello %s word\n", tenant);
    say(peer, text, "hello");
    return peer;
}

// A line to which the number is written.
typedef void writer(char *here, long at);

static void wide_row(char *here, long at) { snprintf(here, LINE, "put Wide.r <- E%06ld\n", at); }

static long chain_end;
static void chain_row(char *here, long at) {
    // (what the chain's last one says is that Ada is a member)
    if (at + 1 < chain_end) snprintf(here, LINE, "put Chain.r%06ld <- Chain.r%06ld\n", at, at + 1);
    else snprintf(here, LINE, "put Chain.r%06ld <- Ada\n", at);
}

static long roles;
static void circle_row(char *here, long at) {
    snprintf(here, LINE, "put Dense.r%ld <- Dense.r%ld\n", at / AHEAD, (at / AHEAD + 1 + at % AHEAD) % roles);
}
static void member_row(char *here, long at) { snprintf(here, LINE, "put Dense.r0 <- E%ld\n", at); }

// Puts so many credentials, some hundred at once.
static void put_all(struct peer *peer, writer *write_line, long count) {
    static char block[AT_ONCE * LINE];
    for (long at = 0; at < count;) {
        size_t length = 0;
        long said = 0;
        for (; said < AT_ONCE && at < count; said++, at++) {
            write_line(block + length, at);
            length += strlen(block + length);
        }
        char first[LINE];
        send_all(peer, block);
        read_lines(peer, said, first);
        check(strncmp(first, "ok", 2) == 0, first);
    }
}

// What another peer says: a round of lines, as long as it goes on. The slowest line and the sum are of those that are timed.
struct task {
    struct peer *peer;
    void (*round)(struct task *task);
    long long lasted, longest;
    long count, number, left;
};

// Says the line, and notes how long its reply took.
static void timed(struct task *task, const char *line, const char *begins) {
    long long from = now();
    say(task->peer, line, begins);
    long long took = now() - from;
    task->lasted += took;
    task->count++;
    if (took > task->longest) task->longest = took;
}

static void poll_members(struct task *task) { timed(task, "poll 1\n", "members"); }
static void prove(struct task *task) { timed(task, "proof 1 Ada\n", "proof"); }
static void show_vault(struct task *task) { timed(task, "vault\n", "vault"); }

// Opens a search by the line, and keeps its number.
static void open_search(struct task *task, const char *line) {
    char first[LINE];
    send_all(task->peer, line);
    read_lines(task->peer, 1, first);
    check(sscanf(first, "search %ld", &task->number) == 1, first);
}

// Says the word of the search that was opened last.
static void say_of(struct task *task, const char *word, const char *begins, int is_timed) {
    char line[LINE];
    snprintf(line, sizeof line, "%s %ld\n", word, task->number);
    if (is_timed) timed(task, line, begins);
    else say(task->peer, line, begins);
}

static void find_members(struct task *task) {
    open_search(task, "who Wide.r\n");
    say_of(task, "wait", "members", 1);
    say_of(task, "end", "ended", 0);
}

// A search without letters of its own holds the vault while a row is put or dropped.
static void change_held(struct task *task) {
    open_search(task, "ask Wide.nothing Ada\n");
    timed(task, task->left++ % 2 ? "drop Wide.more <- Ada\n" : "put Wide.more <- Ada\n", "ok");
    say_of(task, "end", "ended", 0);
}

static void follow_chain(struct task *task) {
    open_search(task, "ask Chain.r000000 Ada\n");
    say_of(task, "wait", "yes", 1);
    say_of(task, "end", "ended", 0);
}

// At most so many stay open, for the next measure to end.
static void search_circle(struct task *task) {
    open_search(task, "ask Dense.r1 Nobody\n");
    say_of(task, "wait", "no", 1);
    if (task->number <= ENDED) return;
    char line[LINE];
    snprintf(line, sizeof line, "end %ld\n", task->number - ENDED);
    say(task->peer, line, "ended");
}

// Ends the searches that stayed open, the last one first, each some milliseconds behind the one before.
static void end_next(struct task *task) {
    if (task->count == ENDED) return;
    say_of(task, "end", "ended", 1);
    task->number--;
    usleep(5000);
}

static void *say_on_and_on(void *place) {
    struct task *task = place;
    while (goes_on) task->round(task);
    return NULL;
}

static int compare(const void *a, const void *b) {
    long long x = *(const long long *)a, y = *(const long long *)b;
    return (x > y) - (x < y);
}

// Measures while the task goes on, and a round of it at least.
static void measure(const char *name, struct peer *peer, long asked, struct task *task) {
    pthread_t other;
    goes_on = 1;
    if (task != NULL) check(pthread_create(&other, NULL, say_on_and_on, task) == 0, "thread");
    long long *waits = malloc(MOST * sizeof *waits);
    check(waits != NULL, "memory");
    long at = 0;
    for (; at < asked || (at < MOST && task != NULL && task->count == 0); at++) {
        long long from = now();
        say(peer, "sees\n", "sees");
        waits[at] = now() - from;
        usleep(1000);
    }
    goes_on = 0;
    if (task != NULL) pthread_join(other, NULL);
    qsort(waits, at, sizeof *waits, compare);
    printf("%s %lld %lld %lld", name, waits[at / 2] / 1000, waits[at * 99 / 100] / 1000, waits[at - 1] / 1000);
    if (task == NULL) printf(" 0 0\n");
    else printf(" %lld %lld\n", task->lasted / task->count / 1000, task->longest / 1000);
    fflush(stdout);
    free(waits);
}

static struct task of(struct peer *peer, void (*round)(struct task *task)) {
    return (struct task){.peer = peer, .round = round};
}

int main(int count, char **words) {
    check(count == 6, "client PORT MEMBERS STEPS ASKED ROLES");
    port = atoi(words[1]);
    long members = atol(words[2]), steps = atol(words[3]), asked = atol(words[4]);
    roles = atol(words[5]);
    struct peer *wide = connect_as("Wide"), *chain = connect_as("Chain"), *dense = connect_as("Dense"), *short_one = connect_as("Short");
    put_all(wide, wide_row, members);
    chain_end = steps - 1;
    put_all(chain, chain_row, chain_end);
    put_all(dense, circle_row, roles * AHEAD);
    put_all(dense, member_row, MEMBERS);
    say(wide, "who Wide.r\n", "search 1");
    say(chain, "ask Chain.r000000 Ada\n", "search 1");
    say(wide, "wait 1\n", "members");
    say(chain, "wait 1\n", "yes");
    struct task poll = of(wide, poll_members), proof = of(chain, prove), vault = of(wide, show_vault), who = of(wide, find_members);
    struct task put = of(wide, change_held), ask = of(chain, follow_chain), large = of(dense, search_circle), end = of(dense, end_next);
    measure("nothing", short_one, asked, NULL);
    measure("poll_of_members", short_one, asked, &poll);
    measure("proof", short_one, asked, &proof);
    measure("vault", short_one, asked, &vault);
    measure("who", short_one, asked, &who);
    measure("put_into_a_held_vault", short_one, asked, &put);
    measure("ask_along_a_chain", short_one, asked, &ask);
    measure("large_search", short_one, asked, &large);
    while (large.number < ENDED) search_circle(&large);
    end.number = large.number;
    measure("end_of_a_large_search", short_one, ENDED * 6 < asked ? ENDED * 6 : asked, &end);
    return 0;
}
