/* serve echo THREADS MATCH SMALL LARGE: servers that answer from memory and look at nothing but what they have to. Each
   has a port of TCP and of UDP, and prints it. The first is for few callers: so many threads, each of which serves one
   connection after the other, and one for datagrams. The second is for many: so many threads, each of which waits for
   all connections that it has accepted at once, and as many for datagrams, each with a socket of its own, which take
   and send them many at a time. To a call of MATCH they give the record in the file MATCH, to one of ALL that in SMALL,
   or in LARGE where the map is hosts.byaddr, with the call's number, in writes of up to eight fragments. Replies to
   calls that came together go out in one write. They end when they are killed.

   serve load ROUNDS MILLISECONDS ROWS YP FEW MANY [OTHER]: calls the servers at these ports of this machine, in turn,
   in so many rounds, for so long each. FEW and MANY are the ports of the echo server, of which each load takes one, and
   OTHER is that of one more server. It prints how many calls of each kind were answered in a second, or the median time
   of one, in the median of the rounds, and the ratios. The maps are lab/hosts.byname, of ROWS names hostNNNNNN, and
   lab/hosts.byaddr. It ends with status 1 where a reply isn't one with YP_TRUE.

   serve row NUMBER PORT MILLISECONDS ROWS: only the load of this row of the table, from 0, at one server. It prints the
   name of the row, how many calls were answered in a second, or the median time of one, and how many calls there were.

   serve idle PORT CONNECTIONS: opens so many connections, with a call of MATCH on each, and prints a line. When it
   reads a line it opens as many more, and so on. */

#define _GNU_SOURCE
#include <arpa/inet.h>
#include <errno.h>
#include <netinet/in.h>
#include <netinet/tcp.h>
#include <pthread.h>
#include <stdint.h>
#include <stdio.h>
#include <stdlib.h>
#include <string.h>
#include <sys/epoll.h>
#include <sys/resource.h>
#include <sys/socket.h>
#include <sys/time.h>
#include <time.h>
#include <unistd.h>

enum { BLOCK = 65536, PIECE = 8 * (4 + 8192), CALL_MAX = 256, CONNECTIONS_MAX = 64, PROCEDURE = 20, BY = 60 };
enum { MATCH = 3, ALL = 8, SECONDS = 10, BATCH = 32, DATAGRAM_MAX = 512, ROUNDS_MAX = 99 };

static const uint32_t LAST = 0x80000000;

static void need(int is_so, const char *what) {
    if (is_so)
        return;
    fprintf(stderr, "serve: %s: %s\n", what, strerror(errno));
    exit(1);
}

static uint32_t number(const unsigned char *at) {
    return (uint32_t)at[0] << 24 | at[1] << 16 | at[2] << 8 | at[3];
}

static void set_number(unsigned char *at, uint32_t value) {
    at[0] = value >> 24, at[1] = value >> 16, at[2] = value >> 8, at[3] = value;
}

static struct sockaddr_in address(uint16_t port) {
    return (struct sockaddr_in){
        .sin_family = AF_INET, .sin_port = htons(port), .sin_addr.s_addr = htonl(INADDR_LOOPBACK)};
}

/* The echo servers. */

struct record {
    unsigned char *at;
    size_t len;
};

static struct record match_reply, small_reply, large_reply;

/* The listeners for few and for many callers. */
static int few, many;

static struct record content(const char *path) {
    FILE *file = fopen(path, "r");
    need(file != NULL && fseek(file, 0, SEEK_END) == 0, path);
    struct record record = {NULL, ftell(file)};
    record.at = malloc(record.len);
    need(record.at != NULL && fseek(file, 0, SEEK_SET) == 0, path);
    need(fread(record.at, 1, record.len, file) == record.len, path);
    fclose(file);
    return record;
}

/* The reply to a call whose message is this. */
static const struct record *reply_to(const unsigned char *message) {
    if (number(message + PROCEDURE) == MATCH)
        return &match_reply;
    return message[BY] == 'a' ? &large_reply : &small_reply;
}

static int write_all(int to, const unsigned char *at, size_t len) {
    while (len > 0) {
        ssize_t some = send(to, at, len < PIECE ? len : PIECE, MSG_NOSIGNAL);
        if (some <= 0)
            return 0;
        at += some, len -= some;
    }
    return 1;
}

/* Answers what came, and gives how many bytes of it whole calls took, or -1. A short reply waits for those to the next
   calls. Of a longer one the first piece is copied, to have the call's number. */
static ssize_t answer(int connection, const unsigned char *block, size_t have) {
    static __thread unsigned char out[PIECE];
    size_t at = 0, len, held = 0;
    for (; have - at >= 4 && have - at - 4 >= (len = number(block + at) & ~LAST); at += 4 + len) {
        const unsigned char *message = block + at + 4;
        const struct record *reply = reply_to(message);
        size_t some = reply->len < PIECE ? reply->len : PIECE;
        if (held + some > PIECE && !write_all(connection, out, held))
            return -1;
        held = held + some > PIECE ? 0 : held;
        memcpy(out + held, reply->at, some);
        memcpy(out + held + 4, message, 4);
        held += some;
        if (some < reply->len) {
            if (!write_all(connection, out, held) || !write_all(connection, reply->at + some, reply->len - some))
                return -1;
            held = 0;
        }
    }
    return held == 0 || write_all(connection, out, held) ? (ssize_t)at : -1;
}

static void serve_connection(int connection) {
    static __thread unsigned char block[BLOCK];
    size_t have = 0;
    ssize_t got, done;
    while ((got = read(connection, block + have, BLOCK - have)) > 0) {
        have += got;
        if ((done = answer(connection, block, have)) < 0)
            return;
        have -= done;
        memmove(block, block + done, have);
    }
}

static void set_nodelay(int connection) {
    int on = 1;
    setsockopt(connection, IPPROTO_TCP, TCP_NODELAY, &on, sizeof on);
}

static void *serve_one_by_one(void *nothing) {
    int connection;
    while ((connection = accept(few, NULL, NULL)) >= 0) {
        set_nodelay(connection);
        serve_connection(connection);
        close(connection);
    }
    return nothing;
}

/* Serves all connections that it accepts at once. Their callers send whole calls, each after the reply to the last. */
static void *serve_at_once(void *nothing) {
    static __thread unsigned char block[BLOCK];
    int epoll = epoll_create1(0), connection;
    struct epoll_event door = {EPOLLIN | EPOLLEXCLUSIVE, {.fd = many}}, events[BATCH];
    need(epoll >= 0 && epoll_ctl(epoll, EPOLL_CTL_ADD, many, &door) == 0, "epoll");
    for (;;) {
        int count = epoll_wait(epoll, events, BATCH, -1);
        for (int i = 0; i < count; i++) {
            int from = events[i].data.fd;
            if (from == many) {
                if ((connection = accept(from, NULL, NULL)) < 0)
                    continue;
                set_nodelay(connection);
                struct epoll_event event = {EPOLLIN, {.fd = connection}};
                epoll_ctl(epoll, EPOLL_CTL_ADD, connection, &event);
                /* the next caller is for another thread */
                epoll_ctl(epoll, EPOLL_CTL_DEL, many, NULL);
                epoll_ctl(epoll, EPOLL_CTL_ADD, many, &door);
            } else {
                ssize_t got = read(from, block, BLOCK);
                if (got <= 0 || answer(from, block, got) != got)
                    close(from);
            }
        }
    }
    return nothing;
}

static void *serve_datagrams(void *given) {
    int inbox = (intptr_t)given;
    unsigned char call[DATAGRAM_MAX], reply[DATAGRAM_MAX];
    struct sockaddr_in from;
    socklen_t len = sizeof from;
    while (recvfrom(inbox, call, sizeof call, 0, (struct sockaddr *)&from, &len) >= 0) {
        memcpy(reply, match_reply.at + 4, match_reply.len - 4);
        memcpy(reply, call, 4);
        sendto(inbox, reply, match_reply.len - 4, 0, (struct sockaddr *)&from, len);
    }
    return NULL;
}

/* Takes and sends datagrams many at a time. */
static void *serve_batches(void *given) {
    int inbox = (intptr_t)given;
    static __thread unsigned char calls[BATCH][DATAGRAM_MAX], replies[BATCH][DATAGRAM_MAX];
    struct sockaddr_in from[BATCH];
    struct iovec in[BATCH], out[BATCH];
    struct mmsghdr came[BATCH], goes[BATCH];
    for (int i = 0; i < BATCH; i++) {
        in[i] = (struct iovec){calls[i], DATAGRAM_MAX};
        out[i] = (struct iovec){replies[i], match_reply.len - 4};
        memcpy(replies[i], match_reply.at + 4, match_reply.len - 4);
    }
    for (;;) {
        for (int i = 0; i < BATCH; i++) {
            came[i].msg_hdr = (struct msghdr){&from[i], sizeof from[i], &in[i], 1, NULL, 0, 0};
            goes[i].msg_hdr = (struct msghdr){&from[i], sizeof from[i], &out[i], 1, NULL, 0, 0};
        }
        int count = recvmmsg(inbox, came, BATCH, MSG_WAITFORONE, NULL);
        for (int i = 0; i < count; i++)
            memcpy(replies[i], calls[i], 4);
        for (int sent = 0, some = 1; sent < count && some > 0; sent += some)
            some = sendmmsg(inbox, goes + sent, count - sent, 0);
    }
    return NULL;
}

/* A socket at a port of this machine, or at any that is free. Others of this program may share it. */
static int opened(int type, uint16_t port) {
    int on = 1, opened = socket(AF_INET, type, 0);
    struct sockaddr_in own = address(port);
    need(opened >= 0, "socket");
    setsockopt(opened, SOL_SOCKET, SO_REUSEPORT, &on, sizeof on);
    need(bind(opened, (struct sockaddr *)&own, sizeof own) == 0, "bind");
    return opened;
}

/* The port at which a listener was opened. */
static uint16_t listening(int listener) {
    struct sockaddr_in own;
    socklen_t len = sizeof own;
    need(listen(listener, 4096) == 0 && getsockname(listener, (struct sockaddr *)&own, &len) == 0, "listen");
    return ntohs(own.sin_port);
}

static void begin(void *(*work)(void *), int with) {
    pthread_t thread;
    need(pthread_create(&thread, NULL, work, (void *)(intptr_t)with) == 0, "thread");
}

/* As many descriptors as can be had. */
static void widen(void) {
    struct rlimit limit;
    getrlimit(RLIMIT_NOFILE, &limit);
    limit.rlim_cur = limit.rlim_max;
    setrlimit(RLIMIT_NOFILE, &limit);
}

static int echo(int threads, char **paths) {
    match_reply = content(paths[0]), small_reply = content(paths[1]), large_reply = content(paths[2]);
    widen();
    few = opened(SOCK_STREAM, 0), many = opened(SOCK_STREAM | SOCK_NONBLOCK, 0);
    uint16_t few_port = listening(few), many_port = listening(many);
    begin(serve_datagrams, opened(SOCK_DGRAM, few_port));
    for (int i = 0; i < threads; i++) {
        begin(serve_one_by_one, 0);
        begin(serve_at_once, 0);
        begin(serve_batches, opened(SOCK_DGRAM, many_port));
    }
    printf("%d %d\n", few_port, many_port);
    fclose(stdout);
    pause();
    return 0;
}

/* The load. */

enum kind { STREAM, UNDER_WAY, DATAGRAM, WHOLE_SMALL, WHOLE_LARGE, CONNECT, BESIDE_IDLE };

struct row {
    const char *name;
    enum kind kind;
    int connections;
    int idle;               /* how many more are open, or how many calls are under way on each */
    int is_many;            /* the port of the echo server for many callers */
    double goal, other_goal; /* for the ratio to the echo server, and to the other one */
};

struct job {
    const struct row *row;
    uint16_t port;
    pthread_barrier_t *barrier;
    const double *until;
    uint32_t first;
    long calls;
    double *times;
    double ended;
};

enum { TIMES_MAX = 1 << 20 };

static int rows;

static size_t put_text(unsigned char *at, const char *text) {
    size_t len = strlen(text), padded = (len + 3) / 4 * 4;
    memset(at, 0, 4 + padded);
    set_number(at, len);
    memcpy(at + 4, text, len);
    return 4 + padded;
}

/* Spells a call as a record, and gives its length. */
static size_t spell(unsigned char *record, uint32_t xid, int procedure, const char *map, const char *key) {
    const uint32_t words[] = {xid, 0, 2, 100004, 2, procedure, 0, 0, 0, 0};
    size_t len = 4;
    for (size_t i = 0; i < sizeof words / sizeof *words; i++, len += 4)
        set_number(record + len, words[i]);
    len += put_text(record + len, "lab");
    len += put_text(record + len, map);
    if (key != NULL)
        len += put_text(record + len, key);
    set_number(record, (len - 4) | LAST);
    return len;
}

static size_t spell_match(unsigned char *record, uint32_t call) {
    char key[16];
    snprintf(key, sizeof key, "host%06u", (unsigned)((uint64_t)call * 6131 % rows));
    return spell(record, call, MATCH, "hosts.byname", key);
}

static int dial(uint16_t port, int type) {
    struct sockaddr_in to = address(port);
    struct timeval limit = {SECONDS, 0};
    int connection = socket(AF_INET, type, 0);
    need(connection >= 0 && connect(connection, (struct sockaddr *)&to, sizeof to) == 0, "connect");
    setsockopt(connection, SOL_SOCKET, SO_RCVTIMEO, &limit, sizeof limit);
    if (type == SOCK_STREAM)
        set_nodelay(connection);
    return connection;
}

/* The message begins with the number of the call, an accepted reply of success, and YP_TRUE; of ALL also with TRUE. */
static void need_found(const unsigned char *message, uint32_t xid, int is_all) {
    need(number(message) == xid && number(message + 4) == 1 && number(message + 20) == 0, "a refusal");
    need(number(message + 24) == 1 && (!is_all || number(message + 28) == 1), "a status that isn't YP_TRUE");
}

/* Reads one reply, and gives the bytes of its record. */
static size_t read_reply(int connection, uint32_t xid, int is_all) {
    static __thread unsigned char block[4 * BLOCK];
    size_t have = 0, whole = 0, next = 0; /* next: where the next fragment begins in all bytes */
    int is_last = 0;
    while (!is_last || whole + have < next) {
        ssize_t got = read(connection, block + have, sizeof block - have);
        need(got > 0, "read");
        if (whole + have < 36 && whole + have + got >= 36)
            need_found(block + 4, xid, is_all);
        have += got;
        while (!is_last && next + 4 <= whole + have) {
            uint32_t head = number(block + (next - whole));
            is_last = (head & LAST) != 0;
            next += 4 + (head & ~LAST);
        }
        /* What is behind the last whole word of a head is kept. */
        size_t used = next < whole + have ? next - whole : have;
        if (whole + have >= 36) {
            memmove(block, block + used, have - used);
            whole += used, have -= used;
        }
    }
    return next;
}

static void call_over(int connection, uint32_t xid, enum kind kind) {
    unsigned char record[CALL_MAX];
    int is_all = kind == WHOLE_SMALL || kind == WHOLE_LARGE;
    size_t len = is_all ? spell(record, xid, ALL, kind == WHOLE_SMALL ? "hosts.byname" : "hosts.byaddr", NULL)
                        : spell_match(record, xid);
    need(write(connection, record, len) == (ssize_t)len, "write");
    read_reply(connection, xid, is_all);
}

static double now(void) {
    struct timespec time;
    clock_gettime(CLOCK_MONOTONIC, &time);
    return time.tv_sec + time.tv_nsec / 1e9;
}

static int is_open(const struct job *job) {
    return now() < *job->until;
}

/* Has so many calls under way, and sends as many more as replies have come, at once. Each reply has one fragment. */
static void keep_under_way(struct job *job, int connection, int calls) {
    unsigned char records[CONNECTIONS_MAX * CALL_MAX], block[BLOCK];
    uint32_t sent = job->first, heard = job->first;
    size_t have = 0;
    int wanted = calls;
    while (wanted > 0 || heard < sent) {
        size_t len = 0, at = 0;
        for (; wanted > 0; wanted--)
            len += spell_match(records + len, ++sent);
        need(len == 0 || write(connection, records, len) == (ssize_t)len, "write");
        ssize_t got = read(connection, block + have, sizeof block - have);
        need(got > 0, "read");
        have += got;
        while (have - at >= 4 && have - at - 4 >= (number(block + at) & ~LAST)) {
            need_found(block + at + 4, ++heard, 0);
            at += 4 + (number(block + at) & ~LAST);
            wanted++;
        }
        have -= at;
        memmove(block, block + at, have);
        if (!is_open(job))
            wanted = 0;
    }
    job->calls = heard - job->first;
}

static void call_in_datagrams(struct job *job) {
    unsigned char record[CALL_MAX], reply[BLOCK];
    int client = dial(job->port, SOCK_DGRAM);
    for (uint32_t xid = job->first; is_open(job); xid++, job->calls++) {
        size_t len = spell_match(record, xid) - 4;
        need(send(client, record + 4, len, 0) == (ssize_t)len, "send");
        need(recv(client, reply, sizeof reply, 0) > 28, "receive");
        need_found(reply, xid, 0);
    }
    close(client);
}

static void call_one_by_one(struct job *job, int connection) {
    enum kind kind = job->row->kind;
    for (uint32_t xid = job->first; is_open(job); xid++) {
        double began = now();
        int used = kind == CONNECT ? dial(job->port, SOCK_STREAM) : connection;
        call_over(used, xid, kind);
        if (kind == CONNECT)
            close(used);
        if (job->times != NULL && job->calls < TIMES_MAX)
            job->times[job->calls] = now() - began;
        job->calls++;
    }
}

static void *run_job(void *given) {
    struct job *job = given;
    enum kind kind = job->row->kind;
    int connection = kind == CONNECT || kind == DATAGRAM ? -1 : dial(job->port, SOCK_STREAM);
    if (connection >= 0)
        call_over(connection, job->first, STREAM); /* the server has taken the connection */
    pthread_barrier_wait(job->barrier);
    pthread_barrier_wait(job->barrier);
    if (kind == DATAGRAM)
        call_in_datagrams(job);
    else if (kind == UNDER_WAY)
        keep_under_way(job, connection, job->row->idle);
    else
        call_one_by_one(job, connection);
    job->ended = now();
    if (connection >= 0)
        close(connection);
    return NULL;
}

/* Opens connections with a call of MATCH on each. */
static void open_idle(uint16_t port, int *connections, int count) {
    for (int i = 0; i < count; i++) {
        connections[i] = dial(port, SOCK_STREAM);
        call_over(connections[i], i + 1, STREAM);
    }
}

static int compare(const void *one, const void *other) {
    double a = *(const double *)one, b = *(const double *)other;
    return (a > b) - (a < b);
}

static double median(double *values, long count) {
    qsort(values, count, sizeof *values, compare);
    return count % 2 == 1 ? values[count / 2] : (values[count / 2 - 1] + values[count / 2]) / 2;
}

/* How many calls of a row are answered in a second, or the median time of one in microseconds. Adds their number. */
static double measured(const struct row *row, uint16_t port, int milliseconds, long *all_calls) {
    static double times[TIMES_MAX];
    pthread_t threads[CONNECTIONS_MAX];
    struct job jobs[CONNECTIONS_MAX];
    pthread_barrier_t barrier;
    double until;
    int is_timed = row->kind == BESIDE_IDLE, idle_count = is_timed ? row->idle : 0;
    int *idle = malloc((idle_count + 1) * sizeof *idle);
    open_idle(port, idle, idle_count);
    pthread_barrier_init(&barrier, NULL, row->connections + 1);
    for (int i = 0; i < row->connections; i++) {
        jobs[i] = (struct job){row, port, &barrier, &until, i << 24, 0, is_timed && i == 0 ? times : NULL, 0};
        need(pthread_create(&threads[i], NULL, run_job, &jobs[i]) == 0, "thread");
    }
    pthread_barrier_wait(&barrier);
    double began = now(), ended = began;
    until = began + milliseconds / 1e3;
    pthread_barrier_wait(&barrier);
    long calls = 0;
    for (int i = 0; i < row->connections; i++) {
        pthread_join(threads[i], NULL);
        ended = jobs[i].ended > ended ? jobs[i].ended : ended;
        calls += jobs[i].calls;
    }
    *all_calls += calls + idle_count;
    pthread_barrier_destroy(&barrier);
    for (int i = 0; i < idle_count; i++)
        close(idle[i]);
    free(idle);
    if (idle_count > 0)
        usleep(100000); /* the server has let them go */
    if (is_timed)
        return 1e6 * median(times, calls < TIMES_MAX ? calls : TIMES_MAX);
    return calls / (ended - began);
}

static const struct row table[] = {
    {"MATCH, 1 connection", STREAM, 1, 0, 0, 0.85, 0},
    {"MATCH, 4 connections", STREAM, 4, 0, 0, 0.7, 0},
    {"MATCH, 8 connections", STREAM, 8, 0, 0, 0, 0},
    {"MATCH, 64 connections", STREAM, 64, 0, 1, 0.8, 4},
    {"MATCH, 4 connections, 16 calls under way", UNDER_WAY, 4, 16, 0, 0.5, 0},
    {"MATCH beside 1000 idle: median us", BESIDE_IDLE, 1, 1000, 1, 1.2, 0},
    {"MATCH beside 5000 idle: median us", BESIDE_IDLE, 1, 5000, 1, 1.2, 0},
    {"MATCH by datagram, 1 caller", DATAGRAM, 1, 0, 0, 0.85, 0},
    {"MATCH by datagram, 4 callers", DATAGRAM, 4, 0, 1, 0.85, 4},
    {"MATCH by datagram, 16 callers", DATAGRAM, 16, 0, 1, 0.85, 4},
    {"ALL of the smaller map, 1 connection", WHOLE_SMALL, 1, 0, 0, 0.3, 0},
    {"ALL of the smaller map, 4 connections", WHOLE_SMALL, 4, 0, 0, 0.3, 0},
    {"ALL of the larger map, 1 connection", WHOLE_LARGE, 1, 0, 0, 0.3, 0},
    {"ALL of the larger map, 4 connections", WHOLE_LARGE, 4, 0, 0, 0.3, 0},
    {"connect, MATCH and close", CONNECT, 1, 0, 0, 0.95, 1.3},
};

enum { ROWS = sizeof table / sizeof *table, YP = 0, ECHO = 1, OTHER = 2 };

static void print_ratio(double ratio, double goal) {
    printf(" %6.2f", ratio);
    if (goal > 0)
        printf(" %5.2f", goal);
    else
        printf(" %5s", "");
}

static int load(int rounds, int milliseconds, const uint16_t *ports, int is_other_there) {
    long calls = 0;
    widen();
    printf("%-41s %8s %8s %8s %6s %5s %6s %5s\n", "calls in a second", "yp", "echo", "ypserv", "/echo", "goal", "/yps.",
           "goal");
    for (const struct row *row = table; row < table + ROWS; row++) {
        const uint16_t called[] = {ports[0], ports[1 + row->is_many], ports[3]};
        int count = is_other_there && row->kind != BESIDE_IDLE ? 3 : 2;
        double found[3][ROUNDS_MAX], medians[3] = {0, 0, 0};
        for (int round = 0; round < rounds; round++)
            for (int i = 0; i < count; i++)
                found[i][round] = measured(row, called[i], milliseconds, &calls);
        for (int i = 0; i < count; i++)
            medians[i] = median(found[i], rounds);
        printf("%-41s %8.0f %8.0f", row->name, medians[YP], medians[ECHO]);
        if (count == 3)
            printf(" %8.0f", medians[OTHER]);
        else
            printf(" %8s", "-");
        print_ratio(medians[YP] / medians[ECHO], row->goal);
        if (count == 3)
            print_ratio(medians[YP] / medians[OTHER], row->other_goal);
        printf("\n");
        fflush(stdout);
    }
    return 0;
}

/* Connections that ask once, in lots. */
static int idle(uint16_t port, int count) {
    char line[16];
    widen();
    int *connections = malloc(count * sizeof *connections);
    do {
        open_idle(port, connections, count);
        printf("open\n");
        fflush(stdout);
    } while (fgets(line, sizeof line, stdin) != NULL);
    return 0;
}

int main(int argc, char **argv) {
    const char *half = argc > 1 ? argv[1] : "";
    if (argc == 6 && strcmp(half, "echo") == 0)
        return echo(atoi(argv[2]), argv + 3);
    if ((argc == 8 || argc == 9) && strcmp(half, "load") == 0) {
        uint16_t ports[4] = {0, 0, 0, 0};
        for (int i = 5; i < argc; i++)
            ports[i - 5] = atoi(argv[i]);
        rows = atoi(argv[4]);
        return load(atoi(argv[2]), atoi(argv[3]), ports, argc == 9);
    }
    if (argc == 6 && strcmp(half, "row") == 0 && atoi(argv[2]) < ROWS) {
        const struct row *row = &table[atoi(argv[2])];
        long calls = 0;
        widen();
        rows = atoi(argv[5]);
        double found = measured(row, atoi(argv[3]), atoi(argv[4]), &calls);
        printf("%s\t%.0f\t%ld\n", row->name, found, calls);
        return 0;
    }
    rows = 1;
    if (argc == 4 && strcmp(half, "idle") == 0)
        return idle(atoi(argv[2]), atoi(argv[3]));
    return 2;
}
