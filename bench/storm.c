/* storm CLIENTS SECONDS USERS PORT PORT PORT: so many clients, each a thread, begin at moments of their own within so
   many seconds. Each finds a server at these ports of this machine: it asks all three for the domain in datagrams, and
   goes on with the first that answers. It makes 60 look-ups of MATCH in five maps in datagrams, one after the other,
   and somewhere among them one call of ALL of passwd.byname over a connection. A datagram is sent again after each
   second without a reply, at most ten times.

   The maps are made of the texts that storm text KIND USERS EDITION prints, KIND being passwd, group or hosts. Those of
   passwd may meanwhile be made of editions 0 to 9. A reply is wrong that isn't the value of an edition, or that is of an
   earlier edition of its map than an earlier reply to the same client was in datagrams; and one of ALL that hasn't each
   row once, all of one edition. It prints what came of the calls, and ends with status 1 where a reply was wrong or one
   didn't come. */

#include <arpa/inet.h>
#include <errno.h>
#include <netinet/in.h>
#include <poll.h>
#include <pthread.h>
#include <stdint.h>
#include <stdio.h>
#include <stdlib.h>
#include <string.h>
#include <sys/resource.h>
#include <sys/socket.h>
#include <time.h>
#include <unistd.h>

enum { SERVERS = 3, LOOK_UPS = 60, MAPS = 5, CALLS = SERVERS + LOOK_UPS + 1, TRIES = 10, AGAIN = 1000, LIMIT = 20000 };
enum { DOMAIN_NONACK = 2, MATCH = 3, ALL = 8, CALL_MAX = 256, REPLY_MAX = 8192, TEXT_MAX = 128, BLOCK = 65536 };

static const uint32_t LAST = 0x80000000;

static const char *const maps[MAPS] = {"passwd.byname", "passwd.byuid", "group.byname", "hosts.byname", "hosts.byaddr"};

static int users;
static uint16_t ports[SERVERS];
static double began;

static void need(int is_so, const char *what) {
    if (is_so)
        return;
    fprintf(stderr, "storm: %s: %s\n", what, strerror(errno));
    exit(1);
}

static double now(void) {
    struct timespec time;
    clock_gettime(CLOCK_MONOTONIC, &time);
    return time.tv_sec + time.tv_nsec / 1e9;
}

static uint32_t number(const unsigned char *at) {
    return (uint32_t)at[0] << 24 | at[1] << 16 | at[2] << 8 | at[3];
}

static void set_number(unsigned char *at, uint32_t value) {
    at[0] = value >> 24, at[1] = value >> 16, at[2] = value >> 8, at[3] = value;
}

/* The texts. */

/* The line of a user in a text, without the line feed. */
static int line_of(char *line, const char *kind, int user, int edition) {
    if (kind[0] == 'p')
        return snprintf(line, TEXT_MAX, "user%06d:x:%d:%d:%d user %d:/home/user%06d:/bin/sh", user, 10000 + user,
                        1000 + user, edition, user, user);
    if (kind[0] == 'g')
        return snprintf(line, TEXT_MAX, "group%06d:*:%d:user%06d", user, 1000 + user, user);
    return snprintf(line, TEXT_MAX, "10.%d.%d.%d host%06d", user >> 16, user >> 8 & 255, user & 255, user);
}

/* The key of a user in a map. */
static void key_of(char *key, int map, int user) {
    static const char *const forms[MAPS] = {"user%06d", "%d", "group%06d", "host%06d", ""};
    if (map == 4)
        snprintf(key, TEXT_MAX, "10.%d.%d.%d", user >> 16, user >> 8 & 255, user & 255);
    else
        snprintf(key, TEXT_MAX, forms[map], map == 1 ? 10000 + user : user);
}

/* The edition of which a value is that of a user in a map, or -1. */
static int edition_of(const char *value, size_t len, int map, int user) {
    char line[TEXT_MAX];
    int last = map < 2 ? 9 : 0;
    for (int edition = 0; edition <= last; edition++)
        if ((size_t)line_of(line, maps[map], user, edition) == len && memcmp(line, value, len) == 0)
            return edition;
    return -1;
}

static int print_text(const char *kind, int edition) {
    char line[TEXT_MAX];
    for (int user = 0; user < users; user++) {
        line_of(line, kind, user, edition);
        puts(line);
    }
    return 0;
}

/* The clients. */

struct client {
    uint32_t seed;
    double begins;
    int seen[MAPS]; /* the last edition of each map */
    int calls, at_first, wrong, lost;
    double times[CALLS];
};

static uint32_t random_below(struct client *client, uint32_t limit) {
    client->seed = client->seed * 1664525 + 1013904223;
    return (uint64_t)client->seed * limit >> 32;
}

static size_t put_text(unsigned char *at, const char *text) {
    size_t len = strlen(text), padded = (len + 3) / 4 * 4;
    memset(at, 0, 4 + padded);
    set_number(at, len);
    memcpy(at + 4, text, len);
    return 4 + padded;
}

/* Spells a call, and gives its length. */
static size_t spell(unsigned char *message, uint32_t xid, int procedure, const char *map, const char *key) {
    const uint32_t words[] = {xid, 0, 2, 100004, 2, procedure, 0, 0, 0, 0};
    size_t len = 0;
    for (size_t i = 0; i < sizeof words / sizeof *words; i++, len += 4)
        set_number(message + len, words[i]);
    len += put_text(message + len, "lab");
    if (map != NULL)
        len += put_text(message + len, map);
    if (key != NULL)
        len += put_text(message + len, key);
    return len;
}

static struct sockaddr_in address(uint16_t port) {
    return (struct sockaddr_in){
        .sin_family = AF_INET, .sin_port = htons(port), .sin_addr.s_addr = htonl(INADDR_LOOPBACK)};
}

static void count(struct client *client, double time, int tries) {
    client->times[client->calls++] = time;
    client->at_first += tries == 1;
}

/* The reply is an accepted one of success, with YP_TRUE or TRUE. */
static int is_found(const unsigned char *reply, size_t len) {
    return len >= 28 && number(reply + 4) == 1 && number(reply + 8) == 0 && number(reply + 20) == 0 &&
           number(reply + 24) == 1;
}

/* The place of the server that answers first. Each is asked, and each has to answer. */
static int bind_client(struct client *client, int own) {
    unsigned char message[CALL_MAX], reply[REPLY_MAX];
    double sent = now();
    int first = -1, tries = 0, heard = 0;
    for (double next = sent; heard != (1 << SERVERS) - 1 && tries <= TRIES;) {
        if (now() >= next) {
            for (int i = 0; i < SERVERS; i++) {
                struct sockaddr_in to = address(ports[i]);
                size_t len = spell(message, i, DOMAIN_NONACK, NULL, NULL);
                if (!(heard >> i & 1))
                    need(sendto(own, message, len, 0, (struct sockaddr *)&to, sizeof to) == (ssize_t)len, "send");
            }
            tries++, next += AGAIN / 1e3;
        }
        struct pollfd fd = {own, POLLIN, 0};
        double left = next - now();
        if (poll(&fd, 1, left > 0 ? (int)(left * 1e3) + 1 : 0) <= 0)
            continue;
        ssize_t len = recv(own, reply, sizeof reply, 0);
        uint32_t server = len >= 4 ? number(reply) : SERVERS;
        if (server >= SERVERS || (heard >> server & 1))
            continue;
        client->wrong += !is_found(reply, len);
        first = first < 0 ? (int)server : first;
        heard |= 1 << server;
        count(client, now() - sent, tries);
    }
    for (int i = 0; i < SERVERS; i++)
        client->lost += !(heard >> i & 1);
    return first;
}

static void look_up(struct client *client, int own, uint32_t xid) {
    unsigned char message[CALL_MAX], reply[REPLY_MAX];
    char key[TEXT_MAX];
    int map = xid % MAPS, user = random_below(client, users), tries = 0;
    key_of(key, map, user);
    size_t len = spell(message, xid, MATCH, maps[map], key);
    double sent = now();
    for (double next = sent; tries <= TRIES;) {
        if (now() >= next) {
            need(send(own, message, len, 0) == (ssize_t)len, "send");
            tries++, next += AGAIN / 1e3;
        }
        struct pollfd fd = {own, POLLIN, 0};
        double left = next - now();
        if (poll(&fd, 1, left > 0 ? (int)(left * 1e3) + 1 : 0) <= 0)
            continue;
        ssize_t got = recv(own, reply, sizeof reply, 0);
        if (got < 4 || number(reply) != xid)
            continue;
        count(client, now() - sent, tries);
        int edition = -1;
        if (is_found(reply, got) && got >= 32 && number(reply + 28) <= (size_t)got - 32)
            edition = edition_of((char *)reply + 32, number(reply + 28), map, user);
        client->wrong += edition < client->seen[map];
        client->seen[map] = edition > client->seen[map] ? edition : client->seen[map];
        return;
    }
    client->lost++;
}

/* What a connection gives, without the heads of fragments. */
struct stream {
    int from;
    size_t at, have, left; /* left: of the fragment */
    int is_last;
    unsigned char block[BLOCK];
};

static int next_byte(struct stream *stream) {
    if (stream->at == stream->have) {
        ssize_t got = read(stream->from, stream->block, sizeof stream->block);
        if (got <= 0)
            return -1;
        stream->at = 0, stream->have = got;
    }
    return stream->block[stream->at++];
}

/* Reads so many bytes of the record, and answers whether there were as many. */
static int take(struct stream *stream, unsigned char *to, size_t len) {
    for (size_t i = 0; i < len; i++) {
        while (stream->left == 0) {
            uint32_t head = 0;
            int byte = 0;
            for (int j = 0; j < 4 && byte >= 0 && !stream->is_last; j++)
                head = head << 8 | (byte = next_byte(stream));
            if (byte < 0 || stream->is_last)
                return 0;
            stream->is_last = head >> 31;
            stream->left = head & ~LAST;
        }
        int byte = next_byte(stream);
        if (byte < 0)
            return 0;
        to[i] = byte;
        stream->left--;
    }
    return 1;
}

/* Reads a word. At the end it is one that stands nowhere. */
static uint32_t word(struct stream *stream) {
    unsigned char bytes[4];
    return take(stream, bytes, 4) ? number(bytes) : 0xfffffffe;
}

/* Reads bytes with their length, and gives that, or -1. */
static int counted(struct stream *stream, char *to) {
    uint32_t len = word(stream);
    return len < TEXT_MAX - 4 && take(stream, (unsigned char *)to, (len + 3) / 4 * 4) ? (int)len : -1;
}

/* Whether the reply to ALL has each user of one edition once. */
static int is_whole(struct stream *stream, uint32_t xid, unsigned char *had) {
    unsigned char head[24];
    char value[TEXT_MAX], key[TEXT_MAX], wanted[TEXT_MAX];
    int edition = -1, rows = 0;
    if (!take(stream, head, sizeof head) || number(head) != xid || number(head + 20) != 0)
        return 0;
    for (uint32_t more; (more = word(stream)) == 1; rows++) {
        if (word(stream) != 1)
            return 0;
        int value_len = counted(stream, value), key_len = counted(stream, key);
        if (value_len < 0 || key_len != 10)
            return 0;
        key[key_len] = 0;
        int user = atoi(key + 4);
        key_of(wanted, 0, user);
        if (user < 0 || user >= users || had[user] || strcmp(key, wanted) != 0)
            return 0;
        had[user] = 1;
        int its = edition_of(value, value_len, 0, user);
        edition = edition < 0 ? its : edition;
        if (its < 0 || its != edition)
            return 0;
    }
    return rows == users && stream->is_last && stream->left == 0;
}

static void take_all(struct client *client, uint16_t port, uint32_t xid) {
    unsigned char record[CALL_MAX];
    struct sockaddr_in to = address(port);
    struct timeval limit = {LIMIT / 1000, 0};
    struct stream *stream = calloc(1, sizeof *stream);
    unsigned char *had = calloc(users, 1);
    size_t len = spell(record + 4, xid, ALL, "passwd.byname", NULL);
    set_number(record, len | LAST);
    double sent = now();
    stream->from = socket(AF_INET, SOCK_STREAM, 0);
    need(stream->from >= 0, "socket");
    setsockopt(stream->from, SOL_SOCKET, SO_RCVTIMEO, &limit, sizeof limit);
    if (connect(stream->from, (struct sockaddr *)&to, sizeof to) != 0 ||
        write(stream->from, record, 4 + len) != (ssize_t)(4 + len)) {
        client->lost++;
    } else {
        client->wrong += !is_whole(stream, xid, had);
        count(client, now() - sent, 1);
    }
    close(stream->from);
    free(stream);
    free(had);
}

static void *run_client(void *given) {
    struct client *client = given;
    int own = socket(AF_INET, SOCK_DGRAM, 0);
    need(own >= 0, "socket");
    double left = began + client->begins - now();
    if (left > 0)
        usleep(left * 1e6);
    int server = bind_client(client, own);
    if (server >= 0) {
        struct sockaddr_in to = address(ports[server]);
        need(connect(own, (struct sockaddr *)&to, sizeof to) == 0, "connect");
        int whole_at = random_below(client, LOOK_UPS);
        for (int i = 0; i < LOOK_UPS; i++) {
            if (i == whole_at)
                take_all(client, ports[server], SERVERS + LOOK_UPS);
            look_up(client, own, SERVERS + i);
        }
    } else {
        client->lost += LOOK_UPS + 1;
    }
    close(own);
    return NULL;
}

static int compare(const void *one, const void *other) {
    double a = *(const double *)one, b = *(const double *)other;
    return (a > b) - (a < b);
}

static int storm(int clients, int seconds) {
    struct rlimit limit;
    getrlimit(RLIMIT_NOFILE, &limit);
    limit.rlim_cur = limit.rlim_max;
    setrlimit(RLIMIT_NOFILE, &limit);
    struct client *all = calloc(clients, sizeof *all);
    pthread_t *threads = calloc(clients, sizeof *threads);
    double *times = calloc((size_t)clients * CALLS, sizeof *times);
    need(all != NULL && threads != NULL && times != NULL, "memory");
    pthread_attr_t attributes;
    pthread_attr_init(&attributes);
    pthread_attr_setstacksize(&attributes, 1 << 17);
    began = now() + 0.5;
    for (int i = 0; i < clients; i++) {
        all[i].seed = i * 2654435761u + 1;
        all[i].begins = (double)seconds * random_below(&all[i], 1 << 20) / (1 << 20);
        need(pthread_create(&threads[i], &attributes, run_client, &all[i]) == 0, "thread");
    }
    long calls = 0, at_first = 0, wrong = 0, lost = 0;
    for (int i = 0; i < clients; i++) {
        pthread_join(threads[i], NULL);
        memcpy(times + calls, all[i].times, all[i].calls * sizeof *times);
        calls += all[i].calls, at_first += all[i].at_first, wrong += all[i].wrong, lost += all[i].lost;
    }
    double took = now() - began;
    qsort(times, calls, sizeof *times, compare);
    printf("%d clients in %.1f s: calls %ld, answered at the first sending %ld, wrong %ld, without a reply %ld\n",
           clients, took, calls + lost, at_first, wrong, lost);
    if (calls > 0)
        printf("median %.3f ms, 99 of 100 within %.3f ms, longest %.1f ms, and less than 200 is the goal\n",
               1e3 * times[calls / 2], 1e3 * times[calls / 100 * 99], 1e3 * times[calls - 1]);
    return wrong > 0 || lost > 0;
}

int main(int argc, char **argv) {
    if (argc == 5 && strcmp(argv[1], "text") == 0) {
        users = atoi(argv[3]);
        return print_text(argv[2], atoi(argv[4]));
    }
    if (argc != 4 + SERVERS)
        return 2;
    users = atoi(argv[3]);
    for (int i = 0; i < SERVERS; i++)
        ports[i] = atoi(argv[4 + i]);
    return storm(atoi(argv[1]), atoi(argv[2]));
}
