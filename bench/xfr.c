/* Both ends of a transfer, for a look at what `yp xfr` costs.

   xfr serve COUNT     listens on a free port of 127.0.0.1, prints it, and on each of COUNT connections answers four
                       calls of one fragment in turn, by the files reply.1 to reply.4, from memory
   xfr fetch PORT      does what `yp xfr s1 newer lab/hosts.byname` does in an empty folder: it calls ORDER, MASTER, ALL
                       and ORDER there, keeps the rows in plain arrays, sorts them, and stores them with the same writes
                       and syncs */

#include <arpa/inet.h>
#include <fcntl.h>
#include <stdint.h>
#include <stdio.h>
#include <stdlib.h>
#include <string.h>
#include <sys/socket.h>
#include <sys/stat.h>
#include <unistd.h>

enum { BLOCK = 65536, REPLY_MAX = 1 << 25, ROWS_MAX = 262144, CALL = 68, CALLS = 4 };

static const uint32_t LAST = 0x80000000;

static unsigned char call[] =
    "\x80\0\0\x40" "\0\0\0\1" "\0\0\0\0" "\0\0\0\2" "\0\1\x86\xa4" "\0\0\0\2" "\0\0\0\x08"
    "\0\0\0\0" "\0\0\0\0" "\0\0\0\0" "\0\0\0\0" "\0\0\0\3lab\0" "\0\0\0\x0chosts.byname";

_Static_assert(sizeof call == CALL + 1, "the call has 64 bytes behind its head");

static void need(int is_so) {
    if (!is_so) {
        perror("xfr");
        exit(1);
    }
}

static uint32_t number(const unsigned char *at) {
    return (uint32_t)at[0] << 24 | at[1] << 16 | at[2] << 8 | at[3];
}

static struct sockaddr_in local(int port) {
    struct sockaddr_in addr = {.sin_family = AF_INET, .sin_port = htons(port)};
    addr.sin_addr.s_addr = htonl(INADDR_LOOPBACK);
    return addr;
}

static void write_all(int file, const unsigned char *from, size_t len) {
    while (len > 0) {
        ssize_t put = write(file, from, len);
        need(put > 0);
        from += put, len -= put;
    }
}

/* ---- the source */

static void serve(int count) {
    static unsigned char *replies[CALLS];
    static size_t lens[CALLS];
    for (int i = 0; i < CALLS; i++) {
        char path[16];
        snprintf(path, sizeof path, "reply.%d", i + 1);
        FILE *file = fopen(path, "r");
        need(file != NULL && fseek(file, 0, SEEK_END) == 0);
        lens[i] = ftell(file);
        replies[i] = malloc(lens[i]);
        need(replies[i] != NULL && fseek(file, 0, SEEK_SET) == 0);
        need(fread(replies[i], 1, lens[i], file) == lens[i]);
        fclose(file);
    }
    struct sockaddr_in addr = local(0);
    socklen_t addr_len = sizeof addr;
    int listener = socket(AF_INET, SOCK_STREAM, 0);
    need(listener >= 0 && bind(listener, (struct sockaddr *)&addr, addr_len) == 0 && listen(listener, 8) == 0);
    need(getsockname(listener, (struct sockaddr *)&addr, &addr_len) == 0);
    printf("%d\n", ntohs(addr.sin_port));
    fclose(stdout);
    for (int i = 0; i < count; i++) {
        unsigned char came[CALL];
        int peer = accept(listener, NULL, NULL);
        need(peer >= 0);
        for (int j = 0; j < CALLS; j++) {
            need(recv(peer, came, CALL, MSG_WAITALL) == CALL);
            write_all(peer, replies[j], lens[j]);
        }
        /* The client ends first, so that nothing it reads is lost. */
        while (read(peer, came, CALL) > 0)
            ;
        close(peer);
    }
}

/* ---- the reply to a call */

static int server;
static unsigned char block[BLOCK];
static size_t block_at, block_len;

/* Takes bytes of the stream. */
static void take(unsigned char *to, size_t len) {
    while (len > 0) {
        if (block_at == block_len) {
            ssize_t got = read(server, block, BLOCK);
            need(got > 0);
            block_at = 0, block_len = got;
        }
        size_t some = block_len - block_at < len ? block_len - block_at : len;
        memcpy(to, block + block_at, some);
        block_at += some, to += some, len -= some;
    }
}

/* Makes a call, and takes the record of its reply. */
static size_t ask(int xid, int procedure, unsigned char *reply) {
    size_t len = 0;
    call[7] = xid;
    call[27] = procedure;
    write_all(server, call, CALL);
    for (uint32_t head = 0; !(head & LAST); len += head & ~LAST) {
        unsigned char bytes[4];
        take(bytes, 4);
        head = number(bytes);
        need(len + (head & ~LAST) <= REPLY_MAX);
        take(reply + len, head & ~LAST);
    }
    need(len >= 24 && number(reply) == (uint32_t)xid);
    return len;
}

/* ---- the rows */

struct row {
    const unsigned char *key, *value;
    size_t key_len, value_len;
};

static struct row rows[ROWS_MAX];
static size_t count;

static size_t padded(size_t len) {
    return (len + 3) / 4 * 4;
}

static void keep_rows(const unsigned char *at) {
    for (; number(at) == 1; count++) {
        struct row *row = &rows[count];
        need(count < ROWS_MAX && number(at + 4) == 1);
        row->value_len = number(at + 8), row->value = at + 12;
        at = row->value + padded(row->value_len);
        row->key_len = number(at), row->key = at + 4;
        at = row->key + padded(row->key_len);
    }
}

static int by_key(const void *a, const void *b) {
    const struct row *x = a, *y = b;
    size_t len = x->key_len < y->key_len ? x->key_len : y->key_len;
    int order = memcmp(x->key, y->key, len);
    return order != 0 ? order : (x->key_len > y->key_len) - (x->key_len < y->key_len);
}

/* ---- the file */

static unsigned char *put_number(unsigned char *to, uint64_t value, int len) {
    for (int i = 0; i < len; i++)
        to[i] = value >> 8 * (len - 1 - i);
    return to + len;
}

static unsigned char *put_bytes(unsigned char *to, const unsigned char *from, size_t len) {
    to = put_number(to, len, 4);
    memcpy(to, from, len);
    memset(to + len, 0, padded(len) - len);
    return to + padded(len);
}

/* The stored body: the format, the order, the master, the count, and each row. */
static unsigned char *body_of(uint32_t order, const unsigned char *master, size_t master_len, size_t *len) {
    *len = 16 + padded(master_len);
    for (size_t i = 0; i < count; i++)
        *len += 8 + padded(rows[i].key_len) + padded(rows[i].value_len);
    unsigned char *body = malloc(*len), *to = body;
    need(body != NULL);
    to = put_number(to, 1, 4);
    to = put_number(to, order, 4);
    to = put_bytes(to, master, master_len);
    to = put_number(to, count, 4);
    for (size_t i = 0; i < count; i++) {
        to = put_bytes(to, rows[i].key, rows[i].key_len);
        to = put_bytes(to, rows[i].value, rows[i].value_len);
    }
    return body;
}

static void put(int file, const void *from, size_t len, off_t at) {
    need(pwrite(file, from, len, at) == (ssize_t)len);
}

static void sync_folder(const char *path) {
    int folder = open(path, O_RDONLY);
    need(folder >= 0 && fsync(folder) == 0 && close(folder) == 0);
}

/* Makes the file, with its folders, and stores the body at generation 1. */
static void store(const unsigned char *body, size_t len) {
    unsigned char zeros[63] = {0}, cell[31] = {0};
    put_number(put_number(put_number(cell + 7, 1, 8), 64, 8), len, 8);
    need(mkdir("ypdata", 0700) == 0 && mkdir("ypdata/lab", 0700) == 0);
    int file = open("ypdata/lab/hosts.byname", O_RDWR | O_CREAT | O_EXCL, 0600);
    need(file >= 0);
    put(file, zeros, 63, 0);
    need(fsync(file) == 0);
    sync_folder("ypdata/lab");
    sync_folder("ypdata");
    sync_folder(".");
    put(file, zeros, 1, 63);
    need(fsync(file) == 0);
    put(file, body, len, 64);
    put(file, cell, 31, 1);
    need(fsync(file) == 0);
    put(file, "\1", 1, 0);
    need(fsync(file) == 0);
}

static void fetch(int port) {
    static unsigned char small[BLOCK], master[64];
    unsigned char *all = malloc(REPLY_MAX);
    struct sockaddr_in addr = local(port);
    server = socket(AF_INET, SOCK_STREAM, 0);
    need(all != NULL && server >= 0 && connect(server, (struct sockaddr *)&addr, sizeof addr) == 0);
    ask(1, 10, small);
    uint32_t order = number(small + 28);
    ask(2, 9, small);
    size_t master_len = number(small + 28);
    need(master_len <= sizeof master);
    memcpy(master, small + 32, master_len);
    ask(3, 8, all);
    keep_rows(all + 24);
    ask(4, 10, small);
    need(number(small + 28) == order);
    close(server);
    qsort(rows, count, sizeof *rows, by_key);
    size_t len;
    const unsigned char *body = body_of(order, master, master_len, &len);
    store(body, len);
    printf("lab/hosts.byname order %u generation 1\n", order);
}

int main(int argc, char **argv) {
    if (argc == 3 && strcmp(argv[1], "serve") == 0)
        serve(atoi(argv[2]));
    else if (argc == 3 && strcmp(argv[1], "fetch") == 0)
        fetch(atoi(argv[2]));
    else
        return 2;
    return 0;
}
