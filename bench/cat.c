/* Both ends of a call of ALL, for a look at what `yp cat` costs.

   cat serve REPLY COUNT   listens on a free port of 127.0.0.1, prints it, and sends the file REPLY from memory to each
                           of COUNT connections, once a call of one fragment has come
   cat ask PORT            sends a call of ALL for hosts.byname in lab, and prints the values of the reply, a line each,
                           in their order and without a look at anything else */

#include <arpa/inet.h>
#include <stdint.h>
#include <stdio.h>
#include <stdlib.h>
#include <string.h>
#include <sys/socket.h>
#include <unistd.h>

enum { BLOCK = 65536, VALUE_MAX = 65536 };

static const uint32_t LAST = 0x80000000;

static unsigned char call[] =
    "\x80\0\0\x40" "\0\0\0\1" "\0\0\0\0" "\0\0\0\2" "\0\1\x86\xa4" "\0\0\0\2" "\0\0\0\x08"
    "\0\0\0\0" "\0\0\0\0" "\0\0\0\0" "\0\0\0\0" "\0\0\0\3lab\0" "\0\0\0\x0chosts.byname";

enum { CALL = sizeof call - 1 };

_Static_assert(CALL == 68, "the call has 64 bytes behind its head");

static void need(int is_so) {
    if (!is_so) {
        perror("cat");
        exit(1);
    }
}

static uint32_t number(const unsigned char *at) {
    return (uint32_t)at[0] << 24 | at[1] << 16 | at[2] << 8 | at[3];
}

static struct sockaddr_in local(int port) {
    struct sockaddr_in addr = {.sin_family = AF_INET, .sin_port = htons(port)};
    addr.sin_addr.s_addr = htonl(INADDR_LOOPBACK);
    return addr;
}

static void write_all(int file, const unsigned char *from, size_t len) {
    while (len > 0) {
        ssize_t put = write(file, from, len);
        need(put > 0);
        from += put, len -= put;
    }
}

static void serve(const char *path, int count) {
    FILE *file = fopen(path, "r");
    need(file != NULL && fseek(file, 0, SEEK_END) == 0);
    size_t len = ftell(file);
    unsigned char *reply = malloc(len);
    need(reply != NULL && fseek(file, 0, SEEK_SET) == 0 && fread(reply, 1, len, file) == len);
    struct sockaddr_in addr = local(0);
    socklen_t addr_len = sizeof addr;
    int listener = socket(AF_INET, SOCK_STREAM, 0);
    need(listener >= 0 && bind(listener, (struct sockaddr *)&addr, addr_len) == 0 && listen(listener, 8) == 0);
    need(getsockname(listener, (struct sockaddr *)&addr, &addr_len) == 0);
    printf("%d\n", ntohs(addr.sin_port));
    fclose(stdout);
    for (int i = 0; i < count; i++) {
        unsigned char head[4], came[BLOCK];
        int peer = accept(listener, NULL, NULL);
        need(peer >= 0 && recv(peer, head, 4, MSG_WAITALL) == 4);
        size_t called = number(head) & 0x7fffffff;
        need(called <= BLOCK && recv(peer, came, called, MSG_WAITALL) == (ssize_t)called);
        write_all(peer, reply, len);
        /* The client ends first, so that nothing it reads is lost. */
        while (read(peer, came, BLOCK) > 0)
            ;
        close(peer);
    }
}

static int server;
static unsigned char block[BLOCK];
static size_t block_at, block_len;

/* Takes bytes of the stream. */
static void take(unsigned char *to, size_t len) {
    while (len > 0) {
        if (block_at == block_len) {
            ssize_t got = read(server, block, BLOCK);
            need(got > 0);
            block_at = 0, block_len = got;
        }
        size_t some = block_len - block_at < len ? block_len - block_at : len;
        memcpy(to, block + block_at, some);
        block_at += some, to += some, len -= some;
    }
}

static size_t fragment_left;

/* Takes bytes of the record, across its fragments. */
static void take_record(unsigned char *to, size_t len) {
    while (len > 0) {
        if (fragment_left == 0) {
            unsigned char head[4];
            take(head, 4);
            fragment_left = number(head) & ~LAST;
        }
        size_t some = fragment_left < len ? fragment_left : len;
        take(to, some);
        fragment_left -= some, to += some, len -= some;
    }
}

static uint32_t take_number(void) {
    unsigned char bytes[4];
    take_record(bytes, 4);
    return number(bytes);
}

static unsigned char lines[BLOCK + VALUE_MAX + 4];
static size_t lines_len;

static void ask(int port) {
    struct sockaddr_in addr = local(port);
    unsigned char skipped[VALUE_MAX + 4];
    server = socket(AF_INET, SOCK_STREAM, 0);
    need(server >= 0 && connect(server, (struct sockaddr *)&addr, sizeof addr) == 0);
    write_all(server, call, CALL);
    take_record(skipped, 24); /* the head of the reply */
    while (take_number() == 1) {
        take_number(); /* the status */
        size_t len = take_number();
        need(len <= VALUE_MAX);
        take_record(lines + lines_len, (len + 3) / 4 * 4);
        lines_len += len;
        lines[lines_len++] = '\n';
        len = take_number();
        need(len <= VALUE_MAX);
        take_record(skipped, (len + 3) / 4 * 4); /* the key */
        if (lines_len >= BLOCK) {
            write_all(1, lines, lines_len);
            lines_len = 0;
        }
    }
    write_all(1, lines, lines_len);
}

int main(int argc, char **argv) {
    if (argc == 4 && strcmp(argv[1], "serve") == 0)
        serve(argv[2], atoi(argv[3]));
    else if (argc == 3 && strcmp(argv[1], "ask") == 0)
        ask(atoi(argv[2]));
    else
        return 2;
    return 0;
}
