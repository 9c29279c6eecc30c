/* Does what `yp build m1 lab/hosts.byname` does in an empty folder: reads a hosts text, keeps each line under each name
   of it, the first of equal names alone, in plain arrays sorted by name, and stores them with the same writes and
   syncs. */

#include <fcntl.h>
#include <stdint.h>
#include <stdio.h>
#include <stdlib.h>
#include <string.h>
#include <sys/stat.h>
#include <time.h>
#include <unistd.h>

enum { TEXT_MAX = 1 << 25, ROWS_MAX = 262144, SLOTS = 1 << 19 };

struct row {
    char *key, *value;
    size_t key_len, value_len;
};

static struct row rows[ROWS_MAX];
static uint32_t slots[SLOTS]; /* the number of a row, from 1, by the hash of its key */
static size_t count;

static int is_blank(char c) {
    return c == ' ' || c == '\t';
}

static char *copied(const char *from, size_t len) {
    char *to = malloc(len ? len : 1);
    if (to == NULL)
        exit(7);
    return memcpy(to, from, len);
}

static void push(const char *key, size_t key_len, const char *value, size_t value_len) {
    uint64_t hash = 14695981039346656037u;
    for (size_t i = 0; i < key_len; i++)
        hash = (hash ^ (unsigned char)key[i]) * 1099511628211u;
    size_t at = hash % SLOTS;
    for (; slots[at] != 0; at = (at + 1) % SLOTS) {
        const struct row *row = &rows[slots[at] - 1];
        if (row->key_len == key_len && memcmp(row->key, key, key_len) == 0)
            return;
    }
    if (count == ROWS_MAX)
        exit(17);
    rows[count] = (struct row){copied(key, key_len), copied(value, value_len), key_len, value_len};
    slots[at] = ++count;
}

static void push_line(const char *from, const char *end) {
    const char *mark = memchr(from, '#', end - from);
    if (mark != NULL)
        end = mark;
    while (from < end && is_blank(*from))
        from++;
    while (from < end && is_blank(end[-1]))
        end--;
    int is_name = 0;
    for (const char *word = from; word < end; is_name = 1) {
        const char *after = word;
        while (after < end && !is_blank(*after))
            after++;
        if (is_name)
            push(word, after - word, from, end - from);
        for (word = after; word < end && is_blank(*word); word++)
            ;
    }
}

static int by_key(const void *a, const void *b) {
    const struct row *x = a, *y = b;
    size_t len = x->key_len < y->key_len ? x->key_len : y->key_len;
    int order = memcmp(x->key, y->key, len);
    return order != 0 ? order : (x->key_len > y->key_len) - (x->key_len < y->key_len);
}

static unsigned char *put_number(unsigned char *to, uint64_t number, int len) {
    for (int i = 0; i < len; i++)
        to[i] = number >> 8 * (len - 1 - i);
    return to + len;
}

static size_t padded(size_t len) {
    return (len + 3) / 4 * 4;
}

static unsigned char *put_bytes(unsigned char *to, const char *from, size_t len) {
    to = put_number(to, len, 4);
    memcpy(to, from, len);
    memset(to + len, 0, padded(len) - len);
    return to + padded(len);
}

/* The stored body: the format, the order, the master, the count, and each row. */
static unsigned char *body_of(uint32_t order, size_t *len) {
    *len = 16 + padded(2);
    for (size_t i = 0; i < count; i++)
        *len += 8 + padded(rows[i].key_len) + padded(rows[i].value_len);
    unsigned char *body = malloc(*len), *to = body;
    if (body == NULL)
        exit(7);
    to = put_number(to, 1, 4);
    to = put_number(to, order, 4);
    to = put_bytes(to, "m1", 2);
    to = put_number(to, count, 4);
    for (size_t i = 0; i < count; i++) {
        to = put_bytes(to, rows[i].key, rows[i].key_len);
        to = put_bytes(to, rows[i].value, rows[i].value_len);
    }
    return body;
}

static void need(int is_done) {
    if (!is_done)
        exit(10);
}

static void put(int file, const void *from, size_t len, off_t at) {
    need(pwrite(file, from, len, at) == (ssize_t)len);
}

static void sync_folder(const char *path) {
    int folder = open(path, O_RDONLY);
    need(folder >= 0 && fsync(folder) == 0 && close(folder) == 0);
}

/* Makes the file, with its folders, and stores the body at generation 1. */
static void store(const unsigned char *body, size_t len) {
    unsigned char zeros[63] = {0}, cell[31] = {0};
    put_number(put_number(put_number(cell + 7, 1, 8), 64, 8), len, 8);
    need(mkdir("ypdata", 0700) == 0 && mkdir("ypdata/lab", 0700) == 0);
    int file = open("ypdata/lab/hosts.byname", O_RDWR | O_CREAT | O_EXCL, 0600);
    need(file >= 0);
    put(file, zeros, 63, 0);
    need(fsync(file) == 0);
    sync_folder("ypdata/lab");
    sync_folder("ypdata");
    sync_folder(".");
    put(file, zeros, 1, 63);
    need(fsync(file) == 0);
    put(file, body, len, 64);
    put(file, cell, 31, 1);
    need(fsync(file) == 0);
    put(file, "\1", 1, 0);
    need(fsync(file) == 0);
}

int main(void) {
    char *text = malloc(TEXT_MAX);
    if (text == NULL)
        return 7;
    size_t len = fread(text, 1, TEXT_MAX, stdin);
    for (const char *line = text, *end = text + len; line < end;) {
        const char *feed = memchr(line, '\n', end - line);
        if (feed == NULL)
            feed = end;
        push_line(line, feed);
        line = feed + 1;
    }
    qsort(rows, count, sizeof *rows, by_key);
    uint32_t order = time(NULL);
    size_t body_len;
    const unsigned char *body = body_of(order, &body_len);
    store(body, body_len);
    printf("lab/hosts.byname order %u rows %zu generation 1\n", order, count);
    return 0;
}
