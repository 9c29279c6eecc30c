/* session TEXT: answers calls of MATCH and ALL for hosts.byname in lab, made of a hosts text with one name a line, as
   `yp session` does: with reads of 65536 bytes, with one write for each reply of up to eight fragments, and from an
   array sorted by name. A call that it doesn't know ends it with status 5. */

#include <stdint.h>
#include <stdio.h>
#include <stdlib.h>
#include <string.h>
#include <unistd.h>

enum { BLOCK = 65536, CALL_MAX = 1024, FRAGMENT = 8192, HELD = 8, MATCH = 3, ALL = 8, NOKEY = -3 };

static const uint32_t LAST = 0x80000000;

struct bytes {
    const char *at;
    size_t len;
};

struct row {
    struct bytes key, value;
};

static struct row *rows;
static size_t count;

static void need(int is_so, int status) {
    if (!is_so)
        exit(status);
}

static int by_key(const void *a, const void *b) {
    const struct bytes *x = &((const struct row *)a)->key, *y = &((const struct row *)b)->key;
    int order = memcmp(x->at, y->at, x->len < y->len ? x->len : y->len);
    return order != 0 ? order : (x->len > y->len) - (x->len < y->len);
}

/* The row of a line: the value is what is before a comment, without blanks at its end, and the key its second word. */
static struct row row_of(const char *line, const char *end) {
    const char *mark = memchr(line, '#', end - line), *key = line;
    if (mark != NULL)
        end = mark;
    while (end > line && (end[-1] == ' ' || end[-1] == '\t'))
        end--;
    while (key < end && *key != ' ' && *key != '\t')
        key++;
    while (key < end && (*key == ' ' || *key == '\t'))
        key++;
    return (struct row){{key, end - key}, {line, end - line}};
}

static void load(const char *path) {
    FILE *file = fopen(path, "r");
    need(file != NULL && fseek(file, 0, SEEK_END) == 0, 10);
    size_t len = ftell(file), lines = 0;
    char *text = malloc(len + 1);
    need(text != NULL && fseek(file, 0, SEEK_SET) == 0 && fread(text, 1, len, file) == len, 10);
    fclose(file);
    for (size_t i = 0; i < len; i++)
        lines += text[i] == '\n';
    rows = malloc((lines + 1) * sizeof *rows);
    need(rows != NULL, 7);
    for (const char *line = text, *feed; (feed = memchr(line, '\n', text + len - line)) != NULL; line = feed + 1)
        rows[count++] = row_of(line, feed);
    qsort(rows, count, sizeof *rows, by_key);
}

static unsigned char block[BLOCK];
static size_t block_at, block_len;

/* Takes the next bytes of the input, and says whether they were there; 0 at its end. */
static int take(unsigned char *to, size_t len) {
    while (len > 0) {
        if (block_at == block_len) {
            ssize_t got = read(0, block, BLOCK);
            need(got >= 0, 3);
            if (got == 0)
                return 0;
            block_at = 0, block_len = got;
        }
        size_t some = block_len - block_at < len ? block_len - block_at : len;
        memcpy(to, block + block_at, some);
        block_at += some, to += some, len -= some;
    }
    return 1;
}

static uint32_t number(const unsigned char *at) {
    return (uint32_t)at[0] << 24 | at[1] << 16 | at[2] << 8 | at[3];
}

static void set_number(unsigned char *at, uint32_t value) {
    at[0] = value >> 24, at[1] = value >> 16, at[2] = value >> 8, at[3] = value;
}

/* Up to eight fragments, each behind the room of its head. */
static unsigned char held[HELD * (4 + FRAGMENT)];
static size_t whole, part; /* the whole fragments, and the bytes of the one behind them */

static unsigned char *fragment(size_t number) {
    return held + number * (4 + FRAGMENT);
}

static void write_held(size_t len) {
    need(write(1, held, len) == (ssize_t)len, 4);
}

static void put(const void *from, size_t len) {
    while (len > 0) {
        if (part == FRAGMENT) {
            set_number(fragment(whole), FRAGMENT);
            whole++, part = 0;
            if (whole == HELD) {
                write_held(sizeof held);
                whole = 0;
            }
        }
        size_t some = FRAGMENT - part < len ? FRAGMENT - part : len;
        memcpy(fragment(whole) + 4 + part, from, some);
        part += some, from = (const char *)from + some, len -= some;
    }
}

static void end_record(void) {
    set_number(fragment(whole), part | LAST);
    write_held(whole * (4 + FRAGMENT) + 4 + part);
    whole = part = 0;
}

static void put_number(uint32_t value) {
    unsigned char bytes[4];
    set_number(bytes, value);
    put(bytes, 4);
}

static void put_bytes(struct bytes bytes) {
    put_number(bytes.len);
    put(bytes.at, bytes.len);
    put("\0\0\0", -bytes.len & 3);
}

static void answer_match(struct bytes key) {
    const struct row wanted = {key, {NULL, 0}};
    const struct row *row = bsearch(&wanted, rows, count, sizeof *rows, by_key);
    put_number(row != NULL ? 1 : NOKEY);
    put_bytes(row != NULL ? row->value : (struct bytes){"", 0});
}

static void answer_all(void) {
    for (const struct row *row = rows; row < rows + count; row++) {
        put_number(1);
        put_number(1);
        put_bytes(row->value);
        put_bytes(row->key);
    }
    put_number(0);
}

/* Numbers and bytes are read in place from a call. */
static unsigned char call[CALL_MAX];
static size_t call_at, call_len;

static uint32_t next_number(void) {
    need(call_at + 4 <= call_len, 5);
    call_at += 4;
    return number(call + call_at - 4);
}

static struct bytes next_bytes(void) {
    size_t len = next_number(), at = call_at;
    need(len <= call_len - at, 5);
    call_at += (len + 3) / 4 * 4;
    return (struct bytes){(const char *)call + at, len};
}

static int is_text(struct bytes bytes, const char *text) {
    return bytes.len == strlen(text) && memcmp(bytes.at, text, bytes.len) == 0;
}

static void answer(void) {
    uint32_t xid = next_number();
    need(next_number() == 0 && next_number() == 2 && next_number() == 100004 && next_number() == 2, 5);
    uint32_t procedure = next_number();
    for (int i = 0; i < 2; i++) { /* the credential and the verifier */
        need(next_number() <= 1, 5);
        next_bytes();
    }
    need(is_text(next_bytes(), "lab") && is_text(next_bytes(), "hosts.byname"), 5);
    put_number(xid);
    put_number(1);
    for (int i = 0; i < 4; i++) /* accepted, a verifier of two words, and success */
        put_number(0);
    need(procedure == MATCH || procedure == ALL, 5);
    if (procedure == MATCH)
        answer_match(next_bytes());
    else
        answer_all();
    end_record();
}

int main(int argc, char **argv) {
    if (argc != 2)
        return 2;
    load(argv[1]);
    unsigned char head[4];
    while (take(head, 4)) {
        call_len = number(head) & ~LAST, call_at = 0;
        need((number(head) & LAST) != 0 && call_len <= CALL_MAX && take(call, call_len), 5);
        answer();
    }
    return 0;
}
