/* sample START N: makes N rows of numbers, sorts them, looks each of them up, and prints what `yp sample` prints. */

#include <stdint.h>
#include <stdio.h>
#include <stdlib.h>
#include <string.h>

struct row {
    char key[9];
    unsigned char len;
    char value[8];
};

static int by_key(const void *a, const void *b) {
    return memcmp(((const struct row *)a)->key, ((const struct row *)b)->key, 9);
}

static size_t padded(size_t len) {
    return (len + 3) / 4 * 4;
}

int main(int argc, char **argv) {
    if (argc != 3)
        return 2;
    uint32_t x = strtoul(argv[1], NULL, 10);
    size_t count = strtoul(argv[2], NULL, 10);
    struct row *rows = malloc((count + 1) * sizeof *rows);
    if (rows == NULL)
        return 7;
    for (size_t i = 0; i < count; i++) {
        char text[16];
        x = x * 1664525 + 1013904223;
        snprintf(text, sizeof text, "k%08x", x);
        memcpy(rows[i].key, text, 9);
        rows[i].len = snprintf(text, sizeof text, "v%zu", i);
        memcpy(rows[i].value, text, sizeof rows[i].value);
    }
    qsort(rows, count, sizeof *rows, by_key);
    /* the body: three numbers and the master `sample`, then the rows; the reply of ALL: a head, the rows, and the end */
    size_t body = 16 + padded(6), all = 24 + 4, matched = 0;
    for (size_t i = 0; i < count; i++) {
        size_t row = 8 + padded(9) + padded(rows[i].len);
        const struct row *found = bsearch(&rows[i], rows, count, sizeof *rows, by_key);
        body += row;
        all += 8 + row;
        if (found != NULL && found->len == rows[i].len && memcmp(found->value, rows[i].value, found->len) == 0)
            matched++;
    }
    printf("rows %zu body %zu all %zu matched %zu\n", count, body, all, matched);
    free(rows);
    return 0;
}
