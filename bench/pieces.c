/* pieces send FILE COUNT: writes the bytes of a file from memory so often, in writes of eight fragments, as
   `yp session` does.

   pieces read: reads standard input to its end in blocks of 65536 bytes, and prints how many bytes it had. */

#include <stdio.h>
#include <stdlib.h>
#include <string.h>
#include <unistd.h>

enum { BLOCK = 65536, PIECE = 8 * (4 + 8192) };

static int send_pieces(const char *path, int count) {
    FILE *file = fopen(path, "r");
    if (file == NULL || fseek(file, 0, SEEK_END) != 0)
        return 10;
    size_t len = ftell(file);
    char *bytes = malloc(len);
    if (bytes == NULL || fseek(file, 0, SEEK_SET) != 0 || fread(bytes, 1, len, file) != len)
        return 10;
    for (int i = 0; i < count; i++) {
        for (size_t at = 0, some; at < len; at += some) {
            some = len - at < PIECE ? len - at : PIECE;
            if (write(1, bytes + at, some) != (ssize_t)some)
                return 4;
        }
    }
    return 0;
}

static int read_all(void) {
    static char block[BLOCK];
    size_t len = 0;
    ssize_t got;
    while ((got = read(0, block, BLOCK)) > 0)
        len += got;
    printf("%zu bytes\n", len);
    return got == 0 ? 0 : 3;
}

int main(int argc, char **argv) {
    if (argc == 4 && strcmp(argv[1], "send") == 0)
        return send_pieces(argv[2], atoi(argv[3]));
    if (argc == 2 && strcmp(argv[1], "read") == 0)
        return read_all();
    return 2;
}
