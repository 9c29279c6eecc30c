/* Answers each call of 80 bytes by one read and one write: always the same reply, with the call's xid. */

#include <string.h>
#include <unistd.h>

static unsigned char reply[] =
    "\x80\0\0\x30" "\0\0\0\0" "\0\0\0\1" "\0\0\0\0" "\0\0\0\0" "\0\0\0\0" "\0\0\0\0"
    "\0\0\0\1" "\0\0\0\x0e" "10.0.0.1 alpha\0";

enum { CALL = 80, REPLY = sizeof reply };

_Static_assert(REPLY == 52, "the reply has 52 bytes");

int main(void) {
    unsigned char call[CALL];
    ssize_t count;
    while ((count = read(0, call, CALL)) == CALL) {
        memcpy(reply + 4, call + 4, 4);
        if (write(1, reply, REPLY) != REPLY)
            return 4;
    }
    return count == 0 ? 0 : 5;
}
