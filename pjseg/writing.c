/* Writes to standard output. */
#include "pjseg.h"
#include <unistd.h>

bool write_out(const uint8_t *at, size_t length, uint64_t *taken) {
    size_t sent = 0;
    while (sent < length) {
        ssize_t now = write(STDOUT_FILENO, at + sent, length - sent);
        if (now <= 0) return false;
        sent += (size_t)now;
        *taken += (uint64_t)now;
    }
    return true;
}
