/* Buffers of other lengths, 24 bytes of older hosts too: the call says so and leaves them alone. */
#include <stdio.h>
#include <string.h>

#include "tabcheck.h"

/* The first length bytes are the buffer. */
static int left_alone(size_t length)
{
    const uint8_t file[1] = {0};
    uint8_t reply[64];
    uint8_t filled[64];
    memset(reply, 0xA5, sizeof reply);
    memset(filled, 0xA5, sizeof filled);
    return tabcheck(file, 0, reply, length) == TABCHECK_BUFFER_LENGTH && memcmp(reply, filled, sizeof reply) == 0;
}

int main(void)
{
    static const size_t lengths[] = {0, 1, 12, 23, 24, 25, 27, 29, 32, 56};
    for (size_t i = 0; i < sizeof lengths / sizeof lengths[0]; i++) {
        if (!left_alone(lengths[i])) {
            printf("wrong with %u bytes\n", (unsigned)lengths[i]);
            return 1;
        }
    }
    puts("left alone");
    return 0;
}
