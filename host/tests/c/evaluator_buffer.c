/* A buffer of 11 bytes: the call says so and leaves it alone. */
#include <stdio.h>
#include <string.h>

#include "tabeval.h"

int main(void)
{
    const uint8_t nothing[1] = {0};
    uint8_t reply[11];
    uint8_t filled[11];
    memset(reply, 0xA5, sizeof reply);
    memset(filled, 0xA5, sizeof filled);

    uint32_t returned = tabeval(nothing, 0, nothing, 0, reply, sizeof reply);
    int untouched = memcmp(reply, filled, sizeof reply) == 0;
    puts(returned == TABCHECK_BUFFER_LENGTH && untouched ? "left alone" : "wrong");
    return 0;
}
