/* A build host in C: checks the file on standard input, and prints the reply line. Ends with 0 after a yes, with 1 after a no, and
 * with 2 and no reply where standard input can't be read to its end. */
#include <stdio.h>

#include "tabcheck.h"

/* One of the seven numbers, whatever the machine's byte order. */
static unsigned number(const uint8_t *reply, enum tabcheck_field field)
{
    const uint8_t *low = reply + 4 * field;
    return (unsigned)low[0] | (unsigned)low[1] << 8 | (unsigned)low[2] << 16 | (unsigned)low[3] << 24;
}

int main(void)
{
    static uint8_t file[60001]; /* a byte more than a file may have, so that a longer one is refused */
    uint8_t reply[TABCHECK_REPLY_BYTES];
    size_t length = fread(file, 1, sizeof file, stdin);
    if (ferror(stdin)) { /* a yes to the bytes before the failure would be taken for a yes to the file */
        perror("caller: standard input");
        return 2;
    }
    int accepted = tabcheck(file, length, reply, sizeof reply) == TABCHECK_YES;

    printf("%s,%u,%u,", accepted ? "yes" : "no", number(reply, TABCHECK_REFUSAL), number(reply, TABCHECK_LINE));
    printf("%u,%u,", number(reply, TABCHECK_T_LINES), number(reply, TABCHECK_ASSUMED));
    printf("%u,%u,", number(reply, TABCHECK_S_LINES), number(reply, TABCHECK_CLOSINGS));
    printf("%u\n", number(reply, TABCHECK_PLACE));
    return accepted ? 0 : 1;
}
