/* A build host in C: tries the heap of the second file against the assumptions of the first, and prints the reply line. Ends with 0
 * where neither file is refused, with 1 where one is, and with 2 and no reply where one can't be opened or read to its end. */
#include <stdio.h>

#include "tabeval.h"

#define SPACE 60001 /* a byte more than a file may have, so that a longer one is refused */

/* One of the three numbers, whatever the machine's byte order. */
static unsigned number(const uint8_t *reply, enum tabeval_field field)
{
    const uint8_t *low = reply + 4 * field;
    return (unsigned)low[0] | (unsigned)low[1] << 8 | (unsigned)low[2] << 16 | (unsigned)low[3] << 24;
}

/* How many bytes of the file there are, at most SPACE; -1 where they can't be read: a reply to the bytes before the failure would be
 * taken for a reply to the file. */
static long read_file(const char *name, uint8_t *space)
{
    FILE *file = fopen(name, "rb");
    if (file == NULL) {
        perror(name);
        return -1;
    }
    long length = (long)fread(space, 1, SPACE, file);
    if (ferror(file)) {
        perror(name);
        length = -1;
    }
    fclose(file);
    return length;
}

int main(int argc, char **argv)
{
    static uint8_t file[SPACE];
    static uint8_t heap[SPACE];
    uint8_t reply[TABEVAL_REPLY_BYTES];
    if (argc != 3) {
        fputs("evaluator: a checker file and a heap file are needed\n", stderr);
        return 2;
    }
    long file_len = read_file(argv[1], file);
    long heap_len = read_file(argv[2], heap);
    if (file_len < 0 || heap_len < 0)
        return 2;
    int refused = tabeval(file, (size_t)file_len, heap, (size_t)heap_len, reply, sizeof reply) != TABEVAL_NONE;

    printf("%u,%u,%u\n", number(reply, TABEVAL_REFUSAL), number(reply, TABEVAL_FILE), number(reply, TABEVAL_LINE));
    return refused ? 1 : 0;
}
