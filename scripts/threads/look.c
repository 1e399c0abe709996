/* Prints what the image in a file means, as `imem inspect` does, without its lock. usage: look IMAGE */
#include <stdio.h>
#include <stdlib.h>

#include "luntrebis.h"

int main(int count, char **words) {
    enum { ROOM = 1 << 22 };
    uint8_t *bytes = calloc(ROOM, 1);
    char *text = calloc(ROOM, 1);
    size_t length, written = 0;
    FILE *file = count == 2 ? fopen(words[1], "rb") : NULL;
    if (!file || !bytes || !text) return 2;
    length = fread(bytes, 1, ROOM, file);
    if (lt_inspect(bytes, length, text, ROOM, &written) || written > ROOM) return 1;
    fwrite(text, 1, written, stdout);
    fclose(file);
    free(bytes);
    free(text);
    return 0;
}
