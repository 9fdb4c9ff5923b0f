/* Explains a trace from standard input: cc judge.c $(pkg-config --cflags --libs zorthewin) -o judge */
#include <stdio.h>
#include <stdlib.h>
#include <zorthewin.h>

/* All bytes of a stream and how many there are; null where there is no memory for them. */
static uint8_t *read_all(FILE *from, size_t *len) {
    size_t room = 4096, got;
    uint8_t *bytes = malloc(room);
    *len = 0;
    while (bytes && (got = fread(bytes + *len, 1, room - *len, from)) > 0) {
        *len += got;
        if (*len == room)
            bytes = realloc(bytes, room *= 2);
    }
    return bytes;
}

int main(void) {
    size_t len, room = 4096, length = 0;
    uint8_t *trace = read_all(stdin, &len), *text = malloc(room);
    if (!trace || !text)
        return ZW_NO_MEMORY;
    uint32_t status = zw_explain(trace, len, ZW_TEXT, text, room, &length);
    if (length > room) { /* now it is known how much room the text needs */
        free(text);
        room = length;
        if (!(text = malloc(room)))
            return ZW_NO_MEMORY;
        status = zw_explain(trace, len, ZW_TEXT, text, room, &length);
    }
    fwrite(text, 1, length, stdout);
    free(text);
    free(trace);
    return (int)status;
}
