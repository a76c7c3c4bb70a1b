/* Writes examples/recording to standard output: what a client sends in a short session, good requests by the request writer, then bytes that
 * break each rule of the reader. */
#include "tube.h"
#include <stdio.h>
#include <stdlib.h>
#include <string.h>

enum { ACORN = 0, UNIX = 1 };

/* The numbers of a call; what it does not have is not read. */
typedef struct {
    uint8_t x, y, a, out_length;
} Numbers;

static void call(uint8_t style, TubeCall call, Numbers n, const uint8_t *block, size_t block_length, const char *text) {
    uint8_t out[2 + 2 * TUBE_BODY]; /* a mark, and a body whose every byte is doubled */
    TubeWritten w = tube_write_request(TUBE_SERIAL, style, (uint8_t)call, n.x, n.y, n.a, n.out_length, block, block_length, (const uint8_t *)text,
                                       strlen(text), out, sizeof out);
    if (w.answer != TUBE_DONE) {
        fprintf(stderr, "call %d: answer %u\n", call, w.answer);
        exit(1);
    }
    fwrite(out, 1, w.length, stdout);
}

static void raw(const char *bytes, size_t length) {
    fwrite(bytes, 1, length, stdout);
}

int main(void) {
    /* Each block from its last byte to its first. */
    const uint8_t line[5] = {0x7E, 0x20, 0x20, 0x07, 0x00};                             /* highest, lowest, length, buffer */
    const uint8_t pointer[4] = {0x00, 0x00, 0x01, 0x9B};                                /* PTR */
    const uint8_t file[16] = {0, 0, 0, 0, 0, 0, 0, 0, 0, 0, 0x19, 0, 0, 0, 0x19, 0};    /* attributes, length, execution address, load address */
    const uint8_t some[13] = {0, 0, 0x01, 0x00, 0, 0, 0, 0x20, 0, 0, 0x30, 0x00, 0x05}; /* PTR, bytes, address, handle */
    const uint8_t none[1] = {0};

    raw(">\r", 2);
    call(ACORN, TUBE_OSCLI, (Numbers){0}, none, 0, "CAT");
    call(ACORN, TUBE_OSBYTE_LOW, (Numbers){.a = 0x00, .x = 0x01}, none, 0, "");
    call(ACORN, TUBE_OSBYTE_HIGH, (Numbers){.a = 0x87}, none, 0, "");
    call(ACORN, TUBE_OSWORD, (Numbers){.a = 0x01, .out_length = 5}, none, 0, "");
    call(ACORN, TUBE_OSWORD0, (Numbers){0}, line, 5, "");
    call(ACORN, TUBE_OSFIND_OPEN, (Numbers){.a = 0x40}, none, 0, "RESULTS");
    call(ACORN, TUBE_OSBGET, (Numbers){.y = 0x05}, none, 0, "");
    call(ACORN, TUBE_OSBPUT, (Numbers){.y = 0x05, .a = 0x41}, none, 0, "");
    call(ACORN, TUBE_OSARGS, (Numbers){.y = 0x9B, .a = 0x01}, pointer, 4, "");
    call(ACORN, TUBE_OSGBPB, (Numbers){.a = 0x04}, some, 13, "");
    call(ACORN, TUBE_OSFIND_CLOSE, (Numbers){.y = 0x05}, none, 0, "");
    call(UNIX, TUBE_OSFILE, (Numbers){.a = 0xFF}, file, 16, "lists/stock");
    call(ACORN, TUBE_OSRDCH, (Numbers){0}, none, 0, "");
    raw("\x9B\x9B", 2);         /* the escape as a character */
    raw("\x9B\x18", 2);         /* a mark that starts no request */
    raw("\x9B\x04\x9B\x02", 4); /* a mark inside a request */
    raw("\x9B\x04\x00\x80", 4); /* OSBYTE low with A = &80 */
    raw("\x9B\x02", 2);
    for (int i = 0; i < 256; i++)
        raw("x", 1); /* a string of 256 bytes */
    raw("OK", 2);
    raw("\x9B\x0E", 2); /* OSBGET without its handle */
    return 0;
}
