/* Reads a recorded serial stream, what a client sent to its host, from standard input, and prints each request, character and refusal in
 * words, one a line. After a refusal the reader is made fresh and goes on behind the refused byte. */
#include "tube.h"
#include <stdio.h>

static const char *meaning(uint8_t number) {
    switch (number) {
    case TUBE_UNKNOWN_CODE: return "a mark that starts no request";
    case TUBE_MARK_INSIDE: return "a mark inside a request";
    case TUBE_STRING_LONG: return "a string over 255 bytes";
    case TUBE_BAD_FIELD: return "a field that breaks its rule";
    default: return "the reader is stopped";
    }
}

static void print_byte(uint8_t byte) {
    if (byte >= 0x20 && byte < 0x7F)
        putchar(byte);
    else
        printf("<%02X>", byte);
}

static void print_block(const uint8_t *bytes, size_t length) {
    printf(length == 0 ? ", no block" : ", block");
    for (size_t i = 0; i < length; i++)
        printf(" %02X", bytes[i]);
}

static void print_string(const uint8_t *bytes, size_t length) {
    printf(", \"");
    for (size_t i = 0; i < length; i++)
        print_byte(bytes[i]);
    putchar('"');
}

static void print_request(const TubeRead *read, const uint8_t *body) {
    static const char *const styles[4] = {"Acorn", "Unix", "DOS", "reserved"};
    TubeAsked asked = tube_read_request(read->code, body, read->length);
    const uint8_t *block = body + asked.block_start, *text = body + asked.text_start;
    printf("request, %s names: ", styles[read->style]);
    switch ((TubeCall)asked.call) {
    case TUBE_OSRDCH: printf("OSRDCHIO"); break;
    case TUBE_OSCLI: printf("OSCLI"); print_string(text, asked.text_length); break;
    case TUBE_OSBYTE_LOW: printf("OSBYTE A=&%02X X=&%02X", asked.a, asked.x); break;
    case TUBE_OSBYTE_HIGH: printf("OSBYTE A=&%02X X=&%02X Y=&%02X", asked.a, asked.x, asked.y); break;
    case TUBE_OSWORD:
        printf("OSWORD A=&%02X, %u bytes wanted", asked.a, asked.out_length);
        print_block(block, asked.block_length);
        break;
    case TUBE_OSWORD0: printf("OSWORD 0"); print_block(block, asked.block_length); break;
    case TUBE_OSARGS: printf("OSARGS A=&%02X Y=&%02X", asked.a, asked.y); print_block(block, asked.block_length); break;
    case TUBE_OSBGET: printf("OSBGET Y=&%02X", asked.y); break;
    case TUBE_OSBPUT: printf("OSBPUT A=&%02X Y=&%02X", asked.a, asked.y); break;
    case TUBE_OSFIND_CLOSE: printf("OSFIND A=&00 Y=&%02X", asked.y); break;
    case TUBE_OSFIND_OPEN: printf("OSFIND A=&%02X", asked.a); print_string(text, asked.text_length); break;
    case TUBE_OSFILE:
        printf("OSFILE A=&%02X", asked.a);
        print_string(text, asked.text_length);
        print_block(block, asked.block_length);
        break;
    case TUBE_OSGBPB: printf("OSGBPB A=&%02X", asked.a); print_block(block, asked.block_length); break;
    }
    putchar('\n');
}

static void print_read(const TubeRead *read, const uint8_t *body, size_t at) {
    switch (read->kind) {
    case TUBE_CHARACTER:
        printf("character ");
        print_byte(read->value);
        putchar('\n');
        break;
    case TUBE_REQUEST:
        print_request(read, body);
        break;
    case TUBE_REFUSED:
        printf("refused with %u at byte %zu: %s\n", read->value, at, meaning(read->value));
        break;
    }
}

int main(void) {
    uint8_t raw[4096], body[TUBE_BODY] = {0};
    TubeReader reader = tube_reader(TUBE_SERIAL);
    size_t length, before = 0; /* bytes of earlier slices */
    while ((length = fread(raw, 1, sizeof raw, stdin)) > 0) {
        for (size_t at = 0; at < length;) {
            TubeFed fed = tube_feed(reader, raw + at, length - at, body);
            at += fed.used;
            print_read(&fed.read, body, before + at);
            reader = fed.read.kind == TUBE_REFUSED ? tube_reader(TUBE_SERIAL) : fed.read.reader;
        }
        before += length;
    }
    if (reader.phase == TUBE_INSIDE || reader.escape != 0)
        printf("the stream ends inside a request\n");
    return 0;
}
