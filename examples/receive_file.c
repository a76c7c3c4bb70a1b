/* Loads a file over the serial lead. The client asks for it with OSFILE; the host sends it as a load inside its reply, and the user presses Escape while
 * it comes. The bytes arrive a few at a time and go through tube_run, whose notes say what to do with them. Then the same bytes are read once more as a
 * recording, all at once, and give the same reply and the same file. */
#include "tube.h"
#include <stdio.h>
#include <stdlib.h>
#include <string.h>

static const uint8_t file[] = "Dear reader,\rthe byte \x9B is doubled on the lead\rand one byte here.\r";
enum { FILE_LENGTH = sizeof file - 1, ADDRESS = 0x1900, PIECE = 7 };

static uint8_t none[2]; /* what an empty buffer points to */

/* ---- The host ---- */

static uint8_t wire[512]; /* what it sends */
static size_t sent;

static void send_raw(const uint8_t *bytes, size_t length) {
    memcpy(wire + sent, bytes, length);
    sent += length;
}

static void send_data(const uint8_t *bytes, size_t length) {
    for (size_t i = 0; i < length; i++) {
        send_raw(bytes + i, 1);
        if (bytes[i] == TUBE_ESCAPE_BYTE)
            send_raw(bytes + i, 1);
    }
}

/* Answers a request to load the file. A host may send the load before any byte of its reply; this one does it behind the first. */
static void serve(const uint8_t *request, size_t length) {
    static const uint8_t load[6] = {TUBE_ESCAPE_BYTE, 0xE0, 0, 0, ADDRESS >> 8, ADDRESS & 0xFF}, end[2] = {TUBE_ESCAPE_BYTE, 0xB0};
    static const uint8_t escape_on[2] = {TUBE_ESCAPE_BYTE, 0x81};
    /* The control block from its last byte to its first: attributes, length, execution address, load address. */
    static const uint8_t block[TUBE_FILE_BLOCK] = {0, 0, 0, 0, 0, 0, 0, FILE_LENGTH, 0, 0, ADDRESS >> 8, ADDRESS & 0xFF, 0, 0, ADDRESS >> 8, ADDRESS & 0xFF};
    uint8_t body[TUBE_BODY], reply[2 * TUBE_REPLY_LENGTH];
    TubeFed fed = tube_feed(tube_reader(TUBE_SERIAL), request, length, body);
    TubeAsked asked = tube_read_request(fed.read.code, body, fed.read.length);
    printf("host: OSFILE A=&%02X \"%.*s\"\n", asked.a, (int)asked.text_length, (const char *)body + asked.text_start);
    TubeWritten w = tube_write_reply(TUBE_SERIAL, asked.call, 0, TUBE_REPLY_A_BLOCK, 0, 0, 0, 1, block, sizeof block, none, 0, reply, sizeof reply);
    send_raw(reply, 1); /* A = 1: it is a file */
    send_raw(load, sizeof load);
    send_data(file, 30);
    send_raw(escape_on, sizeof escape_on);
    send_data(file + 30, FILE_LENGTH - 30);
    send_raw(end, sizeof end);
    send_raw(reply + 1, w.length - 1);
}

/* ---- The client ---- */

typedef struct {
    uint8_t bytes[0x10000];
    uint16_t next[TUBE_TRANSFERS]; /* where each open transfer goes on, the innermost last */
    int open;
} Memory;

/* Does what the notes say. The bytes of loads and control blocks stand in `data`, one behind the other. */
static void do_notes(Memory *memory, const uint8_t *notes, size_t noted, const uint8_t *data) {
    for (; noted > 0; noted--, notes += TUBE_NOTE)
        switch (notes[0]) {
        case TUBE_TOLD_LOAD:
        case TUBE_TOLD_SAVE: /* the bytes of a save would go to the host from here on */
            printf("  a %s at &%02X%02X%02X%02X\n", notes[0] == TUBE_TOLD_LOAD ? "load" : "save", notes[1], notes[2], notes[3], notes[4]);
            memory->next[memory->open++] = (uint16_t)(notes[3] << 8 | notes[4]);
            break;
        case TUBE_TOLD_DATA:
            printf("  %u bytes to &%04X\n", notes[1], memory->next[memory->open - 1]);
            for (int i = 0; i < notes[1]; i++)
                memory->bytes[memory->next[memory->open - 1]++] = *data++;
            break;
        case TUBE_TOLD_END: printf("  its end at &%04X\n", memory->next[--memory->open]); break;
        case TUBE_TOLD_ESCAPE: printf("  Escape %s\n", notes[1] ? "on" : "off"); break;
        case TUBE_TOLD_BLOCK: data += notes[1]; break; /* not used here, but its bytes stand before the next ones */
        }
}

static void print_reply(const uint8_t *reply, size_t length) {
    TubeGiven given = tube_read_reply(TUBE_OSFILE, 0, reply, length);
    printf("client: reply A=%u, block", given.a);
    for (size_t i = 0; i < given.block_length; i++)
        printf(" %02X", reply[given.block_start + i]);
    putchar('\n');
}

/* Asks for the file and takes the answer in pieces; whether it came. */
static int load_file(Memory *memory) {
    static const uint8_t block[TUBE_FILE_BLOCK] = {0, 0, 0, 0, 0, 0, 0, 0, 0, 0, 0, 0, 0, 0, ADDRESS >> 8, ADDRESS & 0xFF};
    uint8_t request[2 + 2 * TUBE_BODY], reply[TUBE_REPLY_LENGTH], own[TUBE_OWN_LENGTH];
    uint8_t room[PIECE * TUBE_NOTE], data[PIECE + TUBE_OWN_LENGTH]; /* enough for a piece, whatever stands in it */
    TubeWritten w = tube_write_request(TUBE_SERIAL, 0, TUBE_OSFILE, 0, 0, 0xFF, 0, block, sizeof block, (const uint8_t *)"LETTER", 6, request, sizeof request);
    TubeBegun begun = tube_begin(tube_link(), TUBE_OSFILE, 0);
    if (w.answer != TUBE_DONE || begun.kind != TUBE_BEGUN)
        return 0;
    serve(request, w.length);
    TubeRan ran = {.told.link = begun.link};
    for (size_t at = 0; at < sent && ran.told.kind == TUBE_TOLD_MORE; at += ran.used) {
        size_t piece = sent - at < PIECE ? sent - at : PIECE;
        ran = tube_run(ran.told.link, wire + at, piece, reply, own, room, sizeof room, data, sizeof data);
        do_notes(memory, room, ran.noted, data);
    }
    if (ran.told.kind == TUBE_TOLD_REPLY)
        print_reply(reply, ran.told.length);
    return ran.told.kind == TUBE_TOLD_REPLY; /* else an error, a restart or a refusal */
}

/* The same bytes as a recording: measured with empty buffers, then read into buffers that just fit. */
static int load_recording(Memory *memory) {
    uint8_t reply[TUBE_REPLY_LENGTH];
    TubeRecorded need = tube_read_recorded(TUBE_OSFILE, 0, wire, sent, none, 0, none + 1, 0, reply);
    printf("recording: %zu bytes give %zu notes and %zu bytes of data\n", sent, need.noted, need.stored);
    uint8_t *room = malloc(need.noted * TUBE_NOTE + 1), *data = malloc(need.stored + 1); /* one more, so that neither is null for being empty */
    if (room == NULL || data == NULL)
        return 0;
    TubeRecorded r = tube_read_recorded(TUBE_OSFILE, 0, wire, sent, room, need.noted * TUBE_NOTE, data, need.stored, reply);
    do_notes(memory, room, r.noted, data);
    if (r.kind == TUBE_TOLD_REPLY)
        print_reply(reply, r.length);
    free(room);
    free(data);
    return r.kind == TUBE_TOLD_REPLY;
}

int main(void) {
    static Memory live, again;
    if (!load_file(&live) || !load_recording(&again))
        return 1;
    for (const uint8_t *at = live.bytes + ADDRESS; at < live.bytes + ADDRESS + FILE_LENGTH; at++)
        if (*at == '\r')
            putchar('\n');
        else
            printf(*at < 0x7F ? "%c" : "<%02X>", *at);
    int right = memcmp(live.bytes + ADDRESS, file, FILE_LENGTH) == 0, same = memcmp(live.bytes, again.bytes, sizeof live.bytes) == 0;
    printf("%s the host's file, %s both times\n", right ? "it is" : "it is not", same ? "the same" : "not the same");
    return !right || !same;
}
