/* A host that serves files and a client that loads them, at the two ends of a serial lead. The client asks with OSFILE; the host sends the file as a load and
 * then its reply, or an error where it has no such file. While the second file goes over, the user presses Escape at the host. The lead is a queue each way
 * with little room, so all goes in pieces: a writer that is lent too short a tail writes nothing, and the host tries again when the client has read some. */
#include "tube.h"
#include <stdio.h>
#include <stdlib.h>
#include <string.h>

static const uint8_t none[1] = {0}; /* what an empty block or text points to */

/* Ends the program at an answer that it has no use for. */
static void expect(int right, const char *what) {
    if (!right) {
        fprintf(stderr, "%s\n", what);
        exit(1);
    }
}

/* OSFILE's block goes over the lead from its last byte to its first: the load address comes last, and each number high byte first. */
enum { ATTRIBUTES = 0, LENGTH = 4, EXECUTION_ADDRESS = 8, LOAD_ADDRESS = 12 };

static unsigned number(const uint8_t at[4]) {
    return (unsigned)at[0] << 24 | (unsigned)at[1] << 16 | (unsigned)at[2] << 8 | at[3];
}

/* ---- The lead ---- */

/* The room of a queue, the bytes of a file that the host sends at a time, and the raw bytes that the client reads at a time. What is written at once must fit
 * into an empty queue; the longest is a piece of a file with every byte doubled. */
enum { ROOM = 24, PIECE = 8, SLICE = 10 };

typedef struct {
    uint8_t bytes[ROOM];
    size_t length;
} Queue;
static Queue to_host, to_client;

/* Puts bytes behind those that wait, as many as there is room for; how many. */
static size_t put(Queue *queue, const uint8_t *bytes, size_t length) {
    size_t left = ROOM - queue->length, some = length < left ? length : left;
    memcpy(queue->bytes + queue->length, bytes, some);
    queue->length += some;
    return some;
}

/* Takes out the first bytes, which were read. */
static void drop(Queue *queue, size_t length) {
    queue->length -= length;
    memmove(queue->bytes, queue->bytes + length, queue->length);
}

static void run_client(void); /* the client reads a slice */

/* ---- The host ---- */

static const uint8_t hello[] = "Hello from the host.\r", codes[] = "One \x9B, three \x9B\x9B\x9B, and the last byte is one too: \x9B";

typedef struct {
    const char *name;
    const uint8_t *bytes, block[TUBE_FILE_BLOCK]; /* the block: attributes, length, execution address, load address */
} File;

static const File files[] = {
    {"HELLO", hello, {0, 0, 0, 0, 0, 0, 0, sizeof hello - 1, 0, 0, 0x19, 0x00, 0, 0, 0x19, 0x00}},
    {"CODES", codes, {0, 0, 0, 8, 0, 0, 0, sizeof codes - 1, 0, 0, 0x9B, 0x00, 0, 0, 0x9B, 0x00}}, /* 8: it is locked */
};

static const File *find(const char *name, size_t length) {
    for (size_t i = 0; i < sizeof files / sizeof files[0]; i++)
        if (strlen(files[i].name) == length && memcmp(files[i].name, name, length) == 0)
            return &files[i];
    return NULL;
}

static TubeReader reader;
static uint8_t body[TUBE_BODY];
static size_t escape_key; /* the user presses Escape when so many bytes of a file are sent; 0: never */

/* Whether what a writer wrote into the tail of the queue is there. Where it did not fit nothing was written, and the client is left to read some. */
static int went(TubeWritten w) {
    expect(w.answer == TUBE_DONE || w.answer == TUBE_BUFFER_SHORT, "the host breaks a rule");
    to_client.length += w.length;
    if (w.answer == TUBE_BUFFER_SHORT)
        run_client();
    return w.answer == TUBE_DONE;
}

static void send_action(uint8_t action, uint8_t first, uint8_t second, uint8_t third, uint8_t fourth, const char *text) {
    while (!went(tube_write_action(action, first, second, third, fourth, none, 0, (const uint8_t *)text, strlen(text),
                                   to_client.bytes + to_client.length, ROOM - to_client.length))) {
    }
}

/* Sends bytes of a reply, which is written already. */
static void send_raw(const uint8_t *bytes, size_t length) {
    for (size_t sent = put(&to_client, bytes, length); sent < length; sent += put(&to_client, bytes + sent, length - sent))
        run_client();
}

/* Where the first data bytes of a written reply end. Nothing may stand between the two bytes of a doubled escape: they are one data byte. */
static size_t behind(const uint8_t *raw, int data_bytes) {
    size_t at = 0;
    for (; data_bytes > 0; data_bytes--)
        at += raw[at] == TUBE_ESCAPE_BYTE ? 2 : 1;
    return at;
}

/* Answers a request. This host knows no call but the load of a file. */
static void serve(TubeAsked asked) {
    const File *file = asked.call == TUBE_OSFILE && asked.a == 0xFF ? find((const char *)body + asked.text_start, asked.text_length) : NULL;
    if (file == NULL) {
        send_action(TUBE_TOLD_ERROR, 0xD6, 0, 0, 0, "Not found");
        return;
    }
    /* OSFILE loads to the address in the client's block where the low byte of the execution address there is 0, else to the file's own. */
    const uint8_t *block = body + asked.block_start, *to = (block[EXECUTION_ADDRESS + 3] == 0 ? block : file->block) + LOAD_ADDRESS;
    const size_t length = number(file->block + LENGTH);
    send_action(TUBE_TOLD_LOAD, to[0], to[1], to[2], to[3], "");
    for (size_t at = 0; at < length; at += PIECE) {
        if (at > 0 && at == escape_key) {
            send_action(TUBE_TOLD_ESCAPE, 1, 0, 0, 0, "");
            send_action(TUBE_TOLD_ESCAPE, 0, 0, 0, 0, "");
        }
        const size_t piece = length - at < PIECE ? length - at : PIECE;
        while (!went(tube_write_data(file->bytes + at, piece, to_client.bytes + to_client.length, ROOM - to_client.length))) {
        }
    }
    send_action(TUBE_TOLD_END, 0, 0, 0, 0, "");
    uint8_t reply[2 * (1 + TUBE_FILE_BLOCK)]; /* A, which is 1 for a file, and its block */
    TubeWritten w = tube_write_reply(TUBE_SERIAL, TUBE_OSFILE, 0, TUBE_REPLY_A_BLOCK, 0, 0, 0, 1, file->block, TUBE_FILE_BLOCK, none, 0, reply, sizeof reply);
    expect(w.answer == TUBE_DONE, "the reply breaks a rule");
    const size_t cut = behind(reply, 12); /* in the reply for CODES the 12th data byte is a doubled escape: 13 raw bytes */
    send_raw(reply, cut);
    if (escape_key > 0)
        send_action(TUBE_TOLD_EVENT, 0, 0, 6, 0, ""); /* Y, X and A, which is 6: Escape was pressed */
    send_raw(reply + cut, w.length - cut);
}

/* Reads what has come. */
static void run_host(void) {
    while (to_host.length > 0) {
        TubeFed fed = tube_feed(reader, to_host.bytes, to_host.length, body);
        drop(&to_host, fed.used);
        reader = fed.read.reader;
        expect(fed.read.kind == TUBE_NEED_MORE || fed.read.kind == TUBE_REQUEST, "the client sends what is no request");
        if (fed.read.kind == TUBE_REQUEST)
            serve(tube_read_request(fed.read.code, body, fed.read.length));
    }
}

/* ---- The client ---- */

static struct {
    TubeTold told; /* what it was told last, with the link for the next byte */
    uint8_t reply[TUBE_REPLY_LENGTH], own[TUBE_OWN_LENGTH], memory[0x10000];
    uint16_t start, next; /* where the load began and where it goes on; this host opens one at a time */
} client;

/* Reads a slice and does what its notes say. */
static void run_client(void) {
    uint8_t notes[SLICE * TUBE_NOTE], data[SLICE + TUBE_OWN_LENGTH], *from = data; /* enough for a slice, whatever stands in it */
    const size_t length = to_client.length < SLICE ? to_client.length : SLICE;
    expect(length > 0, "the client waits and nothing comes");
    TubeRan ran = tube_run(client.told.link, to_client.bytes, length, client.reply, client.own, notes, sizeof notes, data, sizeof data);
    drop(&to_client, ran.used);
    client.told = ran.told;
    for (const uint8_t *note = notes; note < notes + ran.noted * TUBE_NOTE; note += TUBE_NOTE)
        switch (note[0]) {
        case TUBE_TOLD_LOAD: client.start = client.next = (uint16_t)number(note + 1); printf("  a load at &%08X\n", number(note + 1)); break;
        case TUBE_TOLD_DATA:
            printf("  %u bytes to &%04X\n", note[1], client.next);
            for (int i = 0; i < note[1]; i++)
                client.memory[client.next++] = *from++;
            break;
        case TUBE_TOLD_END: printf("  its end at &%04X\n", client.next); break;
        case TUBE_TOLD_ESCAPE: printf("  Escape %s\n", note[1] ? "on" : "off"); break;
        case TUBE_TOLD_EVENT: printf("  event Y=%u X=%u A=%u\n", note[1], note[2], note[3]); break;
        default: expect(0, "the client is told what it has no use for");
        }
}

/* Loads a file to an address, or to the file's own where that is 0; whether it came and is what the host has. */
static int load(const char *name, uint16_t address) {
    const uint8_t block[TUBE_FILE_BLOCK] = {[EXECUTION_ADDRESS + 3] = address == 0, [LOAD_ADDRESS + 2] = (uint8_t)(address >> 8), (uint8_t)address};
    uint8_t out[2 + 2 * TUBE_BODY];
    TubeWritten w = tube_write_request(TUBE_SERIAL, 0, TUBE_OSFILE, 0, 0, 0xFF, 0, block, sizeof block, (const uint8_t *)name, strlen(name), out, sizeof out);
    TubeBegun begun = tube_begin(client.told.link, TUBE_OSFILE, 0);
    expect(w.answer == TUBE_DONE && begun.kind == TUBE_BEGUN, "the request breaks a rule, or another call waits");
    printf("client: OSFILE A=&FF \"%s\", %zu raw bytes\n", name, w.length);
    client.told = (TubeTold){.link = begun.link};
    for (size_t sent = 0; sent < w.length; run_host())
        sent += put(&to_host, out + sent, w.length - sent);
    while (client.told.kind == TUBE_TOLD_MORE)
        run_client();
    if (client.told.kind == TUBE_TOLD_ERROR)
        printf("client: error &%02X, %.*s\n", client.told.first, (int)client.told.length, (const char *)client.own + 1);
    if (client.told.kind != TUBE_TOLD_REPLY)
        return 0; /* an error, a restart, or a refusal */
    TubeGiven given = tube_read_reply(TUBE_OSFILE, 0, client.reply, client.told.length);
    const uint8_t *got = client.reply + given.block_start;
    const File *file = find(name, strlen(name));
    int same = file != NULL && memcmp(client.memory + client.start, file->bytes, number(got + LENGTH)) == 0;
    printf("client: A=%u, load address &%08X, execution address &%08X, length %u, attributes &%02X; it is%s the host's file\n", given.a,
           number(got + LOAD_ADDRESS), number(got + EXECUTION_ADDRESS), number(got + LENGTH), number(got + ATTRIBUTES), same ? "" : " not");
    return same;
}

int main(void) {
    reader = tube_reader(TUBE_SERIAL);
    client.told.link = tube_link();
    int right = load("HELLO", 0x1900);
    escape_key = 2 * PIECE;
    right += load("CODES", 0);
    escape_key = 0;
    right += !load("LOST", 0x1900) && client.told.kind == TUBE_TOLD_ERROR && client.told.link.wait == 0;
    right += load("HELLO", 0x2000);
    printf("%d of 4 calls ended as they should\n", right);
    return right != 4;
}
