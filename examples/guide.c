/* Runs the code of docs/GUIDE.md, which examples/run takes out into guide.h. */
#include "guide.h"

/* ---- What the guide leaves to the reader: a host with a file of two bytes at the other end of the lead ---- */

static const char file[] = "A\x9B";
static size_t place;
static Lead lead;
static uint8_t wire[64]; /* what the host has sent */
static size_t waiting;

void serve(uint8_t style, const TubeAsked *asked, const uint8_t *body) {
    int end = file[place] == 0;
    (void)style;
    (void)body;
    if (asked->call != TUBE_OSBGET)
        return;
    printf("host: OSBGET Y=&%02X\n", asked->y);
    waiting = answer_osbget(TUBE_SERIAL, end, end ? 0xFE : (uint8_t)file[place], wire, sizeof wire);
    place += !end;
}

void send_raw(const uint8_t *bytes, size_t length) {
    arrived(&lead, bytes, length);
}

/* The host's answer with an Escape press behind its first byte. */
size_t receive_raw(uint8_t *bytes, size_t room) {
    size_t cut = behind_first(wire);
    if (room < waiting + 2)
        return 0;
    memcpy(bytes, wire, cut);
    TubeWritten on = tube_write_action(TUBE_TOLD_ESCAPE, 1, 0, 0, 0, none, 0, none, 0, bytes + cut, room - cut);
    memcpy(bytes + cut + on.length, wire + cut, waiting - cut);
    return waiting + on.length;
}

void note(const uint8_t bytes[TUBE_NOTE], const uint8_t *data) {
    printf("note: %u %u", bytes[0], bytes[1]);
    for (int i = 0; bytes[0] == TUBE_TOLD_DATA && i < bytes[1]; i++)
        printf("%s&%02X", i == 0 ? ", " : " ", data[i]);
    printf("\n");
}

/* ---- And a host at the chip that answers OSBYTE with the X and Y that it was given ---- */

size_t do_call(const TubeAsked *asked, const uint8_t *body, uint8_t *out, size_t room) {
    (void)body;
    printf("host: OSBYTE A=&%02X X=&%02X Y=&%02X\n", asked->a, asked->x, asked->y);
    return tube_write_reply(TUBE_PARALLEL, asked->call, 0, TUBE_REPLY_CARRY_YX, 0, asked->x, asked->y, 0, none, 0, none, 0, out, room).length;
}

static void osbytes(TubeChip *chip) {
    static HostEnd end;
    static ParasiteCall call;
    end.reader = tube_reader(TUBE_PARALLEL);
    for (int i = 0; i < 2; i++) {
        uint8_t kind = TUBE_TAKEN_MORE;
        if (ask_osbyte(&call, 0xDA, (uint8_t)(0x9B + i), 0) != TUBE_DONE)
            return;
        for (int look = 0; look < 100 && kind == TUBE_TAKEN_MORE; look++) {
            kind = parasite_look(chip, &call);
            host_look(chip, &end);
        }
        TubeGiven given = tube_read_reply(call.call, call.out_length, call.reply, call.got);
        printf("parasite: kind %u, %u bytes, carry %u, Y=&%02X, X=&%02X\n", kind, call.got, given.carry, given.y, given.x);
    }
    printf("parasite: OSBYTE A=&7F is answered %u\n", ask_osbyte(&call, 0x7F, 0, 0));
}

int main(void) {
    TubeChip chip = tube_new();
    int taken = 0;
    while (send_character(&chip, 'x'))
        taken++;
    printf("%d characters taken, the next is %c, host interrupted %d\n", taken, next_character(&chip), host_interrupted(&chip));

    TubeLink link = tube_link();
    lead.reader = tube_reader(TUBE_SERIAL);
    arrived(&lead, (const uint8_t *)"Hi\n", 3);
    for (int i = 0; i < 3; i++)
        printf("client: OSBGET gives %d\n", osbget(&link, 5));

    /* the bytes of the picture 'A load inside the reply to OSBGET' */
    uint8_t recorded[12] = {0x80}, reply[TUBE_REPLY_LENGTH];
    size_t sent = 1 + load_file(0x1900, (const uint8_t *)"AB", 2, recorded + 1, sizeof recorded - 2);
    recorded[sent++] = 0x41;
    TubeRecorded r = replay(TUBE_OSBGET, 0, recorded, sent, reply);
    printf("recorded: kind %u, %u bytes used, reply &%02X &%02X\n", (unsigned)r.kind, (unsigned)r.used, reply[0], reply[1]);

    osbytes(&chip);

    const uint8_t script[9] = {0x01, 0x00, 0x81, 0x03, 0x07, 0x2A, 0x00, 0x07, 0x00};
    printf("script: answer %d\n", play(script, sizeof script));
    return 0;
}
