/* The header against the library: the records' layout, and every export called at its edges: smallest and largest input, each refusal,
 * buffers just long enough and one byte short. Each lent byte that must stay is compared. */
#include "../include/tube.h"
#include <stdio.h>
#include <stdlib.h>
#include <string.h>

static int run, failed;

static void expect(const char *name, int right) {
    printf("%s %s\n", right ? "ok" : "FAILED", name);
    run++;
    failed += !right;
}

/* ---- Lent buffers ---- */

enum { GUARD = 64, AREA = 4096, FILL = 0xEE };

/* A buffer between guard bytes, all of it filled. */
typedef struct {
    uint8_t area[GUARD + AREA + GUARD];
} Lent;

static uint8_t *lend(Lent *lent) {
    memset(lent->area, FILL, sizeof lent->area);
    return lent->area + GUARD;
}

/* Whether every byte but `length` bytes from index `from` on is as it was lent. */
static int kept(const Lent *lent, size_t from, size_t length) {
    for (size_t i = 0; i < sizeof lent->area; i++)
        if ((i < GUARD + from || i >= GUARD + from + length) && lent->area[i] != FILL)
            return 0;
    return 1;
}

static Lent one, two, three, spare;

/* ---- The layout ---- */

#define AT(type, field, offset) (offsetof(type, field) == (offset))

static void layout(void) {
    expect("layout of the chip", sizeof(TubeChip) == 40 && AT(TubeChip, oldest, 0) && AT(TubeChip, next, 8) && AT(TubeChip, later, 16) && AT(TubeChip, held, 24) && AT(TubeChip, flags, 32)
                                     && sizeof(TubeReply) == 2 && AT(TubeReply, answer, 0) && AT(TubeReply, byte, 1));
    expect("layout of the player", sizeof(TubePlayed) == 56 && AT(TubePlayed, played, 0) && AT(TubePlayed, answer, 8) && AT(TubePlayed, chip, 16));
    expect("layout of the reader", sizeof(TubeReader) == 8 && AT(TubeReader, count, 0) && AT(TubeReader, carrier, 2) && AT(TubeReader, phase, 3)
                                       && AT(TubeReader, escape, 4) && AT(TubeReader, style, 5) && AT(TubeReader, code, 6)
                                       && sizeof(TubeRead) == 16 && AT(TubeRead, reader, 0) && AT(TubeRead, length, 8) && AT(TubeRead, kind, 12)
                                       && AT(TubeRead, value, 13) && AT(TubeRead, style, 14) && AT(TubeRead, code, 15)
                                       && sizeof(TubeFed) == 24 && AT(TubeFed, read, 0) && AT(TubeFed, used, 16));
    expect("layout of the writers, kinds and names", sizeof(TubeWritten) == 16 && AT(TubeWritten, length, 0) && AT(TubeWritten, answer, 8)
                                                  && sizeof(TubeKind) == 2 && AT(TubeKind, call, 0) && AT(TubeKind, out_length, 1)
                                                  && sizeof(TubeName) == 16 && AT(TubeName, length, 0) && AT(TubeName, answer, 8));
    expect("layout of a request read", sizeof(TubeAsked) == 40 && AT(TubeAsked, block_start, 0) && AT(TubeAsked, block_length, 8)
                                           && AT(TubeAsked, text_start, 16) && AT(TubeAsked, text_length, 24) && AT(TubeAsked, call, 32)
                                           && AT(TubeAsked, x, 33) && AT(TubeAsked, y, 34) && AT(TubeAsked, a, 35) && AT(TubeAsked, out_length, 36));
    expect("layout of the link", sizeof(TubeLink) == 8 && AT(TubeLink, got, 0) && AT(TubeLink, held, 2) && AT(TubeLink, wait, 4)
                                     && AT(TubeLink, out_length, 5) && AT(TubeLink, action, 6) && AT(TubeLink, flags, 7)
                                     && sizeof(TubeTold) == 24 && AT(TubeTold, link, 0) && AT(TubeTold, length, 8) && AT(TubeTold, kind, 16)
                                     && AT(TubeTold, first, 20) && AT(TubeTold, second, 21) && AT(TubeTold, third, 22) && AT(TubeTold, fourth, 23)
                                     && sizeof(TubeBegun) == 10 && AT(TubeBegun, link, 0) && AT(TubeBegun, kind, 8) && AT(TubeBegun, answer, 9)
                                     && sizeof(TubeRan) == 48 && AT(TubeRan, told, 0) && AT(TubeRan, used, 24) && AT(TubeRan, noted, 32) && AT(TubeRan, stored, 40));
    expect("layout of a recorded reply", sizeof(TubeRecorded) == 40 && AT(TubeRecorded, used, 0) && AT(TubeRecorded, noted, 8) && AT(TubeRecorded, stored, 16)
                                             && AT(TubeRecorded, length, 24) && AT(TubeRecorded, kind, 32) && AT(TubeRecorded, number, 36));
    expect("layout of a reply read", sizeof(TubeGiven) == 40 && AT(TubeGiven, block_start, 0) && AT(TubeGiven, block_length, 8)
                                         && AT(TubeGiven, text_start, 16) && AT(TubeGiven, text_length, 24) && AT(TubeGiven, reply, 32)
                                         && AT(TubeGiven, carry, 33) && AT(TubeGiven, x, 34) && AT(TubeGiven, y, 35) && AT(TubeGiven, a, 36));
    expect("layout of a reply's byte", sizeof(TubeTaken) == 4 && AT(TubeTaken, count, 0) && AT(TubeTaken, kind, 2) && AT(TubeTaken, answer, 3));
}

/* ---- The chip ---- */

static int same_chip(TubeChip a, TubeChip b) {
    return memcmp(&a, &b, sizeof a) == 0;
}

static int answers(TubeReply r, uint8_t answer, uint8_t byte) {
    return r.answer == answer && r.byte == byte;
}

/* The counts of a record that holds `count` bytes in channel c. */
static uint64_t holding(int c, uint64_t count) {
    return count << (8 * c);
}

static void chip_made(void) {
    const TubeChip fresh = tube_new();
    TubeChip full;
    memset(&full, 0xFF, sizeof full);
    expect("tube_new: nothing held, no flag", fresh.held == 0 && fresh.flags == 0);
    expect("tube_reset: any record becomes a fresh one", same_chip(tube_reset(full), fresh) && same_chip(tube_reset(fresh), fresh));
    expect("tube_lines: none of a fresh record and of one over its capacities", tube_lines(fresh) == 0 && tube_lines(full) == 0);

    TubeChip all = fresh;
    all.flags = UINT64_MAX;
    for (int c = 0; c < 8; c++)
        all.held |= holding(c, tube_capacity[c]);
    int lines = tube_lines(all) == TUBE_HOST_IRQ + TUBE_PARASITE_IRQ + TUBE_PARASITE_NMI + TUBE_PARASITE_RESET;
    all.flags = TUBE_FLAG_P;
    lines = lines && tube_lines(all) == TUBE_PARASITE_RESET;
    all.flags = TUBE_FLAG_M;
    lines = lines && tube_lines(all) == TUBE_PARASITE_NMI;
    all.flags = TUBE_FLAG_I;
    lines = lines && tube_lines(all) == TUBE_PARASITE_IRQ;
    all.flags = TUBE_FLAG_J;
    lines = lines && tube_lines(all) == TUBE_PARASITE_IRQ;
    all.flags = TUBE_FLAG_Q;
    expect("tube_lines: each alone and all", lines && tube_lines(all) == TUBE_HOST_IRQ);
}

static void accesses(void) {
    TubeChip chip = tube_new();
    int taken = answers(tube_access(&chip, TUBE_HOST, TUBE_R1_DATA, TUBE_WRITE, 0x2A), TUBE_DONE, 0) && chip.held == holding(0, 1) && TUBE_BYTE(chip.oldest, 0) == 0x2A;
    TubeChip before = chip;
    int full = answers(tube_access(&chip, TUBE_HOST, TUBE_R1_DATA, 0xFF, 0x2B), TUBE_NO_ROOM, 0) && same_chip(chip, before);
    int read = answers(tube_access(&chip, TUBE_PARASITE, TUBE_R1_DATA, TUBE_READ, 0xFF), TUBE_DONE, 0x2A) && chip.held == 0;
    before = chip;
    int empty = answers(tube_access(&chip, TUBE_PARASITE, TUBE_R1_DATA, TUBE_READ, 0), TUBE_EMPTY, 0) && same_chip(chip, before);
    expect("tube_access: taken, no room, read, empty", taken && full && read && empty);

    int missing = 1;
    for (int i = 0; i < 256; i++) {
        if (i > TUBE_PARASITE)
            missing = missing && answers(tube_access(&chip, (uint8_t)i, 0, TUBE_WRITE, 0xFF), TUBE_MISSING, 0);
        if (i > TUBE_R4_DATA)
            missing = missing && answers(tube_access(&chip, TUBE_HOST, (uint8_t)i, TUBE_READ, 0), TUBE_MISSING, 0);
    }
    expect("tube_access: no such side or offset", missing && same_chip(chip, before));

    int ten = 1;
    for (int i = 0; i < 11; i++)
        ten = ten && tube_access(&chip, TUBE_PARASITE, TUBE_R1_DATA, TUBE_WRITE, (uint8_t)i).answer == (i < 10 ? TUBE_DONE : TUBE_NO_ROOM);
    for (int i = 0; i < 11; i++)
        ten = ten && answers(tube_access(&chip, TUBE_HOST, TUBE_R1_DATA, TUBE_READ, 0), i < 10 ? TUBE_DONE : TUBE_EMPTY, (uint8_t)(i < 10 ? i : 0));
    expect("tube_access: ten bytes through R1, in order", ten);

    int status = answers(tube_access(&chip, TUBE_HOST, TUBE_R1_STATUS, TUBE_READ, 0), TUBE_DONE, TUBE_NOT_FULL)
                 && answers(tube_access(&chip, TUBE_HOST, TUBE_R2_STATUS, TUBE_READ, 0), TUBE_DONE, 0x7F)
                 && answers(tube_access(&chip, TUBE_HOST, TUBE_R1_STATUS, TUBE_WRITE, TUBE_SET | TUBE_CLEAR | TUBE_FLAG_I | TUBE_FLAG_Q), TUBE_DONE, 0)
                 && answers(tube_access(&chip, TUBE_PARASITE, TUBE_R1_STATUS, TUBE_READ, 0), TUBE_DONE, TUBE_NOT_FULL | TUBE_FLAG_I | TUBE_FLAG_Q);
    expect("tube_access: status and control", status);

    int over = 1;
    for (int c = 0; c < 8; c++) {
        chip = tube_new();
        chip.held = holding(c, tube_capacity[c]);
        over = over && tube_access(&chip, TUBE_HOST, TUBE_R1_STATUS, TUBE_READ, 0).answer == TUBE_DONE;
        chip.held += holding(c, 1);
        before = chip;
        over = over && answers(tube_access(&chip, TUBE_HOST, TUBE_R1_STATUS, TUBE_READ, 0), TUBE_MISSING, 0)
               && answers(tube_access(&chip, TUBE_PARASITE, TUBE_R1_DATA, TUBE_WRITE, 1), TUBE_MISSING, 0) && same_chip(chip, before);
    }
    expect("tube_access: a record one over a capacity", over);
}

/* ---- Scripts ---- */

static int ended(TubePlayed p, size_t played, uint8_t answer) {
    return p.played == played && p.answer == answer;
}

static void scripts(void) {
    const uint8_t script[11] = {TUBE_HOST_WRITE, TUBE_R1_STATUS, TUBE_SET | TUBE_FLAG_Q, TUBE_PARASITE_WRITE, TUBE_R4_DATA, 0x2A, TUBE_HOST_READ, TUBE_R4_DATA, 0, TUBE_RESET, 0};
    const char *text = "0 0 0\n0 0 1\n0 42 0\nend 3 0\n";
    const size_t length = strlen(text);
    const TubeChip chip = tube_new();
    uint8_t *results = lend(&one), *out = lend(&two);

    TubePlayed end = tube_play(chip, script, 9, 4096, results, 9);
    expect("tube_play: the example script into results just long enough", ended(end, 3, TUBE_DONE) && kept(&one, 0, 9) && memcmp(results, "\0\0\0\0\0\1\0\52\0", 9) == 0
                                                                              && end.chip.flags == TUBE_FLAG_Q && tube_lines(end.chip) == 0);
    expect("tube_text: into a buffer just long enough", tube_text(results, 9, 3, end.answer, out, length) == length && memcmp(out, text, length) == 0 && kept(&two, 0, length));
    out = lend(&two);
    expect("tube_text: one byte short", tube_text(results, 9, 3, end.answer, out, length - 1) == 0 && tube_text(results, 9, 3, end.answer, out, 0) == 0 && kept(&two, 0, 0));
    expect("tube_text: too few results", tube_text(results, 8, 3, 0, out, AREA) == 0 && tube_text(results, 0, 1, 0, out, AREA) == 0
                                             && tube_text(results, 9, SIZE_MAX, 0, out, AREA) == 0 && tube_text(results, 9, SIZE_MAX / 3 + 1, 0, out, AREA) == 0 && kept(&two, 0, 0));
    expect("tube_text: no results", tube_text(results, 0, 0, 255, out, 10) == 10 && memcmp(out, "end 0 255\n", 10) == 0 && kept(&two, 0, 10));
    memset(results, 0xFF, 3);
    out = lend(&two);
    expect("tube_text: the largest numbers", tube_text(results, 3, 1, 255, out, AREA) == 22 && memcmp(out, "255 255 255\nend 1 255\n", 22) == 0 && kept(&two, 0, 22));

    results = lend(&one);
    TubePlayed tight = tube_play(chip, script, 9, 4096, results, 8), none = tube_play(chip, script, 9, SIZE_MAX, results, 0);
    expect("tube_play: results one byte short", ended(tight, 0, TUBE_BUFFER_SHORT) && same_chip(tight.chip, chip) && ended(none, 0, TUBE_BUFFER_SHORT)
                                                    && same_chip(none.chip, chip) && kept(&one, 0, 0));
    expect("tube_play: nothing to play", ended(tube_play(chip, script, 0, 0, results, 0), 0, TUBE_DONE) && ended(tube_play(chip, script, 0, SIZE_MAX, results, 0), 0, TUBE_DONE)
                                             && ended(tube_play(chip, script, 9, 0, results, 0), 0, TUBE_LIMIT_REACHED)
                                             && ended(tube_play(chip, script, 2, 4096, results, 0), 0, TUBE_CUT_SHORT)
                                             && ended(tube_play(chip, script, 2, 0, results, 0), 0, TUBE_LIMIT_REACHED) && kept(&one, 0, 0));
    expect("tube_play: the limit and the last record", ended(tube_play(chip, script, 9, 2, results, AREA), 2, TUBE_LIMIT_REACHED) && kept(&one, 0, 6)
                                                           && ended(tube_play(chip, script, 11, SIZE_MAX, results, AREA), 3, TUBE_CUT_SHORT) && kept(&one, 0, 9)
                                                           && ended(tube_play(chip, script, 11, 3, results, AREA), 3, TUBE_LIMIT_REACHED));
    TubeChip broken = chip;
    broken.held = holding(1, 255);
    const uint8_t mend[9] = {TUBE_HOST_READ, 0, 0, TUBE_RESET, 9, 9, 255, 0, 0};
    results = lend(&one);
    TubePlayed mended = tube_play(broken, mend, 9, 3, results, 9);
    expect("tube_play: a record over its capacities, its reset, no such kind", ended(mended, 3, TUBE_DONE) && memcmp(results, "\1\0\0\0\0\0\1\0\0", 9) == 0 && same_chip(mended.chip, chip));
}

/* ---- Requests ---- */

static int same_reader(TubeReader a, TubeReader b) {
    return a.count == b.count && a.carrier == b.carrier && a.phase == b.phase && a.escape == b.escape && a.style == b.style && a.code == b.code;
}

static int reads(TubeRead r, uint8_t kind, uint8_t value, uint8_t style, uint8_t code, size_t length) {
    return r.kind == kind && r.value == value && r.style == style && r.code == code && r.length == length;
}

/* Raw bytes read one by one: what the last of them gives. Any answer before it that is not need-more spoils it. */
static TubeRead each(TubeReader reader, const uint8_t *raw, size_t length, uint8_t *body) {
    TubeRead r = {.reader = reader};
    for (size_t i = 0; i < length; i++) {
        if (r.kind != TUBE_NEED_MORE)
            return (TubeRead){.kind = 0xFF};
        r = tube_read(r.reader, raw[i], body);
    }
    return r;
}

static uint8_t letters[300], escapes[300];

/* A request in style 3 on the serial lead and in style 0 on the parallel side; its block is all escapes. */
static TubeWritten request_on(uint8_t carrier, TubeCall call, uint8_t a, size_t block, size_t text, uint8_t *out, size_t room) {
    return tube_write_request(carrier, carrier == TUBE_SERIAL ? 3 : 0, (uint8_t)call, 1, 2, a, 9, escapes, block, letters, text, out, room);
}

static TubeWritten request(TubeCall call, uint8_t a, size_t block, size_t text, uint8_t *out, size_t room) {
    return request_on(TUBE_SERIAL, call, a, block, text, out, room);
}

static int refuses(TubeWritten w, uint8_t answer) {
    return w.answer == answer && w.length == 0;
}

static int asks(TubeAsked f, uint8_t call, uint8_t x, uint8_t y, uint8_t a, uint8_t out_length) {
    return f.call == call && f.x == x && f.y == y && f.a == a && f.out_length == out_length;
}

static int parts(TubeAsked f, size_t block_start, size_t block_length, size_t text_start, size_t text_length) {
    return f.block_start == block_start && f.block_length == block_length && f.text_start == text_start && f.text_length == text_length;
}

static void requests_written(void) {
    /* Written with X 1, Y 2, out length 9 and this A; those that the call has come back. */
    static const struct {
        TubeCall call;
        uint8_t a, code;
        size_t block, text, length; /* of the whole encoding: every block byte is doubled */
        uint8_t x, y, out_length;
        size_t block_start, text_start;
    } calls[TUBE_CALLS] = {
        {TUBE_OSRDCH, 0, TUBE_CODE_OSRDCH, 0, 0, 2, 0, 0, 0, 0, 0},
        {TUBE_OSCLI, 0, TUBE_CODE_OSCLI, 0, 255, 2 + 256, 0, 0, 0, 0, 0},
        {TUBE_OSBYTE_LOW, 0x7F, TUBE_CODE_OSBYTE_LOW, 0, 0, 2 + 2, 1, 0, 0, 0, 0},
        {TUBE_OSBYTE_HIGH, 0x80, TUBE_CODE_OSBYTE_HIGH, 0, 0, 2 + 3, 1, 2, 0, 0, 0},
        {TUBE_OSWORD, 1, TUBE_CODE_OSWORD, 255, 0, 2 + 3 + 2 * 255, 0, 0, 9, 2, 0},
        {TUBE_OSWORD0, 0, TUBE_CODE_OSWORD0, 5, 0, 2 + 10, 0, 0, 0, 0, 0},
        {TUBE_OSARGS, 5, TUBE_CODE_OSARGS, 4, 0, 2 + 2 + 8, 0, 2, 0, 1, 0},
        {TUBE_OSBGET, 0, TUBE_CODE_OSBGET, 0, 0, 2 + 1, 0, 2, 0, 0, 0},
        {TUBE_OSBPUT, 6, TUBE_CODE_OSBPUT, 0, 0, 2 + 2, 0, 2, 0, 0, 0},
        {TUBE_OSFIND_CLOSE, 0, TUBE_CODE_OSFIND, 0, 0, 2 + 2, 0, 2, 0, 0, 0},
        {TUBE_OSFIND_OPEN, 0xC0, TUBE_CODE_OSFIND, 0, 255, 2 + 1 + 256, 0, 0, 0, 0, 1},
        {TUBE_OSFILE, 0xFF, TUBE_CODE_OSFILE, 16, 255, 2 + 32 + 256 + 1, 0, 0, 0, 0, TUBE_FILE_BLOCK},
        {TUBE_OSGBPB, 4, TUBE_CODE_OSGBPB, 13, 0, 2 + 26 + 1, 0, 0, 0, 0, 0},
    };
    int exact = 1, tight = 1, again = 1, kinds = 1, fields = 1, plain = 1;
    for (int i = 0; i < TUBE_CALLS; i++) {
        uint8_t *out = lend(&one), *body = lend(&two);
        const size_t length = calls[i].length;
        tight = tight && refuses(request(calls[i].call, calls[i].a, calls[i].block, calls[i].text, out, length - 1), TUBE_BUFFER_SHORT)
                && refuses(request(calls[i].call, calls[i].a, calls[i].block, calls[i].text, out, 0), TUBE_BUFFER_SHORT) && kept(&one, 0, 0);
        TubeWritten w = request(calls[i].call, calls[i].a, calls[i].block, calls[i].text, out, length);
        exact = exact && w.answer == TUBE_DONE && w.length == length && out[0] == TUBE_ESCAPE_BYTE && out[1] == (0x60 | calls[i].code) && kept(&one, 0, length);
        TubeRead r = each(tube_reader(TUBE_SERIAL), out, length, body);
        TubeFed fed = tube_feed(tube_reader(TUBE_SERIAL), out, length, body);
        again = again && reads(r, TUBE_REQUEST, 0, 3, calls[i].code, r.length) && kept(&two, 0, r.length) && same_reader(r.reader, tube_reader(TUBE_SERIAL))
                && reads(fed.read, TUBE_REQUEST, 0, 3, calls[i].code, r.length) && fed.used == length;
        TubeKind kind = tube_kind_of(r.code, body, r.length);
        kinds = kinds && kind.call == calls[i].call && kind.out_length == calls[i].out_length;
        TubeAsked f = tube_read_request(r.code, body, r.length);
        fields = fields && asks(f, (uint8_t)calls[i].call, calls[i].x, calls[i].y, calls[i].a, calls[i].out_length)
                 && parts(f, calls[i].block_start, calls[i].block, calls[i].text_start, calls[i].text)
                 && memcmp(body + f.block_start, escapes, f.block_length) == 0 && memcmp(body + f.text_start, letters, f.text_length) == 0;

        /* The parallel side: the plain code, then the same body as it is. */
        const size_t shorter = 1 + r.length;
        out = lend(&one);
        plain = plain && refuses(request_on(TUBE_PARALLEL, calls[i].call, calls[i].a, calls[i].block, calls[i].text, out, shorter - 1), TUBE_BUFFER_SHORT) && kept(&one, 0, 0);
        w = request_on(TUBE_PARALLEL, calls[i].call, calls[i].a, calls[i].block, calls[i].text, out, shorter);
        plain = plain && w.answer == TUBE_DONE && w.length == shorter && out[0] == calls[i].code && memcmp(out + 1, body, r.length) == 0 && kept(&one, 0, shorter);
        body = lend(&two);
        TubeRead p = each(tube_reader(TUBE_PARALLEL), out, shorter, body);
        TubeFed slice = tube_feed(tube_reader(TUBE_PARALLEL), out, shorter, body);
        plain = plain && reads(p, TUBE_REQUEST, 0, 0, calls[i].code, r.length) && same_reader(p.reader, tube_reader(TUBE_PARALLEL)) && memcmp(body, out + 1, r.length) == 0
                && kept(&two, 0, r.length) && reads(slice.read, TUBE_REQUEST, 0, 0, calls[i].code, r.length) && slice.used == shorter;
    }
    expect("tube_write_request: each call at its longest, just long enough", exact);
    expect("tube_write_request: each call one byte short", tight);
    expect("tube_read, tube_feed: each call at its longest", again);
    expect("tube_kind_of: each call", kinds);
    expect("tube_read_request: each call", fields);
    expect("tube_write_request, tube_read, tube_feed: the parallel side has no escapes", plain);

    uint8_t *out = lend(&one);
    uint8_t ended_text[2] = {'A', 0x0D};
    int refused = refuses(request(TUBE_OSCLI, 0, 0, 256, out, AREA), TUBE_STRING_LONG) && refuses(request(TUBE_OSRDCH, 0, 0, 256, out, 0), TUBE_STRING_LONG)
                  && refuses(request(TUBE_OSBYTE_LOW, 0x80, 0, 0, out, AREA), TUBE_BAD_FIELD) && refuses(request(TUBE_OSBYTE_HIGH, 0x7F, 0, 0, out, AREA), TUBE_BAD_FIELD)
                  && refuses(request(TUBE_OSWORD, 0, 1, 0, out, AREA), TUBE_BAD_FIELD) && refuses(request(TUBE_OSWORD, 1, 256, 0, out, AREA), TUBE_BAD_FIELD)
                  && refuses(request(TUBE_OSFIND_OPEN, 0, 0, 1, out, AREA), TUBE_BAD_FIELD) && refuses(request(TUBE_OSFILE, 0, 15, 1, out, AREA), TUBE_BAD_FIELD)
                  && refuses(request(TUBE_OSGBPB, 0, 14, 0, out, 0), TUBE_BAD_FIELD) && refuses(request(TUBE_OSBGET, 0, 1, 0, out, AREA), TUBE_BAD_FIELD)
                  && refuses(request(TUBE_OSBGET, 0, 0, 1, out, AREA), TUBE_BAD_FIELD)
                  && refuses(tube_write_request(TUBE_SERIAL, 0, TUBE_OSCLI, 0, 0, 0, 0, letters, 0, ended_text, 2, out, AREA), TUBE_BAD_FIELD);
    for (int i = 0; i < 256; i++) {
        if (i >= TUBE_CALLS)
            refused = refused && refuses(tube_write_request(TUBE_SERIAL, 0, (uint8_t)i, 0, 0, 0, 0, letters, 0, letters, 0, out, AREA), TUBE_UNKNOWN_CODE)
                      && refuses(tube_write_request(TUBE_PARALLEL, 0, (uint8_t)i, 0, 0, 0, 0, letters, 0, letters, 0, out, AREA), TUBE_UNKNOWN_CODE);
        if (i > TUBE_PARALLEL)
            refused = refused && refuses(tube_write_request((uint8_t)i, 0, TUBE_OSRDCH, 0, 0, 0, 0, letters, 0, letters, 0, out, AREA), TUBE_BAD_FIELD);
        if (i > 3)
            refused = refused && refuses(tube_write_request(TUBE_SERIAL, (uint8_t)i, TUBE_OSRDCH, 0, 0, 0, 0, letters, 0, letters, 0, out, AREA), TUBE_BAD_FIELD);
        if (i > 0)
            refused = refused && refuses(tube_write_request(TUBE_PARALLEL, (uint8_t)i, TUBE_OSRDCH, 0, 0, 0, 0, letters, 0, letters, 0, out, AREA), TUBE_BAD_FIELD);
    }
    expect("tube_write_request: each refusal touches no byte", refused && kept(&one, 0, 0));

    /* Everything wrong at once, then each first answer mended: no such call, a long string, a field (the carrier, the style, A, the block), no room. */
    int order = refuses(tube_write_request(9, 9, TUBE_CALLS, 0, 0, 0, 0, escapes, 3, letters, 256, out, 0), TUBE_UNKNOWN_CODE)
                && refuses(tube_write_request(9, 9, TUBE_NO_CALL, 0, 0, 0, 0, escapes, 3, letters, 256, out, 0), TUBE_UNKNOWN_CODE)
                && refuses(tube_write_request(9, 9, TUBE_OSFILE, 0, 0, 0, 0, escapes, 3, letters, 256, out, 0), TUBE_STRING_LONG)
                && refuses(tube_write_request(9, 9, TUBE_OSFILE, 0, 0, 0, 0, escapes, 3, letters, 255, out, 0), TUBE_BAD_FIELD)
                && refuses(tube_write_request(TUBE_SERIAL, 9, TUBE_OSFILE, 0, 0, 0, 0, escapes, 3, letters, 255, out, 0), TUBE_BAD_FIELD)
                && refuses(tube_write_request(TUBE_SERIAL, 0, TUBE_OSFILE, 0, 0, 0, 0, escapes, 3, letters, 255, out, 0), TUBE_BAD_FIELD)
                && refuses(tube_write_request(TUBE_SERIAL, 0, TUBE_OSFILE, 0, 0, 0, 0, escapes, 16, letters, 255, out, 0), TUBE_BUFFER_SHORT)
                && refuses(tube_write_request(TUBE_SERIAL, 0, TUBE_OSFIND_OPEN, 0, 0, 0, 0, letters, 0, letters, 256, out, 0), TUBE_STRING_LONG)
                && refuses(tube_write_request(TUBE_SERIAL, 0, TUBE_OSFIND_OPEN, 0, 0, 0, 0, letters, 0, letters, 1, out, 0), TUBE_BAD_FIELD)
                && refuses(tube_write_request(TUBE_SERIAL, 0, TUBE_OSFIND_OPEN, 0, 0, 1, 0, letters, 0, letters, 1, out, 0), TUBE_BUFFER_SHORT);
    expect("tube_write_request: 4 before 6 before 9 before 8", order && kept(&one, 0, 0));
}

static void requests_taken_apart(void) {
    uint8_t *body = lend(&one);
    memset(body, 0x9B, 300);
    TubeKind empty = tube_kind_of(TUBE_CODE_OSWORD, body, 0), shut = tube_kind_of(TUBE_CODE_OSFIND, body, 0), open = tube_kind_of(TUBE_CODE_OSFIND, body, 1);
    int known = empty.call == TUBE_OSWORD && empty.out_length == 0 && shut.call == TUBE_OSFIND_CLOSE && shut.out_length == 0 && open.call == TUBE_OSFIND_OPEN && open.out_length == 0;
    int none = 1, inside = 1, same = 1;
    for (int code = 0; code < 256; code++) {
        int call = code <= TUBE_CODE_OSGBPB && code % 2 == 0;
        for (size_t length = 0; length <= 300; length++) {
            TubeKind kind = tube_kind_of((uint8_t)code, body, length);
            TubeAsked f = tube_read_request((uint8_t)code, body, length);
            if (!call) {
                none = none && kind.call == TUBE_NO_CALL && kind.out_length == 0;
                same = same && asks(f, TUBE_NO_CALL, 0, 0, 0, 0) && parts(f, 0, 0, 0, 0);
            }
            same = same && f.call == kind.call && f.out_length == kind.out_length;
            inside = inside && f.block_start <= length && f.block_length <= length - f.block_start && f.text_start <= length && f.text_length <= length - f.text_start;
        }
    }
    expect("tube_kind_of: no body, no such code", known && none);
    expect("tube_read_request: no such code, the same call as tube_kind_of", same);
    expect("tube_read_request: the parts lie inside a body of any length", inside);

    /* A byte that is not there counts as 0, and a part starts where the body ends at the latest; OSWORD's out length and OSFILE's A are the last byte there is. */
    TubeAsked args = tube_read_request(TUBE_CODE_OSARGS, body, 0), cut = tube_read_request(TUBE_CODE_OSARGS, body, 3), byte = tube_read_request(TUBE_CODE_OSBYTE_HIGH, body, 2);
    TubeAsked word = tube_read_request(TUBE_CODE_OSWORD, body, 1), file = tube_read_request(TUBE_CODE_OSFILE, body, 10), name = tube_read_request(TUBE_CODE_OSFILE, body, 17);
    TubeAsked find = tube_read_request(TUBE_CODE_OSFIND, body, 0), cli = tube_read_request(TUBE_CODE_OSCLI, body, 0), gbpb = tube_read_request(TUBE_CODE_OSGBPB, body, 13);
    int numbers = asks(args, TUBE_OSARGS, 0, 0, 0, 0) && asks(cut, TUBE_OSARGS, 0, 0x9B, 0, 0) && asks(byte, TUBE_OSBYTE_HIGH, 0x9B, 0x9B, 0, 0)
                  && asks(word, TUBE_OSWORD, 0, 0, 0x9B, 0x9B) && asks(file, TUBE_OSFILE, 0, 0, 0x9B, 0) && asks(find, TUBE_OSFIND_CLOSE, 0, 0, 0, 0)
                  && asks(gbpb, TUBE_OSGBPB, 0, 0, 0, 0);
    int places = parts(args, 0, 0, 0, 0) && parts(cut, 1, 2, 0, 0) && parts(word, 1, 0, 0, 0) && parts(file, 0, 10, 10, 0) && parts(name, 0, 16, 16, 0)
                 && parts(find, 0, 0, 0, 0) && parts(cli, 0, 0, 0, 0) && parts(gbpb, 0, 13, 0, 0);
    expect("tube_read_request: a body that is not finished", numbers && places);

    /* The shortest of the calls whose length varies. */
    const uint8_t no_block[3] = {7, 0, 5}, no_string[1] = {0x0D}, no_name[2] = {0x80, 0x0D};
    uint8_t nameless[18] = {0};
    nameless[16] = 0x0D;
    nameless[17] = 0xFF;
    word = tube_read_request(TUBE_CODE_OSWORD, no_block, 3), cli = tube_read_request(TUBE_CODE_OSCLI, no_string, 1);
    find = tube_read_request(TUBE_CODE_OSFIND, no_name, 2), file = tube_read_request(TUBE_CODE_OSFILE, nameless, 18);
    expect("tube_read_request: an empty block, string and name", asks(word, TUBE_OSWORD, 0, 0, 7, 5) && parts(word, 2, 0, 0, 0)
                                                                     && asks(cli, TUBE_OSCLI, 0, 0, 0, 0) && parts(cli, 0, 0, 0, 0)
                                                                     && asks(find, TUBE_OSFIND_OPEN, 0, 0, 0x80, 0) && parts(find, 0, 0, 1, 0)
                                                                     && asks(file, TUBE_OSFILE, 0, 0, 0xFF, 0) && parts(file, 0, 16, 16, 0));
}

static void names_found(void) {
    uint8_t body[TUBE_BODY] = {0};
    memset(body, 'A', sizeof body);
    TubeName open = tube_file_name(body, 16 + 255), over = tube_file_name(body, sizeof body), none = tube_file_name(body, 0), block = tube_file_name(body, 16);
    expect("tube_file_name: not ended, over 255 bytes, no block, no name", open.answer == TUBE_BAD_FIELD && over.answer == TUBE_STRING_LONG && none.answer == TUBE_BAD_FIELD
                                                                              && block.answer == TUBE_BAD_FIELD && open.length + over.length + none.length + block.length == 0);
    body[0] = body[15] = body[16 + 255] = 0x0D;
    TubeName longest = tube_file_name(body, sizeof body), cut = tube_file_name(body, 16 + 255);
    body[16] = 0x0D;
    TubeName empty = tube_file_name(body, 17);
    expect("tube_file_name: of 255 bytes and of none", longest.answer == TUBE_DONE && longest.length == 255 && cut.answer == TUBE_BAD_FIELD && empty.answer == TUBE_DONE && empty.length == 0);
}

static void requests_read(void) {
    const uint8_t wire[13] = {0x9B, 0x62, 'D', 0x9B, 0x9B, 'R', 0x0D, 'A', 0x9B, 0x0A, 0x9B, 0x00, 'B'};
    int made = 1;
    for (int i = 0; i < 256; i++) {
        TubeReader r = tube_reader((uint8_t)i);
        made = made && r.count == 0 && r.carrier == i && r.phase == TUBE_OUTSIDE && r.escape == 0 && r.style == 0 && r.code == 0;
    }
    expect("tube_reader: of every carrier", made);

    const TubeReader fresh = tube_reader(TUBE_SERIAL);
    uint8_t *body = lend(&one);
    int characters = 1;
    for (int i = 0; i < 256; i++) {
        TubeRead r = tube_read(fresh, (uint8_t)i, body);
        characters = characters && (i == TUBE_ESCAPE_BYTE ? reads(r, TUBE_NEED_MORE, 0, 0, 0, 0) && r.reader.escape == 1
                                                          : reads(r, TUBE_CHARACTER, (uint8_t)i, 0, 0, 0) && same_reader(r.reader, fresh));
    }
    TubeRead doubled = each(fresh, (const uint8_t[2]){0x9B, 0x9B}, 2, body);
    expect("tube_read: every character", characters && reads(doubled, TUBE_CHARACTER, 0x9B, 0, 0, 0) && kept(&one, 0, 0));

    TubeRead taken = each(fresh, wire, 3, body);
    expect("tube_read: a byte taken changes one lent byte", reads(taken, TUBE_NEED_MORE, 0, 0, 0, 0) && taken.reader.count == 1 && taken.reader.phase == TUBE_INSIDE
                                                                && taken.reader.style == 3 && taken.reader.code == TUBE_CODE_OSCLI && body[0] == 'D' && kept(&one, 0, 1));

    static uint8_t long_string[2 + 256] = {0x9B, TUBE_CODE_OSCLI};
    memset(long_string + 2, 'x', 256);
    body = lend(&one);
    TubeRead six = each(fresh, long_string, 258, body);
    TubeRead four = each(fresh, (const uint8_t[2]){0x9B, 0x18}, 2, body), five = each(fresh, (const uint8_t[4]){0x9B, 0x04, 0x9B, 0x02}, 4, body);
    TubeRead nine = each(fresh, (const uint8_t[4]){0x9B, 0x04, 0x00, 0x80}, 4, body);
    expect("tube_read: refusals 4, 5, 6, 9 stop the reader", reads(four, TUBE_REFUSED, TUBE_UNKNOWN_CODE, 0, 0, 0) && reads(five, TUBE_REFUSED, TUBE_MARK_INSIDE, 0, 0, 0)
                                                                 && reads(six, TUBE_REFUSED, TUBE_STRING_LONG, 0, 0, 0) && reads(nine, TUBE_REFUSED, TUBE_BAD_FIELD, 0, 0, 0)
                                                                 && four.reader.phase == TUBE_STOPPED_PHASE && five.reader.phase == TUBE_STOPPED_PHASE
                                                                 && six.reader.phase == TUBE_STOPPED_PHASE && nine.reader.phase == TUBE_STOPPED_PHASE
                                                                 && six.reader.count == 255 && kept(&one, 0, 255));
    TubeRead unlisted = tube_read(tube_reader(TUBE_PARALLEL), 0x9B, body);
    expect("tube_read: a first byte of the parallel side", reads(unlisted, TUBE_REFUSED, TUBE_UNKNOWN_CODE, 0, 0, 0)
                                                               && reads(tube_read(tube_reader(TUBE_PARALLEL), 0, body), TUBE_REQUEST, 0, 0, 0, 0));

    const TubeReader parallel = tube_reader(TUBE_PARALLEL), going = tube_read(parallel, TUBE_CODE_OSCLI, body).reader;
    enum { ODD = 16 };
    TubeReader odd[ODD] = {fresh,    fresh,        fresh,        fresh,        fresh,        fresh,        parallel, parallel,
                           parallel, taken.reader, taken.reader, taken.reader, taken.reader, taken.reader, going,    six.reader};
    odd[0].phase = 3;
    odd[1].carrier = 2;
    odd[2].phase = 0xFF;
    odd[3].style = 1; /* outside a request these are 0 */
    odd[4].code = TUBE_CODE_OSCLI;
    odd[5].count = 1;
    odd[6].style = 1;
    odd[7].code = TUBE_CODE_OSCLI;
    odd[8].count = UINT16_MAX;
    odd[9].style = 4;
    odd[10].code = 0x18;
    odd[11].code = TUBE_CODE_OSRDCH;
    odd[12].count = 256; /* as many as the longest body */
    odd[13].count = UINT16_MAX;
    odd[14].style = 1;
    body = lend(&one);
    int stopped = 1;
    for (int i = 0; i < ODD; i++) {
        TubeRead r = tube_read(odd[i], 'A', body);
        TubeFed fed = tube_feed(odd[i], wire, 7, body), none = tube_feed(odd[i], wire, 0, body);
        stopped = stopped && reads(r, TUBE_REFUSED, TUBE_STOPPED, 0, 0, 0) && same_reader(r.reader, odd[i]) && reads(fed.read, TUBE_REFUSED, TUBE_STOPPED, 0, 0, 0) && fed.used == 1
                  && same_reader(fed.read.reader, odd[i]) && reads(none.read, TUBE_NEED_MORE, 0, 0, 0, 0) && none.used == 0 && same_reader(none.read.reader, odd[i]);
    }
    expect("tube_read, tube_feed: a stopped reader and one beyond its limits", stopped && kept(&one, 0, 0));
    TubeReader last = taken.reader;
    last.count = 255;
    TubeRead ends = tube_read(last, 0x0D, body);
    expect("tube_read: a reader just inside its limits", reads(ends, TUBE_REQUEST, 0, 3, TUBE_CODE_OSCLI, 256) && same_reader(ends.reader, fresh) && body[255] == 0x0D
                                                             && kept(&one, 255, 1));
    body = lend(&one);

    /* The request in two slices, cut inside an escape pair; behind it a character, then a mark inside a request. */
    TubeFed none = tube_feed(fresh, wire, 0, body), first = tube_feed(fresh, wire, 4, body);
    expect("tube_feed: an empty slice, one that ends first", reads(none.read, TUBE_NEED_MORE, 0, 0, 0, 0) && none.used == 0 && same_reader(none.read.reader, fresh)
                                                                 && reads(first.read, TUBE_NEED_MORE, 0, 0, 0, 0) && first.used == 4 && first.read.reader.count == 1
                                                                 && first.read.reader.escape == 1 && kept(&one, 0, 1));
    TubeFed second = tube_feed(first.read.reader, wire + 4, 9, body), character = tube_feed(second.read.reader, wire + 7, 6, body);
    TubeFed inside = tube_feed(character.read.reader, wire + 8, 5, body);
    expect("tube_feed: a request, a character and a refusal before the end", reads(second.read, TUBE_REQUEST, 0, 3, TUBE_CODE_OSCLI, 4) && second.used == 3
                                                                                 && memcmp(body, "D\x9BR\x0D", 4) == 0 && reads(character.read, TUBE_CHARACTER, 'A', 0, 0, 0)
                                                                                 && character.used == 1 && reads(inside.read, TUBE_REFUSED, TUBE_MARK_INSIDE, 0, 0, 0)
                                                                                 && inside.used == 4 && kept(&one, 0, 4));
}

/* ---- The link ---- */

static int same_link(TubeLink a, TubeLink b) {
    return a.got == b.got && a.held == b.held && a.wait == b.wait && a.out_length == b.out_length && a.action == b.action && a.flags == b.flags;
}

static int told(TubeTold t, uint8_t kind, size_t length, uint8_t first, uint8_t second, uint8_t third, uint8_t fourth) {
    return t.kind == kind && t.length == length && t.first == first && t.second == second && t.third == third && t.fourth == fourth;
}

/* Raw bytes read one by one: what the last of them gives, or the first that is refused. */
static TubeTold stepped(TubeLink link, const uint8_t *raw, size_t length, uint8_t *reply, uint8_t *own) {
    TubeTold t = {.link = link};
    for (size_t i = 0; i < length && t.kind != TUBE_TOLD_REFUSED; i++)
        t = tube_link_step(t.link, raw[i], reply, own);
    return t;
}

enum { MOST_FLAGS = TUBE_LINK_ESCAPE + TUBE_LINK_STOPPED + 30 * TUBE_LINK_NESTED };

/* Links that are stopped or beyond a limit. */
static TubeLink odd_link(int i) {
    TubeLink odd = tube_link();
    switch (i) {
    case 0: odd.wait = TUBE_CALLS + 1; break;
    case 1: odd.action = TUBE_IN_SAVE + 1; break;
    case 2: odd.flags = TUBE_LINK_STOPPED; break;
    case 3: odd.got = 1; break;
    case 4: odd.held = UINT16_MAX; break;
    case 5: odd.wait = 1 + TUBE_OSBGET, odd.got = 2; break;
    case 6: odd.action = TUBE_IN_ERROR, odd.held = TUBE_OWN_LENGTH; break;
    case 7: odd.flags = MOST_FLAGS + 1; break;
    case 8: odd.flags = UINT8_MAX - TUBE_LINK_STOPPED; break;
    case 9: odd.action = TUBE_IN_BLOCK; break;
    case 10: odd.action = TUBE_IN_BLOCK + 1, odd.held = 1; break;
    case 11: odd.action = TUBE_IN_EXECUTE, odd.held = 4; break;
    case 12: odd.action = TUBE_IN_LOAD, odd.flags = 15 * TUBE_LINK_NESTED; break; /* a fifth transfer inside four loads */
    case 13: odd.action = TUBE_IN_SAVE, odd.flags = 30 * TUBE_LINK_NESTED; break;
    default: odd.wait = 1 + TUBE_OSWORD; break; /* with out length 0 */
    }
    return odd;
}

enum { ODD_LINKS = 15 };

static void calls_begun(void) {
    const TubeLink fresh = tube_link();
    TubeLink nothing;
    memset(&nothing, 0, sizeof nothing);
    expect("tube_link: idle", same_link(fresh, nothing));

    int begun = 1, denied = 1;
    for (int i = 0; i < 256; i++) {
        TubeBegun b = tube_begin(fresh, (uint8_t)i, 255);
        if (i < TUBE_CALLS) {
            TubeLink waiting = fresh;
            waiting.wait = (uint8_t)(1 + i);
            waiting.out_length = i == TUBE_OSWORD ? 255 : 0;
            begun = begun && b.kind == TUBE_BEGUN && b.answer == 0 && same_link(b.link, waiting);
        } else
            denied = denied && b.kind == TUBE_DENIED && b.answer == TUBE_UNKNOWN_CODE && same_link(b.link, fresh);
    }
    TubeBegun complete = tube_begin(fresh, TUBE_OSWORD, 0);
    expect("tube_begin: each call", begun && complete.kind == TUBE_COMPLETE && complete.answer == 0 && same_link(complete.link, fresh));
    TubeLink waits = tube_begin(fresh, TUBE_OSBGET, 0).link;
    TubeBegun second = tube_begin(waits, TUBE_OSWORD, 0);
    denied = denied && second.kind == TUBE_DENIED && second.answer == TUBE_CALL_WAITS && same_link(second.link, waits);
    for (int i = 0; i < ODD_LINKS; i++) {
        TubeBegun b = tube_begin(odd_link(i), TUBE_OSBGET, 0);
        denied = denied && b.kind == TUBE_DENIED && b.answer == TUBE_STOPPED && same_link(b.link, odd_link(i));
    }
    expect("tube_begin: no such call, another waits, stopped", denied);

    int order = 1;
    for (int i = 0; i < 256; i++) {
        TubeLink stopped = waits;
        stopped.flags = TUBE_LINK_STOPPED;
        TubeBegun seven = tube_begin(stopped, (uint8_t)i, 0), twelve = tube_begin(waits, (uint8_t)i, 0), odd = tube_begin(odd_link(i % ODD_LINKS), (uint8_t)i, 0);
        order = order && seven.kind == TUBE_DENIED && seven.answer == TUBE_STOPPED && same_link(seven.link, stopped)
                && twelve.kind == TUBE_DENIED && twelve.answer == TUBE_CALL_WAITS && same_link(twelve.link, waits)
                && odd.kind == TUBE_DENIED && odd.answer == TUBE_STOPPED && same_link(odd.link, odd_link(i % ODD_LINKS));
    }
    TubeLink open = fresh;
    open.action = TUBE_IN_EVENT, open.held = 2, open.flags = TUBE_LINK_ESCAPE;
    TubeBegun four = tube_begin(open, TUBE_NO_CALL, 0);
    expect("tube_begin: 7 before 12 before 4", order && four.kind == TUBE_DENIED && four.answer == TUBE_UNKNOWN_CODE && same_link(four.link, open));
}

static void steps(void) {
    const TubeLink fresh = tube_link(), waits = tube_begin(fresh, TUBE_OSBGET, 7).link;
    uint8_t *reply = lend(&one), *own = lend(&two);
    int characters = 1;
    for (int i = 0; i < 256; i++) {
        TubeTold t = tube_link_step(fresh, (uint8_t)i, reply, own);
        characters = characters && (i == TUBE_ESCAPE_BYTE ? told(t, TUBE_TOLD_MORE, 0, 0, 0, 0, 0) && t.link.flags == TUBE_LINK_ESCAPE
                                                          : told(t, TUBE_TOLD_CHARACTER, 0, (uint8_t)i, 0, 0, 0) && same_link(t.link, fresh));
    }
    TubeTold doubled = stepped(fresh, (const uint8_t[2]){0x9B, 0x9B}, 2, reply, own);
    expect("tube_link_step: every character while idle", characters && told(doubled, TUBE_TOLD_CHARACTER, 0, 0x9B, 0, 0, 0) && kept(&one, 0, 0) && kept(&two, 0, 0));

    int actions = told(stepped(fresh, (const uint8_t[2]){0x9B, 0x8F}, 2, reply, own), TUBE_TOLD_ESCAPE, 0, 1, 0, 0, 0)
                  && told(stepped(fresh, (const uint8_t[2]){0x9B, 0x80}, 2, reply, own), TUBE_TOLD_ESCAPE, 0, 0, 0, 0, 0) && kept(&two, 0, 0)
                  && told(stepped(fresh, (const uint8_t[5]){0x9B, 0x90, 1, 2, 3}, 5, reply, own), TUBE_TOLD_EVENT, 0, 1, 2, 3, 0) && kept(&two, 0, 3)
                  && told(stepped(fresh, (const uint8_t[6]){0x9B, 0xCF, 1, 2, 3, 4}, 6, reply, own), TUBE_TOLD_ADDRESS, 0, 1, 2, 3, 4) && kept(&two, 0, 4);
    expect("tube_link_step: the Escape state, an event, an address", actions && kept(&one, 0, 0));

    static uint8_t error[2 + 1 + 256] = {0x9B, 0x00, 17};
    memset(error + 3, 'x', 256);
    own = lend(&two);
    TubeTold six = stepped(waits, error, sizeof error, reply, own);
    int refused = told(six, TUBE_TOLD_REFUSED, 0, TUBE_STRING_LONG, 0, 0, 0) && six.link.flags == TUBE_LINK_STOPPED && six.link.held == 256 && kept(&two, 0, 256);
    error[sizeof error - 1] = 0;
    own = lend(&two);
    TubeTold longest = stepped(waits, error, sizeof error, reply, own);
    int ends = told(longest, TUBE_TOLD_ERROR, 255, 17, 0, 0, 0) && own[0] == 17 && memcmp(own + 1, error + 3, 256) == 0 && kept(&two, 0, TUBE_OWN_LENGTH) && same_link(longest.link, fresh);
    TubeTold restart = stepped(waits, (const uint8_t[4]){0x9B, 0, 0, 0}, 4, reply, own), empty = stepped(waits, (const uint8_t[4]){0x9B, 0, 1, 0}, 4, reply, own);
    expect("tube_link_step: errors of 255 and 0 bytes and a restart end the call", ends && told(restart, TUBE_TOLD_RESTART, 0, 0, 0, 0, 0) && same_link(restart.link, fresh)
                                                                                       && told(empty, TUBE_TOLD_ERROR, 0, 1, 0, 0, 0) && kept(&one, 0, 0));
    TubeLink stopped = waits;
    stopped.flags = TUBE_LINK_ESCAPE + TUBE_LINK_STOPPED;
    own = lend(&two);
    TubeTold four = stepped(waits, (const uint8_t[2]){0x9B, 0xA1}, 2, reply, own);
    refused = refused && told(four, TUBE_TOLD_REFUSED, 0, TUBE_UNKNOWN_CODE, 0, 0, 0) && same_link(four.link, stopped) && kept(&two, 0, 0);
    TubeTold five = stepped(waits, (const uint8_t[4]){0x9B, 0x90, 0x9B, 0x80}, 4, reply, own);
    expect("tube_link_step: refusals 4, 5, 6 stop the link", refused && told(five, TUBE_TOLD_REFUSED, 0, TUBE_MARK_INSIDE, 0, 0, 0) && five.link.flags == TUBE_LINK_ESCAPE + TUBE_LINK_STOPPED);

    static uint8_t line[TUBE_REPLY_LENGTH];
    memset(line, 'x', sizeof line);
    line[TUBE_REPLY_LENGTH - 1] = 0x0D;
    reply = lend(&one), own = lend(&two);
    TubeTold whole = stepped(tube_begin(fresh, TUBE_OSWORD0, 0).link, line, sizeof line, reply, own);
    int lines = told(whole, TUBE_TOLD_REPLY, TUBE_REPLY_LENGTH, 0, 0, 0, 0) && memcmp(reply, line, sizeof line) == 0 && kept(&one, 0, TUBE_REPLY_LENGTH) && kept(&two, 0, 0);
    line[TUBE_REPLY_LENGTH - 1] = 'x';
    reply = lend(&one);
    TubeTold over = stepped(tube_begin(fresh, TUBE_OSWORD0, 0).link, line, sizeof line, reply, own);
    expect("tube_link_step: a line of 255 bytes and one of 256", lines && told(over, TUBE_TOLD_REFUSED, 0, TUBE_STRING_LONG, 0, 0, 0) && kept(&one, 0, 256));

    int given = 1;
    reply = lend(&one), own = lend(&two);
    for (int i = 0; i < ODD_LINKS; i++) {
        TubeTold t = tube_link_step(odd_link(i), 'A', reply, own);
        given = given && told(t, TUBE_TOLD_REFUSED, 0, TUBE_STOPPED, 0, 0, 0) && same_link(t.link, odd_link(i));
    }
    expect("tube_link_step: a stopped link and one beyond its limits", given && kept(&one, 0, 0) && kept(&two, 0, 0));
}

/* ---- Transfers ---- */

/* Raw bytes of which every one but the last needs more; what the last gives. */
static TubeTold last_of(TubeLink link, const uint8_t *raw, size_t length, uint8_t *reply, uint8_t *own) {
    TubeTold t = {.link = link};
    for (size_t i = 0; i < length; i++) {
        if (t.kind != TUBE_TOLD_MORE)
            return (TubeTold){.kind = UINT32_MAX};
        t = tube_link_step(t.link, raw[i], reply, own);
    }
    return t;
}

/* The same link with other transfers open, by their number. */
static TubeLink nested(TubeLink link, unsigned number) {
    link.flags = (uint8_t)(TUBE_LINK_NESTED * number);
    return link;
}

/* The numbers of the open transfers: from 15 on four are open. */
enum { NESTINGS = 31, FULL = 15 };

static void transfers_open(void) {
    expect("numbers of transfers", TUBE_TOO_DEEP == 13 && TUBE_LOAD == 0 && TUBE_SAVE == 1 && TUBE_TRANSFERS == 4 && TUBE_IN_EXECUTE == 4 && TUBE_IN_LOAD == 5 && TUBE_IN_SAVE == 6
                                       && TUBE_IN_BLOCK == 128 && TUBE_LINK_ESCAPE == 1 && TUBE_LINK_STOPPED == 2 && TUBE_LINK_NESTED == 4 && TUBE_TOLD_BLOCK == 9
                                       && TUBE_TOLD_EXECUTE == 10 && TUBE_TOLD_LOAD == 11 && TUBE_TOLD_SAVE == 12 && TUBE_TOLD_DATA == 13 && TUBE_TOLD_END == 14);

    const TubeLink fresh = tube_link(), waits = tube_begin(fresh, TUBE_OSBGET, 0).link;
    uint8_t *reply = lend(&one), *own = lend(&two);

    /* A control block of every length, with an escape in it where there is room for one. */
    int blocks = 1;
    for (uint8_t n = 1; n < 128; n++) {
        uint8_t raw[2 + 127 + 1] = {0x9B, n}, bytes[127];
        memcpy(bytes, letters, sizeof bytes);
        memcpy(raw + 2, letters, 127);
        const size_t pair = n > 1;
        if (pair) {
            bytes[n - 2] = raw[n] = raw[n + 1] = 0x9B;
            raw[n + 2] = bytes[n - 1];
        }
        own = lend(&two);
        TubeTold opened = last_of(waits, raw, 2, reply, own), before = last_of(waits, raw, 1u + n + pair, reply, own);
        TubeLink open = waits, nearly = waits;
        open.action = nearly.action = (uint8_t)(TUBE_IN_BLOCK + n), nearly.held = (uint16_t)(n - 1);
        blocks = blocks && told(opened, TUBE_TOLD_MORE, 0, 0, 0, 0, 0) && same_link(opened.link, open) && told(before, TUBE_TOLD_MORE, 0, 0, 0, 0, 0) && same_link(before.link, nearly);
        own = lend(&two);
        TubeTold t = last_of(waits, raw, 2u + n + pair, reply, own);
        blocks = blocks && told(t, TUBE_TOLD_BLOCK, n, 0, 0, 0, 0) && same_link(t.link, waits) && memcmp(own, bytes, n) == 0 && kept(&two, 0, n);
    }
    expect("tube_link_step: a control block of 1 to 127 bytes", blocks && kept(&one, 0, 0));

    /* Execute, load and save, whatever the low bits of their marks. */
    static const struct {
        uint8_t mark, action, kind, flags;
    } places[3] = {{0xD0, TUBE_IN_EXECUTE, TUBE_TOLD_EXECUTE, 0}, {0xE0, TUBE_IN_LOAD, TUBE_TOLD_LOAD, 4}, {0xF0, TUBE_IN_SAVE, TUBE_TOLD_SAVE, 8}};
    int addresses = 1;
    for (int i = 0; i < 3; i++)
        for (int low = 0; low < 16; low++) {
            const uint8_t raw[6] = {0x9B, (uint8_t)(places[i].mark + low), 1, 2, 3, 4};
            own = lend(&two);
            for (uint16_t held = 0; held < 4; held++) {
                TubeTold t = last_of(waits, raw, 2u + held, reply, own);
                TubeLink open = waits;
                open.action = places[i].action, open.held = held;
                addresses = addresses && told(t, TUBE_TOLD_MORE, 0, 0, 0, 0, 0) && same_link(t.link, open) && kept(&two, 0, held);
            }
            TubeTold t = last_of(waits, raw, 6, reply, own);
            TubeLink behind = waits;
            behind.flags = places[i].flags;
            addresses = addresses && told(t, places[i].kind, 0, 1, 2, 3, 4) && same_link(t.link, behind) && memcmp(own, raw + 2, 4) == 0 && kept(&two, 0, 4);
        }
    expect("tube_link_step: execute, load and save with their addresses", addresses && kept(&one, 0, 0));

    /* Every way to open up to four, and to close them again: bit i of `ways` says whether the transfer i is a save. */
    int flags = 1;
    for (unsigned count = 1; count <= TUBE_TRANSFERS; count++)
        for (unsigned ways = 0; ways < 1u << count; ways++) {
            TubeLink link = waits;
            unsigned number = 0;
            for (unsigned i = 0; i < count; i++) {
                const unsigned save = ways >> i & 1;
                const uint8_t raw[6] = {0x9B, save ? 0xF0 : 0xE0, 0x12, 0x34, 0x9A, (uint8_t)i};
                TubeTold t = last_of(link, raw, 6, reply, own);
                number = 2 * number + 1 + save;
                flags = flags && told(t, save ? TUBE_TOLD_SAVE : TUBE_TOLD_LOAD, 0, 0x12, 0x34, 0x9A, (uint8_t)i) && same_link(t.link, nested(waits, number));
                link = t.link;
            }
            flags = flags && number < NESTINGS && (number >= FULL) == (count == TUBE_TRANSFERS);
            for (unsigned i = count; i-- > 0;) {
                const unsigned save = ways >> i & 1;
                TubeTold t = last_of(link, (const uint8_t[2]){0x9B, 0xB0}, 2, reply, own);
                number = (number - 1) / 2;
                flags = flags && told(t, TUBE_TOLD_END, 0, save ? TUBE_SAVE : TUBE_LOAD, 0, 0, 0) && same_link(t.link, nested(waits, number));
                link = t.link;
            }
            flags = flags && same_link(link, waits);
        }
    const uint8_t three_open[18] = {0x9B, 0xE0, 0, 0, 0x19, 0, 0x9B, 0xF0, 0, 0, 0x80, 0, 0x9B, 0xE0, 0, 0, 0x19, 0};
    TubeTold third = stepped(waits, three_open, 18, reply, own);
    expect("tube_link_step: the flags behind every way to open and close transfers", flags && third.link.flags == 36 && third.link.action == TUBE_NO_ACTION && kept(&one, 0, 0) && kept(&two, 0, 4));

    /* The address of one more is read where at most three are open, its mark with four is 13; any other action goes on. */
    int fifth = 1, odd = 1;
    own = lend(&two);
    for (unsigned number = 0; number < NESTINGS; number++)
        for (int low = 0; low < 16; low++) {
            const TubeLink link = nested(waits, number);
            TubeLink stopped = link;
            stopped.flags += TUBE_LINK_ESCAPE + TUBE_LINK_STOPPED;
            for (int save = 0; save < 2; save++) {
                TubeLink address = link;
                address.action = save ? TUBE_IN_SAVE : TUBE_IN_LOAD;
                TubeTold t = last_of(link, (const uint8_t[2]){0x9B, (uint8_t)((save ? 0xF0 : 0xE0) + low)}, 2, reply, own);
                fifth = fifth && (number < FULL ? told(t, TUBE_TOLD_MORE, 0, 0, 0, 0, 0) && same_link(t.link, address)
                                                : told(t, TUBE_TOLD_REFUSED, 0, TUBE_TOO_DEEP, 0, 0, 0) && same_link(t.link, stopped));
                /* A record that says that the address is open, whatever led there. */
                TubeTold first = tube_link_step(address, 0x12, reply, own);
                odd = odd && (number < FULL ? told(first, TUBE_TOLD_MORE, 0, 0, 0, 0, 0) && first.link.held == 1
                                            : told(first, TUBE_TOLD_REFUSED, 0, TUBE_STOPPED, 0, 0, 0) && same_link(first.link, address));
            }
            TubeTold unknown = last_of(link, (const uint8_t[2]){0x9B, (uint8_t)(0xA0 + low)}, 2, reply, own), execute = last_of(link, (const uint8_t[2]){0x9B, (uint8_t)(0xD0 + low)}, 2, reply, own);
            TubeTold block = last_of(link, (const uint8_t[2]){0x9B, (uint8_t)(1 + low)}, 2, reply, own), inside = stepped(link, (const uint8_t[4]){0x9B, 0xC0, 0x9B, (uint8_t)(0xE0 + low)}, 4, reply, own);
            fifth = fifth && told(unknown, TUBE_TOLD_REFUSED, 0, TUBE_UNKNOWN_CODE, 0, 0, 0) && same_link(unknown.link, stopped)
                    && told(execute, TUBE_TOLD_MORE, 0, 0, 0, 0, 0) && execute.link.action == TUBE_IN_EXECUTE && execute.link.flags == link.flags
                    && told(block, TUBE_TOLD_MORE, 0, 0, 0, 0, 0) && block.link.action == TUBE_IN_BLOCK + 1 + low && block.link.flags == link.flags
                    && told(inside, TUBE_TOLD_REFUSED, 0, TUBE_MARK_INSIDE, 0, 0, 0) && inside.link.flags == stopped.flags && inside.link.action == TUBE_IN_ADDRESS;
        }
    expect("tube_link_step: a fifth transfer is 13, behind 5 and 4", fifth && kept(&one, 0, 0));
    expect("tube_link_step: four transfers open and an address of a fifth", odd && kept(&two, 0, 1));

    /* Every number of flags and of an action, and as many bytes of an action as it has. */
    int numbers = 1;
    own = lend(&two);
    for (unsigned i = 0; i < 256; i++) {
        TubeLink flagged = fresh, acting = fresh;
        flagged.flags = (uint8_t)i, acting.action = (uint8_t)i;
        TubeTold f = tube_link_step(flagged, 'A', reply, own), a = tube_link_step(acting, 'A', reply, own);
        const int stopped = i > MOST_FLAGS || (i & TUBE_LINK_STOPPED) != 0, no_action = i > TUBE_IN_SAVE && i <= TUBE_IN_BLOCK;
        numbers = numbers && stopped == (f.kind == TUBE_TOLD_REFUSED && f.first == TUBE_STOPPED) && (!stopped || same_link(f.link, flagged))
                  && no_action == (a.kind == TUBE_TOLD_REFUSED) && (!no_action || (a.first == TUBE_STOPPED && same_link(a.link, acting)));
        static const uint16_t most[7] = {0, TUBE_OWN_LENGTH, 3, 4, 4, 4, 4};
        if (no_action)
            continue;
        acting.held = i > TUBE_IN_BLOCK ? (uint16_t)(i - TUBE_IN_BLOCK) : most[i];
        if (acting.held > 0) {
            TubeTold over = tube_link_step(acting, 0, reply, own);
            numbers = numbers && told(over, TUBE_TOLD_REFUSED, 0, TUBE_STOPPED, 0, 0, 0) && same_link(over.link, acting);
            acting.held--;
            TubeTold ends = tube_link_step(acting, 0, reply, own);
            numbers = numbers && ends.kind != TUBE_TOLD_MORE && ends.kind != TUBE_TOLD_REFUSED && ends.link.held == 0 && ends.link.action == TUBE_NO_ACTION;
        }
    }
    expect("tube_link_step: every number of flags and of an action, and its last byte", numbers && kept(&one, 0, 0));
}

static void transfers_closed(void) {
    const TubeLink fresh = tube_link(), waits = tube_begin(fresh, TUBE_OSBGET, 0).link;
    uint8_t *reply = lend(&one), *own = lend(&two);

    /* Idle or waiting, at every nesting: a byte of the innermost load, and 9 where a save is innermost. */
    int loads = 1, saves = 1, ends = 1;
    for (int idle = 0; idle < 2; idle++)
        for (unsigned number = 1; number < NESTINGS; number++) {
            const TubeLink link = nested(idle ? fresh : waits, number);
            for (int i = 0; i < 256; i++) {
                const uint8_t raw[2] = {(uint8_t)i, (uint8_t)i};
                const size_t length = i == TUBE_ESCAPE_BYTE ? 2 : 1;
                TubeTold t = last_of(link, raw, length, reply, own);
                TubeLink stopped = link;
                stopped.flags += TUBE_LINK_STOPPED + (length == 2 ? TUBE_LINK_ESCAPE : 0);
                if (number % 2 == 1)
                    loads = loads && told(t, TUBE_TOLD_DATA, 0, (uint8_t)i, 0, 0, 0) && same_link(t.link, link);
                else
                    saves = saves && told(t, TUBE_TOLD_REFUSED, 0, TUBE_BAD_FIELD, 0, 0, 0) && same_link(t.link, stopped);
            }
            for (int low = 0; low < 16; low++) {
                TubeTold t = last_of(link, (const uint8_t[2]){0x9B, (uint8_t)(0xB0 + low)}, 2, reply, own);
                ends = ends && told(t, TUBE_TOLD_END, 0, number % 2 == 1 ? TUBE_LOAD : TUBE_SAVE, 0, 0, 0) && same_link(t.link, nested(link, (number - 1) / 2));
            }
        }
    expect("tube_link_step: every byte inside a load is its data", loads);
    expect("tube_link_step: every byte inside a save is refused with 9", saves);
    for (int low = 0; low < 16; low++) {
        TubeLink stopped = waits;
        stopped.flags = TUBE_LINK_ESCAPE + TUBE_LINK_STOPPED;
        TubeTold t = last_of(waits, (const uint8_t[2]){0x9B, (uint8_t)(0xB0 + low)}, 2, reply, own);
        ends = ends && told(t, TUBE_TOLD_REFUSED, 0, TUBE_MARK_INSIDE, 0, 0, 0) && same_link(t.link, stopped);
    }
    expect("tube_link_step: an end closes the innermost transfer, and is 5 with none open", ends && kept(&one, 0, 0) && kept(&two, 0, 0));

    /* An error and a restart close all. */
    int closed = 1;
    for (unsigned number = 0; number < NESTINGS; number++) {
        TubeTold error = last_of(nested(waits, number), (const uint8_t[6]){0x9B, 0x00, 0xFE, 'N', 'o', 0}, 6, reply, own);
        closed = closed && told(error, TUBE_TOLD_ERROR, 2, 0xFE, 0, 0, 0) && same_link(error.link, fresh) && memcmp(own, "\xFENo", 4) == 0;
        TubeTold restart = last_of(nested(waits, number), (const uint8_t[4]){0x9B, 0, 0, 0}, 4, reply, own);
        closed = closed && told(restart, TUBE_TOLD_RESTART, 0, 0, 0, 0, 0) && same_link(restart.link, fresh);
    }
    expect("tube_link_step: an error and a restart close every transfer and end the call", closed && kept(&one, 0, 0) && kept(&two, 0, 4));

    /* Actions inside a load and a save leave it open and give no data. */
    int inside = 1;
    for (unsigned number = 1; number < NESTINGS; number++) {
        const TubeLink link = nested(waits, number);
        own = lend(&two);
        TubeTold escape = last_of(link, (const uint8_t[2]){0x9B, 0x81}, 2, reply, own), event = last_of(link, (const uint8_t[5]){0x9B, 0x90, 1, 2, 3}, 5, reply, own);
        TubeTold address = last_of(link, (const uint8_t[6]){0x9B, 0xC0, 1, 2, 3, 4}, 6, reply, own), execute = last_of(link, (const uint8_t[6]){0x9B, 0xD0, 5, 6, 7, 8}, 6, reply, own);
        TubeTold block = last_of(link, (const uint8_t[5]){0x9B, 0x02, 0x0D, 0x9B, 0x9B}, 5, reply, own);
        inside = inside && told(escape, TUBE_TOLD_ESCAPE, 0, 1, 0, 0, 0) && told(event, TUBE_TOLD_EVENT, 0, 1, 2, 3, 0) && told(address, TUBE_TOLD_ADDRESS, 0, 1, 2, 3, 4)
                 && told(execute, TUBE_TOLD_EXECUTE, 0, 5, 6, 7, 8) && told(block, TUBE_TOLD_BLOCK, 2, 0, 0, 0, 0) && memcmp(own, "\x0D\x9B\7\x08", 4) == 0 && kept(&two, 0, 4)
                 && same_link(escape.link, link) && same_link(event.link, link) && same_link(address.link, link) && same_link(execute.link, link) && same_link(block.link, link);
    }
    expect("tube_link_step: actions inside a transfer leave it open", inside && kept(&one, 0, 0));
}

static void calls_inside_transfers(void) {
    const TubeLink fresh = tube_link();
    const uint8_t load[7] = {0x9B, 0xE0, 0x00, 0x00, 0x19, 0x00, 0x41}, rest[5] = {0x42, 0x9B, 0xB0, 0x80, 0x41};
    int begun = 1, denied = 1;
    for (size_t at = 0; at <= 7; at++) {
        /* A call begun at any place of a load: the bytes go on into the load, and the reply comes behind its end. */
        uint8_t *reply = lend(&one), *own = lend(&two);
        const TubeLink link = stepped(fresh, load, at, reply, own).link;
        TubeBegun complete = tube_begin(link, TUBE_OSWORD, 0), b = tube_begin(link, TUBE_OSBGET, 0), again = tube_begin(b.link, TUBE_OSWORD, 0), other = tube_begin(b.link, TUBE_NO_CALL, 0);
        TubeLink waits = link;
        waits.wait = 1 + TUBE_OSBGET;
        begun = begun && b.kind == TUBE_BEGUN && b.answer == 0 && same_link(b.link, waits) && complete.kind == TUBE_COMPLETE && complete.answer == 0 && same_link(complete.link, link);
        denied = denied && again.kind == TUBE_DENIED && again.answer == TUBE_CALL_WAITS && same_link(again.link, waits)
                 && other.kind == TUBE_DENIED && other.answer == TUBE_CALL_WAITS && same_link(other.link, waits);
        TubeTold opened = stepped(b.link, load + at, 7 - at, reply, own), byte = tube_link_step(opened.link, rest[0], reply, own);
        TubeTold end = last_of(byte.link, rest + 1, 2, reply, own), whole = last_of(end.link, rest + 3, 2, reply, own);
        begun = begun && (at == 7 || told(opened, TUBE_TOLD_DATA, 0, 0x41, 0, 0, 0)) && opened.link.flags == TUBE_LINK_NESTED && told(byte, TUBE_TOLD_DATA, 0, 0x42, 0, 0, 0)
                && told(end, TUBE_TOLD_END, 0, TUBE_LOAD, 0, 0, 0) && told(whole, TUBE_TOLD_REPLY, 2, 0, 0, 0, 0) && same_link(whole.link, fresh)
                && reply[0] == 0x80 && reply[1] == 0x41 && kept(&one, 0, 2) && kept(&two, 0, 4);
    }
    expect("tube_begin: inside a load and its address", begun);
    expect("tube_begin: another waits inside a load and its address", denied);
}

static int ran(TubeRan r, uint8_t kind, size_t length, uint8_t first, size_t used, size_t noted, size_t stored) {
    return told(r.told, kind, length, first, 0, 0, 0) && r.used == used && r.noted == noted && r.stored == stored;
}

/* A longer buffer: for a link that says that its open action has any number of bytes, and for many notes. */
static uint8_t wide[UINT16_MAX + AREA];

static int wide_kept(size_t length) {
    for (size_t i = 0; i < length; i++)
        if (wide[i] != FILL)
            return 0;
    return 1;
}

static void runs(void) {
    const TubeLink fresh = tube_link(), waits = tube_begin(fresh, TUBE_OSBGET, 7).link;
    /* The reply to OSBGET with the Escape state inside it, and a byte behind it that stays for the next call. */
    const uint8_t mixed[5] = {0x80, 0x9B, 0x81, 0x41, 'Z'}, note[TUBE_NOTE] = {TUBE_TOLD_ESCAPE, 1, 0, 0, 0};
    uint8_t *reply = lend(&one), *own = lend(&two), *room = lend(&three), *data = lend(&spare);
    TubeRan whole = tube_run(waits, mixed, 5, reply, own, room, 5 * TUBE_NOTE, data, 5);
    expect("tube_run: a reply with an action inside it, room just long enough", ran(whole, TUBE_TOLD_REPLY, 2, 0, 4, 1, 0) && same_link(whole.told.link, fresh)
                                                                                    && memcmp(room, note, TUBE_NOTE) == 0 && kept(&three, 0, TUBE_NOTE)
                                                                                    && reply[0] == 0x80 && reply[1] == 0x41 && kept(&one, 0, 2) && kept(&two, 0, 0) && kept(&spare, 0, 0));
    reply = lend(&one), room = lend(&three);
    TubeRan tight = tube_run(waits, mixed, 5, reply, own, room, 5 * TUBE_NOTE - 1, data, AREA), no_room = tube_run(waits, mixed, 1, reply, own, room, 0, data, AREA);
    expect("tube_run: room one byte short", ran(tight, TUBE_TOLD_REFUSED, 0, TUBE_BUFFER_SHORT, 0, 0, 0) && same_link(tight.told.link, waits)
                                                && ran(no_room, TUBE_TOLD_REFUSED, 0, TUBE_BUFFER_SHORT, 0, 0, 0) && same_link(no_room.told.link, waits)
                                                && kept(&one, 0, 0) && kept(&three, 0, 0) && kept(&spare, 0, 0));
    tight = tube_run(waits, mixed, 5, reply, own, room, AREA, data, 4), no_room = tube_run(waits, mixed, 1, reply, own, room, AREA, data, 0);
    expect("tube_run: data one byte short", ran(tight, TUBE_TOLD_REFUSED, 0, TUBE_BUFFER_SHORT, 0, 0, 0) && same_link(tight.told.link, waits)
                                                && ran(no_room, TUBE_TOLD_REFUSED, 0, TUBE_BUFFER_SHORT, 0, 0, 0) && same_link(no_room.told.link, waits)
                                                && kept(&one, 0, 0) && kept(&three, 0, 0) && kept(&spare, 0, 0));
    TubeRan none = tube_run(waits, mixed, 0, reply, own, room, 0, data, 0), rest = tube_run(fresh, mixed + 4, 1, reply, own, room, TUBE_NOTE, data, 1);
    expect("tube_run: an empty slice, one that ends first", ran(none, TUBE_TOLD_MORE, 0, 0, 0, 0, 0) && same_link(none.told.link, waits) && ran(rest, TUBE_TOLD_MORE, 0, 0, 1, 1, 0)
                                                                && room[0] == TUBE_TOLD_CHARACTER && room[1] == 'Z' && room[2] == 0 && kept(&three, 0, TUBE_NOTE));
    const uint8_t error[7] = {0x9B, 0x00, 17, 'N', 'o', 0, 'Z'}, restart[4] = {0x9B, 0, 0, 0}, bad[3] = {'Y', 0x9B, 0xA1};
    room = lend(&three);
    TubeRan failing = tube_run(waits, error, 7, reply, own, room, AREA, data, AREA), again = tube_run(waits, restart, 4, reply, own, room, AREA, data, AREA);
    int ends = ran(failing, TUBE_TOLD_ERROR, 2, 17, 6, 0, 0) && ran(again, TUBE_TOLD_RESTART, 0, 0, 4, 0, 0) && kept(&three, 0, 0);
    TubeRan refused = tube_run(fresh, bad, 3, reply, own, room, AREA, data, AREA);
    expect("tube_run: an error, a restart and a refusal end it", ends && ran(refused, TUBE_TOLD_REFUSED, 0, TUBE_UNKNOWN_CODE, 3, 1, 0) && kept(&three, 0, TUBE_NOTE) && kept(&spare, 0, 0));

    int given = 1;
    reply = lend(&one), own = lend(&two), room = lend(&three);
    memset(wide, FILL, sizeof wide);
    for (int i = 0; i < ODD_LINKS; i++) {
        const TubeLink odd = odd_link(i);
        TubeRan byte = tube_run(odd, mixed, 5, reply, own, room, AREA, wide, 5u + odd.held), empty = tube_run(odd, mixed, 0, reply, own, room, 0, wide, odd.held);
        TubeRan shorter = tube_run(odd, mixed, 1, reply, own, room, TUBE_NOTE - 1, wide, sizeof wide), less = tube_run(odd, mixed, 1, reply, own, room, AREA, wide, odd.held);
        given = given && ran(byte, TUBE_TOLD_REFUSED, 0, TUBE_STOPPED, 1, 0, 0) && same_link(byte.told.link, odd) && ran(empty, TUBE_TOLD_MORE, 0, 0, 0, 0, 0)
                && same_link(empty.told.link, odd) && ran(shorter, TUBE_TOLD_REFUSED, 0, TUBE_BUFFER_SHORT, 0, 0, 0) && same_link(shorter.told.link, odd)
                && ran(less, TUBE_TOLD_REFUSED, 0, TUBE_BUFFER_SHORT, 0, 0, 0) && same_link(less.told.link, odd);
    }
    expect("tube_run: a stopped link and one beyond its limits", given && kept(&one, 0, 0) && kept(&two, 0, 0) && kept(&three, 0, 0) && wide_kept(sizeof wide));
}

static void transfers_run(void) {
    const TubeLink fresh = tube_link(), waits = tube_begin(fresh, TUBE_OSBGET, 0).link;

    /* The reply to OSBGET with a load of two bytes inside it: three notes, two bytes of data. */
    const uint8_t load[12] = {0x80, 0x9B, 0xE0, 0x00, 0x00, 0x19, 0x00, 0x41, 0x42, 0x9B, 0xB0, 0x41};
    const uint8_t notes[15] = {0x0B, 0x00, 0x00, 0x19, 0x00, 0x0D, 0x02, 0x00, 0x00, 0x00, 0x0E, 0x00, 0x00, 0x00, 0x00};
    uint8_t *reply = lend(&one), *own = lend(&two), *room = lend(&three), *data = lend(&spare);
    TubeRan whole = tube_run(waits, load, 12, reply, own, room, 60, data, 12);
    expect("tube_run: a load inside a reply, room and data just long enough", ran(whole, TUBE_TOLD_REPLY, 2, 0, 12, 3, 2) && same_link(whole.told.link, fresh)
                                                                                  && memcmp(room, notes, 15) == 0 && kept(&three, 0, 15) && memcmp(data, "AB", 2) == 0 && kept(&spare, 0, 2)
                                                                                  && reply[0] == 0x80 && reply[1] == 0x41 && kept(&one, 0, 2) && kept(&two, 0, 4));
    reply = lend(&one), own = lend(&two), room = lend(&three), data = lend(&spare);
    TubeRan shorter = tube_run(waits, load, 12, reply, own, room, 59, data, 12), less = tube_run(waits, load, 12, reply, own, room, 60, data, 11);
    expect("tube_run: a load inside a reply, room or data one byte short", ran(shorter, TUBE_TOLD_REFUSED, 0, TUBE_BUFFER_SHORT, 0, 0, 0) && same_link(shorter.told.link, waits)
                                                                               && ran(less, TUBE_TOLD_REFUSED, 0, TUBE_BUFFER_SHORT, 0, 0, 0) && same_link(less.told.link, waits)
                                                                               && kept(&one, 0, 0) && kept(&two, 0, 0) && kept(&three, 0, 0) && kept(&spare, 0, 0));

    /* The same cut in two at every place: together the slices give the same, but for two notes of data where the cut lies between its bytes. */
    int cut = 1;
    for (size_t at = 0; at <= 12; at++) {
        reply = lend(&one), own = lend(&two), room = lend(&three), data = lend(&spare);
        TubeRan first = tube_run(waits, load, at, reply, own, room, TUBE_NOTE * at, data, at);
        if (at == 12) {
            cut = cut && ran(first, TUBE_TOLD_REPLY, 2, 0, 12, 3, 2);
            break;
        }
        const TubeLink link = first.told.link;
        cut = cut && ran(first, TUBE_TOLD_MORE, 0, 0, at, at < 7 ? 0 : at < 8 ? 1 : at < 11 ? 2 : 3, at < 8 ? 0 : at < 9 ? 1 : 2);
        TubeRan second = tube_run(link, load + at, 12 - at, reply, own, room + TUBE_NOTE * first.noted, TUBE_NOTE * (12 - at), data + first.stored, 12 - at + link.held);
        cut = cut && ran(second, TUBE_TOLD_REPLY, 2, 0, 12 - at, (at == 8 ? 4 : 3) - first.noted, 2 - first.stored) && memcmp(data, "AB", 2) == 0 && kept(&spare, 0, 2)
              && kept(&three, 0, at == 8 ? 20 : 15) && reply[0] == 0x80 && reply[1] == 0x41 && kept(&one, 0, 2);
        if (at != 8)
            cut = cut && memcmp(room, notes, 15) == 0;
        else
            cut = cut && memcmp(room, "\x0B\0\0\x19\0\x0D\1\0\0\0\x0D\1\0\0\0\x0E\0\0\0\0", 20) == 0;
    }
    expect("tube_run: a load inside a reply, cut at every place", cut);

    /* Load data of any length: a note for every 255 bytes and one for the rest; every byte there is, doubled where it is the escape. */
    TubeLink loading = waits;
    loading.flags = TUBE_LINK_NESTED;
    int long_data = 1;
    for (size_t length = 1; length <= 800; length++) {
        static uint8_t raw[2 * 800 + 2], bytes[800];
        size_t at = 0;
        for (size_t i = 0; i < length; i++) {
            raw[at++] = bytes[i] = (uint8_t)(i + 0x0D);
            if (bytes[i] == TUBE_ESCAPE_BYTE)
                raw[at++] = TUBE_ESCAPE_BYTE;
        }
        raw[at++] = TUBE_ESCAPE_BYTE, raw[at++] = 0xB0;
        memset(wide, FILL, TUBE_NOTE * at);
        reply = lend(&one), own = lend(&two), data = lend(&spare);
        TubeRan r = tube_run(loading, raw, at, reply, own, wide, TUBE_NOTE * at, data, at);
        const size_t some = (length + 254) / 255;
        long_data = long_data && ran(r, TUBE_TOLD_MORE, 0, 0, at, some + 1, length) && same_link(r.told.link, waits) && memcmp(data, bytes, length) == 0 && kept(&spare, 0, length)
                    && kept(&one, 0, 0) && kept(&two, 0, 0);
        for (size_t i = 0; i < some; i++) {
            const uint8_t note[TUBE_NOTE] = {TUBE_TOLD_DATA, (uint8_t)(i + 1 < some ? 255 : length - 255 * i), 0, 0, 0};
            long_data = long_data && memcmp(wide + TUBE_NOTE * i, note, TUBE_NOTE) == 0;
            memset(wide + TUBE_NOTE * i, FILL, TUBE_NOTE);
        }
        long_data = long_data && memcmp(wide + TUBE_NOTE * some, "\x0E\0\0\0\0", TUBE_NOTE) == 0;
        memset(wide + TUBE_NOTE * some, FILL, TUBE_NOTE);
        long_data = long_data && wide_kept(TUBE_NOTE * at);
    }
    expect("tube_run: load data over 255 bytes in notes of 255", long_data);

    /* What is told between load bytes has its note between theirs. */
    const uint8_t pressed[7] = {0x41, 0x42, 0x9B, 0x81, 0x43, 0x9B, 0x9B};
    room = lend(&three), data = lend(&spare);
    TubeRan between = tube_run(loading, pressed, 7, reply, own, room, 35, data, 7);
    expect("tube_run: an Escape state between load bytes", ran(between, TUBE_TOLD_MORE, 0, 0, 7, 3, 4) && same_link(between.told.link, loading)
                                                               && memcmp(room, "\x0D\2\0\0\0\2\1\0\0\0\x0D\2\0\0\0", 15) == 0 && kept(&three, 0, 15)
                                                               && memcmp(data, "ABC\x9B", 4) == 0 && kept(&spare, 0, 4) && kept(&one, 0, 0) && kept(&two, 0, 0));

    /* A control block of which some bytes came before the slice: they count in the data, and all of it goes there. */
    int begun = 1;
    for (uint8_t held = 0; held < 127; held++) {
        static uint8_t rest[127];
        reply = lend(&one), own = lend(&two), room = lend(&three), data = lend(&spare);
        memcpy(own, letters, held);
        memcpy(rest, letters + held, 127u - held);
        TubeLink link = waits;
        link.action = TUBE_IN_BLOCK + 127, link.held = held;
        const size_t left = 127u - held;
        TubeRan tight = tube_run(link, rest, left, reply, own, room, TUBE_NOTE * left, data, 126);
        begun = begun && ran(tight, TUBE_TOLD_REFUSED, 0, TUBE_BUFFER_SHORT, 0, 0, 0) && same_link(tight.told.link, link) && kept(&two, 0, held) && kept(&three, 0, 0) && kept(&spare, 0, 0);
        TubeRan r = tube_run(link, rest, left, reply, own, room, TUBE_NOTE * left, data, 127);
        begun = begun && ran(r, TUBE_TOLD_MORE, 0, 0, left, 1, 127) && same_link(r.told.link, waits) && memcmp(room, "\x09\x7F\0\0\0", TUBE_NOTE) == 0 && kept(&three, 0, TUBE_NOTE)
                && memcmp(data, letters, 127) == 0 && kept(&spare, 0, 127) && memcmp(own, letters, 127) == 0 && kept(&two, 0, 127) && kept(&one, 0, 0);
    }
    expect("tube_run: a control block begun before the slice, data just long enough and one byte short", begun);

    /* The bytes of any open action count, also of one that gives no data, and also where the slice is empty. */
    TubeLink event = waits;
    event.action = TUBE_IN_EVENT, event.held = 2;
    own = lend(&two), room = lend(&three), data = lend(&spare);
    own[0] = 7, own[1] = 8;
    TubeRan no_byte = tube_run(event, load, 0, reply, own, room, 0, data, 2), too_few = tube_run(event, load, 0, reply, own, room, 0, data, 1);
    TubeRan third = tube_run(event, load, 1, reply, own, room, TUBE_NOTE, data, 3), two_bytes = tube_run(event, load, 1, reply, own, room, TUBE_NOTE, data, 2);
    expect("tube_run: the bytes of an open event count in the data", ran(no_byte, TUBE_TOLD_MORE, 0, 0, 0, 0, 0) && same_link(no_byte.told.link, event)
                                                                         && ran(too_few, TUBE_TOLD_REFUSED, 0, TUBE_BUFFER_SHORT, 0, 0, 0) && same_link(too_few.told.link, event)
                                                                         && ran(third, TUBE_TOLD_MORE, 0, 0, 1, 1, 0) && same_link(third.told.link, waits)
                                                                         && memcmp(room, "\3\7\x08\x80\0", TUBE_NOTE) == 0 && kept(&three, 0, TUBE_NOTE) && kept(&spare, 0, 0)
                                                                         && ran(two_bytes, TUBE_TOLD_REFUSED, 0, TUBE_BUFFER_SHORT, 0, 0, 0) && same_link(two_bytes.told.link, event));

    /* An error inside a save inside a load closes both and ends the call: the byte behind it is a character. */
    const uint8_t failing[21] = {0x80, 0x9B, 0xE0, 0x00, 0x00, 0x19, 0x00, 0x41, 0x9B, 0xF0, 0x00, 0x00, 0x80, 0x00, 0x9B, 0x00, 0xFE, 'N', 'o', 0x00, 0x41};
    reply = lend(&one), own = lend(&two), room = lend(&three), data = lend(&spare);
    TubeRan error = tube_run(waits, failing, 21, reply, own, room, 105, data, 21);
    int closed = ran(error, TUBE_TOLD_ERROR, 2, 0xFE, 20, 3, 1) && same_link(error.told.link, fresh) && memcmp(room, "\x0B\0\0\x19\0\x0D\1\0\0\0\x0C\0\0\x80\0", 15) == 0
                 && kept(&three, 0, 15) && data[0] == 0x41 && kept(&spare, 0, 1) && memcmp(own, "\xFENo", 4) == 0 && kept(&one, 0, 1) && kept(&two, 0, 4);
    TubeRan behind = tube_run(error.told.link, failing + 20, 1, reply, own, room, TUBE_NOTE, data, 1);
    expect("tube_run: an error inside transfers, and a character behind it", closed && ran(behind, TUBE_TOLD_MORE, 0, 0, 1, 1, 0) && memcmp(room, "\1\x41\0\0\0", TUBE_NOTE) == 0);

    /* Idle: a load, its data, its end, and then a character. */
    const uint8_t idle[10] = {0x9B, 0xE0, 0x00, 0x00, 0x19, 0x00, 0x41, 0x9B, 0xB0, 0x41};
    reply = lend(&one), own = lend(&two), room = lend(&three), data = lend(&spare);
    TubeRan alone = tube_run(fresh, idle, 10, reply, own, room, 50, data, 10);
    expect("tube_run: a load while idle, and a character behind it", ran(alone, TUBE_TOLD_MORE, 0, 0, 10, 4, 1) && same_link(alone.told.link, fresh)
                                                                         && memcmp(room, "\x0B\0\0\x19\0\x0D\1\0\0\0\x0E\0\0\0\0\1\x41\0\0\0", 20) == 0 && kept(&three, 0, 20)
                                                                         && data[0] == 0x41 && kept(&spare, 0, 1) && kept(&one, 0, 0));
}

/* ---- Recorded replies ---- */

/* Bytes in hexadecimal. A word stands for those of a whole action or note, and 55*127 for a byte 127 times over. */
static size_t bytes_of(const char *text, uint8_t *out) {
    static const struct {
        const char *word, *bytes;
    } words[6] = {
        {"ld", "9B E0 00 00 19 00"}, {"sv", "9B F0 00 00 80 00"}, /* raw bytes */
        {"load", "0B 00 00 19 00"},  {"save", "0C 00 00 80 00"},  /* their notes */
        {"loaded", "0E 00 00 00 00"}, {"saved", "0E 01 00 00 00"}, /* and those of their ends */
    };
    size_t length = 0;
    for (text += strspn(text, " "); *text != 0; text += strspn(text, " ")) {
        const size_t width = strcspn(text, " ");
        const char *bytes = NULL;
        for (int i = 0; i < 6; i++)
            if (strlen(words[i].word) == width && memcmp(words[i].word, text, width) == 0)
                bytes = words[i].bytes;
        if (bytes != NULL)
            length += bytes_of(bytes, out + length);
        else {
            char *end;
            const unsigned long byte = strtoul(text, &end, 16), times = *end == '*' ? strtoul(end + 1, NULL, 10) : 1;
            memset(out + length, (int)byte, times);
            length += times;
        }
        text += width;
    }
    return length;
}

/* A call, the raw bytes behind it, and what they give: notes, data, the bytes used, the outcome with its number and length, the bytes of `out`. */
typedef struct {
    const char *name;
    uint8_t call, out_length;
    const char *raw, *notes, *data;
    size_t used;
    uint32_t kind, number;
    size_t length;
    const char *out;
} Recording;

static const Recording recorded[] = {
    {"a load inside a reply", TUBE_OSBGET, 0, "80 ld 41 42 9B B0 41", "load 0D 02 00 00 00 loaded", "41 42", 12, TUBE_TOLD_REPLY, 0, 2, "80 41"},
    {"low bits of marks, an execute", TUBE_OSBGET, 0, "9B EF 00 00 19 00 9B BF 9B D7 00 00 80 00 80 41", "load loaded 0A 00 00 80 00", "", 16, TUBE_TOLD_REPLY, 0, 2, "80 41"},
    {"escapes, returns and zeros in a load", TUBE_OSBGET, 0, "ld 9B 9B 0D 00 9B B0 00 42", "load 0D 03 00 00 00 loaded", "9B 0D 00", 14, TUBE_TOLD_REPLY, 0, 2, "00 42"},
    {"a control block inside a load", TUBE_OSBGET, 0, "ld 41 9B 02 0D 9B 9B 42 9B B0 80 41", "load 0D 01 00 00 00 09 02 00 00 00 0D 01 00 00 00 loaded", "41 0D 9B 42", 17,
     TUBE_TOLD_REPLY, 0, 2, "80 41"},
    {"a load inside a save inside a load", TUBE_OSCLI, 0, "ld 01 sv ld 02 9B B0 9B 81 9B B0 03 9B B0 7F",
     "load 0D 01 00 00 00 save load 0D 01 00 00 00 loaded 02 01 00 00 00 saved 0D 01 00 00 00 loaded", "01 02 03", 30, TUBE_TOLD_REPLY, 0, 1, "7F"},
    {"a byte inside a save", TUBE_OSCLI, 0, "sv 41", "save", "", 7, TUBE_TOLD_REFUSED, TUBE_BAD_FIELD, 0, ""},
    {"an escape as a byte inside a save", TUBE_OSCLI, 0, "sv 9B 9B", "save", "", 8, TUBE_TOLD_REFUSED, TUBE_BAD_FIELD, 0, ""},
    {"a byte inside a save inside a load", TUBE_OSCLI, 0, "ld sv 41", "load save", "", 13, TUBE_TOLD_REFUSED, TUBE_BAD_FIELD, 0, ""},
    {"a fifth transfer", TUBE_OSCLI, 0, "ld ld ld ld 9B F0", "load load load load", "", 26, TUBE_TOLD_REFUSED, TUBE_TOO_DEEP, 0, ""},
    {"a mark that is not carried inside four transfers", TUBE_OSCLI, 0, "ld ld ld ld 9B A0", "load load load load", "", 26, TUBE_TOLD_REFUSED, TUBE_UNKNOWN_CODE, 0, ""},
    {"four transfers, and one more behind an end", TUBE_OSCLI, 0, "ld ld ld ld 9B D0 00 00 80 00 9B B0 ld 9B B0 9B B0 9B B0 9B B0 7F",
     "load load load load 0A 00 00 80 00 loaded load loaded loaded loaded loaded", "", 47, TUBE_TOLD_REPLY, 0, 1, "7F"},
    {"a fifth transfer's mark inside an address", TUBE_OSCLI, 0, "ld ld ld ld 9B C0 00 9B E0", "load load load load", "", 29, TUBE_TOLD_REFUSED, TUBE_MARK_INSIDE, 0, ""},
    {"an end with none open", TUBE_OSBGET, 0, "80 9B B0", "", "", 3, TUBE_TOLD_REFUSED, TUBE_MARK_INSIDE, 0, ""},
    {"an end inside an address", TUBE_OSBGET, 0, "9B E0 00 00 9B B0", "", "", 6, TUBE_TOLD_REFUSED, TUBE_MARK_INSIDE, 0, ""},
    {"an Escape state inside a control block", TUBE_OSBGET, 0, "9B 03 41 9B 81", "", "", 5, TUBE_TOLD_REFUSED, TUBE_MARK_INSIDE, 0, ""},
    {"a mark that is not carried", TUBE_OSBGET, 0, "9B AF", "", "", 2, TUBE_TOLD_REFUSED, TUBE_UNKNOWN_CODE, 0, ""},
    {"an error inside a save inside a load", TUBE_OSBGET, 0, "80 ld 41 sv 9B 00 FE 4E 6F 00 41", "load 0D 01 00 00 00 save", "41", 20, TUBE_TOLD_ERROR, 0xFE, 2, "FE 4E 6F"},
    {"a restart inside a load", TUBE_OSBGET, 0, "ld 41 9B 00 00 00 80 41", "load 0D 01 00 00 00", "41", 11, TUBE_TOLD_RESTART, 0, 0, ""},
    {"control blocks of 1 and 127 bytes", TUBE_OSCLI, 0, "9B 01 AA 9B 7F 55*127 80", "09 01 00 00 00 09 7F 00 00 00", "AA 55*127", 133, TUBE_TOLD_REPLY, 0, 1, "80"},
    {"one that runs out inside a pair", TUBE_OSBGET, 0, "80 ld 41 9B", "load 0D 01 00 00 00", "41", 9, TUBE_TOLD_MORE, 0, 0, ""},
    {"a return inside a load inside a line", TUBE_OSWORD0, 0, "7F 48 ld 0D 9B B0 49 0D", "load 0D 01 00 00 00 loaded", "0D", 13, TUBE_TOLD_REPLY, 0, 4, "7F 48 49 0D"},
    {"an OSWORD without a byte", TUBE_OSWORD, 0, "ld 41", "", "", 0, TUBE_TOLD_REPLY, 0, 0, ""},
    {"bytes behind the reply", TUBE_OSCLI, 0, "80 9B A0", "", "", 1, TUBE_TOLD_REPLY, 0, 1, "80"},
    /* And more of the same. */
    {"no byte at all", TUBE_OSFILE, 0, "", "", "", 0, TUBE_TOLD_MORE, 0, 0, ""},
    {"an OSWORD without a byte, and no byte", TUBE_OSWORD, 0, "", "", "", 0, TUBE_TOLD_REPLY, 0, 0, ""},
    {"one that runs out inside an address", TUBE_OSBGET, 0, "9B E0 00 00 19", "", "", 5, TUBE_TOLD_MORE, 0, 0, ""},
    {"one that runs out inside a reply", TUBE_OSARGS, 0, "01 00 9B 81 00", "02 01 00 00 00", "", 5, TUBE_TOLD_MORE, 0, 0, ""},
    {"255 bytes of a load", TUBE_OSBPUT, 0, "ld 0D*255 9B B0 7F", "load 0D FF 00 00 00 loaded", "0D*255", 264, TUBE_TOLD_REPLY, 0, 1, "7F"},
    {"256 bytes of a load", TUBE_OSBPUT, 0, "ld 9B*512 9B B0 7F", "load 0D FF 00 00 00 0D 01 00 00 00 loaded", "9B*256", 521, TUBE_TOLD_REPLY, 0, 1, "7F"},
    {"700 bytes of a load, an Escape state among them", TUBE_OSBPUT, 0, "ld 41*300 9B 80 42*400 9B B0 7F",
     "load 0D FF 00 00 00 0D 2D 00 00 00 02 00 00 00 00 0D FF 00 00 00 0D 91 00 00 00 loaded", "41*300 42*400", 711, TUBE_TOLD_REPLY, 0, 1, "7F"},
    {"an error of 255 bytes", TUBE_OSCLI, 0, "sv 9B 00 00 78*255 00", "save", "", 265, TUBE_TOLD_ERROR, 0, 255, "00 78*255"},
    {"an error of 256 bytes", TUBE_OSCLI, 0, "sv 9B 00 00 78*256 00", "save", "", 265, TUBE_TOLD_REFUSED, TUBE_STRING_LONG, 0, ""},
    {"a line of 255 bytes", TUBE_OSWORD0, 0, "00 78*255 9B D0 00 00 80 00 0D", "0A 00 00 80 00", "", 263, TUBE_TOLD_REPLY, 0, 257, "00 78*255 0D"},
    {"a line of 256 bytes", TUBE_OSWORD0, 0, "00 78*256 0D", "", "", 257, TUBE_TOLD_REFUSED, TUBE_STRING_LONG, 0, ""},
    {"an OSWORD of 255 bytes, an event before the last", TUBE_OSWORD, 255, "9B*508 9B 90 01 02 03 9B 9B 41", "03 01 02 03 00", "", 515, TUBE_TOLD_REPLY, 0, 255, "9B*255"},
    {"an event and an address", TUBE_OSRDCH, 0, "9B 9F 01 02 03 80 9B C1 00 01 02 9B 9B 41", "03 01 02 03 00 04 00 01 02 9B", "", 14, TUBE_TOLD_REPLY, 0, 2, "80 41"},
};

enum { RECORDINGS = sizeof recorded / sizeof recorded[0] };

static int records(TubeRecorded r, uint32_t kind, uint32_t number, size_t length, size_t used, size_t noted, size_t stored) {
    return r.kind == kind && r.number == number && r.length == length && r.used == used && r.noted == noted && r.stored == stored;
}

static void recordings(void) {
    static uint8_t raw[1024], same[1024], notes[256], bytes[1024], ends[TUBE_REPLY_LENGTH];
    int shorter = 1, less = 1, measured = 1, ample = 1, agreed = 1, stepwise = 1, unread = 1;
    for (int i = 0; i < RECORDINGS; i++) {
        const Recording *c = &recorded[i];
        const size_t length = bytes_of(c->raw, raw), need = bytes_of(c->notes, notes), stored = bytes_of(c->data, bytes), end = bytes_of(c->out, ends), noted = need / TUBE_NOTE;
        char name[80];
        memcpy(same, raw, length);

        /* Room and data just long enough. */
        uint8_t *out = lend(&one), *room = lend(&two), *data = lend(&three);
        TubeRecorded r = tube_read_recorded(c->call, c->out_length, raw, length, room, need, data, stored, out);
        snprintf(name, sizeof name, "tube_read_recorded: %s", c->name);
        expect(name, records(r, c->kind, c->number, c->length, c->used, noted, stored) && memcmp(room, notes, need) == 0 && kept(&two, 0, need)
                         && memcmp(data, bytes, stored) == 0 && kept(&three, 0, stored) && memcmp(out, ends, end) == 0 && kept(&one, 0, end));

        /* One byte short of either, and none of both: nothing is touched, and what is needed is said. */
        out = lend(&one), room = lend(&two), data = lend(&three);
        if (need > 0) {
            r = tube_read_recorded(c->call, c->out_length, raw, length, room, need - 1, data, stored, out);
            shorter = shorter && records(r, TUBE_TOLD_REFUSED, TUBE_BUFFER_SHORT, 0, 0, noted, stored);
        }
        if (stored > 0) {
            r = tube_read_recorded(c->call, c->out_length, raw, length, room, need, data, stored - 1, out);
            less = less && records(r, TUBE_TOLD_REFUSED, TUBE_BUFFER_SHORT, 0, 0, noted, stored);
        }
        if (need + stored > 0) {
            r = tube_read_recorded(c->call, c->out_length, raw, length, room, 0, data, 0, out);
            measured = measured && records(r, TUBE_TOLD_REFUSED, TUBE_BUFFER_SHORT, 0, 0, noted, stored);
        }
        const int untouched = kept(&one, 0, 0) && kept(&two, 0, 0) && kept(&three, 0, 0);
        shorter = shorter && untouched, less = less && untouched, measured = measured && untouched;

        /* More than enough: five bytes of room and one of data for each raw byte. */
        memset(wide, FILL, TUBE_NOTE * length);
        r = tube_read_recorded(c->call, c->out_length, raw, length, wide, TUBE_NOTE * length, data, length, out);
        ample = ample && need <= TUBE_NOTE * length && stored <= length && records(r, c->kind, c->number, c->length, c->used, noted, stored) && memcmp(wide, notes, need) == 0
                && memcmp(data, bytes, stored) == 0 && kept(&three, 0, stored) && memcmp(out, ends, end) == 0 && kept(&one, 0, end);
        memset(wide, FILL, need);
        ample = ample && wide_kept(TUBE_NOTE * length);

        /* The same by tube_run over all of it, and by tube_link_step byte by byte. */
        const TubeBegun b = tube_begin(tube_link(), c->call, c->out_length);
        if (b.kind == TUBE_BEGUN) {
            const int failing = c->kind == TUBE_TOLD_ERROR;
            uint8_t *reply = lend(&one), *own = lend(&two);
            data = lend(&three);
            TubeRan run_all = tube_run(b.link, raw, length, reply, own, wide, TUBE_NOTE * length, data, length);
            agreed = agreed && ran(run_all, (uint8_t)c->kind, c->length, (uint8_t)c->number, c->used, noted, stored) && memcmp(wide, notes, need) == 0
                     && memcmp(data, bytes, stored) == 0 && kept(&three, 0, stored) && memcmp(failing ? own : reply, ends, end) == 0;
            memset(wide, FILL, need);
            agreed = agreed && wide_kept(TUBE_NOTE * length);

            TubeTold t = {.link = b.link};
            size_t used = 0, held = 0;
            while (used < length && (t.kind < TUBE_TOLD_REPLY || t.kind > TUBE_TOLD_REFUSED)) {
                t = tube_link_step(t.link, raw[used++], reply, own);
                if (t.kind == TUBE_TOLD_DATA)
                    stepwise = stepwise && held < stored && t.first == bytes[held++];
                if (t.kind == TUBE_TOLD_BLOCK) {
                    stepwise = stepwise && held + t.length <= stored && memcmp(own, bytes + held, t.length) == 0;
                    held += t.length;
                }
            }
            const int over = t.kind >= TUBE_TOLD_REPLY && t.kind <= TUBE_TOLD_REFUSED;
            stepwise = stepwise && used == c->used && held == stored && same_link(t.link, run_all.told.link)
                       && (c->kind == TUBE_TOLD_MORE ? !over : told(t, (uint8_t)c->kind, c->length, (uint8_t)c->number, 0, 0, 0));
        }
        unread = unread && memcmp(raw, same, length) == 0;
    }
    expect("tube_read_recorded: each with room one byte short", shorter);
    expect("tube_read_recorded: each with data one byte short", less);
    expect("tube_read_recorded: each with two empty buffers says what is needed", measured);
    expect("tube_read_recorded: each with five bytes of room and one of data for a raw byte", ample);
    expect("tube_run: each recording gives the same", agreed);
    expect("tube_link_step: each recording gives the same", stepwise);
    expect("tube_read_recorded, tube_run: the recording stays", unread);

    /* A number that is no call, whatever the recording and the buffers. */
    int no_call = 1;
    uint8_t *out = lend(&one), *room = lend(&two), *data = lend(&three);
    const size_t length = bytes_of(recorded[0].raw, raw);
    for (int call = TUBE_CALLS; call < 256; call++)
        no_call = no_call && records(tube_read_recorded((uint8_t)call, 255, raw, length, room, AREA, data, AREA, out), TUBE_TOLD_REFUSED, TUBE_UNKNOWN_CODE, 0, 0, 0, 0)
                  && records(tube_read_recorded((uint8_t)call, 0, raw, length, room, 0, data, 0, out), TUBE_TOLD_REFUSED, TUBE_UNKNOWN_CODE, 0, 0, 0, 0)
                  && records(tube_read_recorded((uint8_t)call, 0, raw, 0, room, 0, data, 0, out), TUBE_TOLD_REFUSED, TUBE_UNKNOWN_CODE, 0, 0, 0, 0);
    expect("tube_read_recorded: no such call", no_call && kept(&one, 0, 0) && kept(&two, 0, 0) && kept(&three, 0, 0));

    /* The longest reply to every call with an execute before each of its bytes, and the same without its last byte. */
    int calls = 1;
    static const uint16_t longest[TUBE_CALLS] = {2, 1, 1, 3, 255, TUBE_REPLY_LENGTH, 5, 2, 1, 1, 1, 17, 15};
    static uint8_t many[7 * TUBE_REPLY_LENGTH];
    for (int call = 0; call < TUBE_CALLS; call++) {
        size_t at = 0;
        for (uint16_t i = 0; i < longest[call]; i++) {
            at += bytes_of("9B D0 01 02 03 04", many + at);
            ends[i] = many[at++] = call == TUBE_OSWORD0 && i + 1 == TUBE_REPLY_LENGTH ? 0x0D : 'x';
        }
        const size_t noted_all = longest[call], need = TUBE_NOTE * noted_all;
        out = lend(&one), room = lend(&two), data = lend(&three);
        TubeRecorded cut = tube_read_recorded((uint8_t)call, 255, many, at - 1, room, need, data, 0, out);
        calls = calls && records(cut, TUBE_TOLD_MORE, 0, 0, at - 1, noted_all, 0) && kept(&one, 0, 0) && kept(&two, 0, need);
        TubeRecorded whole = tube_read_recorded((uint8_t)call, 255, many, at, room, need, data, 0, out);
        calls = calls && records(whole, TUBE_TOLD_REPLY, 0, longest[call], at, noted_all, 0) && memcmp(out, ends, longest[call]) == 0 && kept(&one, 0, longest[call])
                && kept(&two, 0, need) && kept(&three, 0, 0);
    }
    expect("tube_read_recorded: each call's longest reply, and without its last byte", calls);
}

/* ---- Replies ---- */

static TubeWritten reply_to(uint8_t carrier, TubeCall call, TubeReplyForm reply, const uint8_t *block, size_t block_length, size_t text_length, uint8_t *out, size_t room) {
    return tube_write_reply(carrier, (uint8_t)call, 3, (uint8_t)reply, 2, 0x33, 0x9B, 0x41, block, block_length, letters, text_length, out, room);
}

static const uint8_t reply_block[16] = {1, 2, 3, 0x9B, 5, 6, 7, 8, 9, 10, 11, 12, 13, 14, 15, 16};

/* With carry 2, X &33, Y &9B, A &41 and an out length of 3: the bytes on the parallel side, and how many of them are doubled on the serial lead. */
enum { FORMS = 14 };
static const struct {
    TubeCall call;
    TubeReplyForm reply;
    size_t block, text, length, doubled;
    const char *bytes;
} forms[FORMS] = {
    {TUBE_OSRDCH, TUBE_REPLY_CARRY_A, 0, 0, 2, 0, "\x80\x41"},
    {TUBE_OSCLI, TUBE_REPLY_ACK, 0, 0, 1, 0, "\x80"},
    {TUBE_OSBYTE_LOW, TUBE_REPLY_BYTE, 0, 0, 1, 0, "\x41"},
    {TUBE_OSBYTE_HIGH, TUBE_REPLY_CARRY_YX, 0, 0, 3, 1, "\x80\x9B\x33"},
    {TUBE_OSWORD, TUBE_REPLY_BLOCK, 3, 0, 3, 0, "\x01\x02\x03"},
    {TUBE_OSWORD0, TUBE_REPLY_ESCAPED_LINE, 0, 0, 1, 0, "\xFF"},
    {TUBE_OSWORD0, TUBE_REPLY_READ_LINE, 0, 2, 4, 0, "\x7F" "AB\x0D"},
    {TUBE_OSARGS, TUBE_REPLY_A_BLOCK, 4, 0, 5, 1, "\x41\x01\x02\x03\x9B"},
    {TUBE_OSBGET, TUBE_REPLY_CARRY_A, 0, 0, 2, 0, "\x80\x41"},
    {TUBE_OSBPUT, TUBE_REPLY_PLAIN, 0, 0, 1, 0, "\x7F"},
    {TUBE_OSFIND_CLOSE, TUBE_REPLY_PLAIN, 0, 0, 1, 0, "\x7F"},
    {TUBE_OSFIND_OPEN, TUBE_REPLY_BYTE, 0, 0, 1, 0, "\x41"},
    {TUBE_OSFILE, TUBE_REPLY_A_BLOCK, 16, 0, 17, 1, "\x41\x01\x02\x03\x9B\x05\x06\x07\x08\x09\x0A\x0B\x0C\x0D\x0E\x0F\x10"},
    {TUBE_OSGBPB, TUBE_REPLY_BLOCK_CARRY_A, 13, 0, 15, 1, "\x01\x02\x03\x9B\x05\x06\x07\x08\x09\x0A\x0B\x0C\x0D\x80\x41"},
};

/* Whether these are the bytes on a carrier. */
static int encodes(uint8_t carrier, const uint8_t *out, const char *bytes, size_t length) {
    size_t at = 0;
    for (size_t i = 0; i < length; i++) {
        if (out[at++] != (uint8_t)bytes[i])
            return 0;
        if (carrier == TUBE_SERIAL && (uint8_t)bytes[i] == TUBE_ESCAPE_BYTE && out[at++] != TUBE_ESCAPE_BYTE)
            return 0;
    }
    return 1;
}

static void replies_written(void) {
    for (uint8_t carrier = TUBE_SERIAL; carrier <= TUBE_PARALLEL; carrier++) {
        int exact = 1, tight = 1, fitting = 1;
        for (int i = 0; i < FORMS; i++) {
            uint8_t *out = lend(&one);
            const size_t block = forms[i].block, text = forms[i].text, length = forms[i].length + (carrier == TUBE_SERIAL ? forms[i].doubled : 0);
            tight = tight && refuses(reply_to(carrier, forms[i].call, forms[i].reply, reply_block, block, text, out, length - 1), TUBE_BUFFER_SHORT)
                    && refuses(reply_to(carrier, forms[i].call, forms[i].reply, reply_block, block, text, out, 0), TUBE_BUFFER_SHORT) && kept(&one, 0, 0);
            TubeWritten w = reply_to(carrier, forms[i].call, forms[i].reply, reply_block, block, text, out, length);
            exact = exact && w.answer == TUBE_DONE && w.length == length && encodes(carrier, out, forms[i].bytes, forms[i].length) && kept(&one, 0, length);
            out = lend(&one);
            for (unsigned form = 0; form < 256; form++) {
                int line = forms[i].call == TUBE_OSWORD0 && (form == TUBE_REPLY_ESCAPED_LINE || form == TUBE_REPLY_READ_LINE);
                if (form != forms[i].reply && !line)
                    fitting = fitting && refuses(reply_to(carrier, forms[i].call, (TubeReplyForm)form, reply_block, block, text, out, AREA), TUBE_BAD_FIELD);
            }
            fitting = fitting && refuses(reply_to(carrier, forms[i].call, forms[i].reply, reply_block, block + 1, text, out, AREA), TUBE_BAD_FIELD)
                      && refuses(reply_to(carrier, forms[i].call, forms[i].reply, reply_block, block, 256, out, 0), TUBE_STRING_LONG) && kept(&one, 0, 0);
        }
        const int serial = carrier == TUBE_SERIAL;
        expect(serial ? "tube_write_reply: each call and form, just long enough" : "tube_write_reply: each call and form without escapes, just long enough", exact);
        expect(serial ? "tube_write_reply: each call and form one byte short" : "tube_write_reply: each call and form one byte short, without escapes", tight);
        expect(serial ? "tube_write_reply: another form, another block, a long line" : "tube_write_reply: another form, another block, a long line on the parallel side", fitting);
    }

    uint8_t *out = lend(&one);
    TubeWritten none = tube_write_reply(TUBE_SERIAL, TUBE_OSWORD, 0, TUBE_REPLY_BLOCK, 0, 0, 0, 0, letters, 0, letters, 0, out, 0);
    TubeWritten nothing = tube_write_reply(TUBE_PARALLEL, TUBE_OSWORD, 0, TUBE_REPLY_BLOCK, 0, 0, 0, 0, letters, 0, letters, 0, out, 0);
    expect("tube_write_reply: no byte into an empty buffer", none.answer == TUBE_DONE && none.length == 0 && nothing.answer == TUBE_DONE && nothing.length == 0 && kept(&one, 0, 0));
    TubeWritten most = tube_write_reply(TUBE_SERIAL, TUBE_OSWORD, 255, TUBE_REPLY_BLOCK, 0, 0, 0, 0, escapes, 255, letters, 0, out, 510);
    TubeLink word = tube_begin(tube_link(), TUBE_OSWORD, 255).link;
    TubeRan back = tube_run(word, out, 510, lend(&two), three.area + GUARD, lend(&three) + TUBE_OWN_LENGTH, 510 * TUBE_NOTE, lend(&spare), 510);
    expect("tube_write_reply: 255 bytes that are all doubled, and read again", most.answer == TUBE_DONE && most.length == 510 && kept(&one, 0, 510)
                                                                                  && ran(back, TUBE_TOLD_REPLY, 255, 0, 510, 0, 0) && memcmp(two.area + GUARD, escapes, 255) == 0
                                                                                  && kept(&two, 0, 255) && kept(&three, 0, 0) && kept(&spare, 0, 0));
    out = lend(&one);
    uint8_t ended_line[2] = {'A', 0x0D};
    int refused = refuses(tube_write_reply(TUBE_SERIAL, TUBE_OSWORD0, 0, TUBE_REPLY_READ_LINE, 0, 0, 0, 0, letters, 0, ended_line, 2, out, AREA), TUBE_BAD_FIELD)
                  && refuses(tube_write_reply(TUBE_PARALLEL, TUBE_OSWORD0, 0, TUBE_REPLY_READ_LINE, 0, 0, 0, 0, letters, 0, ended_line, 2, out, AREA), TUBE_BAD_FIELD);
    for (int i = 0; i < 256; i++) {
        if (i >= TUBE_CALLS)
            for (unsigned form = TUBE_REPLY_CARRY_A; form <= TUBE_REPLY_NONE; form++)
                refused = refused && refuses(tube_write_reply((uint8_t)(i & 1), (uint8_t)i, 0, (uint8_t)form, 0, 0, 0, 0, letters, 0, letters, 0, out, AREA), TUBE_UNKNOWN_CODE);
        if (i > TUBE_PARALLEL)
            refused = refused && refuses(tube_write_reply((uint8_t)i, TUBE_OSCLI, 0, TUBE_REPLY_ACK, 0, 0, 0, 0, letters, 0, letters, 0, out, AREA), TUBE_BAD_FIELD);
    }
    expect("tube_write_reply: a return in the line, no such call, no such carrier", refused && kept(&one, 0, 0));

    /* Everything wrong at once, then each first answer mended: no such call, a long line, a field (the carrier, the form, the block), no room. */
    int order = refuses(tube_write_reply(9, TUBE_CALLS, 0, TUBE_REPLY_NONE, 0, 0, 0, 0, letters, 1, letters, 256, out, 0), TUBE_UNKNOWN_CODE)
                && refuses(tube_write_reply(9, TUBE_NO_CALL, 0, 255, 0, 0, 0, 0, letters, 1, letters, 256, out, 0), TUBE_UNKNOWN_CODE)
                && refuses(tube_write_reply(9, TUBE_OSWORD0, 0, TUBE_REPLY_NONE, 0, 0, 0, 0, letters, 1, letters, 256, out, 0), TUBE_STRING_LONG)
                && refuses(tube_write_reply(9, TUBE_OSWORD0, 0, TUBE_REPLY_NONE, 0, 0, 0, 0, letters, 1, letters, 255, out, 0), TUBE_BAD_FIELD)
                && refuses(tube_write_reply(TUBE_PARALLEL, TUBE_OSWORD0, 0, TUBE_REPLY_NONE, 0, 0, 0, 0, letters, 1, letters, 255, out, 0), TUBE_BAD_FIELD)
                && refuses(tube_write_reply(TUBE_PARALLEL, TUBE_OSWORD0, 0, TUBE_REPLY_READ_LINE, 0, 0, 0, 0, letters, 1, letters, 255, out, 0), TUBE_BAD_FIELD)
                && refuses(tube_write_reply(TUBE_PARALLEL, TUBE_OSWORD0, 0, TUBE_REPLY_READ_LINE, 0, 0, 0, 0, letters, 0, letters, 255, out, 0), TUBE_BUFFER_SHORT);
    expect("tube_write_reply: 4 before 6 before 9 before 8", order && kept(&one, 0, 0));
}

static int gives(TubeGiven g, uint8_t reply, uint8_t carry, uint8_t x, uint8_t y, uint8_t a) {
    return g.reply == reply && g.carry == carry && g.x == x && g.y == y && g.a == a;
}

static int lies(TubeGiven g, size_t block_start, size_t block_length, size_t text_start, size_t text_length) {
    return g.block_start == block_start && g.block_length == block_length && g.text_start == text_start && g.text_length == text_length;
}

static void replies_read(void) {
    const uint8_t flags[17] = {0xC1, 0x22, 0x33, 4, 5, 6, 7, 8, 9, 10, 11, 12, 13, 0xFF, 0x41, 0, 0}, got[4] = {0x00, 'H', 'i', 0x0D};
    TubeGiven word = tube_read_reply(TUBE_OSWORD, 3, flags, 3), line = tube_read_reply(TUBE_OSWORD0, 0, got, 4), escaped = tube_read_reply(TUBE_OSWORD0, 0, flags, 1);
    TubeGiven args = tube_read_reply(TUBE_OSARGS, 0, flags, 5), file = tube_read_reply(TUBE_OSFILE, 0, flags, 17), gbpb = tube_read_reply(TUBE_OSGBPB, 0, flags, 15);
    expect("tube_read_reply: each call", gives(tube_read_reply(TUBE_OSRDCH, 0, flags, 2), TUBE_REPLY_CARRY_A, 1, 0, 0, 0x22)
                                             && gives(tube_read_reply(TUBE_OSCLI, 0, flags, 1), TUBE_REPLY_ACK, 1, 0, 0, 0)
                                             && gives(tube_read_reply(TUBE_OSBYTE_LOW, 0, flags, 1), TUBE_REPLY_BYTE, 0, 0, 0, 0xC1)
                                             && gives(tube_read_reply(TUBE_OSBYTE_HIGH, 0, flags, 3), TUBE_REPLY_CARRY_YX, 1, 0x33, 0x22, 0)
                                             && gives(word, TUBE_REPLY_BLOCK, 0, 0, 0, 0) && lies(word, 0, 3, 0, 0)
                                             && gives(escaped, TUBE_REPLY_ESCAPED_LINE, 0, 0, 0, 0) && lies(escaped, 0, 0, 0, 0)
                                             && gives(line, TUBE_REPLY_READ_LINE, 0, 0, 0, 0) && lies(line, 0, 0, 1, 2)
                                             && gives(args, TUBE_REPLY_A_BLOCK, 0, 0, 0, 0xC1) && lies(args, 1, 4, 0, 0)
                                             && gives(tube_read_reply(TUBE_OSBGET, 0, flags, 2), TUBE_REPLY_CARRY_A, 1, 0, 0, 0x22)
                                             && gives(tube_read_reply(TUBE_OSBPUT, 0, flags, 1), TUBE_REPLY_PLAIN, 0, 0, 0, 0)
                                             && gives(tube_read_reply(TUBE_OSFIND_CLOSE, 0, flags, 1), TUBE_REPLY_PLAIN, 0, 0, 0, 0)
                                             && gives(tube_read_reply(TUBE_OSFIND_OPEN, 0, flags, 1), TUBE_REPLY_BYTE, 0, 0, 0, 0xC1)
                                             && gives(file, TUBE_REPLY_A_BLOCK, 0, 0, 0, 0xC1) && lies(file, 1, 16, 0, 0)
                                             && gives(gbpb, TUBE_REPLY_BLOCK_CARRY_A, 1, 0, 0, 0x41) && lies(gbpb, 0, 13, 0, 0));
    TubeGiven longest = tube_read_reply(TUBE_OSWORD0, 0, letters, TUBE_REPLY_LENGTH), most = tube_read_reply(TUBE_OSWORD, 255, escapes, 255);
    expect("tube_read_reply: a line and a block of 255 bytes", gives(longest, TUBE_REPLY_READ_LINE, 0, 0, 0, 0) && lies(longest, 0, 0, 1, 255)
                                                                   && gives(most, TUBE_REPLY_BLOCK, 0, 0, 0, 0) && lies(most, 0, 255, 0, 0));
    int missing = 1;
    for (int i = 0; i < 256; i++) {
        TubeGiven g = tube_read_reply((uint8_t)i, 255, flags, 0);
        missing = missing && lies(g, 0, 0, 0, 0) && gives(g, g.reply, 0, 0, 0, 0) && (i < TUBE_CALLS ? g.reply < TUBE_REPLY_NONE : g.reply == TUBE_REPLY_NONE);
    }
    TubeGiven no_call = tube_read_reply(TUBE_CALLS, 0, flags, 17);
    expect("tube_read_reply: no byte, no such call", missing && gives(no_call, TUBE_REPLY_NONE, 0, 0, 0, 0) && lies(no_call, 0, 0, 0, 0));
}

static int takes(TubeTaken b, uint16_t count, uint8_t kind, uint8_t answer) {
    return b.count == count && b.kind == kind && b.answer == answer;
}

/* The longest reply of a call with this out length. */
static uint16_t longest_reply(int call, uint8_t out_length) {
    static const uint16_t longest[TUBE_CALLS] = {2, 1, 1, 3, 0, TUBE_REPLY_LENGTH, 5, 2, 1, 1, 1, 17, 15};
    return call == TUBE_OSWORD ? out_length : longest[call];
}

static void replies_taken(void) {
    /* Each form as the writer puts it, byte by byte: one lent byte changes, the last one ends it, and the fields come out. */
    int whole = 1;
    for (int i = 0; i < FORMS; i++) {
        uint8_t out[TUBE_REPLY_LENGTH], *reply = lend(&one);
        TubeWritten w = reply_to(TUBE_PARALLEL, forms[i].call, forms[i].reply, reply_block, forms[i].block, forms[i].text, out, sizeof out);
        uint16_t count = 0;
        for (size_t at = 0; at < w.length; at++) {
            TubeTaken b = tube_reply_step((uint8_t)forms[i].call, 3, count, out[at], reply);
            whole = whole && takes(b, (uint16_t)(at + 1), at + 1 < w.length ? TUBE_TAKEN_MORE : TUBE_TAKEN_LAST, 0) && kept(&one, 0, at + 1);
            count = b.count;
        }
        TubeGiven g = tube_read_reply((uint8_t)forms[i].call, 3, reply, count);
        whole = whole && w.answer == TUBE_DONE && count == w.length && memcmp(reply, out, count) == 0 && g.reply == forms[i].reply
                && memcmp(reply + g.block_start, reply_block, g.block_length) == 0 && g.block_length == forms[i].block
                && memcmp(reply + g.text_start, letters, g.text_length) == 0 && g.text_length == forms[i].text;
    }
    expect("tube_reply_step: each call and form as it is written", whole);

    int any = 1, place = 1;
    for (int byte = 0; byte < 256; byte++) {
        uint8_t *reply = lend(&one);
        TubeTaken first = tube_reply_step(TUBE_OSBGET, 0, 0, (uint8_t)byte, reply), second = tube_reply_step(TUBE_OSBGET, 0, 1, (uint8_t)byte, reply);
        any = any && takes(first, 1, TUBE_TAKEN_MORE, 0) && takes(second, 2, TUBE_TAKEN_LAST, 0) && reply[0] == byte && reply[1] == byte && kept(&one, 0, 2);
        TubeTaken head = tube_reply_step(TUBE_OSWORD0, 0, 0, (uint8_t)byte, reply), line = tube_reply_step(TUBE_OSWORD0, 0, 1, (uint8_t)byte, reply);
        any = any && takes(head, 1, byte & 0x80 ? TUBE_TAKEN_LAST : TUBE_TAKEN_MORE, 0) && takes(line, 2, byte == 0x0D ? TUBE_TAKEN_LAST : TUBE_TAKEN_MORE, 0);
    }
    expect("tube_reply_step: every byte is data", any);
    for (int call = 0; call < TUBE_CALLS; call++)
        for (uint16_t count = 0; count < longest_reply(call, 255); count++) {
            uint8_t *reply = lend(&one);
            const int last = count + 1 == longest_reply(call, 255);
            TubeTaken b = tube_reply_step((uint8_t)call, 255, count, 0x0D, reply);
            place = place && takes(b, (uint16_t)(count + 1), last || (call == TUBE_OSWORD0 && count > 0) ? TUBE_TAKEN_LAST : TUBE_TAKEN_MORE, 0) && reply[count] == 0x0D
                    && kept(&one, count, 1);
        }
    expect("tube_reply_step: at every place one lent byte changes", place);

    static uint8_t line[TUBE_REPLY_LENGTH];
    memset(line, 'x', sizeof line);
    line[TUBE_REPLY_LENGTH - 1] = 0x0D;
    uint8_t *reply = lend(&one);
    TubeTaken b = {0, TUBE_TAKEN_MORE, 0};
    for (size_t i = 0; i < sizeof line && b.kind == TUBE_TAKEN_MORE; i++)
        b = tube_reply_step(TUBE_OSWORD0, 0, b.count, line[i], reply);
    int lines = takes(b, TUBE_REPLY_LENGTH, TUBE_TAKEN_LAST, 0) && memcmp(reply, line, sizeof line) == 0 && kept(&one, 0, TUBE_REPLY_LENGTH);
    reply = lend(&one);
    TubeTaken over = tube_reply_step(TUBE_OSWORD0, 0, TUBE_REPLY_LENGTH - 1, 'x', reply);
    expect("tube_reply_step: a line of 255 bytes and one of 256", lines && takes(over, TUBE_REPLY_LENGTH - 1, TUBE_TAKEN_REFUSED, TUBE_STRING_LONG) && kept(&one, 0, 0));

    /* 4 before 7 before 6, the count and the bytes as they were; `out_length` is read for OSWORD only. */
    int refused = takes(tube_reply_step(TUBE_OSWORD, 0, 0, 'x', reply), 0, TUBE_TAKEN_REFUSED, TUBE_STOPPED)
                  && takes(tube_reply_step(TUBE_OSWORD0, 0, TUBE_REPLY_LENGTH, 'x', reply), TUBE_REPLY_LENGTH, TUBE_TAKEN_REFUSED, TUBE_STOPPED);
    for (int i = 0; i < 256; i++) {
        const uint8_t answer = i < TUBE_CALLS ? TUBE_STOPPED : TUBE_UNKNOWN_CODE;
        const uint16_t longest = i < TUBE_CALLS ? longest_reply(i, 7) : 0;
        refused = refused && takes(tube_reply_step((uint8_t)i, 7, longest, 'x', reply), longest, TUBE_TAKEN_REFUSED, answer)
                  && takes(tube_reply_step((uint8_t)i, 7, TUBE_REPLY_LENGTH + 1, 0x0D, reply), TUBE_REPLY_LENGTH + 1, TUBE_TAKEN_REFUSED, answer)
                  && takes(tube_reply_step((uint8_t)i, 7, UINT16_MAX, 'x', reply), UINT16_MAX, TUBE_TAKEN_REFUSED, answer);
        if (i >= TUBE_CALLS)
            refused = refused && takes(tube_reply_step((uint8_t)i, 255, TUBE_REPLY_LENGTH - 1, 'x', reply), TUBE_REPLY_LENGTH - 1, TUBE_TAKEN_REFUSED, TUBE_UNKNOWN_CODE);
    }
    expect("tube_reply_step: no such call, no place, 4 before 7 before 6", refused && kept(&one, 0, 0));
}

/* ---- Actions and load data ---- */

/* An action with its numbers, its block and its text; its bytes; how many of the four numbers it has. */
typedef struct {
    const char *name;
    uint8_t action, numbers[4];
    const char *block, *text, *bytes;
    int has;
} Action;

static const Action actions[] = {
    {"an error", TUBE_TOLD_ERROR, {0xFE}, "", "4E 6F", "9B 00 FE 4E 6F 00", 1},
    {"an error with escapes", TUBE_TOLD_ERROR, {0x9B}, "", "9B", "9B 00 9B 9B 9B 9B 00", 1},
    {"an error without text", TUBE_TOLD_ERROR, {7}, "", "", "9B 00 07 00", 1},
    {"error 0 with text", TUBE_TOLD_ERROR, {0}, "", "78", "9B 00 00 78 00", 1},
    {"error 0 without text", TUBE_TOLD_ERROR, {0}, "", "", "9B 00 00 00", 1},
    {"an error with a return", TUBE_TOLD_ERROR, {1}, "", "0D", "9B 00 01 0D 00", 1},
    {"an error of 255 bytes", TUBE_TOLD_ERROR, {1}, "", "78*255", "9B 00 01 78*255 00", 1},
    {"an error of 255 escapes", TUBE_TOLD_ERROR, {0x9B}, "", "9B*255", "9B 00 9B 9B 9B*510 00", 1},
    {"the restart", TUBE_TOLD_RESTART, {0}, "", "", "9B 00 00 00", 0},
    {"Escape off", TUBE_TOLD_ESCAPE, {0}, "", "", "9B 80", 1},
    {"Escape on", TUBE_TOLD_ESCAPE, {1}, "", "", "9B 81", 1},
    {"Escape on by 2", TUBE_TOLD_ESCAPE, {2}, "", "", "9B 81", 1},
    {"Escape on by 255", TUBE_TOLD_ESCAPE, {255}, "", "", "9B 81", 1},
    {"an event", TUBE_TOLD_EVENT, {1, 0x9B, 3}, "", "", "9B 90 01 9B 9B 03", 3},
    {"an address", TUBE_TOLD_ADDRESS, {0, 0, 0x80, 0}, "", "", "9B C0 00 00 80 00", 4},
    {"an execute", TUBE_TOLD_EXECUTE, {0, 0, 0x80, 0}, "", "", "9B D0 00 00 80 00", 4},
    {"a load", TUBE_TOLD_LOAD, {0, 0, 0x19, 0}, "", "", "9B E0 00 00 19 00", 4},
    {"a save with an escape", TUBE_TOLD_SAVE, {0x9B, 0, 0, 0}, "", "", "9B F0 9B 9B 00 00 00", 4},
    {"a load with escapes", TUBE_TOLD_LOAD, {0x9B, 0x9B, 0x9B, 0x9B}, "", "", "9B E0 9B*8", 4},
    {"an end", TUBE_TOLD_END, {0}, "", "", "9B B0", 0},
    {"a control block of an escape", TUBE_TOLD_BLOCK, {0}, "9B", "", "9B 01 9B 9B", 0},
    {"a control block of 127 bytes", TUBE_TOLD_BLOCK, {0}, "55*127", "", "9B 7F 55*127", 0},
    {"a control block of 127 escapes", TUBE_TOLD_BLOCK, {0}, "9B*127", "", "9B 7F 9B*254", 0},
};

enum { ACTIONS = sizeof actions / sizeof actions[0] };

static TubeWritten act(uint8_t action, const uint8_t *numbers, const uint8_t *block, size_t block_length, const uint8_t *text, size_t text_length, uint8_t *out, size_t room) {
    return tube_write_action(action, numbers[0], numbers[1], numbers[2], numbers[3], block, block_length, text, text_length, out, room);
}

/* Whether a link tells an action as it was given to the writer. */
static int tells(TubeTold t, const Action *c, const uint8_t *own, const uint8_t *block, size_t block_length, const uint8_t *text, size_t text_length) {
    const uint8_t *n = c->numbers;
    switch (c->action) {
    case TUBE_TOLD_ESCAPE: return told(t, TUBE_TOLD_ESCAPE, 0, n[0] != 0, 0, 0, 0);
    case TUBE_TOLD_BLOCK: return told(t, TUBE_TOLD_BLOCK, block_length, 0, 0, 0, 0) && memcmp(own, block, block_length) == 0;
    case TUBE_TOLD_END: return told(t, TUBE_TOLD_END, 0, TUBE_LOAD, 0, 0, 0);
    case TUBE_TOLD_ERROR:
        if (n[0] != 0 || text_length > 0)
            return told(t, TUBE_TOLD_ERROR, text_length, n[0], 0, 0, 0) && own[0] == n[0] && memcmp(own + 1, text, text_length) == 0;
        return told(t, TUBE_TOLD_RESTART, 0, 0, 0, 0, 0);
    default: return told(t, c->action, 0, n[0], n[1], n[2], n[3]);
    }
}

static int is_action(int number) {
    for (int i = 0; i < ACTIONS; i++)
        if (actions[i].action == number)
            return 1;
    return 0;
}

static void actions_written(void) {
    expect("numbers of actions", TUBE_TOLD_ESCAPE == 2 && TUBE_TOLD_EVENT == 3 && TUBE_TOLD_ADDRESS == 4 && TUBE_TOLD_ERROR == 6 && TUBE_TOLD_RESTART == 7);

    static uint8_t block[128], text[256], bytes[600];
    const TubeLink waits = tube_begin(tube_link(), TUBE_OSBGET, 0).link, loading = nested(waits, 1);
    int tight = 1, unread = 1, again = 1, stay = 1;
    for (int i = 0; i < ACTIONS; i++) {
        const Action *c = &actions[i];
        const size_t block_length = bytes_of(c->block, block), text_length = bytes_of(c->text, text), length = bytes_of(c->bytes, bytes);
        uint8_t same_block[128], same_text[256];
        memcpy(same_block, block, sizeof block), memcpy(same_text, text, sizeof text);
        char name[80];

        /* Just long enough, and with more room than that. */
        uint8_t *out = lend(&one), *more = lend(&two);
        TubeWritten w = act(c->action, c->numbers, block, block_length, text, text_length, out, length), ample = act(c->action, c->numbers, block, block_length, text, text_length, more, AREA);
        snprintf(name, sizeof name, "tube_write_action: %s", c->name);
        expect(name, w.answer == TUBE_DONE && w.length == length && memcmp(out, bytes, length) == 0 && kept(&one, 0, length)
                         && ample.answer == TUBE_DONE && ample.length == length && memcmp(more, bytes, length) == 0 && kept(&two, 0, length));

        /* One byte short, and every shorter room. */
        out = lend(&one);
        for (size_t room = 0; room < length; room++)
            tight = tight && refuses(act(c->action, c->numbers, block, block_length, text, text_length, out, room), TUBE_BUFFER_SHORT);
        tight = tight && kept(&one, 0, 0);

        /* Any other number where the action has none. */
        static const uint8_t others[4] = {1, 0x80, 0x9B, 0xFF};
        for (int j = 0; j < 4; j++) {
            uint8_t numbers[4] = {others[j], others[j], others[j], others[j]};
            memcpy(numbers, c->numbers, (size_t)c->has);
            out = lend(&one);
            w = act(c->action, numbers, block, block_length, text, text_length, out, length);
            unread = unread && w.answer == TUBE_DONE && w.length == length && memcmp(out, bytes, length) == 0 && kept(&one, 0, length);
        }

        /* A link inside a load needs more until its last byte, and then tells the same. */
        uint8_t *reply = lend(&two), *own = lend(&three);
        TubeTold t = last_of(loading, out, length, reply, own);
        again = again && tells(t, c, own, block, block_length, text, text_length) && kept(&two, 0, 0)
                && same_link(t.link, c->action == TUBE_TOLD_ERROR || c->action == TUBE_TOLD_RESTART ? tube_link()
                                     : c->action == TUBE_TOLD_END                                    ? waits
                                     : c->action == TUBE_TOLD_LOAD                                   ? nested(waits, 3)
                                     : c->action == TUBE_TOLD_SAVE                                   ? nested(waits, 4)
                                                                                                     : loading);
        stay = stay && memcmp(same_block, block, sizeof block) == 0 && memcmp(same_text, text, sizeof text) == 0;
    }
    expect("tube_write_action: each with every shorter room", tight);
    expect("tube_write_action: a number that the action does not have is not read", unread);
    expect("tube_write_action, tube_link_step: each is told as it was written", again);
    expect("tube_write_action: the block and the text stay", stay);

    /* A control block of every length. */
    int blocks = 1;
    for (size_t length = 0; length <= 300; length++) {
        uint8_t *out = lend(&one);
        TubeWritten w = tube_write_action(TUBE_TOLD_BLOCK, 0, 0, 0, 0, letters, length, letters, 0, out, AREA);
        if (length >= 1 && length <= 127)
            blocks = blocks && w.answer == TUBE_DONE && w.length == 2 + length && out[0] == 0x9B && out[1] == length && memcmp(out + 2, letters, length) == 0 && kept(&one, 0, 2 + length);
        else
            blocks = blocks && refuses(w, TUBE_BAD_FIELD) && kept(&one, 0, 0);
    }
    expect("tube_write_action: control blocks of 1 to 127 bytes, and 9 for any other", blocks);

    /* A text of every length, and with a &00 at every place. */
    int texts = 1, zeros = 1;
    static uint8_t nothing[300];
    for (size_t length = 0; length <= 300; length++) {
        uint8_t *out = lend(&one);
        TubeWritten w = tube_write_action(TUBE_TOLD_ERROR, 1, 0, 0, 0, letters, 0, letters, length, out, AREA);
        if (length <= 255)
            texts = texts && w.answer == TUBE_DONE && w.length == 4 + length && memcmp(out, "\x9B\0\1", 3) == 0 && memcmp(out + 3, letters, length) == 0 && out[3 + length] == 0
                    && kept(&one, 0, 4 + length);
        else
            texts = texts && refuses(w, TUBE_STRING_LONG) && kept(&one, 0, 0);
        out = lend(&one);
        if (length > 0)
            zeros = zeros && refuses(tube_write_action(TUBE_TOLD_ERROR, 0, 0, 0, 0, letters, 0, nothing, length, out, AREA), length <= 255 ? TUBE_BAD_FIELD : TUBE_STRING_LONG);
        if (length < 255) {
            memcpy(text, letters, 255);
            text[length] = 0;
            zeros = zeros && refuses(tube_write_action(TUBE_TOLD_ERROR, 1, 0, 0, 0, letters, 0, text, 255, out, AREA), TUBE_BAD_FIELD)
                    && refuses(tube_write_action(TUBE_TOLD_ERROR, 1, 0, 0, 0, letters, 0, text, 255, out, 0), TUBE_BAD_FIELD);
        }
        zeros = zeros && kept(&one, 0, 0);
    }
    uint8_t *out = lend(&one);
    zeros = zeros && refuses(tube_write_action(TUBE_TOLD_ERROR, 1, 0, 0, 0, letters, 0, (const uint8_t[3]){0x61, 0x00, 0x62}, 3, out, AREA), TUBE_BAD_FIELD) && kept(&one, 0, 0);
    expect("tube_write_action: texts of 0 to 255 bytes, and 6 for a longer one", texts);
    expect("tube_write_action: a &00 at every place of a text", zeros);

    /* Every number that is no action, and a block or text for an action that has none. */
    int no_action = 1, fitting = 1;
    for (int i = 0; i < 256; i++) {
        const uint8_t action = (uint8_t)i;
        if (!is_action(i)) {
            no_action = no_action && refuses(tube_write_action(action, 1, 2, 3, 4, letters, 0, letters, 0, out, AREA), TUBE_BAD_FIELD)
                        && refuses(tube_write_action(action, 1, 2, 3, 4, letters, 0, letters, 0, out, 0), TUBE_BAD_FIELD)
                        && refuses(tube_write_action(action, 1, 2, 3, 4, letters, 5, letters, 255, out, AREA), TUBE_BAD_FIELD);
        } else {
            const size_t has_block = action == TUBE_TOLD_BLOCK;
            if (!has_block)
                fitting = fitting && refuses(tube_write_action(action, 1, 2, 3, 4, letters, 1, letters, 0, out, AREA), TUBE_BAD_FIELD)
                          && refuses(tube_write_action(action, 1, 2, 3, 4, letters, 1, letters, 0, out, 0), TUBE_BAD_FIELD)
                          && refuses(tube_write_action(action, 1, 2, 3, 4, letters, 300, letters, 0, out, AREA), TUBE_BAD_FIELD);
            if (action != TUBE_TOLD_ERROR)
                fitting = fitting && refuses(tube_write_action(action, 1, 2, 3, 4, letters, has_block, letters, 1, out, AREA), TUBE_BAD_FIELD)
                          && refuses(tube_write_action(action, 1, 2, 3, 4, letters, has_block, letters, 255, out, 0), TUBE_BAD_FIELD);
        }
        no_action = no_action && refuses(tube_write_action(action, 1, 2, 3, 4, letters, 0, letters, 256, out, AREA), TUBE_STRING_LONG)
                    && refuses(tube_write_action(action, 1, 2, 3, 4, letters, 128, nothing, 256, out, 0), TUBE_STRING_LONG);
    }
    expect("tube_write_action: no such action, and a long text whatever the action", no_action && is_action(TUBE_TOLD_END) && !is_action(TUBE_TOLD_DATA) && kept(&one, 0, 0));
    expect("tube_write_action: a block or text for an action that has none", fitting && kept(&one, 0, 0));

    /* Everything wrong at once, then each first answer mended: a long text, a field (the &00, the block), no room. */
    memset(text, 0, sizeof text);
    int order = refuses(tube_write_action(TUBE_TOLD_ERROR, 1, 0, 0, 0, letters, 1, text, 256, out, 0), TUBE_STRING_LONG)
                && refuses(tube_write_action(TUBE_TOLD_ERROR, 1, 0, 0, 0, letters, 1, text, 255, out, 0), TUBE_BAD_FIELD)
                && refuses(tube_write_action(TUBE_TOLD_ERROR, 1, 0, 0, 0, letters, 1, letters, 255, out, 0), TUBE_BAD_FIELD)
                && refuses(tube_write_action(TUBE_TOLD_ERROR, 1, 0, 0, 0, letters, 0, letters, 255, out, 0), TUBE_BUFFER_SHORT)
                && refuses(tube_write_action(TUBE_TOLD_BLOCK, 0, 0, 0, 0, letters, 128, letters, 256, out, 0), TUBE_STRING_LONG)
                && refuses(tube_write_action(TUBE_TOLD_BLOCK, 0, 0, 0, 0, letters, 128, letters, 0, out, 0), TUBE_BAD_FIELD)
                && refuses(tube_write_action(TUBE_TOLD_BLOCK, 0, 0, 0, 0, letters, 0, letters, 0, out, 0), TUBE_BAD_FIELD)
                && refuses(tube_write_action(TUBE_TOLD_BLOCK, 0, 0, 0, 0, letters, 127, letters, 0, out, 0), TUBE_BUFFER_SHORT);
    expect("tube_write_action: 6 before 9 before 8", order && kept(&one, 0, 0));
}

static void data_written(void) {
    /* Data, and its bytes on the lead. */
    static const struct {
        const char *data, *bytes;
    } some[] = {{"", ""}, {"00", "00"}, {"41 42 0D", "41 42 0D"}, {"9B", "9B 9B"}, {"9B 41 9B 9B B0", "9B 9B 41 9B*4 B0"}, {"41*1000", "41*1000"}, {"9B*1000", "9B*2000"}};
    static uint8_t data[1024], bytes[2048], same[1024];
    int exact = 1, tight = 1, stay = 1;
    for (size_t i = 0; i < sizeof some / sizeof some[0]; i++) {
        const size_t length = bytes_of(some[i].data, data), need = bytes_of(some[i].bytes, bytes);
        memcpy(same, data, length);
        uint8_t *out = lend(&one), *more = lend(&two);
        TubeWritten w = tube_write_data(data, length, out, need), ample = tube_write_data(data, length, more, AREA);
        exact = exact && w.answer == TUBE_DONE && w.length == need && memcmp(out, bytes, need) == 0 && kept(&one, 0, need)
                && ample.answer == TUBE_DONE && ample.length == need && memcmp(more, bytes, need) == 0 && kept(&two, 0, need);
        out = lend(&one);
        if (need > 0)
            tight = tight && refuses(tube_write_data(data, length, out, need - 1), TUBE_BUFFER_SHORT) && refuses(tube_write_data(data, length, out, need / 2), TUBE_BUFFER_SHORT)
                    && refuses(tube_write_data(data, length, out, 0), TUBE_BUFFER_SHORT) && kept(&one, 0, 0);
        stay = stay && memcmp(same, data, length) == 0;
    }
    expect("tube_write_data: none, plain, with escapes, just long enough", exact);
    expect("tube_write_data: each one byte short, with half the room and with none", tight);
    expect("tube_write_data: the data stays", stay);

    /* Every byte, read again by a link inside a load. */
    int every = 1;
    const TubeLink loading = nested(tube_link(), 1);
    for (int i = 0; i < 256; i++) {
        const uint8_t byte = (uint8_t)i;
        uint8_t *out = lend(&one), *reply = lend(&two), *own = lend(&three);
        TubeWritten w = tube_write_data(&byte, 1, out, 2);
        TubeTold t = last_of(loading, out, w.length, reply, own);
        every = every && w.answer == TUBE_DONE && w.length == (i == TUBE_ESCAPE_BYTE ? 2 : 1) && kept(&one, 0, w.length) && told(t, TUBE_TOLD_DATA, 0, byte, 0, 0, 0)
                && same_link(t.link, loading) && kept(&two, 0, 0) && kept(&three, 0, 0);
    }
    expect("tube_write_data, tube_link_step: every byte is told as it was written", every);
}

/* What a host sends to an OSBGET that waits, part by part: an action, a byte of load data, or a byte of the reply by its place. The raw bytes, and what is told. */
typedef struct {
    const char *name;
    struct {
        uint8_t kind, numbers[4]; /* 0 behind the last */
    } parts[9];
    const char *raw, *tells;
    int replies;
} Stream;

static const Stream streams[] = {
    {"Escape before a reply, a load inside it",
     {{TUBE_TOLD_ESCAPE, {1}}, {TUBE_TOLD_REPLY, {0}}, {TUBE_TOLD_LOAD, {0, 0, 0x19, 0}}, {TUBE_TOLD_DATA, {0x9B}}, {TUBE_TOLD_END, {0}}, {TUBE_TOLD_REPLY, {1}}},
     "9B 81 80 ld 9B 9B 9B B0 41", "02 01 00 00 00 load 0D 9B 00 00 00 loaded 05 00 00 00 00", 1},
    {"a save and an event inside a load before a reply",
     {{TUBE_TOLD_LOAD, {0, 0, 0x19, 0}}, {TUBE_TOLD_SAVE, {0, 0, 0x80, 0}}, {TUBE_TOLD_EVENT, {1, 2, 3}}, {TUBE_TOLD_END, {0}}, {TUBE_TOLD_DATA, {0x41}}, {TUBE_TOLD_END, {0}},
      {TUBE_TOLD_REPLY, {0}}, {TUBE_TOLD_REPLY, {1}}},
     "ld sv 9B 90 01 02 03 9B B0 41 9B B0 80 41", "load save 03 01 02 03 00 saved 0D 41 00 00 00 loaded 05 00 00 00 00", 1},
    {"a restart inside a load inside a reply",
     {{TUBE_TOLD_REPLY, {0}}, {TUBE_TOLD_LOAD, {0, 0, 0x19, 0}}, {TUBE_TOLD_DATA, {0x41}}, {TUBE_TOLD_RESTART, {0}}, {TUBE_TOLD_REPLY, {1}}},
     "80 ld 41 9B 00 00 00 41", "load 0D 41 00 00 00 07 00 00 00 00 01 41 00 00 00", 0},
    {"an error inside a reply, a load behind it",
     {{TUBE_TOLD_REPLY, {0}}, {TUBE_TOLD_ERROR, {7}}, {TUBE_TOLD_LOAD, {0, 0, 0x19, 0}}, {TUBE_TOLD_DATA, {0x42}}, {TUBE_TOLD_END, {0}}, {TUBE_TOLD_REPLY, {1}}},
     "80 9B 00 07 00 ld 42 9B B0 41", "06 07 00 00 00 load 0D 42 00 00 00 loaded 01 41 00 00 00", 0},
};

static void streams_written(void) {
    uint8_t reply_bytes[2], expected[AREA], lines[AREA];
    TubeWritten both = tube_write_reply(TUBE_SERIAL, TUBE_OSBGET, 0, TUBE_REPLY_CARRY_A, 1, 0, 0, 0x41, letters, 0, letters, 0, reply_bytes, sizeof reply_bytes);
    for (size_t i = 0; i < sizeof streams / sizeof streams[0]; i++) {
        const Stream *c = &streams[i];
        const size_t length = bytes_of(c->raw, expected);
        char name[120];

        /* Each part goes into the tail that the last one left. */
        uint8_t *out = lend(&one);
        size_t at = 0;
        int written = both.answer == TUBE_DONE && both.length == 2;
        for (int j = 0; c->parts[j].kind != TUBE_TOLD_MORE; j++) {
            const uint8_t kind = c->parts[j].kind, *numbers = c->parts[j].numbers;
            TubeWritten w = {1, TUBE_DONE};
            if (kind == TUBE_TOLD_REPLY)
                out[at] = reply_bytes[numbers[0]];
            else if (kind == TUBE_TOLD_DATA)
                w = tube_write_data(numbers, 1, out + at, length - at);
            else
                w = act(kind, numbers, letters, 0, letters, 0, out + at, length - at);
            written = written && w.answer == TUBE_DONE;
            at += w.length;
        }
        snprintf(name, sizeof name, "tube_write_action, tube_write_data: %s", c->name);
        expect(name, written && at == length && memcmp(out, expected, length) == 0 && kept(&one, 0, length));

        /* What each byte tells but need-more, a note for each; the reply at the last byte or not at all. */
        uint8_t *reply = lend(&two), *own = lend(&three);
        TubeTold t = {.link = tube_begin(tube_link(), TUBE_OSBGET, 0).link};
        size_t noted = 0;
        int replies = 0;
        for (size_t j = 0; j < at; j++) {
            t = tube_link_step(t.link, out[j], reply, own);
            if (t.kind != TUBE_TOLD_MORE) {
                const uint8_t note[TUBE_NOTE] = {(uint8_t)t.kind, t.first, t.second, t.third, t.fourth};
                memcpy(lines + noted, note, TUBE_NOTE);
                noted += TUBE_NOTE;
            }
            if (t.kind == TUBE_TOLD_REPLY)
                replies += j + 1 == at && t.length == 2 && memcmp(reply, "\x80\x41", 2) == 0 ? 1 : 2;
        }
        snprintf(name, sizeof name, "tube_link_step: %s", c->name);
        expect(name, noted == bytes_of(c->tells, expected) && memcmp(lines, expected, noted) == 0 && replies == c->replies && same_link(t.link, tube_link()));
    }
}

int main(void) {
    for (size_t i = 0; i < sizeof letters; i++)
        letters[i] = (uint8_t)('A' + i % 26);
    memset(escapes, TUBE_ESCAPE_BYTE, sizeof escapes);
    layout();
    chip_made();
    accesses();
    scripts();
    requests_written();
    requests_taken_apart();
    names_found();
    requests_read();
    calls_begun();
    steps();
    transfers_open();
    transfers_closed();
    calls_inside_transfers();
    runs();
    transfers_run();
    recordings();
    replies_written();
    replies_read();
    replies_taken();
    actions_written();
    data_written();
    streams_written();
    printf("%d passed, %d failed\n", run - failed, failed);
    return failed != 0;
}
