/* Every export with buffers that end at a page that cannot be touched, or start behind one, hostile records (numbers out of range, counts far
 * above their limits) and random streams: no byte outside what is lent is touched, and lent bytes that may not change stay.
 *     guard SEED ROUNDS          buffers at guard pages
 *     guard SEED ROUNDS heap     buffers of their exact length on the heap, for valgrind
 * The last line is 'N passed, M failed', properties and not calls counted. */
#define _DEFAULT_SOURCE
#include "../include/tube.h"
#include <setjmp.h>
#include <signal.h>
#include <stdio.h>
#include <stdlib.h>
#include <string.h>
#include <sys/mman.h>
#include <unistd.h>

/* ---- Random numbers ---- */

static uint64_t state;

static uint64_t next(void) {
    state ^= state >> 12;
    state ^= state << 25;
    state ^= state >> 27;
    return state * 0x2545F4914F6CDD1Du;
}

static size_t below(size_t limit) {
    return (size_t)(next() >> 32) % limit;
}

static uint8_t byte(void) {
    return (uint8_t)(next() >> 56);
}

/* A byte at which rules change, or any. */
static uint8_t edge(void) {
    static const uint8_t edges[24] = {0x9B, 0x9B, 0x9B, 0x9B, 0x9B, 0x9B, 0x00, 0x00, 0x0D, 0x0D, 0x7F, 0x80,
                                      0xFF, 0x01, 0x02, 0x08, 0x14, 0x90, 0xA0, 0xB0, 0xC0, 0xD0, 0xE0, 0xF0};
    return below(2) ? edges[below(24)] : byte();
}

/* A number below `limit` in most cases, else around it or any. */
static uint8_t tag(uint8_t limit) {
    switch (below(12)) {
    case 0: return byte();
    case 1: return limit;
    case 2: return 0xFF;
    default: return (uint8_t)below(limit);
    }
}

static size_t count(size_t limit) {
    switch (below(12)) {
    case 0: return limit;
    case 1: return limit + 1 + below(300);
    case 2: return SIZE_MAX - below(300);
    case 3: return (size_t)next();
    case 4: return limit - 1;
    case 5: return below(3);
    default: return below(limit);
    }
}

/* The length of a buffer. */
static size_t length_of(void) {
    switch (below(6)) {
    case 0: return 0;
    case 1: return 1 + below(3);
    case 2: return 250 + below(12);
    case 3: return below(400);
    default: return below(24);
    }
}

/* ---- Properties ---- */

enum {
    ACCESS, NEW, RESET, LINES, PLAY, TEXT, READER, READ, FEED, WRITE_REQUEST, KIND_OF, READ_REQUEST, FILE_NAME, LINK, BEGIN, LINK_STEP, RUN, READ_RECORDED,
    WRITE_REPLY, REPLY_STEP, READ_REPLY, WRITE_ACTION, WRITE_DATA, EXPORTS
};

static const char *const exports[EXPORTS] = {
    "tube_access", "tube_new", "tube_reset", "tube_lines", "tube_play", "tube_text", "tube_reader", "tube_read", "tube_feed", "tube_write_request",
    "tube_kind_of", "tube_read_request", "tube_file_name", "tube_link", "tube_begin", "tube_link_step", "tube_run", "tube_read_recorded",
    "tube_write_reply", "tube_reply_step", "tube_read_reply", "tube_write_action", "tube_write_data"};

enum { INSIDE, STAYS, SOUND, KINDS };

static const char *const kinds[KINDS] = {"nothing outside is touched", "lent bytes that may not change stay", "its answer is a sound one"};

static struct {
    unsigned long checked;
    char first[120]; /* where it first failed */
} found[EXPORTS][KINDS];

/* The answers that each export has, and those that came up. Of a reader and a link they are the refusals' numbers, and 16 and more by kind; of what
 * is taken apart 16 and more by call or form. */
#define BIT(n) (1ul << (n))
#define WRITER (BIT(TUBE_DONE) | BIT(TUBE_UNKNOWN_CODE) | BIT(TUBE_STRING_LONG) | BIT(TUBE_BUFFER_SHORT) | BIT(TUBE_BAD_FIELD))
#define NO_CALL 15 /* stands for TUBE_NO_CALL, behind the calls */
#define ALL_CALLS (((1ul << TUBE_CALLS) - 1) << 16 | BIT(16 + NO_CALL))
#define ALL_FORMS (((1ul << (TUBE_REPLY_NONE + 1)) - 1) << 16)
#define READER_KINDS (BIT(16 + TUBE_NEED_MORE) | BIT(16 + TUBE_CHARACTER) | BIT(16 + TUBE_REQUEST) | BIT(16 + TUBE_REFUSED))
#define READER_REFUSALS (BIT(TUBE_UNKNOWN_CODE) | BIT(TUBE_MARK_INSIDE) | BIT(TUBE_STRING_LONG) | BIT(TUBE_STOPPED) | BIT(TUBE_BAD_FIELD))
#define LINK_REFUSALS (BIT(TUBE_UNKNOWN_CODE) | BIT(TUBE_MARK_INSIDE) | BIT(TUBE_STRING_LONG) | BIT(TUBE_BAD_FIELD) | BIT(TUBE_TOO_DEEP))
#define ENDS (BIT(16 + TUBE_TOLD_MORE) | BIT(16 + TUBE_TOLD_REPLY) | BIT(16 + TUBE_TOLD_ERROR) | BIT(16 + TUBE_TOLD_RESTART) | BIT(16 + TUBE_TOLD_REFUSED))

static const unsigned long has[EXPORTS] = {
    [ACCESS] = BIT(TUBE_DONE) | BIT(TUBE_MISSING) | BIT(TUBE_NO_ROOM) | BIT(TUBE_EMPTY),
    [PLAY] = BIT(TUBE_DONE) | BIT(TUBE_BUFFER_SHORT) | BIT(TUBE_LIMIT_REACHED) | BIT(TUBE_CUT_SHORT),
    [READ] = READER_KINDS | READER_REFUSALS,
    [FEED] = READER_KINDS | READER_REFUSALS,
    [WRITE_REQUEST] = WRITER,
    [KIND_OF] = ALL_CALLS,
    [READ_REQUEST] = ALL_CALLS,
    [FILE_NAME] = BIT(TUBE_DONE) | BIT(TUBE_STRING_LONG) | BIT(TUBE_BAD_FIELD),
    [BEGIN] = BIT(TUBE_DONE) | BIT(TUBE_UNKNOWN_CODE) | BIT(TUBE_STOPPED) | BIT(TUBE_CALL_WAITS) | BIT(16 + TUBE_BEGUN) | BIT(16 + TUBE_COMPLETE) | BIT(16 + TUBE_DENIED),
    [LINK_STEP] = LINK_REFUSALS | BIT(TUBE_STOPPED) | ((1ul << (TUBE_TOLD_END + 1)) - 1) << 16,
    [RUN] = LINK_REFUSALS | BIT(TUBE_STOPPED) | BIT(TUBE_BUFFER_SHORT) | ENDS,
    [READ_RECORDED] = LINK_REFUSALS | BIT(TUBE_BUFFER_SHORT) | ENDS,
    [WRITE_REPLY] = WRITER,
    [REPLY_STEP] = BIT(TUBE_UNKNOWN_CODE) | BIT(TUBE_STRING_LONG) | BIT(TUBE_STOPPED) | BIT(16 + TUBE_TAKEN_MORE) | BIT(16 + TUBE_TAKEN_LAST) | BIT(16 + TUBE_TAKEN_REFUSED),
    [READ_REPLY] = ALL_FORMS,
    [WRITE_ACTION] = WRITER & ~BIT(TUBE_UNKNOWN_CODE),
    [WRITE_DATA] = BIT(TUBE_DONE) | BIT(TUBE_BUFFER_SHORT),
};

static unsigned long seen[EXPORTS];

static int current; /* the export that is called */
static unsigned long current_round;

static void check(int kind, int good) {
    found[current][kind].checked++;
    if (!good && found[current][kind].first[0] == 0)
        snprintf(found[current][kind].first, sizeof found[current][kind].first, "first in round %lu", current_round);
}

static void came(unsigned answer) {
    seen[current] |= BIT(answer);
}

/* A kind, and the number of a refusal. */
static void came_kind(unsigned kind, unsigned refused, unsigned number) {
    came(16 + kind);
    if (kind == refused)
        came(number);
}

/* ---- Lent buffers ---- */

enum { SLOTS = 6, LARGE = 5 }; /* the last is for buffers longer than a page */

static int heap;
static size_t page;

/* A buffer as it is lent: the memory around it that can be touched is filled and compared too. */
static struct {
    uint8_t *map;    /* a guard page, a page or more, a guard page */
    uint8_t *area;   /* what can be touched */
    uint8_t *before; /* its bytes as they were lent */
    size_t space, size, start, length;
} slots[SLOTS];

static void map_slots(void) {
    page = (size_t)sysconf(_SC_PAGESIZE);
    for (int i = 0; i < SLOTS; i++) {
        slots[i].space = i == LARGE ? (1 + UINT16_MAX / page) * page + page : page;
        slots[i].before = malloc(slots[i].space);
        slots[i].map = mmap(NULL, slots[i].space + 2 * page, PROT_NONE, MAP_PRIVATE | MAP_ANONYMOUS, -1, 0);
        if (slots[i].before == NULL || slots[i].map == MAP_FAILED || mprotect(slots[i].map + page, slots[i].space, PROT_READ | PROT_WRITE) != 0) {
            perror("guard pages");
            exit(2);
        }
    }
}

/* Lends `length` bytes, all random or all edges. */
static uint8_t *lend(int slot, size_t length) {
    if (heap) {
        free(slots[slot].area);
        slots[slot].size = length;
        slots[slot].area = malloc(length);
        slots[slot].start = 0;
    } else {
        slots[slot].size = slots[slot].space;
        slots[slot].area = slots[slot].map + page;
        slots[slot].start = below(2) ? slots[slot].space - length : 0;
    }
    slots[slot].length = length;
    for (size_t i = 0; i < slots[slot].size; i += 8) {
        uint64_t bytes = next();
        memcpy(slots[slot].area + i, &bytes, slots[slot].size - i < 8 ? slots[slot].size - i : 8);
    }
    uint8_t *at = slots[slot].area + slots[slot].start;
    if (below(3) > 0)
        for (size_t i = 0; i < length; i++)
            at[i] = edge();
    return at;
}

/* What stands in a buffer now is what is compared with. */
static const uint8_t *filled(int slot) {
    memcpy(slots[slot].before, slots[slot].area, slots[slot].size);
    return slots[slot].area + slots[slot].start;
}

/* Whether all but the lent bytes `from` to below `to` are as they were. */
static int stays(int slot, size_t from, size_t to) {
    const uint8_t *area = slots[slot].area, *before = slots[slot].before;
    size_t start = slots[slot].start + from, end = slots[slot].start + to;
    return memcmp(area, before, start) == 0 && memcmp(area + end, before + end, slots[slot].size - end) == 0;
}

static int all_stay(int slot) {
    return stays(slot, 0, 0);
}

static size_t at_most(size_t a, size_t b) {
    return a < b ? a : b;
}

/* ---- The chip and scripts ---- */

static TubeChip any_chip(void) {
    TubeChip chip;
    uint8_t *bytes = (uint8_t *)&chip;
    for (size_t i = 0; i < sizeof chip; i++)
        bytes[i] = byte();
    uint8_t *held = (uint8_t *)&chip.held;
    if (below(4) > 0)
        for (int c = 0; c < 8; c++)
            held[c] = (uint8_t)below(tube_capacity[c] + 1u);
    if (below(8) == 0)
        held[below(8)] = below(2) ? 11 : 255;
    return chip;
}

static int over_full(const TubeChip *chip) {
    for (int c = 0; c < 8; c++)
        if (TUBE_BYTE(chip->held, c) > tube_capacity[c])
            return 1;
    return 0;
}

static int same_chip(TubeChip a, TubeChip b) {
    return memcmp(&a, &b, sizeof a) == 0;
}

static void try_access(void) {
    TubeChip given = any_chip();
    TubeChip *chip = (TubeChip *)lend(0, sizeof given);
    memcpy(chip, &given, sizeof given);
    filled(0);
    TubeReply r = tube_access(chip, tag(2), tag(8), tag(2), byte());
    came(r.answer);
    check(INSIDE, stays(0, 0, sizeof given));
    check(STAYS, r.answer == TUBE_DONE || all_stay(0));
    check(SOUND, r.answer <= TUBE_EMPTY && (r.answer == TUBE_DONE || r.byte == 0) && over_full(chip) == over_full(&given)
                     && (!over_full(&given) || r.answer == TUBE_MISSING));
}

static void try_new(void) {
    TubeChip chip = tube_new();
    check(SOUND, !over_full(&chip) && chip.flags == 0);
}

static void try_reset(void) {
    check(SOUND, same_chip(tube_reset(any_chip()), tube_new()));
}

static void try_lines(void) {
    TubeChip chip = any_chip();
    uint8_t lines = tube_lines(chip);
    check(SOUND, lines < 16 && (lines == 0 || !over_full(&chip)));
}

static void try_play(void) {
    TubeChip chip = any_chip();
    size_t length = length_of(), records = length / TUBE_RECORD, limit = below(2) ? count(records + 1) : records;
    size_t played = at_most(limit, records), need = played * TUBE_RESULT, room = need + below(3) - 1;
    if (need == 0 || below(4) == 0)
        room = length_of();
    uint8_t *script = lend(0, length);
    for (size_t i = 0; i < length; i += TUBE_RECORD)
        script[i] = tag(5);
    filled(0);
    uint8_t *results = lend(1, room);
    filled(1);
    TubePlayed p = tube_play(chip, script, length, limit, results, room);
    came(p.answer);
    check(INSIDE, stays(1, 0, room));
    check(STAYS, all_stay(0) && stays(1, 0, p.answer == TUBE_BUFFER_SHORT ? 0 : need));
    check(SOUND, room < need ? p.answer == TUBE_BUFFER_SHORT && p.played == 0 && same_chip(p.chip, chip)
                             : p.played == played && (p.answer == TUBE_DONE || p.answer == TUBE_LIMIT_REACHED || p.answer == TUBE_CUT_SHORT));
}

static void try_text(void) {
    static uint8_t large[8192];
    size_t length = length_of(), played = below(2) ? count(length / TUBE_RESULT + 1) : length / TUBE_RESULT;
    uint8_t answer = byte(), *results = lend(0, length);
    filled(0);
    size_t need = tube_text(results, length, played, answer, large, sizeof large), room = need == 0 || below(3) == 0 ? length_of() : need + below(3) - 1;
    uint8_t *out = lend(1, room);
    filled(1);
    size_t written = tube_text(results, length, played, answer, out, room);
    check(INSIDE, stays(1, 0, room));
    check(STAYS, all_stay(0) && stays(1, 0, at_most(written, room)));
    check(SOUND, (played > length / TUBE_RESULT ? need == 0 : need > 0) && written == (need <= room ? need : 0) && memcmp(out, large, at_most(written, room)) == 0);
}

/* ---- Requests ---- */

static TubeReader any_reader(void) {
    TubeReader r;
    r.carrier = tag(2);
    r.phase = below(3) ? TUBE_INSIDE : tag(3);
    r.escape = below(2) ? 0 : byte();
    r.style = tag(r.carrier == TUBE_SERIAL ? 4 : 1);
    r.code = below(12) == 0 ? byte() : (uint8_t)(2 + 2 * below(11));
    static const size_t longest[12] = {1, 256, 2, 3, 258, 5, 6, 1, 2, 257, 273, 14};
    r.count = (uint16_t)count(r.code <= TUBE_CODE_OSGBPB ? longest[r.code / 2] : 273);
    if (r.phase == TUBE_OUTSIDE) {
        /* All 0 in half of the cases; else one of them is any number, or all are. */
        size_t odd = below(8);
        r.style = odd < 2 ? r.style : 0;
        r.code = odd % 2 == 0 && odd < 4 ? r.code : 0;
        r.count = odd == 0 || odd == 3 ? r.count : 0;
    }
    return r;
}

/* Whether a reader outside a request is beyond its limits. */
static int odd_outside(TubeReader r) {
    return r.phase == TUBE_OUTSIDE && (r.style != 0 || r.code != 0 || r.count != 0);
}

static int same_reader(TubeReader a, TubeReader b) {
    return a.count == b.count && a.carrier == b.carrier && a.phase == b.phase && a.escape == b.escape && a.style == b.style && a.code == b.code;
}

/* Where a byte taken from this record on is put. */
static size_t body_place(TubeReader r) {
    return r.phase == TUBE_INSIDE ? at_most(r.count, TUBE_BODY) : 0;
}

static int sound_read(TubeRead r, TubeReader given) {
    if (odd_outside(r.reader) && !odd_outside(given))
        return 0;
    switch (r.kind) {
    case TUBE_NEED_MORE: return r.length == 0 && r.value == 0 && r.style == 0 && r.code == 0;
    case TUBE_CHARACTER: return r.length == 0 && r.style == 0 && r.code == 0;
    case TUBE_REQUEST: return r.length <= TUBE_BODY && r.value == 0 && r.style <= 3 && r.code <= TUBE_CODE_OSGBPB;
    case TUBE_REFUSED: return r.length == 0 && r.value >= TUBE_UNKNOWN_CODE && r.value <= TUBE_BAD_FIELD && r.value != TUBE_BUFFER_SHORT
                              && (r.value != TUBE_STOPPED || same_reader(r.reader, given));
    default: return 0;
    }
}

static void try_reader(void) {
    uint8_t carrier = byte();
    TubeReader r = tube_reader(carrier);
    check(SOUND, r.count == 0 && r.carrier == carrier && r.phase == TUBE_OUTSIDE && r.escape == 0 && r.style == 0 && r.code == 0);
}

static void try_read(void) {
    TubeReader given = any_reader();
    uint8_t *body = lend(0, TUBE_BODY);
    if (below(2) && given.count > 0 && given.count <= TUBE_BODY)
        body[given.count - 1] = 0x0D;
    filled(0);
    TubeRead r = tube_read(given, edge(), body);
    came_kind(r.kind, TUBE_REFUSED, r.value);
    size_t place = body_place(given);
    check(INSIDE, stays(0, 0, TUBE_BODY));
    check(STAYS, r.kind == TUBE_REFUSED || r.kind == TUBE_CHARACTER ? all_stay(0) : stays(0, place, at_most(place + 1, TUBE_BODY)));
    check(SOUND, sound_read(r, given) && (!odd_outside(given) || (r.kind == TUBE_REFUSED && r.value == TUBE_STOPPED)));
}

static void try_feed(void) {
    static TubeReader kept;
    TubeReader given = below(2) ? any_reader() : kept;
    size_t length = length_of();
    const uint8_t *raw = lend(0, length);
    filled(0);
    uint8_t *body = lend(1, TUBE_BODY);
    filled(1);
    TubeFed f = tube_feed(given, raw, length, body);
    came_kind(f.read.kind, TUBE_REFUSED, f.read.value);
    size_t place = body_place(given);
    check(INSIDE, stays(1, 0, TUBE_BODY));
    check(STAYS, all_stay(0) && stays(1, place, at_most(place + f.used, TUBE_BODY)));
    check(SOUND, sound_read(f.read, given) && f.used <= length && (f.read.kind == TUBE_NEED_MORE ? f.used == length : f.used > 0)
                     && (length > 0 || same_reader(f.read.reader, given))
                     && (!odd_outside(given) || length == 0 || (f.read.kind == TUBE_REFUSED && f.read.value == TUBE_STOPPED && f.used == 1)));
    kept = f.read.kind == TUBE_REFUSED ? tube_reader(tag(2)) : f.read.reader;
}

/* The buffer for an encoding of this length: just long enough, around it, or any. */
static size_t room_for(size_t need) {
    return below(4) == 0 || need == 0 ? length_of() : need + below(3) - 1;
}

/* What a writer answers, given what it answers with room enough: 4 before 6 before 9 before 8. */
static int sound_written(TubeWritten w, TubeWritten whole, size_t room, uint8_t call, size_t text_length) {
    if (call >= TUBE_CALLS || text_length > TUBE_STRING_LIMIT)
        return w.answer == (call >= TUBE_CALLS ? TUBE_UNKNOWN_CODE : TUBE_STRING_LONG) && w.length == 0;
    if (whole.answer != TUBE_DONE)
        return w.answer == TUBE_BAD_FIELD && whole.answer == TUBE_BAD_FIELD && w.length == 0;
    return room < whole.length ? w.answer == TUBE_BUFFER_SHORT && w.length == 0 : w.answer == TUBE_DONE && w.length == whole.length;
}

/* Whether a request written is read again as one, at its last byte. */
static int request_reads(uint8_t carrier, uint8_t style, const uint8_t *bytes, size_t length) {
    static uint8_t body[TUBE_BODY];
    TubeFed f = tube_feed(tube_reader(carrier), bytes, length, body);
    return f.read.kind == TUBE_REQUEST && f.used == length && f.read.style == style && f.read.length + 1 <= length;
}

static void try_write_request(void) {
    static uint8_t large[2 + 2 * TUBE_BODY];
    static const size_t blocks[TUBE_CALLS] = {0, 0, 0, 0, 7, 5, 4, 0, 0, 0, 0, 16, 13};
    uint8_t carrier = tag(2), style = carrier == TUBE_SERIAL ? tag(4) : tag(1), call = tag(TUBE_CALLS), x = edge(), y = edge(), a = edge(), out_length = byte();
    int has_text = call == TUBE_OSCLI || call == TUBE_OSFIND_OPEN || call == TUBE_OSFILE;
    size_t block_length = below(6) == 0 || call >= TUBE_CALLS ? length_of() : call == TUBE_OSWORD ? length_of() : blocks[call];
    size_t text_length = has_text || below(6) == 0 ? length_of() : 0;
    const uint8_t *block = lend(0, block_length);
    filled(0);
    uint8_t *text = lend(1, text_length);
    if (below(4) > 0)
        for (size_t i = 0; i < text_length; i++)
            text[i] = text[i] == 0x0D ? 0x9B : text[i];
    filled(1);
    TubeWritten whole = tube_write_request(carrier, style, call, x, y, a, out_length, block, block_length, text, text_length, large, sizeof large);
    size_t room = room_for(whole.length);
    uint8_t *out = lend(2, room);
    filled(2);
    TubeWritten w = tube_write_request(carrier, style, call, x, y, a, out_length, block, block_length, text, text_length, out, room);
    came(w.answer);
    check(INSIDE, stays(2, 0, room));
    check(STAYS, all_stay(0) && all_stay(1) && stays(2, 0, at_most(w.length, room)));
    check(SOUND, sound_written(w, whole, room, call, text_length) && memcmp(out, large, at_most(w.length, room)) == 0
                     && (whole.answer != TUBE_DONE || request_reads(carrier, style, large, whole.length)));
}

/* A request's code in half of the cases. */
static uint8_t any_code(void) {
    return below(2) ? (uint8_t)(2 * below(12)) : byte();
}

static int is_code(uint8_t code) {
    return code <= TUBE_CODE_OSGBPB && code % 2 == 0;
}

static void try_kind_of(void) {
    size_t length = length_of();
    const uint8_t *body = lend(0, length);
    filled(0);
    uint8_t code = any_code();
    TubeKind k = tube_kind_of(code, body, length);
    came(16 + (k.call == TUBE_NO_CALL ? NO_CALL : at_most(k.call, NO_CALL - 1)));
    check(INSIDE, all_stay(0));
    check(SOUND, (is_code(code) ? k.call < TUBE_CALLS : k.call == TUBE_NO_CALL) && (k.out_length == 0 || k.call == TUBE_OSWORD));
}

/* The body of a finished request with any numbers, as a writer puts it on the parallel side: its length, and its code. */
static size_t finished(uint8_t *code, uint8_t *body, size_t room) {
    static const size_t blocks[TUBE_CALLS] = {0, 0, 0, 0, 0, 5, 4, 0, 0, 0, 0, 16, 13};
    uint8_t call = (uint8_t)below(TUBE_CALLS), a = edge(), block[256], text[255], out[1 + TUBE_BODY];
    if (call == TUBE_OSBYTE_LOW || call == TUBE_OSBYTE_HIGH)
        a = (uint8_t)(call == TUBE_OSBYTE_LOW ? a & 0x7F : a | 0x80);
    if (a == 0 && (call == TUBE_OSWORD || call == TUBE_OSFIND_OPEN))
        a = 1;
    size_t block_length = call == TUBE_OSWORD ? below(256) : blocks[call];
    size_t text_length = call == TUBE_OSCLI || call == TUBE_OSFIND_OPEN || call == TUBE_OSFILE ? below(256) : 0;
    for (size_t i = 0; i < block_length; i++)
        block[i] = edge();
    for (size_t i = 0; i < text_length; i++) {
        text[i] = edge();
        text[i] = text[i] == 0x0D ? 0x9B : text[i];
    }
    TubeWritten w = tube_write_request(TUBE_PARALLEL, 0, call, edge(), edge(), a, edge(), block, block_length, text, text_length, out, sizeof out);
    check(SOUND, w.answer == TUBE_DONE && w.length > 0 && w.length <= room + 1);
    *code = out[0];
    memcpy(body, out + 1, at_most(w.length - 1, room));
    return w.length - 1;
}

/* Of a finished request the fields, written again, are its bytes. */
static void try_read_request(void) {
    uint8_t code = any_code(), whole[TUBE_BODY], again[1 + TUBE_BODY];
    int is_finished = below(2) == 0;
    size_t length = is_finished ? finished(&code, whole, sizeof whole) : length_of();
    uint8_t *body = lend(0, length);
    if (is_finished)
        memcpy(body, whole, length);
    filled(0);
    TubeAsked f = tube_read_request(code, body, length);
    came(16 + (f.call == TUBE_NO_CALL ? NO_CALL : at_most(f.call, NO_CALL - 1)));
    check(INSIDE, all_stay(0));
    int inside = f.block_start <= length && f.block_length <= length - f.block_start && f.text_start <= length && f.text_length <= length - f.text_start;
    TubeKind k = tube_kind_of(code, body, length);
    check(SOUND, inside && (is_code(code) ? f.call < TUBE_CALLS : f.call == TUBE_NO_CALL) && f.call == k.call && f.out_length == k.out_length
                     && (is_code(code) || (f.x | f.y | f.a) + f.block_start + f.block_length + f.text_start + f.text_length == 0));
    if (is_finished && inside) {
        TubeWritten w = tube_write_request(TUBE_PARALLEL, 0, f.call, f.x, f.y, f.a, f.out_length, body + f.block_start, f.block_length, body + f.text_start, f.text_length,
                                           again, sizeof again);
        check(SOUND, w.answer == TUBE_DONE && w.length == 1 + length && again[0] == code && memcmp(again + 1, body, length) == 0);
    }
}

static void try_file_name(void) {
    size_t length = length_of();
    uint8_t *body = lend(0, length);
    if (below(2))
        memset(body, 'A', length);
    filled(0);
    TubeName n = tube_file_name(body, length);
    came(n.answer);
    check(INSIDE, all_stay(0));
    check(SOUND, n.answer == TUBE_DONE ? n.length <= 255 && TUBE_FILE_BLOCK + n.length < length && body[TUBE_FILE_BLOCK + n.length] == 0x0D
                                       : n.length == 0 && (n.answer == TUBE_STRING_LONG ? length > TUBE_FILE_BLOCK + 255 : n.answer == TUBE_BAD_FIELD));
}

/* ---- The link ---- */

/* The most bytes that an action has of its own. */
static size_t most_own(uint8_t action) {
    static const size_t most[TUBE_IN_SAVE + 1] = {1, 257, 3, 4, 4, 4, 4};
    return action <= TUBE_IN_SAVE ? most[action] : action > TUBE_IN_BLOCK ? action - (size_t)TUBE_IN_BLOCK : TUBE_OWN_LENGTH;
}

static TubeLink any_link(void) {
    static const size_t most[TUBE_CALLS + 1] = {1, 2, 1, 1, 3, 255, 257, 5, 2, 1, 1, 1, 17, 15};
    TubeLink l;
    l.wait = below(4) ? tag(TUBE_CALLS + 1) : 1 + TUBE_OSWORD + (uint8_t)below(2);
    l.out_length = below(3) ? 255 : byte();
    l.action = below(4) ? below(3) ? tag(4) : tag(TUBE_IN_SAVE + 1) : (uint8_t)(TUBE_IN_BLOCK + below(128));
    l.got = (uint16_t)(l.wait > 0 ? count(l.wait <= TUBE_CALLS ? most[l.wait] : 257) : below(8) == 0 ? count(2) : 0);
    l.held = (uint16_t)(l.action > 0 ? count(most_own(l.action)) : below(8) == 0 ? count(2) : 0);
    if (l.action == TUBE_IN_ERROR && below(3) == 0)
        l.held = 1; /* its number alone */
    l.flags = below(12) ? (uint8_t)(below(2) + (below(2) ? TUBE_LINK_NESTED * below(31) : 0)) : byte();
    return l;
}

static int same_link(TubeLink a, TubeLink b) {
    return a.got == b.got && a.held == b.held && a.wait == b.wait && a.out_length == b.out_length && a.action == b.action && a.flags == b.flags;
}

static int sound_told(TubeTold t, TubeLink given) {
    switch (t.kind) {
    case TUBE_TOLD_REPLY: return t.length > 0 && t.length <= TUBE_REPLY_LENGTH && t.first == 0;
    case TUBE_TOLD_ERROR: return t.length <= 255 && (t.link.flags | t.link.wait) == 0;
    case TUBE_TOLD_RESTART: return t.length == 0 && (t.link.flags | t.link.wait) == 0;
    case TUBE_TOLD_REFUSED: return t.length == 0 && (t.first == TUBE_STOPPED || t.first == TUBE_BUFFER_SHORT
                                                         ? same_link(t.link, given)
                                                         : (LINK_REFUSALS >> t.first & 1) != 0 && (t.link.flags & TUBE_LINK_STOPPED) != 0);
    case TUBE_TOLD_BLOCK: return t.length > 0 && t.length < 128;
    case TUBE_TOLD_END: return t.length == 0 && t.first <= TUBE_SAVE;
    default: return t.kind <= TUBE_TOLD_END && t.length == 0;
    }
}

static void try_link(void) {
    TubeLink l = tube_link();
    check(SOUND, l.got == 0 && l.held == 0 && l.wait == 0 && l.action == 0 && l.flags == 0);
}

static void try_begin(void) {
    static uint8_t reply[TUBE_REPLY_LENGTH], own[TUBE_OWN_LENGTH];
    TubeLink given = any_link();
    if (below(2) && given.wait > 0)
        given.wait = 0, given.got = 0;
    uint8_t call = below(6) ? tag(TUBE_CALLS) : TUBE_OSWORD, out_length = below(3) ? byte() : 0;
    TubeTold next_byte = tube_link_step(given, 'x', reply, own);
    TubeBegun b = tube_begin(given, call, out_length);
    came_kind(b.kind, b.kind, b.answer);
    /* 7 before 12 before 4; a link that is stopped refuses a byte with 7 too. */
    int stopped = next_byte.kind == TUBE_TOLD_REFUSED && next_byte.first == TUBE_STOPPED;
    uint8_t answer = stopped ? TUBE_STOPPED : given.wait > 0 ? TUBE_CALL_WAITS : call >= TUBE_CALLS ? TUBE_UNKNOWN_CODE : TUBE_DONE;
    uint8_t kind = answer != TUBE_DONE ? TUBE_DENIED : call == TUBE_OSWORD && out_length == 0 ? TUBE_COMPLETE : TUBE_BEGUN;
    check(SOUND, b.kind == kind && b.answer == answer && (kind == TUBE_BEGUN ? b.link.wait == 1 + call : same_link(b.link, given)));
}

static void try_link_step(void) {
    TubeLink given = any_link();
    uint8_t *reply = lend(0, TUBE_REPLY_LENGTH);
    filled(0);
    uint8_t *own = lend(1, TUBE_OWN_LENGTH);
    own[0] = below(2) ? 0 : own[0];
    filled(1);
    TubeTold t = tube_link_step(given, below(4) ? edge() : 0, reply, own);
    came_kind(t.kind, TUBE_TOLD_REFUSED, t.first);
    size_t got = at_most(given.got, TUBE_REPLY_LENGTH), held = at_most(given.held, TUBE_OWN_LENGTH);
    check(INSIDE, stays(0, 0, TUBE_REPLY_LENGTH) && stays(1, 0, TUBE_OWN_LENGTH));
    check(STAYS, t.kind == TUBE_TOLD_REFUSED || t.kind == TUBE_TOLD_CHARACTER || t.kind == TUBE_TOLD_ESCAPE || t.kind == TUBE_TOLD_DATA || t.kind == TUBE_TOLD_END
                     ? all_stay(0) && all_stay(1)
                     : (all_stay(0) || all_stay(1)) && stays(0, got, at_most(got + 1, TUBE_REPLY_LENGTH)) && stays(1, held, at_most(held + 1, TUBE_OWN_LENGTH)));
    check(SOUND, sound_told(t, given) && (t.kind != TUBE_TOLD_REFUSED || t.first != TUBE_BUFFER_SHORT));
}

/* Whether these are notes, and their data is as long as they say. */
static int sound_notes(const uint8_t *room, size_t noted, size_t stored) {
    size_t bytes = 0;
    for (size_t i = 0; i < noted; i++) {
        const uint8_t *note = room + i * TUBE_NOTE;
        if (note[0] < TUBE_TOLD_CHARACTER || (note[0] > TUBE_TOLD_ADDRESS && note[0] < TUBE_TOLD_BLOCK) || note[0] > TUBE_TOLD_END)
            return 0;
        if (note[0] == TUBE_TOLD_BLOCK || note[0] == TUBE_TOLD_DATA) {
            if (note[1] == 0 || (note[0] == TUBE_TOLD_BLOCK && note[1] > 127) || (note[2] | note[3] | note[4]) != 0)
                return 0;
            bytes += note[1];
        }
    }
    return bytes == stored;
}

enum { PART = 12 };

/* A part of a stream, whatever stands before it: some data, an end, a control block, or an address for any use. How many bytes it has. */
static size_t any_part(uint8_t at[PART]) {
    size_t length = 0;
    switch (below(8)) {
    case 0: case 1: case 2: /* data */
        for (size_t some = 1 + below(PART - 1); length < some; length++) {
            at[length] = edge();
            if (at[length] == TUBE_ESCAPE_BYTE)
                at[++length] = TUBE_ESCAPE_BYTE;
        }
        return length;
    case 3: case 4: /* an end */
        at[0] = TUBE_ESCAPE_BYTE, at[1] = (uint8_t)(0xB0 + below(16));
        return 2;
    case 5: /* a control block */
        length = 1 + below(5);
        at[0] = TUBE_ESCAPE_BYTE, at[1] = (uint8_t)length;
        memset(at + 2, below(2) ? 0x0D : 0x41, length);
        return 2 + length;
    default: /* an address, of a load or save in three cases of four */
        at[0] = TUBE_ESCAPE_BYTE, at[1] = (uint8_t)(0xC0 + below(64));
        if (below(2))
            at[1] |= 0x20;
        memcpy(at + 2, "\0\0\x19\0", 4);
        return 6;
    }
}

/* Puts such parts over some of a stream. */
static void put_parts(uint8_t *raw, size_t length) {
    uint8_t part[PART];
    for (size_t at = below(4); at + sizeof part <= length;) {
        size_t some = any_part(part);
        memcpy(raw + at, part, some);
        at += some + (below(8) ? 0 : below(4));
    }
}

static void try_run(void) {
    static TubeLink kept;
    TubeLink given = below(2) ? any_link() : kept;
    size_t length = length_of(), need = TUBE_NOTE * length, room_length = need + below(4) - (need > 0 && below(4) == 0);
    size_t bytes = length + given.held, data_length = bytes + below(4) - (bytes > 0 && below(4) == 0);
    if (data_length > page && below(8) > 0)
        data_length = below(400); /* too short for a record that says it holds that much */
    uint8_t *raw = lend(0, length);
    if (below(2))
        put_parts(raw, length);
    if (length >= 4 && below(4) == 0)
        memcpy(raw + below(length - 3), "\x9B\0\0\0", 4); /* a restart */
    filled(0);
    uint8_t *reply = lend(1, TUBE_REPLY_LENGTH);
    filled(1);
    uint8_t *own = lend(2, TUBE_OWN_LENGTH);
    filled(2);
    uint8_t *room = lend(3, room_length);
    filled(3);
    const int last = data_length > page ? LARGE : 4;
    uint8_t *data = lend(last, data_length);
    filled(last);
    TubeRan r = tube_run(given, raw, length, reply, own, room, room_length, data, data_length);
    came_kind(r.told.kind, TUBE_TOLD_REFUSED, r.told.first);
    size_t got = at_most(given.got, TUBE_REPLY_LENGTH), held = at_most(given.held, TUBE_OWN_LENGTH);
    int tight = room_length < need || data_length < bytes;
    check(INSIDE, stays(1, 0, TUBE_REPLY_LENGTH) && stays(2, 0, TUBE_OWN_LENGTH) && stays(3, 0, room_length) && stays(last, 0, data_length));
    check(STAYS, tight ? all_stay(0) && all_stay(1) && all_stay(2) && all_stay(3) && all_stay(last)
                       : all_stay(0) && stays(1, got, at_most(got + r.used, TUBE_REPLY_LENGTH)) && stays(2, 0, at_most(held + r.used, TUBE_OWN_LENGTH))
                             && stays(3, 0, at_most(TUBE_NOTE * r.noted, room_length)) && stays(last, 0, at_most(r.stored, data_length)));
    int notes = r.noted <= r.used && r.used <= length && r.stored <= r.used + held && sound_notes(room, at_most(r.noted, length), r.stored);
    check(SOUND, notes && sound_told(r.told, given)
                     && (tight ? r.told.kind == TUBE_TOLD_REFUSED && r.told.first == TUBE_BUFFER_SHORT && r.used == 0 && r.noted == 0 && r.stored == 0 && same_link(r.told.link, given)
                               : r.told.kind == TUBE_TOLD_MORE ? r.used == length : r.used > 0 && r.told.kind >= TUBE_TOLD_REPLY && r.told.kind <= TUBE_TOLD_REFUSED));
    kept = r.told.kind == TUBE_TOLD_REFUSED ? tube_link() : r.told.link;
    if (below(2))
        kept = tube_begin(kept, tag(TUBE_CALLS), byte()).link;
}

/* ---- Recorded replies ---- */

/* Puts the reply to a call over the start of a stream, with actions before some of its bytes and with transfers that are opened and closed again, one
 * inside the other. Where it does not fit, what stood there before follows. */
static void put_recording(uint8_t *raw, size_t length, uint8_t call, uint8_t out_length) {
    static const uint16_t most[TUBE_CALLS] = {2, 1, 1, 3, 0, 20, 5, 2, 1, 1, 1, 17, 15};
    size_t at = 0, left = call >= TUBE_CALLS ? 0 : call == TUBE_OSWORD ? out_length : most[call], open = 0;
    if (call == TUBE_OSWORD0 && below(4) == 0)
        left = 250 + below(10); /* a line around the longest */
    uint8_t saves[TUBE_TRANSFERS] = {0}, bytes[300];
    while (left > 0 || open > 0) {
        size_t some = 2;
        bytes[0] = TUBE_ESCAPE_BYTE;
        switch (below(open > 0 ? 10 : 14)) {
        case 0: case 1: /* a load or save, and now and then the mark of a fifth */
            bytes[1] = (uint8_t)(0xE0 + below(32));
            if (open == TUBE_TRANSFERS) {
                if (below(8) > 0)
                    continue;
                break;
            }
            memcpy(bytes + 2, "\0\0\x19\0", 4);
            saves[open++] = bytes[1] >= 0xF0;
            some = 6;
            break;
        case 2: /* a control block */
            some = 1 + (below(8) ? below(8) : below(127));
            bytes[1] = (uint8_t)some;
            for (size_t i = 0; i < some; i++)
                bytes[2 + i] = (uint8_t)(i + 1);
            some += 2;
            break;
        case 3: /* the Escape state, an event, execute; now and then an error, whose text may be too long, or a restart */
            memcpy(bytes + 2, "\1\2\3\4", 4);
            switch (below(12)) {
            case 0:
                some = below(3) ? below(4) : 253 + below(6);
                memset(bytes + 1, 'x', 2 + some);
                bytes[1] = 0x00, bytes[2] = (uint8_t)below(2), bytes[3 + some] = 0x00;
                some += 4;
                break;
            case 1: case 2: bytes[1] = (uint8_t)(0x90 + below(8)), some = 5; break;
            case 3: case 4: bytes[1] = (uint8_t)(0xD0 + below(16)), some = 6; break;
            default: bytes[1] = (uint8_t)(0x80 + below(16)); break;
            }
            break;
        case 4: case 5: /* an end, and now and then one of none */
            if (open == 0 && below(8) > 0)
                continue;
            bytes[1] = (uint8_t)(0xB0 + below(16));
            open -= open > 0;
            break;
        default: /* data: of the innermost load, or of the reply; now and then in a save */
            if (open > 0 && saves[open - 1] && below(8) > 0)
                continue;
            if (open > 0 && below(4) == 0) {
                some = below(4) ? 1 + below(20) : below(256); /* many bytes of a load */
                memset(bytes, below(2) ? 0x0D : 0x41, some);
                break;
            }
            bytes[0] = edge();
            if (call == TUBE_OSWORD0 && open == 0)
                bytes[0] = left == 1 ? 0x0D : bytes[0] & 0x7F;
            bytes[1] = TUBE_ESCAPE_BYTE;
            some = bytes[0] == TUBE_ESCAPE_BYTE ? 2 : 1;
            left -= open == 0;
        }
        if (some > length - at)
            return;
        memcpy(raw + at, bytes, some);
        at += some;
    }
}

/* Against tube_run over the same bytes, from a fresh link with the call begun. */
static void try_read_recorded(void) {
    static uint8_t reply[TUBE_REPLY_LENGTH], own[TUBE_OWN_LENGTH], notes[2048 * TUBE_NOTE], bytes[2048];
    static const uint8_t longer[4] = {TUBE_OSWORD, TUBE_OSWORD0, TUBE_OSFILE, TUBE_OSGBPB};
    uint8_t call = below(2) ? longer[below(4)] : below(8) ? (uint8_t)below(TUBE_CALLS) : byte(), out_length = below(3) ? (uint8_t)below(8) : byte();
    size_t length = below(2) ? length_of() : below(700);
    uint8_t *raw = lend(0, length);
    switch (below(4)) {
    case 0: break;
    case 1: put_parts(raw, length); break;
    default: put_recording(raw, length, call, out_length); break;
    }
    filled(0);
    TubeBegun b = tube_begin(tube_link(), call, out_length);
    TubeRan run = tube_run(b.link, raw, b.kind == TUBE_BEGUN ? length : 0, reply, own, notes, sizeof notes, bytes, sizeof bytes);
    const size_t need = TUBE_NOTE * run.noted, room_length = room_for(need), data_length = room_for(run.stored);
    uint8_t *room = lend(1, room_length);
    filled(1);
    uint8_t *data = lend(2, data_length);
    filled(2);
    uint8_t *out = lend(3, TUBE_REPLY_LENGTH);
    filled(3);
    TubeRecorded r = tube_read_recorded(call, out_length, raw, length, room, room_length, data, data_length, out);
    came_kind(r.kind, TUBE_TOLD_REFUSED, r.number);
    const int tight = room_length < need || data_length < run.stored;
    const size_t ends = r.kind == TUBE_TOLD_REPLY ? r.length : r.kind == TUBE_TOLD_ERROR ? 1 + r.length : 0;
    check(INSIDE, stays(1, 0, room_length) && stays(2, 0, data_length) && stays(3, 0, TUBE_REPLY_LENGTH));
    check(STAYS, tight ? all_stay(0) && all_stay(1) && all_stay(2) && all_stay(3)
                       : all_stay(0) && stays(1, 0, need) && stays(2, 0, run.stored) && stays(3, 0, at_most(ends, TUBE_REPLY_LENGTH)));
    int sound = r.noted == run.noted && r.stored == run.stored;
    if (tight)
        sound = sound && r.kind == TUBE_TOLD_REFUSED && r.number == TUBE_BUFFER_SHORT && r.used == 0 && r.length == 0;
    else if (b.kind != TUBE_BEGUN)
        sound = sound && r.used == 0 && r.length == 0 && r.kind == (b.kind == TUBE_COMPLETE ? TUBE_TOLD_REPLY : TUBE_TOLD_REFUSED) && r.number == b.answer;
    else
        sound = sound && r.kind == run.told.kind && r.used == run.used && r.length == run.told.length
                && r.number == (r.kind == TUBE_TOLD_ERROR || r.kind == TUBE_TOLD_REFUSED ? run.told.first : 0) && memcmp(room, notes, need) == 0 && memcmp(data, bytes, run.stored) == 0
                && memcmp(out, r.kind == TUBE_TOLD_ERROR ? own : reply, ends) == 0 && sound_notes(room, r.noted, r.stored);
    check(SOUND, sound);
}

/* ---- Replies ---- */

/* Whether a reply written is read again as one, at its last byte. */
static int reply_reads(uint8_t carrier, uint8_t call, uint8_t out_length, const uint8_t *bytes, size_t length) {
    static uint8_t reply[TUBE_REPLY_LENGTH], own[TUBE_OWN_LENGTH], room[2 * TUBE_REPLY_LENGTH * TUBE_NOTE], data[2 * TUBE_REPLY_LENGTH];
    if (call == TUBE_OSWORD && out_length == 0)
        return length == 0;
    if (carrier == TUBE_SERIAL) {
        TubeRan r = tube_run(tube_begin(tube_link(), call, out_length).link, bytes, length, reply, own, room, sizeof room, data, sizeof data);
        return r.told.kind == TUBE_TOLD_REPLY && r.used == length && r.noted == 0 && r.stored == 0;
    }
    TubeTaken b = {0, TUBE_TAKEN_MORE, 0};
    for (size_t i = 0; i < length && b.kind == TUBE_TAKEN_MORE; i++)
        b = tube_reply_step(call, out_length, b.count, bytes[i], reply);
    return b.kind == TUBE_TAKEN_LAST && b.count == length && memcmp(reply, bytes, length) == 0;
}

static void try_write_reply(void) {
    static uint8_t large[2 * TUBE_REPLY_LENGTH];
    static const uint8_t forms[TUBE_CALLS] = {0, 1, 2, 3, 4, 6, 7, 0, 8, 8, 2, 7, 9};
    static const size_t blocks[TUBE_CALLS] = {0, 0, 0, 0, 0, 0, 4, 0, 0, 0, 0, 16, 13};
    uint8_t carrier = tag(2), call = tag(TUBE_CALLS), out_length = byte(), carry = byte(), x = edge(), y = edge(), a = edge();
    uint8_t reply = call >= TUBE_CALLS || below(6) == 0 ? tag(11) : forms[call];
    size_t block_length = call >= TUBE_CALLS || below(6) == 0 ? length_of() : call == TUBE_OSWORD ? out_length : blocks[call];
    size_t text_length = reply == TUBE_REPLY_READ_LINE || below(6) == 0 ? length_of() : 0;
    const uint8_t *block = lend(0, block_length);
    filled(0);
    uint8_t *text = lend(1, text_length);
    if (below(4) > 0)
        for (size_t i = 0; i < text_length; i++)
            text[i] = text[i] == 0x0D ? 0x9B : text[i];
    filled(1);
    TubeWritten whole = tube_write_reply(carrier, call, out_length, reply, carry, x, y, a, block, block_length, text, text_length, large, sizeof large);
    size_t room = room_for(whole.length);
    uint8_t *out = lend(2, room);
    filled(2);
    TubeWritten w = tube_write_reply(carrier, call, out_length, reply, carry, x, y, a, block, block_length, text, text_length, out, room);
    came(w.answer);
    check(INSIDE, stays(2, 0, room));
    check(STAYS, all_stay(0) && all_stay(1) && stays(2, 0, at_most(w.length, room)));
    check(SOUND, sound_written(w, whole, room, call, text_length) && memcmp(out, large, at_most(w.length, room)) == 0
                     && (whole.answer != TUBE_DONE || reply_reads(carrier, call, out_length, large, whole.length)));
}

static void try_reply_step(void) {
    static const uint16_t most[TUBE_CALLS] = {2, 1, 1, 3, 0, TUBE_REPLY_LENGTH, 5, 2, 1, 1, 1, 17, 15};
    uint8_t call = below(4) ? tag(TUBE_CALLS) : TUBE_OSWORD0, out_length = below(3) ? byte() : 0, given = below(4) ? edge() : 0x0D;
    size_t longest = call >= TUBE_CALLS ? TUBE_REPLY_LENGTH : call == TUBE_OSWORD ? out_length : most[call];
    uint16_t so_far = longest > 0 ? (uint16_t)count(longest) : (uint16_t)below(3);
    uint8_t *reply = lend(0, TUBE_REPLY_LENGTH);
    filled(0);
    TubeTaken b = tube_reply_step(call, out_length, so_far, given, reply);
    came_kind(b.kind, TUBE_TAKEN_REFUSED, b.answer);
    size_t place = at_most(so_far, TUBE_REPLY_LENGTH);
    check(INSIDE, stays(0, 0, TUBE_REPLY_LENGTH));
    check(STAYS, b.kind == TUBE_TAKEN_REFUSED ? all_stay(0) : stays(0, place, at_most(place + 1, TUBE_REPLY_LENGTH)));
    /* 4 before 7 before 6. */
    int over = call == TUBE_OSWORD0 && so_far == TUBE_REPLY_LENGTH - 1 && given != 0x0D;
    uint8_t answer = call >= TUBE_CALLS ? TUBE_UNKNOWN_CODE : so_far >= longest ? TUBE_STOPPED : over ? TUBE_STRING_LONG : TUBE_DONE;
    int last = call == TUBE_OSWORD0 ? (so_far == 0 ? given >= 0x80 : given == 0x0D) : so_far + 1u == longest;
    check(SOUND, b.answer == answer && (answer != TUBE_DONE ? b.kind == TUBE_TAKEN_REFUSED && b.count == so_far
                                                            : b.kind == (last ? TUBE_TAKEN_LAST : TUBE_TAKEN_MORE) && b.count == so_far + 1u && reply[place] == given));
}

static void try_read_reply(void) {
    size_t length = length_of();
    const uint8_t *bytes = lend(0, length);
    filled(0);
    uint8_t call = tag(TUBE_CALLS);
    TubeGiven g = tube_read_reply(call, byte(), bytes, length);
    came(16 + (unsigned)at_most(g.reply, TUBE_REPLY_NONE + 1));
    check(INSIDE, all_stay(0));
    check(SOUND, (call < TUBE_CALLS ? g.reply < TUBE_REPLY_NONE : g.reply == TUBE_REPLY_NONE) && g.carry <= 1 && g.block_start <= length && g.block_length <= length - g.block_start
                     && g.text_start <= length && g.text_length <= length - g.text_start);
}

/* ---- Actions and load data ---- */

/* The bytes of data on the serial lead, each escape doubled: how many. */
static size_t doubled(const uint8_t *bytes, size_t length, uint8_t *out) {
    size_t at = 0;
    for (size_t i = 0; i < length; i++) {
        out[at++] = bytes[i];
        if (bytes[i] == TUBE_ESCAPE_BYTE)
            out[at++] = TUBE_ESCAPE_BYTE;
    }
    return at;
}

/* Whether an action that is written is told by a link inside a load, at its last byte, with the numbers, block or text that the writer was given. */
static int action_told(uint8_t action, const uint8_t numbers[4], const uint8_t *block, size_t block_length, const uint8_t *text, size_t text_length,
                       const uint8_t *bytes, size_t length) {
    static uint8_t reply[TUBE_REPLY_LENGTH], own[TUBE_OWN_LENGTH];
    TubeTold t = {.link = tube_begin(tube_link(), TUBE_OSBGET, 0).link};
    t.link.flags = TUBE_LINK_NESTED;
    for (size_t i = 0; i < length; i++) {
        if (t.kind != TUBE_TOLD_MORE)
            return 0;
        t = tube_link_step(t.link, bytes[i], reply, own);
    }
    switch (action) {
    case TUBE_TOLD_ESCAPE: return t.kind == action && t.first == (numbers[0] != 0);
    case TUBE_TOLD_EVENT: return t.kind == action && t.first == numbers[0] && t.second == numbers[1] && t.third == numbers[2];
    case TUBE_TOLD_BLOCK: return t.kind == action && t.length == block_length && memcmp(own, block, block_length) == 0;
    case TUBE_TOLD_END: return t.kind == action && t.first == TUBE_LOAD;
    case TUBE_TOLD_RESTART: return t.kind == action;
    case TUBE_TOLD_ERROR:
        if (numbers[0] == 0 && text_length == 0)
            return t.kind == TUBE_TOLD_RESTART;
        return t.kind == action && t.first == numbers[0] && t.length == text_length && memcmp(own + 1, text, text_length) == 0;
    default: return t.kind == action && t.first == numbers[0] && t.second == numbers[1] && t.third == numbers[2] && t.fourth == numbers[3];
    }
}

static void try_write_action(void) {
    static uint8_t large[2 + 2 * TUBE_OWN_LENGTH];
    static const uint8_t actions[10] = {TUBE_TOLD_ESCAPE, TUBE_TOLD_EVENT, TUBE_TOLD_ADDRESS, TUBE_TOLD_ERROR, TUBE_TOLD_RESTART,
                                        TUBE_TOLD_BLOCK, TUBE_TOLD_EXECUTE, TUBE_TOLD_LOAD, TUBE_TOLD_SAVE, TUBE_TOLD_END};
    uint8_t action = below(6) ? actions[below(10)] : tag(TUBE_TOLD_END + 2), numbers[4] = {edge(), edge(), edge(), edge()};
    size_t block_length = action == TUBE_TOLD_BLOCK ? below(3) ? 1 + below(127) : below(2) ? 126 + below(4) : length_of() : below(6) == 0 ? length_of() : 0;
    size_t text_length = action == TUBE_TOLD_ERROR || below(6) == 0 ? length_of() : 0;
    const uint8_t *block = lend(0, block_length);
    filled(0);
    uint8_t *text = lend(1, text_length);
    if (below(4) > 0)
        for (size_t i = 0; i < text_length; i++)
            text[i] = text[i] == 0x00 ? 0x9B : text[i];
    filled(1);
    TubeWritten whole = tube_write_action(action, numbers[0], numbers[1], numbers[2], numbers[3], block, block_length, text, text_length, large, sizeof large);
    size_t room = room_for(whole.length);
    uint8_t *out = lend(2, room);
    filled(2);
    TubeWritten w = tube_write_action(action, numbers[0], numbers[1], numbers[2], numbers[3], block, block_length, text, text_length, out, room);
    came(w.answer);
    check(INSIDE, stays(2, 0, room));
    check(STAYS, all_stay(0) && all_stay(1) && stays(2, 0, at_most(w.length, room)));
    /* 6 before 9 before 8. */
    int known = memchr(actions, action, sizeof actions) != NULL, has_block = action == TUBE_TOLD_BLOCK;
    int fits = known && (has_block ? block_length > 0 && block_length < 128 : block_length == 0)
               && (action == TUBE_TOLD_ERROR ? memchr(text, 0, text_length) == NULL : text_length == 0);
    uint8_t answer = text_length > TUBE_STRING_LIMIT ? TUBE_STRING_LONG : !fits ? TUBE_BAD_FIELD : TUBE_DONE;
    int tight = answer == TUBE_DONE && room < whole.length;
    check(SOUND, whole.answer == answer && (answer == TUBE_DONE ? whole.length >= 2 : whole.length == 0) && w.answer == (tight ? TUBE_BUFFER_SHORT : answer)
                     && w.length == (tight ? 0 : whole.length) && memcmp(out, large, at_most(w.length, room)) == 0
                     && (answer != TUBE_DONE || action_told(action, numbers, block, block_length, text, text_length, large, whole.length)));
}

static void try_write_data(void) {
    static uint8_t expected[4000];
    size_t length = below(8) ? length_of() : below(sizeof expected / 2);
    const uint8_t *bytes = lend(0, length);
    filled(0);
    size_t need = doubled(bytes, length, expected), room = room_for(need);
    uint8_t *out = lend(1, room);
    filled(1);
    TubeWritten w = tube_write_data(bytes, length, out, room);
    came(w.answer);
    check(INSIDE, stays(1, 0, room));
    check(STAYS, all_stay(0) && stays(1, 0, at_most(w.length, room)));
    check(SOUND, room < need ? w.answer == TUBE_BUFFER_SHORT && w.length == 0 : w.answer == TUBE_DONE && w.length == need && memcmp(out, expected, need) == 0);
}

/* ---- All of it ---- */

static void (*const trials[EXPORTS])(void) = {
    try_access, try_new, try_reset, try_lines, try_play, try_text, try_reader, try_read, try_feed, try_write_request,
    try_kind_of, try_read_request, try_file_name, try_link, try_begin, try_link_step, try_run, try_read_recorded, try_write_reply, try_reply_step, try_read_reply,
    try_write_action, try_write_data};

static sigjmp_buf out_of_call;

static void caught(int number) {
    (void)number;
    siglongjmp(out_of_call, 1);
}

/* Whether a byte right behind a buffer, and one right before, is caught. */
static int pages_guard(void) {
    static volatile uint8_t *edges[2 * SLOTS];
    static volatile int i, times;
    for (int slot = 0; slot < SLOTS; slot++) {
        edges[2 * slot] = slots[slot].map + page - 1;
        edges[2 * slot + 1] = slots[slot].map + page + slots[slot].space;
    }
    for (i = 0, times = 0; i < 2 * SLOTS; i++)
        if (sigsetjmp(out_of_call, 0) == 0)
            *edges[i] = 1;
        else
            times++;
    return times == 2 * SLOTS;
}

int main(int arguments, char **values) {
    if (arguments < 3 || arguments > 4) {
        fprintf(stderr, "guard SEED ROUNDS [heap]\n");
        return 2;
    }
    static volatile unsigned long rounds;
    rounds = strtoul(values[2], NULL, 10);
    state = strtoull(values[1], NULL, 10) * 2 + 1;
    heap = arguments == 4;
    map_slots();

    struct sigaction action;
    memset(&action, 0, sizeof action);
    action.sa_handler = caught;
    action.sa_flags = SA_NODEFER;
    sigaction(SIGSEGV, &action, NULL);
    sigaction(SIGBUS, &action, NULL);

    int passed = 0, failed = 0;
    if (!heap) {
        int guard = pages_guard();
        printf("%s a byte right before or behind a buffer is caught\n", guard ? "ok" : "FAILED");
        passed += guard;
        failed += !guard;
    }
    for (current_round = 0; current_round < rounds; current_round++)
        for (current = 0; current < EXPORTS; current++)
            if (sigsetjmp(out_of_call, 0) == 0)
                trials[current]();
            else
                check(INSIDE, 0);

    for (int e = 0; e < EXPORTS; e++)
        for (int k = 0; k < KINDS; k++)
            if (found[e][k].checked > 0) {
                int good = found[e][k].first[0] == 0;
                printf("%s %s: %s%s%s\n", good ? "ok" : "FAILED", exports[e], kinds[k], good ? "" : ": ", found[e][k].first);
                passed += good;
                failed += !good;
            }
    int missing = 0;
    for (int e = 0; e < EXPORTS; e++)
        for (int answer = 0; answer < 32; answer++)
            if ((has[e] & ~seen[e]) >> answer & 1) {
                printf("no %s %d of %s\n", answer < 16 ? "answer" : "kind", answer % 16, exports[e]);
                missing = 1;
            }
    printf("%s every answer of every export came up\n", missing ? "FAILED" : "ok");
    passed += !missing;
    failed += missing;
    printf("%d passed, %d failed\n", passed, failed);
    return failed != 0;
}
