/* Yogrespa: the Tube chip, the script player, the requests of both carriers, and the link with its replies, proved in Rattle.
 * Link target/libtube.a (`./build` makes it). docs/GUIDE.md says what to call when; examples/ has whole programs.
 *
 * Every function is total: any side, offset, operation, byte, number and any bytes in a record are answered by number. All state is in
 * records and buffers of the caller; nothing is kept between calls and nothing is allocated, so different records may be used by
 * different threads.
 *
 * What the caller owes, here and nowhere else, is what C cannot say of a pointer:
 *   - it is not null and valid for the whole call; an empty buffer has length 0 and any valid pointer, also one just behind
 *     an array;
 *   - it points to a whole record, to as many bytes as the length behind it says, or to the whole array that its declaration names
 *     (TUBE_BODY, TUBE_REPLY_LENGTH, TUBE_OWN_LENGTH);
 *   - what is lent for writing overlaps nothing else that is lent to the same call.
 *
 * Hexadecimal is written &, as the machines do. */
#ifndef TUBE_H
#define TUBE_H
#include <stddef.h>
#include <stdint.h>

#ifdef __cplusplus
extern "C" {
#endif

/* ---- The numbered answers ---- */

enum {
    TUBE_DONE = 0,           /* done */
    TUBE_MISSING = 1,        /* no such side or offset, or a chip record that holds more than its capacities: chip unchanged, byte 0 */
    TUBE_NO_ROOM = 2,        /* data write to a channel without room: chip unchanged, byte 0 */
    TUBE_EMPTY = 3,          /* data read of an empty channel: chip unchanged, byte 0 */
    TUBE_UNKNOWN_CODE = 4,   /* a mark or a request code that is not carried: the reader or link is stopped; a number that is no call: the link as
                                it was, a writer's buffer untouched */
    TUBE_MARK_INSIDE = 5,    /* a mark inside a request, or inside an action's own bytes, or an end with no transfer open: the reader or link is
                                stopped */
    TUBE_STRING_LONG = 6,    /* a string or an error's text over 255 bytes: the reader or link is stopped; a writer's buffer and the reply so far
                                untouched */
    TUBE_STOPPED = 7,        /* a byte given to, or a call begun on, a stopped reader or link, or a byte behind the last of a reply: the record is
                                given back as it was */
    TUBE_BUFFER_SHORT = 8,   /* a lent buffer is too short: no byte of it was touched, nothing was played, no raw byte used */
    TUBE_BAD_FIELD = 9,      /* a field breaks its rule, a data byte comes inside a save, or a number is no action: the reader or link is stopped;
                                a writer's buffer untouched */
    TUBE_LIMIT_REACHED = 10, /* the play limit is reached and script bytes remain: the chip as after the last played record */
    TUBE_CUT_SHORT = 11,     /* the script ends inside a record: the same */
    TUBE_CALL_WAITS = 12,    /* a call begun while another waits: the link is given back as it was */
    TUBE_TOO_DEEP = 13       /* a load or save where four transfers are open: the link is stopped */
};

/* ---- The chip ---- */

enum { TUBE_HOST = 0, TUBE_PARASITE = 1 };  /* sides */
enum { TUBE_READ = 0, TUBE_WRITE = 1 };     /* operations; any number but 0 writes */

/* Offsets, the same on both sides: the host's from &FEE0 on, the parasite's from &FEF8 on. */
enum {
    TUBE_R1_STATUS = 0, TUBE_R1_DATA = 1, TUBE_R2_STATUS = 2, TUBE_R2_DATA = 3,
    TUBE_R3_STATUS = 4, TUBE_R3_DATA = 5, TUBE_R4_STATUS = 6, TUBE_R4_DATA = 7
};

/* Status bits: a byte can be read; a byte written would be taken. */
enum { TUBE_AVAILABLE = 0x80, TUBE_NOT_FULL = 0x40 };

/* The flags, in the R1 status of both sides and in control, a host write to TUBE_R1_STATUS. With TUBE_SET control sets the flags whose
 * bits it has, without it clears them; with TUBE_SET and TUBE_CLEAR it then empties all channels. */
enum {
    TUBE_FLAG_P = 0x20, /* asserts the parasite's reset line */
    TUBE_FLAG_V = 0x10, /* two bytes at a time in R3 */
    TUBE_FLAG_M = 0x08, /* R3 asserts the parasite's NMI */
    TUBE_FLAG_J = 0x04, /* R4 asserts the parasite's IRQ */
    TUBE_FLAG_I = 0x02, /* R1 asserts the parasite's IRQ */
    TUBE_FLAG_Q = 0x01, /* R4 asserts the host's IRQ */
    TUBE_SET = 0x80,
    TUBE_CLEAR = 0x40
};

/* The lines; a line value is the sum of those that are asserted. */
enum { TUBE_HOST_IRQ = 1, TUBE_PARASITE_IRQ = 2, TUBE_PARASITE_NMI = 4, TUBE_PARASITE_RESET = 8 };

/* A chip record. Channels are numbered register by register, host-to-parasite first: 0 is host-to-parasite R1, 1 parasite-to-host R1, ..,
 * 7 parasite-to-host R4. Byte c of a word, TUBE_BYTE(word, c), is bits 8c to 8c + 7. The flags P V M J I Q are bits 5 to 0 of `flags`; the bits
 * above them, and bytes that are not held, stand for nothing. */
typedef struct {
    uint64_t oldest; /* byte c: the oldest byte of channel c */
    uint64_t next;   /* byte c: the one behind it */
    uint64_t later;  /* bytes 0 to 7: the third to the tenth byte of parasite-to-host R1 */
    uint64_t held;   /* byte c: how many bytes channel c holds; it must not be above tube_capacity[c] */
    uint64_t flags;
} TubeChip;

#define TUBE_BYTE(word, c) ((uint8_t)((word) >> (8 * (c))))

static const uint8_t tube_capacity[8] = {1, 10, 1, 1, 2, 2, 1, 1};

typedef struct {
    uint8_t answer; /* 0 to 3 */
    uint8_t byte;   /* 0 unless a read was done */
} TubeReply;

/* One access to the chip lent. On every answer but 0 the chip is unchanged. A read ignores `byte`. */
TubeReply tube_access(TubeChip *chip, uint8_t side, uint8_t offset, uint8_t operation, uint8_t byte);

/* A fresh chip; a reset of any record, also of one that holds more than its capacities, gives the same. */
TubeChip tube_new(void);
TubeChip tube_reset(TubeChip chip);

/* The line value; 0 for a record that holds more than its capacities. */
uint8_t tube_lines(TubeChip chip);

/* ---- Scripts ---- */

/* The kinds of a script's records; any other kind is answered TUBE_MISSING. */
enum { TUBE_HOST_READ = 0, TUBE_HOST_WRITE = 1, TUBE_PARASITE_READ = 2, TUBE_PARASITE_WRITE = 3, TUBE_RESET = 4 };

enum {
    TUBE_RECORD = 3, /* the bytes of a script's record: kind, offset, byte */
    TUBE_RESULT = 3  /* the bytes of its result: answer, byte, line value */
};

typedef struct {
    size_t played;  /* the records played, refused ones too: the smaller of the limit and the whole records present */
    uint8_t answer; /* 0, TUBE_BUFFER_SHORT, TUBE_LIMIT_REACHED or TUBE_CUT_SHORT */
    TubeChip chip;  /* as after the last played record */
} TubePlayed;

/* Plays at most `limit` records; a result for each goes into `results`, from its start, and the bytes beyond stay. Where they do not all fit,
 * TUBE_BUFFER_SHORT: nothing is played, the chip is the one given. */
TubePlayed tube_play(TubeChip chip, const uint8_t *script, size_t script_length, size_t limit, uint8_t *results, size_t results_length);

/* The text of `played` results and the last line, written into the start of `out`: its length. 0, with nothing written, where it does not fit or
 * `results` has fewer than `played` results. */
size_t tube_text(const uint8_t *results, size_t results_length, size_t played, uint8_t answer, uint8_t *out, size_t out_length);

/* ---- Requests, outward ---- */

enum { TUBE_SERIAL = 0, TUBE_PARALLEL = 1 };                                /* carriers */
enum { TUBE_OUTSIDE = 0, TUBE_INSIDE = 1, TUBE_STOPPED_PHASE = 2 };         /* phases of a reader, seen from a request */
enum { TUBE_NEED_MORE = 0, TUBE_CHARACTER = 1, TUBE_REQUEST = 2, TUBE_REFUSED = 3 }; /* kinds of a reader's answers */
enum { TUBE_ESCAPE_BYTE = 0x9B };
enum { TUBE_STRING_LIMIT = 255 };
enum { TUBE_BODY = 273 }; /* the longest body of a request, and the bytes lent for it */

/* The codes of requests, with their bodies in order. A string ends with &0D; blocks go high byte first. */
enum {
    TUBE_CODE_OSRDCH = 0x00,      /* none */
    TUBE_CODE_OSCLI = 0x02,       /* string */
    TUBE_CODE_OSBYTE_LOW = 0x04,  /* X A, A below &80 */
    TUBE_CODE_OSBYTE_HIGH = 0x06, /* X Y A, A from &80 on */
    TUBE_CODE_OSWORD = 0x08,      /* A that is not 0, in length, that many bytes, out length */
    TUBE_CODE_OSWORD0 = 0x0A,     /* 5 bytes */
    TUBE_CODE_OSARGS = 0x0C,      /* Y, 4 bytes, A */
    TUBE_CODE_OSBGET = 0x0E,      /* Y */
    TUBE_CODE_OSBPUT = 0x10,      /* Y A */
    TUBE_CODE_OSFIND = 0x12,      /* 0 Y closes; A that is not 0 and a string opens */
    TUBE_CODE_OSFILE = 0x14,      /* 16 bytes, string, A */
    TUBE_CODE_OSGBPB = 0x16       /* 13 bytes, A */
};

/* The calls. OSFIND is two of them. */
typedef enum {
    TUBE_OSRDCH = 0, /* OSRDCHIO */
    TUBE_OSCLI = 1,
    TUBE_OSBYTE_LOW = 2,
    TUBE_OSBYTE_HIGH = 3,
    TUBE_OSWORD = 4,
    TUBE_OSWORD0 = 5,
    TUBE_OSARGS = 6,
    TUBE_OSBGET = 7,
    TUBE_OSBPUT = 8,
    TUBE_OSFIND_CLOSE = 9,
    TUBE_OSFIND_OPEN = 10,
    TUBE_OSFILE = 11,
    TUBE_OSGBPB = 12
} TubeCall;

enum {
    TUBE_CALLS = 13,   /* how many there are */
    TUBE_NO_CALL = 255 /* told of a code that no request has */
};

/* A request reader. An escape was seen where `escape` is not 0. A record with a number out of range, or one that exceeds its limits
 * (outside a request: a style, code or count other than 0; inside one: a style above 3, or above 0 on the parallel side; a code without a
 * body; a count not below its longest body), counts as stopped. */
typedef struct {
    uint16_t count; /* bytes of the body so far */
    uint8_t carrier;
    uint8_t phase;
    uint8_t escape;
    uint8_t style;
    uint8_t code;
} TubeReader;

/* What a raw byte gives, by its kind; what the kind does not name is 0.
 *   need-more
 *   character   value (OSWRCH)
 *   request     style (0 to 3), code, and its body in the first `length` bytes of the lent body
 *   refused     value is the answer's number: 4, 5, 6 or 9, and the reader is stopped, or 7 */
typedef struct {
    TubeReader reader; /* for the next byte */
    uint32_t length;
    uint8_t kind;
    uint8_t value;
    uint8_t style;
    uint8_t code;
} TubeRead;

/* A fresh reader; it is also what resets a stopped one. One of a carrier that does not exist counts as stopped. */
TubeReader tube_reader(uint8_t carrier);

/* One raw byte. The bytes of the body so far stand in the lent body, which the caller keeps from call to call; body[count] changes where the
 * byte is taken into it, and no other. A finished body stands there until the next one's first byte. */
TubeRead tube_read(TubeReader reader, uint8_t raw, uint8_t body[TUBE_BODY]);

/* What a slice of raw bytes gives. */
typedef struct {
    TubeRead read; /* its first answer that is not need-more, or need-more where it ends first */
    size_t used;   /* the bytes of the slice that were read, that answer's too; the next slice starts behind them */
} TubeFed;

/* Raw bytes, one by one as tube_read takes them, up to the first answer that is not need-more: faster, since the record is handed over
 * once. An empty slice needs more and gives the record back. */
TubeFed tube_feed(TubeReader reader, const uint8_t *raw, size_t raw_length, uint8_t body[TUBE_BODY]);

typedef struct {
    size_t length;  /* of the encoding, where it was written, else 0 */
    uint8_t answer; /* 0, TUBE_UNKNOWN_CODE (of requests and replies), TUBE_STRING_LONG, TUBE_BAD_FIELD or TUBE_BUFFER_SHORT, the first that applies */
} TubeWritten;

/* Writes a request into the start of `out`; the bytes beyond it stay, and a refused writer has touched none. A number that the call
 * does not have is not read. `block` is OSWORD's in block or the call's block, from its last byte to its first, so that numbers stand high byte
 * first and OSFILE's load address comes last; `text` is its string without &0D.
 * TUBE_UNKNOWN_CODE: no such call. TUBE_BAD_FIELD: no such carrier or style, an A that the call does not allow, a block that is not as long as
 * the call's, a &0D in the string, a block or string for a call that has none. */
TubeWritten tube_write_request(uint8_t carrier, uint8_t style, uint8_t call, uint8_t x, uint8_t y, uint8_t a, uint8_t out_length,
                               const uint8_t *block, size_t block_length, const uint8_t *text, size_t text_length,
                               uint8_t *out, size_t room);

typedef struct {
    uint8_t call;       /* TubeCall, or TUBE_NO_CALL of a code that no request has */
    uint8_t out_length; /* OSWORD's, else 0 */
} TubeKind;

/* The call of a finished request, by its code and body, as tube_begin, tube_write_reply, tube_reply_step and tube_read_reply take it. Of a body that
 * is not finished an out length is the last byte there is, and an OSFIND without a byte closes. */
TubeKind tube_kind_of(uint8_t code, const uint8_t *body, size_t length);

/* A request read: its call and its numbers, as tube_write_request takes them; what the call does not have is 0. Its block and its string,
 * without &0D, lie inside the body. */
typedef struct {
    size_t block_start;
    size_t block_length;
    size_t text_start;
    size_t text_length;
    uint8_t call; /* TubeCall, or TUBE_NO_CALL of a code that no request has, and then all else is 0 */
    uint8_t x;
    uint8_t y;
    uint8_t a;
    uint8_t out_length;
} TubeAsked;

/* The fields of a finished request, by its code and body. Of a body that is not finished a byte that is not there counts as 0, a part starts
 * where the body ends at the latest, and OSWORD's out length and OSFILE's A are the last byte there is. */
TubeAsked tube_read_request(uint8_t code, const uint8_t *body, size_t length);

enum { TUBE_FILE_BLOCK = 16 }; /* the bytes of OSFILE's block; its name stands behind them */

typedef struct {
    size_t length;  /* of the name, without its &0D; 0 unless the answer is 0 */
    uint8_t answer; /* 0; TUBE_STRING_LONG: no &0D among the first 256 bytes behind the block; TUBE_BAD_FIELD: the body ends before one */
} TubeName;

/* The name in the body of an OSFILE request. In one that a reader finished it is always found. */
TubeName tube_file_name(const uint8_t *body, size_t length);

/* ---- Replies and actions, inward: read at the client's end of the serial lead or by the parasite on R2, written at the host's ---- */

enum {
    TUBE_REPLY_LENGTH = 257, /* the longest reply, and the bytes lent for it */
    TUBE_OWN_LENGTH = 257,   /* the most bytes that an action has of its own, and the bytes lent for them */
    TUBE_LENT = 257,         /* either */
    TUBE_NOTE = 5            /* the bytes of a note */
};

/* The open action: an error, an event, or four address bytes, which are for setting an address, for execute, for a load or for a save; or
 * TUBE_IN_BLOCK + n for a control block of n bytes, 1 to 127. */
enum {
    TUBE_NO_ACTION = 0, TUBE_IN_ERROR = 1, TUBE_IN_EVENT = 2, TUBE_IN_ADDRESS = 3, TUBE_IN_EXECUTE = 4, TUBE_IN_LOAD = 5, TUBE_IN_SAVE = 6,
    TUBE_IN_BLOCK = 128
};

/* Transfers. A load or save is open from the last byte of its address to its end; at most four are open, one inside the other. */
enum { TUBE_LOAD = 0, TUBE_SAVE = 1 };
enum { TUBE_TRANSFERS = 4 };

/* The flags of a link are a sum: an escape was seen; the link is stopped; and TUBE_LINK_NESTED times a number for the open transfers, which is 0
 * where none is open, 2n + 1 for a load inside those of number n, 2n + 2 for a save. So test a bit of the flags, not the number; a transfer is open where
 * flags / TUBE_LINK_NESTED is not 0, and the innermost is a load where that is odd. */
enum { TUBE_LINK_ESCAPE = 1, TUBE_LINK_STOPPED = 2, TUBE_LINK_NESTED = 4 };

/* A link. A record with `wait` above 13, with `action` from 7 to 128 or with `flags` above 123, or one that exceeds its limits (as many bytes of
 * the reply, or of the open action, as there can be; bytes of either where there is none; four transfers open while the address of a load or save
 * is read), counts as stopped. */
typedef struct {
    uint16_t got;       /* bytes of the reply so far */
    uint16_t held;      /* bytes of the open action so far */
    uint8_t wait;       /* 0 where no call waits, else 1 + the number of the call (TubeCall) */
    uint8_t out_length; /* of an OSWORD that waits; else it stays as it was given */
    uint8_t action;     /* the open one */
    uint8_t flags;
} TubeLink;

/* Kinds of a link's answers. Those from TUBE_TOLD_CHARACTER to TUBE_TOLD_ADDRESS and from TUBE_TOLD_BLOCK on are also the kinds of notes. */
enum {
    TUBE_TOLD_MORE = 0,
    TUBE_TOLD_CHARACTER = 1,
    TUBE_TOLD_ESCAPE = 2,
    TUBE_TOLD_EVENT = 3,
    TUBE_TOLD_ADDRESS = 4,
    TUBE_TOLD_REPLY = 5,
    TUBE_TOLD_ERROR = 6,
    TUBE_TOLD_RESTART = 7,
    TUBE_TOLD_REFUSED = 8,
    TUBE_TOLD_BLOCK = 9,
    TUBE_TOLD_EXECUTE = 10,
    TUBE_TOLD_LOAD = 11,
    TUBE_TOLD_SAVE = 12,
    TUBE_TOLD_DATA = 13,
    TUBE_TOLD_END = 14
};

/* What a raw byte gives. What its kind does not name is 0.
 *   character   first
 *   Escape      first: 1 on, 0 off
 *   event       first Y, second X, third A
 *   address     first to fourth, high byte first
 *   reply       the first `length` bytes of the lent reply; read its fields by tube_read_reply
 *   error       first is its number, its text the `length` bytes of the other lent bytes from the second on; the call that waited is over, and
 *               every transfer is closed
 *   restart     the same, without number and text
 *   refused     first is the answer's number: 4, 5, 6, 9 or 13, and the link is stopped, or 7; from tube_run also 8, and the link is as it was
 *   block       a control block: the first `length` bytes of the other lent bytes
 *   execute     first to fourth, an address, high byte first
 *   load, save  the same; the transfer is open from here on
 *   data        first: a byte of the innermost open load
 *   end         first: TUBE_LOAD or TUBE_SAVE, the transfer that it closed
 * No byte of an open transfer is one of the reply or a character. A transfer is closed by its end, by an error or by a restart only; a call whose
 * host forgets an end waits. */
typedef struct {
    TubeLink link; /* for the next byte */
    size_t length;
    uint32_t kind;
    uint8_t first;
    uint8_t second;
    uint8_t third;
    uint8_t fourth;
} TubeTold;

/* A fresh link; it is also what resets a stopped one. */
TubeLink tube_link(void);

enum { TUBE_BEGUN = 0, TUBE_COMPLETE = 1, TUBE_DENIED = 2 }; /* kinds of a begun call */

typedef struct {
    TubeLink link;
    uint8_t kind;   /* the call waits; or it is complete, since its reply has no byte; or it is denied */
    uint8_t answer; /* of a denied call TUBE_STOPPED, TUBE_CALL_WAITS or TUBE_UNKNOWN_CODE, the first that applies, else 0 */
} TubeBegun;

/* Begins a call, so that the data bytes that follow are its reply. The link is the one given unless the call waits. `out_length` is read for
 * OSWORD only. TUBE_UNKNOWN_CODE: a number that is no call. */
TubeBegun tube_begin(TubeLink link, uint8_t call, uint8_t out_length);

/* One raw byte. The reply so far and the open action's own bytes stand in the two lent buffers, which the caller keeps from call to call;
 * reply[got] or own[held] changes where the byte is taken into it, and no other. */
TubeTold tube_link_step(TubeLink link, uint8_t raw, uint8_t reply[TUBE_REPLY_LENGTH], uint8_t own[TUBE_OWN_LENGTH]);

typedef struct {
    TubeTold told; /* where it ended: a reply, an error, a restart or a refusal, or need-more where the slice ended first */
    size_t used;   /* the bytes of the slice that were read, that answer's too; the next slice starts behind them */
    size_t noted;  /* the notes written into `room` */
    size_t stored; /* the bytes written into `data` */
} TubeRan;

/* Raw bytes, one by one as tube_link_step takes them, up to a reply, an error, a restart or a refusal. What it tells on the way leaves notes in
 * `room`, one behind the other, TUBE_NOTE bytes each: kind, first, second, third and fourth as a TubeTold has them, but for two kinds. Load data and the
 * bytes of control blocks go into `data`, one behind the other, and the first byte behind the kind says how many, the others are 0: for TUBE_TOLD_BLOCK
 * the length of the block, for TUBE_TOLD_DATA the number of load bytes, 1 to 255, that came with nothing else told between them; the 256th begins the
 * next note, and so does the first of a slice.
 * The room is for a note a raw byte, the data for a byte a raw byte and the open action's own before them: where `room` is shorter than
 * TUBE_NOTE * raw_length, or `data` shorter than raw_length + link.held, it is refused with TUBE_BUFFER_SHORT, no byte is used and nothing changes, the
 * link too. raw_length + TUBE_OWN_LENGTH bytes of data always suffice for a link that was given by these functions. */
TubeRan tube_run(TubeLink link, const uint8_t *raw, size_t raw_length, uint8_t reply[TUBE_REPLY_LENGTH], uint8_t own[TUBE_OWN_LENGTH], uint8_t *room,
                 size_t room_length, uint8_t *data, size_t data_length);

/* What a recorded reply gives. */
typedef struct {
    size_t used;     /* the raw bytes read, the one that ended it too */
    size_t noted;    /* the notes written into `room` */
    size_t stored;   /* the bytes written into `data` */
    size_t length;   /* of a reply, or of an error's text; else 0 */
    uint32_t kind;   /* TUBE_TOLD_REPLY, _ERROR, _RESTART or _REFUSED; TUBE_TOLD_MORE where the recording ran out before the call ended */
    uint32_t number; /* of the error or of the refusal, else 0 */
} TubeRecorded;

/* A whole recorded reply: the raw bytes that came behind one call, read as tube_run reads them from a fresh link with the call begun, up to where the
 * call ends, a byte is refused or the recording runs out. Notes and data are those of tube_run over the same bytes. `out` gets the reply's bytes, or
 * the error's number and then its text, length + 1 bytes; on every other outcome it stays as it was. An OSWORD with `out_length` 0 is complete before the
 * first byte: a reply of length 0.
 * Where `room` or `data` is shorter than what it would hold it is refused with TUBE_BUFFER_SHORT: nothing is used or touched, and `noted` and `stored`
 * say what is needed, so that a call with two empty buffers measures (where nothing is needed it reads). TUBE_NOTE bytes of room and one of data for each
 * raw byte always suffice. A number that is no call is refused with TUBE_UNKNOWN_CODE and nothing used. */
TubeRecorded tube_read_recorded(uint8_t call, uint8_t out_length, const uint8_t *raw, size_t raw_length, uint8_t *room, size_t room_length,
                                uint8_t *data, size_t data_length, uint8_t out[TUBE_REPLY_LENGTH]);

/* The replies, with the numbers that each has; a carry is set where its number is not 0. */
typedef enum {
    TUBE_REPLY_CARRY_A = 0,       /* OSRDCH, OSBGET: carry, a */
    TUBE_REPLY_ACK = 1,           /* OSCLI: carry, which is bit 7 of the byte */
    TUBE_REPLY_BYTE = 2,          /* OSBYTE low (its X), opening OSFIND (its A): a */
    TUBE_REPLY_CARRY_YX = 3,      /* OSBYTE high: carry, y, x */
    TUBE_REPLY_BLOCK = 4,         /* OSWORD: block */
    TUBE_REPLY_ESCAPED_LINE = 5,  /* OSWORD 0, escaped */
    TUBE_REPLY_READ_LINE = 6,     /* OSWORD 0: text */
    TUBE_REPLY_A_BLOCK = 7,       /* OSARGS (4 bytes), OSFILE (16 bytes): a, block */
    TUBE_REPLY_PLAIN = 8,         /* OSBPUT, closing OSFIND */
    TUBE_REPLY_BLOCK_CARRY_A = 9, /* OSGBPB (13 bytes): block, carry, a */
    TUBE_REPLY_NONE = 10          /* read for a number that is no call; never written */
} TubeReplyForm;

/* Writes the reply to a call into the start of `out`, for the serial lead or, without escapes, for the parallel side; the bytes beyond it stay,
 * and a refused writer has touched none. A number that the reply does not have is not read. `block` is from its last byte to its first, as in a
 * request; `text` is the line without &0D. TUBE_UNKNOWN_CODE: no such call. TUBE_BAD_FIELD: no such carrier, a reply that does not fit the call, a
 * block that is not as long as the reply's (of OSWORD: `out_length`), a &0D in the line, a block or line for a reply that has none. */
TubeWritten tube_write_reply(uint8_t carrier, uint8_t call, uint8_t out_length, uint8_t reply, uint8_t carry, uint8_t x, uint8_t y, uint8_t a,
                             const uint8_t *block, size_t block_length, const uint8_t *text, size_t text_length,
                             uint8_t *out, size_t room);

/* Writes an action on the serial lead into the start of `out`; the bytes beyond it stay, and a refused writer has touched none. `action` is the kind under
 * which a link tells it, and the numbers are those that the link tells then; a number that is not named here is not read.
 *   TUBE_TOLD_ESCAPE   first: on where it is not 0
 *   TUBE_TOLD_EVENT    first Y, second X, third A
 *   TUBE_TOLD_ADDRESS, TUBE_TOLD_EXECUTE, TUBE_TOLD_LOAD, TUBE_TOLD_SAVE
 *                      first to fourth, high byte first
 *   TUBE_TOLD_BLOCK    `block`, a control block of 1 to 127 bytes
 *   TUBE_TOLD_END      no number: it closes the innermost open load or save
 *   TUBE_TOLD_ERROR    first is its number; `text`, at most 255 bytes without &00. Error 0 without text is written, and told, as the restart
 *   TUBE_TOLD_RESTART  no number
 * TUBE_STRING_LONG: a text over 255 bytes, whatever the action. TUBE_BAD_FIELD: a number that is no action, a &00 in the text, a control block of 0 or of
 * more than 127 bytes, a block or text for an action that has none. 2 + 2 * TUBE_OWN_LENGTH bytes are enough for every action.
 * The writer remembers nothing, and where an action stands is the host's to keep. With a reply: before any of its data bytes and not behind the last, so none
 * with a reply of no byte; never between the two bytes of a doubled escape (to find a place in a written reply walk it: &9B counts with the byte behind it);
 * each load or save closed, by its end, an error or a restart, before the next data byte of the reply; no end where none is open; at most TUBE_TRANSFERS
 * open. The client's link then tells all that was sent, and the reply unless there was an error or restart: that ends the call, and a host sends no more of
 * the reply, whose bytes would be characters. Between calls an action is told too, and the client stays idle. */
TubeWritten tube_write_action(uint8_t action, uint8_t first, uint8_t second, uint8_t third, uint8_t fourth,
                              const uint8_t *block, size_t block_length, const uint8_t *text, size_t text_length,
                              uint8_t *out, size_t room);

/* Writes load data, any number of bytes, into the start of `out`: each escape byte doubled, 2 * length bytes at most. It stands where a load is the innermost
 * open transfer. TUBE_BUFFER_SHORT: it does not fit, and no byte was touched; else 0. */
TubeWritten tube_write_data(const uint8_t *bytes, size_t length, uint8_t *out, size_t room);

/* Kinds of what a byte of a reply does on the parallel side. */
enum { TUBE_TAKEN_MORE = 0, TUBE_TAKEN_LAST = 1, TUBE_TAKEN_REFUSED = 2 };

typedef struct {
    uint16_t count; /* bytes of the reply so far, for the next byte: one more than given, unless the byte was refused */
    uint8_t kind;   /* more bytes follow; it was the last one; or it is refused */
    uint8_t answer; /* of a refused byte TUBE_UNKNOWN_CODE, TUBE_STOPPED or TUBE_STRING_LONG, the first that applies, else 0 */
} TubeTaken;

/* One byte of the reply to a call on the parallel side, as a parasite reads it from R2 behind its request: there are no escapes and no actions.
 * The reply so far stands in the first `count` bytes of the lent reply, which the caller keeps from call to call; reply[count] changes where the
 * byte is taken, and no other. Start with count 0, and stop at TUBE_TAKEN_LAST: nothing here remembers that a line has ended. An OSWORD with
 * `out_length` 0 has no reply byte. TUBE_UNKNOWN_CODE: no such call; TUBE_STOPPED: the count is not below the longest reply of the call;
 * TUBE_STRING_LONG: a line of over 255 bytes. */
TubeTaken tube_reply_step(uint8_t call, uint8_t out_length, uint16_t count, uint8_t byte, uint8_t reply[TUBE_REPLY_LENGTH]);

/* A reply read: what it does not have is 0, `carry` is 0 or 1. Its block and its string lie inside the bytes read. */
typedef struct {
    size_t block_start;
    size_t block_length;
    size_t text_start;
    size_t text_length;
    uint8_t reply; /* TubeReplyForm */
    uint8_t carry;
    uint8_t x;
    uint8_t y;
    uint8_t a;
} TubeGiven;

/* The fields of the data bytes of a finished reply to a call. Of a reply that is not finished a byte that is not there counts as 0, and a part
 * starts where the bytes end at the latest. */
TubeGiven tube_read_reply(uint8_t call, uint8_t out_length, const uint8_t *bytes, size_t length);

#ifdef __cplusplus
}
#endif

#endif
