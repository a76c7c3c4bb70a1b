/* A host and a parasite over one chip. The parasite sends characters through R1 and makes calls through R2, one behind the other; the host shows the
 * characters, does the calls and answers them. Both are small state machines that take turns and make one access at a time: a look at a status, or,
 * where that allowed it, a byte read or written. So neither waits for the other, though R2 holds one byte each way. */
#include "tube.h"
#include <stdio.h>
#include <string.h>

static const uint8_t none[1] = {0}; /* what an empty block or string points to */

/* ---- One access ---- */

static TubeChip chip;
static unsigned made[2], refused;

static uint8_t access_chip(uint8_t side, uint8_t offset, uint8_t operation, uint8_t byte) {
    TubeReply r = tube_access(&chip, side, offset, operation, byte);
    made[side]++;
    refused += r.answer != TUBE_DONE;
    return r.byte;
}

static uint8_t get(uint8_t side, uint8_t offset) {
    return access_chip(side, offset, TUBE_READ, 0);
}

static void put(uint8_t side, uint8_t offset, uint8_t byte) {
    access_chip(side, offset, TUBE_WRITE, byte);
}

static void print_bytes(const char *before, const uint8_t *bytes, size_t length) {
    printf("%s", before);
    for (size_t i = 0; i < length; i++)
        printf(" %02X", bytes[i]);
}

/* ---- The parasite ---- */

enum { OSWRCH = TUBE_NO_CALL }; /* it is no request: its character goes through R1, and nothing comes back */

typedef struct {
    uint8_t call, a, x, y;
    const char *text;
} Job;

static const Job jobs[] = {
    {OSWRCH, 'H', 0, 0, ""},
    {OSWRCH, 'i', 0, 0, ""},
    {TUBE_OSBYTE_LOW, 0x00, 0x01, 0, ""},     /* which machine is it? */
    {TUBE_OSBYTE_HIGH, 0xDA, 0x9B, 0x00, ""}, /* makes a variable &9B; the reply is what it was before */
    {TUBE_OSBYTE_HIGH, 0xDA, 0x9B, 0x00, ""}, /* the same again: now it was &9B */
    {OSWRCH, '!', 0, 0, ""},
    {TUBE_OSCLI, 0, 0, 0, "CAT"},
};

enum { JOBS = sizeof jobs / sizeof jobs[0] };

static struct {
    size_t job;                       /* the job that it is at */
    int started, may;                 /* whether its bytes are written; whether the status allowed the next access */
    uint8_t out[1 + TUBE_BODY];       /* what it sends */
    size_t length, sent;
    uint8_t reply[TUBE_REPLY_LENGTH]; /* what came back so far */
    uint16_t got;
} parasite;

static void start_job(const Job *job) {
    parasite.started = 1, parasite.length = 1, parasite.sent = 0, parasite.got = 0;
    if (job->call == OSWRCH) {
        parasite.out[0] = job->a;
        printf("parasite  OSWRCH '%c'\n", job->a);
        return;
    }
    TubeWritten w = tube_write_request(TUBE_PARALLEL, 0, job->call, job->x, job->y, job->a, 0, none, 0, (const uint8_t *)job->text, strlen(job->text),
                                       parasite.out, sizeof parasite.out);
    parasite.length = w.length; /* not 0: the jobs keep the rules of their calls, and every request fits */
    print_bytes("parasite  asks", parasite.out, parasite.length);
    putchar('\n');
}

static void end_job(void) {
    parasite.job++;
    parasite.started = 0;
}

static void take_reply(const Job *job, uint8_t byte) {
    TubeTaken b = tube_reply_step(job->call, 0, parasite.got, byte, parasite.reply);
    parasite.got = b.count;
    if (b.kind == TUBE_TAKEN_MORE)
        return;
    print_bytes("parasite  is told", parasite.reply, parasite.got);
    TubeGiven g = tube_read_reply(job->call, 0, parasite.reply, parasite.got);
    if (b.kind == TUBE_TAKEN_REFUSED)
        printf(", then &%02X, refused with %u\n", byte, b.answer);
    else if (g.reply == TUBE_REPLY_BYTE)
        printf(": X=&%02X\n", g.a);
    else if (g.reply == TUBE_REPLY_CARRY_YX)
        printf(": carry %u, Y=&%02X, X=&%02X\n", g.carry, g.y, g.x);
    else
        printf(": ack %u\n", g.carry);
    end_job();
}

/* One access of the parasite. */
static void run_parasite(void) {
    const Job *job = &jobs[parasite.job];
    if (!parasite.started)
        start_job(job);
    const int character = job->call == OSWRCH, sending = parasite.sent < parasite.length;
    if (!parasite.may) {
        parasite.may = get(TUBE_PARASITE, character ? TUBE_R1_STATUS : TUBE_R2_STATUS) & (sending ? TUBE_NOT_FULL : TUBE_AVAILABLE);
        return;
    }
    parasite.may = 0;
    if (sending)
        put(TUBE_PARASITE, character ? TUBE_R1_DATA : TUBE_R2_DATA, parasite.out[parasite.sent++]);
    else
        take_reply(job, get(TUBE_PARASITE, TUBE_R2_DATA));
    if (character)
        end_job();
}

/* ---- The host ---- */

static struct {
    uint8_t look;                   /* the status that it looks at */
    int may;                        /* whether that allowed the next access */
    TubeReader reader;
    uint8_t body[TUBE_BODY];        /* of the request that comes in */
    uint8_t out[TUBE_REPLY_LENGTH]; /* the reply that goes out */
    size_t length, sent;
    uint8_t variables[257];         /* what OSBYTE reads and changes */
} host;

/* Does a call and writes its reply into `out`; the reply's length. */
static size_t serve(const TubeAsked *asked, const uint8_t *body) {
    uint8_t form = TUBE_REPLY_NONE, x = 0, y = 0, a = 0;
    switch (asked->call) {
    case TUBE_OSBYTE_LOW:
        printf("host      is asked OSBYTE A=&%02X X=&%02X\n", asked->a, asked->x);
        form = TUBE_REPLY_BYTE, a = 1; /* its X: a BBC Micro */
        break;
    case TUBE_OSBYTE_HIGH:
        printf("host      is asked OSBYTE A=&%02X X=&%02X Y=&%02X\n", asked->a, asked->x, asked->y);
        form = TUBE_REPLY_CARRY_YX, x = host.variables[asked->a], y = host.variables[asked->a + 1];
        host.variables[asked->a] = (uint8_t)((x & asked->y) ^ asked->x);
        break;
    case TUBE_OSCLI:
        printf("host      is asked OSCLI *%.*s\n", (int)asked->text_length, (const char *)body + asked->text_start);
        form = TUBE_REPLY_ACK; /* carry 0: it loaded no program that is to start now */
        break;
    }
    /* Any other call is left without a reply: the form does not fit it, and nothing is written. */
    return tube_write_reply(TUBE_PARALLEL, asked->call, asked->out_length, form, 0, x, y, a, none, 0, none, 0, host.out, sizeof host.out).length;
}

static void take_request(uint8_t byte) {
    TubeRead read = tube_read(host.reader, byte, host.body);
    host.reader = read.reader;
    if (read.kind == TUBE_REQUEST) {
        TubeAsked asked = tube_read_request(read.code, host.body, read.length);
        host.length = serve(&asked, host.body), host.sent = 0;
        print_bytes("host      answers", host.out, host.length);
        putchar('\n');
    } else if (read.kind == TUBE_REFUSED) {
        printf("host      refuses &%02X with %u\n", byte, read.value);
        host.reader = tube_reader(TUBE_PARALLEL);
    }
}

/* One access of the host, which looks at R1 and at R2 by turns. */
static void run_host(void) {
    const int sending = host.look == TUBE_R2_STATUS && host.sent < host.length;
    if (!host.may) {
        host.may = get(TUBE_HOST, host.look) & (sending ? TUBE_NOT_FULL : TUBE_AVAILABLE);
        if (host.may)
            return;
    } else {
        host.may = 0;
        if (host.look == TUBE_R1_STATUS)
            printf("host      shows '%c'\n", get(TUBE_HOST, TUBE_R1_DATA));
        else if (sending)
            put(TUBE_HOST, TUBE_R2_DATA, host.out[host.sent++]);
        else
            take_request(get(TUBE_HOST, TUBE_R2_DATA));
    }
    host.look = host.look == TUBE_R1_STATUS ? TUBE_R2_STATUS : TUBE_R1_STATUS;
}

int main(void) {
    chip = tube_new();
    host.look = TUBE_R1_STATUS;
    host.reader = tube_reader(TUBE_PARALLEL);
    for (int turn = 0; turn < 1000 && parasite.job < JOBS; turn++) {
        run_parasite();
        run_host();
    }
    printf("%zu of %d jobs done; %u accesses by the parasite, %u by the host, %u refused\n", parasite.job, JOBS, made[TUBE_PARASITE], made[TUBE_HOST], refused);
    return parasite.job < JOBS || refused > 0;
}
