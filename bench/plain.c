/* The Tube chip in plain C, to measure the library against. It starts from a
   reset and is changed by accesses alone, so it never holds more than its
   places. */

#include <stdint.h>
#include <string.h>

enum { HOST = 0, PARASITE = 1 };
enum { DONE = 0, REFUSED = 1, NO_ROOM = 2, EMPTY = 3 };
enum { V = 0x10, FLAGS = 0x3F };
enum { RING = 16 }; /* a power of two, at least the largest place count */

struct channel {
    uint8_t bytes[RING];
    uint8_t first;
    uint8_t count;
    uint8_t room; /* takes a byte while it holds fewer than this */
};

struct plain {
    struct channel channels[4][2]; /* register, side that writes it */
    uint8_t flags;                 /* P V M J I Q in bits 5 to 0 */
};

struct plain_reply {
    uint8_t answer;
    uint8_t byte;
};

struct plain *plain_fresh(void);
void plain_reset(struct plain *chip);
struct plain_reply plain_access(struct plain *chip, uint8_t side, uint8_t offset,
                                uint8_t operation, uint8_t byte);

static void empty_all(struct plain *chip)
{
    for (int r = 0; r < 4; r++)
        chip->channels[r][HOST].count = chip->channels[r][PARASITE].count = 0;
}

/* R3 has two places, but room for the second only with V = 1. */
static void set_flags(struct plain *chip, uint8_t flags)
{
    uint8_t room = flags & V ? 2 : 1;
    chip->flags = flags;
    chip->channels[2][HOST].room = chip->channels[2][PARASITE].room = room;
}

void plain_reset(struct plain *chip)
{
    memset(chip, 0, sizeof *chip);
    for (int r = 0; r < 4; r++)
        chip->channels[r][HOST].room = chip->channels[r][PARASITE].room = 1;
    chip->channels[0][PARASITE].room = 10;
}

/* The one chip of the benchmark, reset. */
struct plain *plain_fresh(void)
{
    static struct plain chip;
    plain_reset(&chip);
    return &chip;
}

static uint8_t status(const struct plain *chip, uint8_t side, uint8_t r)
{
    const struct channel *in = &chip->channels[r][1 - side];
    const struct channel *out = &chip->channels[r][side];
    int available = in->count != 0;
    if (r == 2 && side == PARASITE && chip->flags & V)
        available = in->count == 2;
    return (uint8_t)(available << 7 | (out->count < out->room) << 6
                     | (r == 0 ? chip->flags : FLAGS));
}

static void control(struct plain *chip, uint8_t byte)
{
    uint8_t mask = byte & FLAGS;
    set_flags(chip, byte & 0x80 ? chip->flags | mask : chip->flags & ~mask);
    if ((byte & 0xC0) == 0xC0)
        empty_all(chip);
}

/* Side 0 is the host, 1 the parasite. Operation 0 reads, any other writes. */
struct plain_reply plain_access(struct plain *chip, uint8_t side, uint8_t offset,
                                uint8_t operation, uint8_t byte)
{
    struct plain_reply reply = { DONE, 0 };

    if (side > PARASITE || offset > 7) {
        reply.answer = REFUSED;
        return reply;
    }

    uint8_t r = offset >> 1;
    if ((offset & 1) == 0) {
        if (operation == 0)
            reply.byte = status(chip, side, r);
        else if (side == HOST && offset == 0)
            control(chip, byte);
    } else if (operation != 0) {
        struct channel *out = &chip->channels[r][side];
        if (out->count < out->room) {
            out->bytes[(out->first + out->count) % RING] = byte;
            out->count++;
        } else {
            reply.answer = NO_ROOM;
        }
    } else {
        struct channel *in = &chip->channels[r][1 - side];
        if (in->count != 0) {
            reply.byte = in->bytes[in->first];
            in->first = (in->first + 1) % RING;
            in->count--;
        } else {
            reply.answer = EMPTY;
        }
    }
    return reply;
}
