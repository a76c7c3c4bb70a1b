/* A toy emulator's main loop around the lent chip. Host and parasite take turns; two processors of a few lines stand in for the real ones.
 * The parasite sends a line of text through R1, faster than the host reads it. The user presses Escape: the host sends it through R1, which
 * interrupts the parasite. The parasite then ends through R4, which interrupts the host. Every access is printed with its answer, and the
 * interrupt lines where they change. */
#include "tube.h"
#include <stdio.h>

/* What the emulator owns: one chip record, lent to every access, and what it saw of the lines. */
static TubeChip chip;
static uint8_t lines;

static const char *const sides[2] = {"host", "parasite"};
static const char *const answers[4] = {"done", "no such side or offset", "no room", "nothing to read"};

static void print_lines(void) {
    static const char *const names[4] = {"host IRQ", "parasite IRQ", "parasite NMI", "parasite reset"};
    uint8_t now = tube_lines(chip);
    for (int i = 0; i < 4; i++)
        if ((now ^ lines) >> i & 1)
            printf("                  -- %s %s\n", names[i], now >> i & 1 ? "on" : "off");
    lines = now;
}

static TubeReply access_chip(uint8_t side, uint8_t offset, uint8_t operation, uint8_t byte) {
    TubeReply r = tube_access(&chip, side, offset, operation, byte);
    printf("%-8s %s R%d %-6s ", sides[side], operation == TUBE_READ ? "reads " : "writes", offset / 2 + 1, offset & 1 ? "data" : "status");
    uint8_t shown = operation == TUBE_READ ? r.byte : byte;
    if (operation == TUBE_WRITE || r.answer == TUBE_DONE)
        printf("&%02X", shown);
    else
        printf(" --");
    if (offset == TUBE_R1_DATA && shown >= ' ' && shown < 0x7F)
        printf(" '%c'", shown);
    printf(": %s\n", answers[r.answer]);
    print_lines();
    return r;
}

/* ---- The parasite ---- */

static const char text[] = "HELLO FROM THE SECOND PROCESSOR\r";

/* Runs the parasite for some accesses; whether it has ended. */
static int run_parasite(int steps) {
    static size_t sent;
    while (steps-- > 0) {
        if (lines & TUBE_PARASITE_IRQ) {
            /* The interrupt handler: bit 7 of the byte says Escape, bit 6 is its state. */
            if (access_chip(TUBE_PARASITE, TUBE_R1_DATA, TUBE_READ, 0).byte == 0xC0) {
                access_chip(TUBE_PARASITE, TUBE_R4_DATA, TUBE_WRITE, 0xFF);
                return 1;
            }
        } else if (access_chip(TUBE_PARASITE, TUBE_R1_DATA, TUBE_WRITE, (uint8_t)text[sent]).answer == TUBE_DONE)
            sent++; /* a byte that found no room is sent again */
    }
    return 0;
}

/* ---- The host ---- */

static char screen[sizeof text];

/* Reads a byte of R1 onto the screen; whether there was one. */
static int print_character(void) {
    static size_t shown;
    TubeReply r = access_chip(TUBE_HOST, TUBE_R1_DATA, TUBE_READ, 0);
    if (r.answer == TUBE_DONE)
        screen[shown++] = (char)r.byte;
    return r.answer == TUBE_DONE;
}

/* Runs the host for some steps; whether the parasite told it that it has ended. */
static int run_host(int steps) {
    while (steps-- > 0) {
        if (lines & TUBE_HOST_IRQ) {
            access_chip(TUBE_HOST, TUBE_R4_DATA, TUBE_READ, 0);
            return 1;
        }
        if (access_chip(TUBE_HOST, TUBE_R1_STATUS, TUBE_READ, 0).byte & TUBE_AVAILABLE)
            print_character();
    }
    return 0;
}

int main(void) {
    int ended = 0;
    chip = tube_new();
    access_chip(TUBE_HOST, TUBE_R1_STATUS, TUBE_WRITE, TUBE_SET | TUBE_FLAG_I | TUBE_FLAG_Q);
    for (int turn = 1; !ended; turn++) {
        printf("turn %d\n", turn);
        run_parasite(5);
        if (turn == 4) {
            printf("the user presses Escape\n");
            access_chip(TUBE_HOST, TUBE_R1_DATA, TUBE_WRITE, 0xC0);
        }
        ended = run_host(2);
    }
    while (print_character()) {
    }
    printf("on the screen: %s\n", screen);
    return 0;
}
