/* Calls tetra_judge on good, damaged and refused input and checks every byte. Prints a line for each fault; the status is 1 if there is any. */
#include <stdio.h>
#include <string.h>

#include "tetra_modem.h"

#define KEPT 0xa5 /* what the answer bytes hold before a call */
#define ROOM 16   /* more bytes than are lent, to see that the others are left alone */

static const char *NORMAL_1 = "1101000011101001110100";
static const char *NORMAL_2 = "0111101001000011011110";
static const char *EXTENDED = "100111010000111010011101000011";
static const char *SYNC = "11000001100111001110100111000001100111";

static uint8_t window[600];
static int faults;

static void clear(uint8_t bit)
{
    memset(window, bit, sizeof window);
}

static void put(const char *sequence, size_t place)
{
    for (size_t i = 0; sequence[i] != 0; i++)
        window[place + i] = (uint8_t)(sequence[i] - '0');
}

static void flip(size_t place)
{
    window[place] ^= 1;
}

/* One call; `want` are the six answer bytes, or NULL where the call is refused with `refusal`. */
static void call(const char *what, uint32_t kind, size_t bits_len, size_t answer_len, uint32_t refusal, const uint8_t *want)
{
    uint8_t before[sizeof window], answer[ROOM], wanted[ROOM];

    memcpy(before, window, sizeof window);
    memset(answer, KEPT, sizeof answer);
    memset(wanted, KEPT, sizeof wanted);
    if (want != NULL)
        memcpy(wanted, want, TETRA_ANSWER_BYTES);

    uint32_t got = tetra_judge(kind, window, bits_len, answer, answer_len);

    if (got != refusal) {
        printf("%s: returned %u, not %u\n", what, (unsigned)got, (unsigned)refusal);
        faults++;
    }
    for (size_t i = 0; i < sizeof answer; i++) {
        if (answer[i] != wanted[i]) {
            printf("%s: answer byte %zu is %u, not %u\n", what, i, answer[i], wanted[i]);
            faults++;
        }
    }
    if (memcmp(before, window, sizeof window) != 0) {
        printf("%s: the bits were changed\n", what);
        faults++;
    }
}

static void judged(const char *what, uint32_t kind, uint8_t type, uint8_t errors, uint16_t place, uint16_t length)
{
    uint8_t want[TETRA_ANSWER_BYTES] = {
        type, errors, (uint8_t)(place % 256), (uint8_t)(place / 256), (uint8_t)(length % 256), (uint8_t)(length / 256),
    };

    call(what, kind, kind == TETRA_UPLINK_HALF ? 254 : 510, TETRA_ANSWER_BYTES, TETRA_ACCEPTED, want);
}

static void refused(const char *what, uint32_t kind, size_t bits_len, size_t answer_len, uint32_t refusal)
{
    call(what, kind, bits_len, answer_len, refusal, NULL);
}

/* A sequence in its place: whole, with each one of its bits flipped, and with two. */
static void sequence(const char *what, uint32_t kind, const char *bits, size_t place, size_t in_burst, uint8_t type, uint16_t length)
{
    size_t n = strlen(bits);
    uint16_t burst = (uint16_t)(place - in_burst);

    for (uint8_t background = 0; background < 2; background++) {
        clear(background);
        put(bits, place);
        judged(what, kind, type, 0, burst, length);
        for (size_t i = 0; i < n; i++) {
            flip(place + i);
            judged(what, kind, type, 1, burst, length);
            flip(place + (i + 1) % n);
            judged(what, kind, TETRA_NONE, 100, 0, 0);
            flip(place + (i + 1) % n);
            flip(place + i);
        }
    }
}

static void good_and_damaged(void)
{
    sequence("sync", TETRA_DOWNLINK, SYNC, 214, 214, TETRA_SYNC, 510);
    sequence("normal 1", TETRA_DOWNLINK, NORMAL_1, 244, 244, TETRA_NORMAL_1, 510);
    sequence("normal 2", TETRA_DOWNLINK, NORMAL_2, 244, 244, TETRA_NORMAL_2, 510);
    for (size_t at = 0; at <= 48; at += 2) {
        sequence("uplink normal 1", TETRA_UPLINK_FULL, NORMAL_1, at + 220, 220, TETRA_NORMAL_1, 462);
        sequence("uplink normal 2", TETRA_UPLINK_FULL, NORMAL_2, at + 220, 220, TETRA_NORMAL_2, 462);
        sequence("uplink extended", TETRA_UPLINK_HALF, EXTENDED, at + 88, 88, TETRA_EXTENDED, 206);
    }
}

static void places_and_order(void)
{
    clear(0);
    judged("zeros, downlink", TETRA_DOWNLINK, TETRA_NONE, 100, 0, 0);
    judged("zeros, uplink full", TETRA_UPLINK_FULL, TETRA_NONE, 100, 0, 0);
    judged("zeros, uplink half", TETRA_UPLINK_HALF, TETRA_NONE, 100, 0, 0);

    put(NORMAL_1, 221);
    judged("odd place", TETRA_UPLINK_FULL, TETRA_NONE, 100, 0, 0);

    clear(0);
    put(NORMAL_1, 270);
    judged("behind the last place", TETRA_UPLINK_FULL, TETRA_NONE, 100, 0, 0);

    clear(0);
    put(SYNC, 216);
    judged("sync two bits late", TETRA_DOWNLINK, TETRA_NONE, 100, 0, 0);

    clear(0);
    put(NORMAL_1, 222);
    put(NORMAL_1, 262);
    judged("two exact: the earlier", TETRA_UPLINK_FULL, TETRA_NORMAL_1, 0, 2, 462);
    flip(222);
    judged("one wrong, then exact: the fewer", TETRA_UPLINK_FULL, TETRA_NORMAL_1, 0, 42, 462);
    flip(262);
    judged("two with one wrong: the earlier", TETRA_UPLINK_FULL, TETRA_NORMAL_1, 1, 2, 462);

    clear(0);
    put(NORMAL_2, 222);
    put(NORMAL_1, 262);
    flip(262);
    judged("normal 1 first, though normal 2 is exact", TETRA_UPLINK_FULL, TETRA_NORMAL_1, 1, 42, 462);
}

static void refusals(void)
{
    clear(0);
    put(SYNC, 214);
    refused("too few bits", TETRA_DOWNLINK, 509, 6, TETRA_BAD_LENGTH);
    refused("too many bits", TETRA_DOWNLINK, 511, 6, TETRA_BAD_LENGTH);
    refused("no bits", TETRA_UPLINK_FULL, 0, 6, TETRA_BAD_LENGTH);
    refused("a half window as a full one", TETRA_UPLINK_FULL, 254, 6, TETRA_BAD_LENGTH);
    refused("a full window as a half one", TETRA_UPLINK_HALF, 510, 6, TETRA_BAD_LENGTH);
    refused("five answer bytes", TETRA_DOWNLINK, 510, 5, TETRA_BAD_LENGTH);
    refused("seven answer bytes", TETRA_DOWNLINK, 510, 7, TETRA_BAD_LENGTH);
    refused("no answer bytes", TETRA_DOWNLINK, 510, 0, TETRA_BAD_LENGTH);
    refused("kind 3", 3, 510, 6, TETRA_BAD_KIND);
    refused("the largest kind, no bits", UINT32_MAX, 0, 6, TETRA_BAD_KIND);
    refused("kind 3 and five answer bytes", 3, 510, 5, TETRA_BAD_LENGTH);

    for (size_t i = 0; i < 510; i++) {
        uint8_t bit = window[i];

        window[i] = i % 2 == 0 ? 2 : 255;
        refused("a byte that is no bit", TETRA_DOWNLINK, 510, 6, TETRA_BAD_BIT);
        refused("a byte that is no bit, kind 3", 3, 510, 6, TETRA_BAD_BIT);
        refused("a byte that is no bit, too few bits", TETRA_DOWNLINK, 509, 6, TETRA_BAD_LENGTH);
        window[i] = bit;
    }
}

int main(void)
{
    good_and_damaged();
    places_and_order();
    refusals();
    return faults == 0 ? 0 : 1;
}
