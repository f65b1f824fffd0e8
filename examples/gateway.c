/* A small gateway over the C interface: it sends a downlink, passes it through a channel with noise, a frequency offset and a
 * gap, receives it in blocks, has an uplink receiver follow, and logs the slots. What is received is checked against what was
 * sent; the status is 1 where they differ. */
#include <math.h>
#include <stdio.h>
#include <string.h>

#include "tetra_modem.h"

#define SLOTS 60
#define BLOCK 512      /* samples that the radio hands over at a time */
#define NOISE 0.1f     /* in each part, at most; a symbol's amplitude is about 1 */
#define OFFSET 100.0   /* Hz */
#define GAP 20480      /* at this sample the radio loses .. */
#define LOST 5120      /* .. so many */
#define RATE 72000.0   /* samples a second */
#define TURN 6.283185307179586

static uint8_t sent[SLOTS][TETRA_SLOT_BITS];
static uint8_t types[SLOTS];
static float air[2 * 1020 * (SLOTS + 1)];
static size_t samples; /* in the air */
static int faults;

static uint32_t state = 1;

static uint32_t random_below(uint32_t n)
{
    state = state * 1664525u + 1013904223u;
    return (uint32_t)((uint64_t)(state >> 8) * n >> 24);
}

static void fault(const char *what, uint32_t slot)
{
    printf("slot %u: %s\n", (unsigned)slot, what);
    faults++;
}

/* A synchronization burst in every fourth slot, normal ones between. */
static void build(uint32_t slot)
{
    uint8_t blk1[216], bbk[30], blk2[216];
    uint32_t refusal;

    for (size_t i = 0; i < 216; i++) {
        blk1[i] = (uint8_t)random_below(2);
        blk2[i] = (uint8_t)random_below(2);
    }
    for (size_t i = 0; i < 30; i++)
        bbk[i] = (uint8_t)random_below(2);
    types[slot] = slot % 4 == 1 ? TETRA_SYNC : slot % 4 == 2 ? TETRA_NORMAL_2 : TETRA_NORMAL_1;
    if (types[slot] == TETRA_SYNC)
        refusal = tetra_build_sync(blk1, 120, bbk, 30, blk2, 216, sent[slot], TETRA_SLOT_BITS);
    else
        refusal = tetra_build_normal(types[slot], blk1, 216, bbk, 30, blk2, 216, sent[slot], TETRA_SLOT_BITS);
    if (refusal != TETRA_ACCEPTED)
        fault("the burst is refused", slot);
}

/* Sends a slot to the air, and checks that single calls send the same. */
static struct tetra_sender send_slot(struct tetra_sender sender, uint32_t slot, uint32_t has_bits, const uint8_t *bits)
{
    struct tetra_sender single = sender;
    float *out = air + 2 * samples;
    struct tetra_sent block = tetra_send(sender, (int64_t)samples, slot, has_bits, bits, TETRA_SLOT_BITS, out, 2 * 1020);

    for (size_t i = 0; i < block.count; i++) {
        struct tetra_sent_sample one =
            tetra_send_sample(single, (int64_t)(samples + i), slot, has_bits, bits, TETRA_SLOT_BITS);

        if (one.refusal != 0 || one.re != out[2 * i] || one.im != out[2 * i + 1])
            fault("a single call sends another sample", slot);
        single = one.sender;
    }
    if (block.refusal != 0 && block.refusal != TETRA_NEED_MORE)
        fault("the slot is refused", slot);
    samples += block.count;
    return block.sender;
}

static void send_all(void)
{
    struct tetra_sender sender = tetra_sender_new();
    static const uint8_t none[TETRA_SLOT_BITS];

    for (uint32_t slot = 0; slot < SLOTS; slot++) {
        build(slot);
        sender = send_slot(sender, slot, 1, sent[slot]);
    }
    send_slot(sender, SLOTS, 0, none);
}

/* Noise, and a carrier that is off by some Hz. */
static void channel(void)
{
    for (size_t i = 0; i < samples; i++) {
        double angle = TURN * OFFSET / RATE * (double)i;
        float re = air[2 * i], im = air[2 * i + 1];
        float cosine = (float)cos(angle), sine = (float)sin(angle);

        air[2 * i] = re * cosine - im * sine + NOISE * ((float)random_below(2001) / 1000.0f - 1.0f);
        air[2 * i + 1] = re * sine + im * cosine + NOISE * ((float)random_below(2001) / 1000.0f - 1.0f);
    }
}

/* Judges the window's bits again, as a logger that kept them would. */
static void judge(const struct tetra_receiver *receiver, const struct tetra_slot *taken)
{
    uint8_t answer[TETRA_ANSWER_BYTES];

    if (tetra_judge(TETRA_DOWNLINK, receiver->state.full_bits, TETRA_SLOT_BITS, answer, sizeof answer) != TETRA_ACCEPTED ||
        answer[0] != taken->full.train_type || answer[1] != taken->full.train_errs)
        fault("judged otherwise", taken->time);
}

/* Logs a slot of the downlink. The receiver numbers from 1 on: `first` is the slot that it calls 1. */
static void log_slot(const struct tetra_slot *taken, const uint8_t *bits, uint32_t *first)
{
    uint32_t slot;

    if (*first == SLOTS) {
        for (slot = 0; slot < SLOTS && memcmp(bits, sent[slot], TETRA_SLOT_BITS) != 0; slot++)
            ;
        *first = slot;
    }
    slot = taken->time + *first - 1;
    if (slot >= SLOTS || (slot >= GAP / 1020 && slot <= (GAP + LOST) / 1020))
        return;
    if (taken->full.train_type != types[slot] || memcmp(bits, sent[slot], TETRA_SLOT_BITS) != 0)
        fault("not received as sent", slot);
    if (slot < 5)
        printf("downlink slot %u, closed at sample %lld: type %u, %u errors\n", (unsigned)taken->time,
               (long long)taken->closing_counter, (unsigned)taken->full.train_type, (unsigned)taken->full.train_errs);
}

/* Feeds a block, or zeros where it was lost, and takes every slot that it hands over. Returns how many. */
static size_t feed(struct tetra_receiver *receiver, const float *block, size_t count, size_t counter, uint32_t *first)
{
    uint8_t slot[TETRA_SLOT_BITS], half1[TETRA_HALF_SLOT_BITS], half2[TETRA_HALF_SLOT_BITS];
    size_t done = 0, slots = 0;

    while (done < count) {
        int64_t next = (int64_t)(counter + done);
        struct tetra_fed fed = block == NULL ? tetra_feed_zeros(receiver, count - done, next)
                                             : tetra_feed(receiver, block + 2 * done, count - done, next);

        done += fed.taken;
        if (fed.refusal != 0) {
            fault("a sample is refused", (uint32_t)(counter + done));
            done++;
        }
        if (fed.slot) {
            struct tetra_taken taken = tetra_take(receiver, slot, sizeof slot, half1, sizeof half1, half2, sizeof half2);

            slots++;
            if (taken.slot.closing_counter != next + (int64_t)fed.taken - 1)
                fault("closed at another sample", taken.slot.time);
            if (first != NULL) {
                log_slot(&taken.slot, slot, first);
                judge(receiver, &taken.slot);
            }
        }
    }
    return slots;
}

int main(void)
{
    static struct tetra_receiver downlink, uplink;
    static const float quiet[2 * BLOCK];
    size_t down = 0, up = 0;
    uint32_t first = SLOTS;

    tetra_receiver_init(&downlink, TETRA_MODE_DL_SEARCHING);
    tetra_receiver_init(&uplink, TETRA_MODE_IDLE);
    send_all();
    channel();
    for (size_t at = 0; at < samples; at += BLOCK) {
        size_t count = samples - at < BLOCK ? samples - at : BLOCK;
        const float *block = at >= GAP && at < GAP + LOST ? NULL : air + 2 * at;

        down += feed(&downlink, block, count, at, &first);
        if (tetra_follow(&uplink, &downlink) != TETRA_ACCEPTED)
            fault("the uplink does not follow", (uint32_t)at);
        up += feed(&uplink, quiet, count, at, NULL);
    }
    printf("%zu downlink slots from slot %u on, %zu uplink slots, %d faults\n", down, (unsigned)first, up, faults);
    return faults == 0 && down > SLOTS - 5 && up > SLOTS - 8 ? 0 : 1;
}
