/* Gaps in the samples: what a gap alone can do, and that with tetra_feed_zeros every burst keeps its number. Prints a line for
 * each fault; the status is 1 if there is any. */
#include <stdio.h>
#include <string.h>

#include "tetra_modem.h"

#define SLOTS 16
#define SLOT_SAMPLES 1020
#define LARGEST 137438953471 /* the largest counter */

static uint8_t sent[SLOTS][TETRA_SLOT_BITS];
static float air[2 * SLOT_SAMPLES * (SLOTS + 1)];
static size_t samples; /* in the air */
static int faults;

static void expect(const char *what, int64_t got, int64_t want)
{
    if (got != want) {
        printf("%s: %lld, not %lld\n", what, (long long)got, (long long)want);
        faults++;
    }
}

static uint8_t random_bit(void)
{
    static uint32_t state = 1;

    state = state * 1664525u + 1013904223u;
    return (uint8_t)(state >> 31);
}

/* Synchronization bursts, each with blocks of its own. */
static void send_all(void)
{
    struct tetra_sender sender = tetra_sender_new();
    uint8_t blk1[120], bbk[30], blk2[216];

    for (uint32_t slot = 0; slot <= SLOTS; slot++) {
        uint8_t *bits = sent[slot % SLOTS];

        for (size_t i = 0; slot < SLOTS && i < 216; i++)
            blk1[i % 120] = bbk[i % 30] = blk2[i] = random_bit();
        if (slot < SLOTS)
            expect("built", tetra_build_sync(blk1, 120, bbk, 30, blk2, 216, bits, TETRA_SLOT_BITS), TETRA_ACCEPTED);
        struct tetra_sent out = tetra_send(sender, (int64_t)samples, slot, slot < SLOTS, bits, TETRA_SLOT_BITS,
                                           air + 2 * samples, 2 * SLOT_SAMPLES);
        samples += out.count;
        sender = out.sender;
    }
}

/* The sent burst that these bits are most like. */
static uint32_t nearest(const uint8_t *bits)
{
    uint32_t best = 0;
    size_t fewest = TETRA_SLOT_BITS + 1;

    for (uint32_t slot = 0; slot < SLOTS; slot++) {
        size_t wrong = 0;

        for (size_t i = 0; i < TETRA_SLOT_BITS; i++)
            wrong += bits[i] != sent[slot][i];
        if (wrong < fewest) {
            fewest = wrong;
            best = slot;
        }
    }
    return best;
}

/* Takes the slot that was handed over by the sample `last`, or in the gap before it. The first burst that is found is that of
 * slot 1: number and burst should agree. Returns whether a burst stands under another one's number. */
static size_t misplaced(struct tetra_receiver *r, int64_t last, bool gap)
{
    uint8_t bits[TETRA_SLOT_BITS], half1[TETRA_HALF_SLOT_BITS], half2[TETRA_HALF_SLOT_BITS];
    struct tetra_taken taken = tetra_take(r, bits, sizeof bits, half1, sizeof half1, half2, sizeof half2);

    expect("taken", taken.refusal, TETRA_ACCEPTED);
    expect("closed", gap ? taken.slot.closing_counter <= last : taken.slot.closing_counter == last, 1);
    return taken.slot.full.train_type != TETRA_NONE && nearest(bits) != taken.slot.time;
}

/* Feeds the samples from `at` to `end`, or so many zeros, and counts the misplaced bursts. */
static size_t feed(struct tetra_receiver *r, size_t at, size_t end, bool zeros)
{
    size_t wrong = 0;

    while (at < end) {
        bool gap = r->state.next_input_sample_count != (int64_t)at;
        struct tetra_fed fed = zeros ? tetra_feed_zeros(r, end - at, (int64_t)at)
                                     : tetra_feed(r, air + 2 * at, end - at, (int64_t)at);

        expect("fed", fed.refusal, TETRA_ACCEPTED);
        expect("fed, all or a slot", fed.slot || fed.taken == end - at, 1);
        at += fed.taken;
        if (fed.slot)
            wrong += misplaced(r, (int64_t)at - 1, gap);
    }
    return wrong;
}

/* How many bursts stand under another one's number where n samples from `at` on are missing. */
static size_t with_gap(size_t at, size_t n, bool zeros)
{
    static struct tetra_receiver r;
    size_t wrong;

    tetra_receiver_init(&r, TETRA_MODE_DL_SEARCHING);
    wrong = feed(&r, 0, at, false);
    if (zeros)
        wrong += feed(&r, at, at + n, true);
    return wrong + feed(&r, at + n, samples, false);
}

static void gaps(void)
{
    size_t alone = 0;

    expect("no gap", (int64_t)with_gap(7000, 0, false), 0);
    for (size_t at = 6000; at < 6000 + SLOT_SAMPLES; at += 30) {
        alone += with_gap(at, 2 * SLOT_SAMPLES, false);
        for (size_t n = 500; n < 5000; n += 1130)
            expect("a gap with zeros", (int64_t)with_gap(at, n, true), 0);
        expect("two slots with zeros", (int64_t)with_gap(at, 2 * SLOT_SAMPLES, true), 0);
    }
    printf("%zu of 34 gaps of two slots, where no zeros are fed, hand a burst over under another number\n", alone);
    expect("a gap alone can misplace a burst", alone > 0, 1);
}

/* Zeros are taken as tetra_feed takes a block of them, and stop where it stops. */
static void as_a_block(void)
{
    static struct tetra_receiver r, s;
    static const float quiet[2 * 5000];

    tetra_receiver_init(&r, TETRA_MODE_DL_SEARCHING);
    feed(&r, 0, 6000, false);
    s = r;
    for (size_t done = 0; done < 5000;) {
        struct tetra_fed block = tetra_feed(&r, quiet, 5000 - done, 6000 + (int64_t)done);
        struct tetra_fed zeros = tetra_feed_zeros(&s, 5000 - done, 6000 + (int64_t)done);

        expect("zeros, taken", (int64_t)zeros.taken, (int64_t)block.taken);
        expect("zeros, slot", zeros.slot, block.slot);
        expect("zeros, refusal", zeros.refusal, block.refusal);
        expect("zeros, past", memcmp(&r.past, &s.past, sizeof r.past), 0);
        expect("zeros, next counter", s.state.next_input_sample_count, r.state.next_input_sample_count);
        if (zeros.taken == 0)
            break;
        done += zeros.taken;
    }
}

static void stops(const char *what, size_t n, int64_t first, size_t taken, uint32_t refusal)
{
    static struct tetra_receiver r;
    struct tetra_fed fed;

    tetra_receiver_init(&r, TETRA_MODE_DL_SEARCHING);
    expect(what, tetra_sample(&r, 0.0f, 0.0f, 99), TETRA_ACCEPTED);
    fed = tetra_feed_zeros(&r, n, first);
    expect(what, (int64_t)fed.taken, (int64_t)taken);
    expect(what, fed.slot, 0);
    expect(what, fed.refusal, refusal);
}

int main(void)
{
    send_all();
    gaps();
    as_a_block();
    stops("no zeros", 0, 100, 0, TETRA_ACCEPTED);
    stops("many zeros", 1000000, 100, 1000000, TETRA_ACCEPTED);
    stops("a past counter", 2000, 99, 0, TETRA_PAST_COUNTER);
    stops("a counter below 0", 2000, -1, 0, TETRA_BAD_COUNTER);
    stops("the last counter", 5000, LARGEST - 3000, 3001, TETRA_BAD_COUNTER);
    return faults == 0 ? 0 : 1;
}
