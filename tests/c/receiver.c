/* Calls the burst builders and the receiver and checks what they answer, fill and leave. Prints a line for each fault; the
 * status is 1 if there is any. */
#include <math.h>
#include <stdio.h>
#include <string.h>

#include "tetra_modem.h"

#define KEPT 0xa5            /* what lent bytes hold before a call */
#define ROOM 16              /* more bytes than are lent, to see that the others are left alone */
#define SLOT_SAMPLES 1020    /* samples in a slot, 4 a symbol */
#define LARGEST 137438953471 /* the largest counter */

static const char *NORMAL_1 = "1101000011101001110100";
static const char *NORMAL_2 = "0111101001000011011110";
static const char *EXTENDED = "100111010000111010011101000011";
static const char *SYNC = "11000001100111001110100111000001100111";

static uint8_t blk1[216], bbk[30], blk2[216];
static uint8_t bits[TETRA_SLOT_BITS + ROOM];
static float quiet[2 * 10000];
static int faults;

static void expect(const char *what, int64_t got, int64_t want)
{
    if (got != want) {
        printf("%s: %lld, not %lld\n", what, (long long)got, (long long)want);
        faults++;
    }
}

static void kept(const char *what, const uint8_t *bytes, size_t from, size_t to)
{
    for (size_t i = from; i < to; i++)
        expect(what, bytes[i], KEPT);
}

static void at(const char *what, size_t place, const char *sequence)
{
    for (size_t i = 0; sequence[i] != 0; i++)
        expect(what, bits[place + i], sequence[i] - '0');
}

/* ---- the builders */

static uint32_t sync_burst(size_t a, size_t b, size_t c, size_t n)
{
    memset(bits, KEPT, sizeof bits);
    return tetra_build_sync(blk1, a, bbk, b, blk2, c, bits, n);
}

static uint32_t normal_burst(uint32_t train, size_t a, size_t b, size_t c, size_t n)
{
    memset(bits, KEPT, sizeof bits);
    return tetra_build_normal(train, blk1, a, bbk, b, blk2, c, bits, n);
}

/* A window of n bits is judged as one with a burst of that type, place and length and without errors. */
static void judged(const char *what, uint32_t kind, const uint8_t *window, size_t n, uint8_t type, size_t place, size_t length)
{
    uint8_t answer[TETRA_ANSWER_BYTES];

    expect(what, tetra_judge(kind, window, n, answer, sizeof answer), TETRA_ACCEPTED);
    expect(what, answer[0], type);
    expect(what, answer[1], 0);
    expect(what, answer[2] + 256 * answer[3], (int64_t)place);
    expect(what, answer[4] + 256 * answer[5], (int64_t)length);
}

/* The burst in `bits` is judged as one of that type, and no byte behind it was written. */
static void is_burst(const char *what, uint32_t returned, uint8_t type)
{
    expect(what, returned, TETRA_ACCEPTED);
    kept(what, bits, TETRA_SLOT_BITS, sizeof bits);
    judged(what, TETRA_DOWNLINK, bits, TETRA_SLOT_BITS, type, 0, TETRA_SLOT_BITS);
}

static void no_burst(const char *what, uint32_t returned, uint32_t refusal)
{
    expect(what, returned, refusal);
    kept(what, bits, 0, sizeof bits);
}

static void fill_blocks(uint8_t step)
{
    for (size_t i = 0; i < sizeof blk1; i++) {
        blk1[i] = (uint8_t)(step * i / 3 % 2);
        blk2[i] = (uint8_t)(step * i / 5 % 2);
        bbk[i % sizeof bbk] = (uint8_t)(step * i / 2 % 2);
    }
}

static void built(void)
{
    fill_blocks(0);
    is_burst("sync of zeros", sync_burst(120, 30, 216, 510), TETRA_SYNC);
    at("sync of zeros, HC", 12, "10");
    at("sync of zeros, y", 214, SYNC);
    at("sync of zeros, HD", 498, "00");
    is_burst("normal 1 of zeros", normal_burst(1, 216, 30, 216, 510), TETRA_NORMAL_1);
    at("normal 1 of zeros, HA", 12, "11");
    at("normal 1 of zeros, n", 244, NORMAL_1);
    at("normal 1 of zeros, HB", 498, "01");
    is_burst("normal 2 of zeros", normal_burst(2, 216, 30, 216, 510), TETRA_NORMAL_2);
    at("normal 2 of zeros, p", 244, NORMAL_2);
    at("normal 2 of zeros, HB", 498, "11");

    fill_blocks(1);
    is_burst("sync", sync_burst(120, 30, 216, 510), TETRA_SYNC);
    expect("sync, first block", memcmp(bits + 94, blk1, 120), 0);
    expect("sync, middle block", memcmp(bits + 252, bbk, 30), 0);
    expect("sync, last block", memcmp(bits + 282, blk2, 216), 0);
    is_burst("normal 1", normal_burst(1, 216, 30, 216, 510), TETRA_NORMAL_1);
    expect("normal 1, first block", memcmp(bits + 14, blk1, 216), 0);
    expect("normal 1, middle block", memcmp(bits + 230, bbk, 14) | memcmp(bits + 266, bbk + 14, 16), 0);
    expect("normal 1, last block", memcmp(bits + 282, blk2, 216), 0);
}

static void not_built(void)
{
    fill_blocks(0);
    no_burst("sync, first block", sync_burst(119, 30, 216, 510), TETRA_BAD_LENGTH);
    no_burst("sync, middle block", sync_burst(120, 0, 216, 510), TETRA_BAD_LENGTH);
    no_burst("sync, last block", sync_burst(120, 30, 215, 510), TETRA_BAD_LENGTH);
    no_burst("sync, 509 bytes", sync_burst(120, 30, 216, 509), TETRA_BAD_LENGTH);
    no_burst("sync, 511 bytes", sync_burst(120, 30, 216, 511), TETRA_BAD_LENGTH);
    no_burst("normal, first block", normal_burst(1, 120, 30, 216, 510), TETRA_BAD_LENGTH);
    no_burst("normal, 0 bytes", normal_burst(2, 216, 30, 216, 0), TETRA_BAD_LENGTH);
    no_burst("training sequence 0", normal_burst(0, 216, 30, 216, 510), TETRA_BAD_TRAINING);
    no_burst("training sequence 3", normal_burst(3, 216, 30, 216, 510), TETRA_BAD_TRAINING);
    no_burst("training sequence 3, 509 bytes", normal_burst(3, 216, 30, 216, 509), TETRA_BAD_LENGTH);

    blk2[215] = 2;
    no_burst("sync, no bit", sync_burst(120, 30, 216, 510), TETRA_BAD_BIT);
    no_burst("sync, no bit, 509 bytes", sync_burst(120, 30, 216, 509), TETRA_BAD_LENGTH);
    no_burst("normal, no bit", normal_burst(3, 216, 30, 216, 510), TETRA_BAD_BIT);
    blk2[215] = 0;
    bbk[0] = 255;
    no_burst("sync, no bit in the middle", sync_burst(120, 30, 216, 510), TETRA_BAD_BIT);
    bbk[0] = 0;
}

/* ---- the uplink builders */

static uint32_t normal_uplink(uint32_t train, size_t a, size_t b, size_t n)
{
    memset(bits, KEPT, sizeof bits);
    return tetra_build_normal_uplink(train, blk1, a, blk2, b, bits, n);
}

static uint32_t control_uplink(size_t a, size_t b, size_t n)
{
    memset(bits, KEPT, sizeof bits);
    return tetra_build_control_uplink(blk1, a, blk2, b, bits, n);
}

/* The burst in `bits`, of that length, has each field in its place, and no byte behind it was written. */
static void has_fields(const char *what, uint32_t returned, const char *sequence, size_t length)
{
    size_t n = strlen(sequence), block = (length - n) / 2 - 4;

    expect(what, returned, TETRA_ACCEPTED);
    at(what, 0, "1100");
    expect(what, memcmp(bits + 4, blk1, block), 0);
    at(what, 4 + block, sequence);
    expect(what, memcmp(bits + 4 + block + n, blk2, block), 0);
    at(what, length - 4, "1100");
    kept(what, bits, length, sizeof bits);
}

/* At each even offset from 0 to 48 of a window of n bits, otherwise zeros, the burst in `bits` is judged as one of that type. */
static void is_found(const char *what, uint32_t kind, size_t n, uint8_t type, size_t length)
{
    for (size_t offset = 0; offset <= 48; offset += 2) {
        uint8_t window[TETRA_SLOT_BITS] = { 0 };

        memcpy(window + offset, bits, length);
        judged(what, kind, window, n, type, offset, length);
    }
}

static void uplink_built(void)
{
    for (uint8_t step = 0; step < 3; step++) {
        fill_blocks(step);
        has_fields("normal uplink 1", normal_uplink(1, 216, 216, 462), NORMAL_1, 462);
        is_found("normal uplink 1", TETRA_UPLINK_FULL, TETRA_SLOT_BITS, TETRA_NORMAL_1, 462);
        has_fields("normal uplink 2", normal_uplink(2, 216, 216, 462), NORMAL_2, 462);
        is_found("normal uplink 2", TETRA_UPLINK_FULL, TETRA_SLOT_BITS, TETRA_NORMAL_2, 462);
        has_fields("control uplink", control_uplink(84, 84, 206), EXTENDED, 206);
        is_found("control uplink", TETRA_UPLINK_HALF, TETRA_HALF_SLOT_BITS, TETRA_EXTENDED, 206);
    }
}

/* Refused, and the smallest number first: a length, then a byte that is no bit, then the training sequence. */
static void uplink_not_built(void)
{
    fill_blocks(0);
    no_burst("normal uplink, first block", normal_uplink(1, 215, 216, 462), TETRA_BAD_LENGTH);
    no_burst("normal uplink, second block", normal_uplink(2, 216, 0, 462), TETRA_BAD_LENGTH);
    no_burst("normal uplink, 461 bytes", normal_uplink(1, 216, 216, 461), TETRA_BAD_LENGTH);
    no_burst("normal uplink, 463 bytes", normal_uplink(1, 216, 216, 463), TETRA_BAD_LENGTH);
    no_burst("uplink sequence 0", normal_uplink(0, 216, 216, 462), TETRA_BAD_TRAINING);
    no_burst("uplink sequence 3", normal_uplink(3, 216, 216, 462), TETRA_BAD_TRAINING);
    no_burst("uplink sequence 3, 461 bytes", normal_uplink(3, 216, 216, 461), TETRA_BAD_LENGTH);
    no_burst("control uplink, first block", control_uplink(85, 84, 206), TETRA_BAD_LENGTH);
    no_burst("control uplink, second block", control_uplink(84, 83, 206), TETRA_BAD_LENGTH);
    no_burst("control uplink, 205 bytes", control_uplink(84, 84, 205), TETRA_BAD_LENGTH);
    no_burst("control uplink, 462 bytes", control_uplink(84, 84, 462), TETRA_BAD_LENGTH);

    blk1[0] = 2;
    no_burst("normal uplink, no bit", normal_uplink(3, 216, 216, 462), TETRA_BAD_BIT);
    no_burst("normal uplink, no bit, block of 215", normal_uplink(3, 216, 215, 462), TETRA_BAD_LENGTH);
    no_burst("control uplink, no bit", control_uplink(84, 84, 206), TETRA_BAD_BIT);
    no_burst("control uplink, no bit, 205 bytes", control_uplink(84, 84, 205), TETRA_BAD_LENGTH);
    blk1[0] = 0;
    blk2[83] = 255;
    no_burst("normal uplink, 255", normal_uplink(1, 216, 216, 462), TETRA_BAD_BIT);
    no_burst("control uplink, 255", control_uplink(84, 84, 206), TETRA_BAD_BIT);
    blk2[83] = 0;
}

/* ---- states */

static void same_burst(const char *what, const struct tetra_burst *a, const struct tetra_burst *b)
{
    expect(what, a->train_type, b->train_type);
    expect(what, (int64_t)a->train_errs, (int64_t)b->train_errs);
    expect(what, (int64_t)a->burst_pos, (int64_t)b->burst_pos);
    expect(what, (int64_t)a->burst_len, (int64_t)b->burst_len);
}

static void same_slot(const char *what, const struct tetra_slot *a, const struct tetra_slot *b)
{
    expect(what, a->time, b->time);
    expect(what, a->closing_counter, b->closing_counter);
    same_burst(what, &a->full, &b->full);
    same_burst(what, &a->subslot1, &b->subslot1);
    same_burst(what, &a->subslot2, &b->subslot2);
}

/* Field by field, since the bytes between fields are anybody's. */
static void same_state(const char *what, const struct tetra_state *a, const struct tetra_state *b)
{
    expect(what, a->mode, b->mode);
    expect(what, a->reference_time, b->reference_time);
    expect(what, a->slot_ready_time, b->slot_ready_time);
    expect(what, a->current_slot, b->current_slot);
    expect(what, a->next_input_sample_count, b->next_input_sample_count);
    expect(what, memcmp(&a->averaged_timing_error, &b->averaged_timing_error, sizeof(float)), 0);
    expect(what, a->slots_since_last_valid_burst, b->slots_since_last_valid_burst);
    expect(what, a->demodulated_slot_available, b->demodulated_slot_available);
    same_slot(what, &a->demodulated_slot, &b->demodulated_slot);
    expect(what, memcmp(a->full_bits, b->full_bits, sizeof a->full_bits), 0);
    expect(what, memcmp(a->subslot1_bits, b->subslot1_bits, sizeof a->subslot1_bits), 0);
    expect(what, memcmp(a->subslot2_bits, b->subslot2_bits, sizeof a->subslot2_bits), 0);
    expect(what, memcmp(&a->matched_filter, &b->matched_filter, sizeof a->matched_filter), 0);
    expect(what, (int64_t)a->past_index, (int64_t)b->past_index);
}

static void same(const char *what, const struct tetra_receiver *a, const struct tetra_receiver *b)
{
    same_state(what, &a->state, &b->state);
    expect(what, memcmp(&a->past, &b->past, sizeof a->past), 0);
}

static struct tetra_receiver new_receiver(uint32_t mode)
{
    struct tetra_receiver r;

    tetra_receiver_init(&r, mode);
    return r;
}

static void zeros(const char *what, const float *f, size_t n)
{
    for (size_t i = 0; i < n; i++)
        expect(what, f[i] == 0.0f, 1);
}

/* Where the library and the header put each field. */
static void layout(void)
{
    struct {
        struct tetra_receiver receiver;
        uint8_t behind[64];
    } box;

    expect("bytes of a state", sizeof(struct tetra_state), TETRA_STATE_BYTES);
    for (uint32_t mode = 0; mode < 6; mode++) {
        struct tetra_state *state = &box.receiver.state;

        memset(&box, KEPT, sizeof box);
        tetra_receiver_init(&box.receiver, mode);
        kept("behind a new receiver", box.behind, 0, sizeof box.behind);
        expect("new, mode", state->mode, mode < 4 ? mode : 0);
        expect("new, reference", state->reference_time, 0);
        expect("new, ready", state->slot_ready_time, mode == TETRA_MODE_UL ? 1020 : 1018);
        expect("new, slot", state->current_slot, 0);
        expect("new, next", state->next_input_sample_count, 0);
        expect("new, error", state->averaged_timing_error == 0.0f, 1);
        expect("new, misses", state->slots_since_last_valid_burst, 0);
        expect("new, slot time", state->demodulated_slot.time, 0);
        expect("new, closing counter", state->demodulated_slot.closing_counter, 0);
        expect("new, available", state->demodulated_slot_available, 0);
        expect("new, full", (int64_t)state->demodulated_slot.full.train_errs, 100);
        expect("new, half 1", (int64_t)state->demodulated_slot.subslot1.train_errs, 100);
        expect("new, half 2", (int64_t)state->demodulated_slot.subslot2.train_errs, 100);
        expect("new, half 2, length", (int64_t)state->demodulated_slot.subslot2.burst_len, 0);
        zeros("new, filter", state->matched_filter.re, 32);
        zeros("new, filter", state->matched_filter.im, 32);
        zeros("new, past", box.receiver.past.re, 2048);
        zeros("new, past", box.receiver.past.im, 2048);
        zeros("new, past", box.receiver.past.abs, 2048);
        expect("new, index", (int64_t)state->past_index, 0);
    }
}

/* ---- samples */

static void refused_sample(const char *what, struct tetra_receiver before, float re, float im, int64_t counter,
                           uint32_t refusal)
{
    struct tetra_receiver after = before;

    expect(what, tetra_sample(&after, re, im, counter), refusal);
    same(what, &after, &before);
}

static uint32_t sampled(struct tetra_receiver r, float re, float im, int64_t counter)
{
    return tetra_sample(&r, re, im, counter);
}

static void samples(void)
{
    struct tetra_receiver r = new_receiver(TETRA_MODE_DL_SEARCHING);

    expect("a sample", tetra_sample(&r, 1.0f, -2.0f, 5), TETRA_ACCEPTED);
    expect("a sample, next", r.state.next_input_sample_count, 6);
    expect("a sample, re", r.state.matched_filter.re[31] == 1.0f, 1);
    expect("a sample, im", r.state.matched_filter.im[31] == -2.0f, 1);
    expect("five zeros and a sample, index", (int64_t)r.state.past_index, 6);
    expect("a sample, past", r.past.re[6] != 0.0f && r.past.im[6] != 0.0f, 1);
    expect("a sample, magnitude", r.past.abs[6] > 0.0f, 1);

    refused_sample("NaN", r, NAN, 0.0f, 6, TETRA_BAD_SAMPLE);
    refused_sample("infinite", r, 0.0f, -INFINITY, 6, TETRA_BAD_SAMPLE);
    refused_sample("beyond 1,024", r, 1024.5f, 0.0f, -1, TETRA_BAD_SAMPLE);
    refused_sample("counter below 0", r, 0.0f, 0.0f, -1, TETRA_BAD_COUNTER);
    refused_sample("counter too large", r, 0.0f, 0.0f, LARGEST + 1, TETRA_BAD_COUNTER);
    refused_sample("counter again", r, 0.0f, 0.0f, 5, TETRA_PAST_COUNTER);
    r.state.mode = 7;
    r.state.past_index = 5000;
    refused_sample("numbers that no call left", r, 0.0f, 0.0f, 5, TETRA_PAST_COUNTER);
    expect("1,024", sampled(r, 1024.0f, -1024.0f, 6), TETRA_ACCEPTED);
    expect("the largest counter", sampled(r, 0.0f, 0.0f, LARGEST), TETRA_ACCEPTED);
}

static void blocks(void)
{
    const struct tetra_receiver new = new_receiver(TETRA_MODE_DL_SEARCHING);
    struct tetra_receiver r = new;
    struct tetra_fed fed = tetra_feed(&r, quiet, 10000, 0);

    expect("zeros, taken", (int64_t)fed.taken, 10000);
    expect("zeros, slot", fed.slot, 0);
    expect("zeros, refusal", fed.refusal, TETRA_ACCEPTED);
    expect("zeros, next", r.state.next_input_sample_count, 10000);
    expect("zeros, 23 windows", r.state.slot_ready_time, 1018 + 23 * 400);
    expect("zeros, mode", r.state.mode, TETRA_MODE_DL_SEARCHING);
    expect("zeros, no slot", r.state.demodulated_slot_available, 0);

    struct tetra_receiver one = new;
    for (int64_t i = 0; i < 3000; i++)
        tetra_sample(&one, 0.0f, 0.0f, i);
    r = new;
    struct tetra_state_fed odd = tetra_state_feed(r.state, r.past.re, r.past.im, r.past.abs, quiet, 2 * 3000 + 1, 0);
    r.state = odd.state;
    expect("a left-over part", (int64_t)odd.taken, 3000);
    same("one by one", &r, &one);

    r = new;
    fed = tetra_feed(&r, quiet, 0, -7);
    expect("no samples", (int64_t)fed.taken, 0);
    expect("no samples", fed.refusal, TETRA_ACCEPTED);
    same("no samples", &r, &new);

    quiet[2 * 1500 + 1] = NAN;
    fed = tetra_feed(&r, quiet, 3000, 0);
    expect("NaN in a block, taken", (int64_t)fed.taken, 1500);
    expect("NaN in a block, slot", fed.slot, 0);
    expect("NaN in a block, refusal", fed.refusal, TETRA_BAD_SAMPLE);
    expect("NaN in a block, next", r.state.next_input_sample_count, 1500);
    one = r;
    fed = tetra_feed(&r, quiet, 1, 1499);
    expect("a block again, taken", (int64_t)fed.taken, 0);
    expect("a block again, refusal", fed.refusal, TETRA_PAST_COUNTER);
    same("a block again", &r, &one);
    quiet[2 * 1500 + 1] = 0.0f;
    r = new;
    fed = tetra_feed(&r, quiet, 10, LARGEST - 3);
    expect("behind the largest counter, taken", (int64_t)fed.taken, 4);
    expect("behind the largest counter, refusal", fed.refusal, TETRA_BAD_COUNTER);
}

/* ---- takes */

static uint8_t slot[TETRA_SLOT_BITS + ROOM], half1[TETRA_HALF_SLOT_BITS + ROOM], half2[TETRA_HALF_SLOT_BITS + ROOM];

static struct tetra_taken take(struct tetra_receiver *r, size_t a, size_t b, size_t c)
{
    memset(slot, KEPT, sizeof slot);
    memset(half1, KEPT, sizeof half1);
    memset(half2, KEPT, sizeof half2);
    return tetra_take(r, slot, a, half1, b, half2, c);
}

static void burst(const char *what, struct tetra_burst b, uint8_t type, size_t errors, size_t place, size_t length)
{
    const struct tetra_burst want = { type, errors, place, length };

    same_burst(what, &b, &want);
}

static void not_taken(const char *what, struct tetra_receiver before, size_t a, size_t b, size_t c, uint32_t refusal)
{
    static const struct tetra_slot none;
    struct tetra_receiver after = before;
    struct tetra_taken got = take(&after, a, b, c);

    expect(what, got.refusal, refusal);
    same_slot(what, &got.slot, &none);
    same(what, &after, &before);
    kept(what, slot, 0, sizeof slot);
    kept(what, half1, 0, sizeof half1);
    kept(what, half2, 0, sizeof half2);
}

static void takes(void)
{
    struct tetra_receiver r = new_receiver(TETRA_MODE_DL_SEARCHING);

    not_taken("new", r, 510, 254, 254, TETRA_NO_SLOT);
    not_taken("new, wrong length", r, 509, 254, 254, TETRA_BAD_LENGTH);
    r.state.demodulated_slot_available = true;
    r.state.demodulated_slot.time = 7;
    r.state.demodulated_slot.closing_counter = LARGEST;
    not_taken("slot's length", r, 511, 254, 254, TETRA_BAD_LENGTH);
    not_taken("first half's length", r, 510, 0, 254, TETRA_BAD_LENGTH);
    not_taken("second half's length", r, 510, 254, 255, TETRA_BAD_LENGTH);

    /* bits by hand: a view in the middle of a half, and nothing found in the others */
    memset(r.state.subslot1_bits, 1, 254);
    r.state.demodulated_slot.subslot1 = (struct tetra_burst){ TETRA_EXTENDED, 1, 4, 206 };
    struct tetra_taken got = take(&r, 510, 254, 254);
    expect("taken", got.refusal, TETRA_ACCEPTED);
    expect("taken, number", got.slot.time, 7);
    expect("taken, closing counter", got.slot.closing_counter, LARGEST);
    burst("taken, full", got.slot.full, TETRA_NONE, 100, 0, 0);
    burst("taken, half 1", got.slot.subslot1, TETRA_EXTENDED, 1, 4, 206);
    burst("taken, half 2", got.slot.subslot2, TETRA_NONE, 100, 0, 0);
    for (size_t i = 0; i < 510; i++)
        expect("taken, slot", slot[i], 0);
    for (size_t i = 0; i < 254; i++) {
        expect("taken, half 1", half1[i], i < 206);
        expect("taken, half 2", half2[i], 0);
    }
    kept("behind the slot", slot, 510, sizeof slot);
    kept("behind half 1", half1, 254, sizeof half1);
    kept("behind half 2", half2, 254, sizeof half2);
    expect("taken once", take(&r, 510, 254, 254).refusal, TETRA_NO_SLOT);
}

/* ---- closing counters */

/* Takes the slot, with a wrong length at first, and checks its number and the counter at which its window closed. */
static void closed(const char *what, struct tetra_receiver *r, uint32_t number, int64_t counter)
{
    not_taken(what, *r, 510, 254, 253, TETRA_BAD_LENGTH);
    struct tetra_taken got = take(r, 510, 254, 254);
    expect(what, got.refusal, TETRA_ACCEPTED);
    expect(what, got.slot.time, number);
    expect(what, got.slot.closing_counter, counter);
    not_taken(what, *r, 510, 254, 254, TETRA_NO_SLOT);
}

/* Feeds zeros from a counter on: the one with that last counter hands a slot over. */
static void fed_until(const char *what, struct tetra_receiver *r, int64_t from, int64_t last)
{
    struct tetra_fed fed = tetra_feed(r, quiet, 10000, from);

    expect(what, fed.slot, 1);
    expect(what, from + (int64_t)fed.taken - 1, last);
}

static void closings(void)
{
    struct tetra_receiver r = new_receiver(TETRA_MODE_DL), uplink = new_receiver(TETRA_MODE_UL);

    fed_until("closed by a sample", &r, 0, 1034);
    closed("closed by a sample", &r, 0, 1034);
    fed_until("the next slot", &r, 1035, 1034 + SLOT_SAMPLES);
    closed("the next slot", &r, 1, 1034 + SLOT_SAMPLES);
    fed_until("of an uplink", &uplink, 0, 1036);
    expect("of an uplink, told to follow", tetra_follow(&uplink, &r), TETRA_ACCEPTED);
    closed("of an uplink", &uplink, 283115518, 1036);

    /* zeros are fed under 480 to 1,499 */
    r = new_receiver(TETRA_MODE_DL);
    expect("a gap", tetra_sample(&r, 0.0f, 0.0f, 1500), TETRA_ACCEPTED);
    refused_sample("a gap, the counter again", r, 0.0f, 0.0f, 1500, TETRA_PAST_COUNTER);
    closed("closed by a zero", &r, 0, 1034);
    /* under 2,054 to 3,073: the first of them closes slot 1, and the sample slot 2 */
    expect("a longer gap", tetra_sample(&r, 0.0f, 0.0f, 3074), TETRA_ACCEPTED);
    closed("the last of two slots", &r, 2, 3074);
}

/* A slot that waits while its receiver loses its lock: the windows of the search leave its counter. */
static void closed_before_a_search(void)
{
    struct tetra_receiver r = new_receiver(TETRA_MODE_DL);
    int64_t last = 1034;

    for (int slots = 0; slots < 100; slots++, last += SLOT_SAMPLES)
        expect("a lock lost", tetra_sample(&r, 0.0f, 0.0f, last), TETRA_ACCEPTED);
    expect("a lock lost", r.state.mode, TETRA_MODE_DL_SEARCHING);
    last -= SLOT_SAMPLES;
    expect("a search", (int64_t)tetra_feed(&r, quiet, 10000, last + 1).taken, 10000);
    expect("a search, 25 windows", r.state.slot_ready_time, last - 16 + 26 * 400);
    closed("behind a search", &r, 99, last);
}

/* ---- orders to follow */

static void follows(void)
{
    struct tetra_receiver other = new_receiver(TETRA_MODE_DL_SEARCHING), kept_other = other;
    struct tetra_receiver idle = new_receiver(TETRA_MODE_IDLE), r = idle;

    expect("a searching one", tetra_follow(&other, &idle), TETRA_NOT_FOLLOWING);
    same("a searching one", &other, &kept_other);

    expect("an idle one, of a searching one", tetra_follow(&r, &other), TETRA_ACCEPTED);
    same("an idle one, of a searching one", &r, &idle);

    other.state.mode = TETRA_MODE_DL;
    other.state.reference_time = 12345;
    other.state.demodulated_slot.time = 99;
    other.state.demodulated_slot.closing_counter = 98765;
    kept_other = other;
    expect("a locked one", tetra_follow(&other, &idle), TETRA_NOT_FOLLOWING);
    same("a locked one", &other, &kept_other);
    expect("of a locked one", tetra_follow(&r, &other), TETRA_ACCEPTED);
    expect("of a locked one, mode", r.state.mode, TETRA_MODE_UL);
    expect("of a locked one, reference", r.state.reference_time, 12345);
    expect("of a locked one, slot", r.state.current_slot, 99);
    expect("of a locked one, closing counter", r.state.demodulated_slot.closing_counter, 0);
    other.state.mode = TETRA_MODE_DL_SEARCHING;
    expect("of one that searches again", tetra_follow(&r, &other), TETRA_ACCEPTED);
    expect("of one that searches again, mode", r.state.mode, TETRA_MODE_IDLE);
}

/* ---- numbers that no call could have left */

static void any_slot(void)
{
    struct tetra_receiver r = new_receiver(TETRA_MODE_UL);
    struct tetra_slot *handed = &r.state.demodulated_slot;
    struct tetra_taken got;

    r.state.demodulated_slot_available = true;
    handed->time = 4000000000u;
    handed->closing_counter = LARGEST + 1;
    memset(r.state.full_bits, 255, sizeof r.state.full_bits);
    handed->full = (struct tetra_burst){ TETRA_NORMAL_1, 1, 48, 462 };
    handed->subslot1 = (struct tetra_burst){ TETRA_EXTENDED, 0, 0, 510 };
    handed->subslot2 = (struct tetra_burst){ TETRA_EXTENDED, 2, 0, 206 };
    got = take(&r, 510, 254, 254);
    expect("any slot, number", got.slot.time, 4000000000u % 283115520u);
    expect("any slot, closing counter", got.slot.closing_counter, 0);
    burst("any slot, full", got.slot.full, TETRA_NORMAL_1, 1, 48, 462);
    burst("any slot, half 1", got.slot.subslot1, TETRA_NONE, 100, 0, 0);
    burst("any slot, half 2", got.slot.subslot2, TETRA_NONE, 100, 0, 0);
    for (size_t i = 0; i < 510; i++)
        expect("any slot, bits", slot[i], i < 462);
    for (size_t i = 0; i < 254; i++)
        expect("any slot, half", half1[i] | half2[i], 0);
}

static void any_numbers(void)
{
    struct tetra_receiver r, s, other = new_receiver(TETRA_MODE_DL);

    memset(&r, 0xff, sizeof r);
    r.state.demodulated_slot_available = true;
    s = r;
    struct tetra_taken got = take(&s, 510, 254, 254);
    expect("any numbers, taken", got.refusal, TETRA_ACCEPTED);
    burst("any numbers, full", got.slot.full, TETRA_NONE, 100, 0, 0);
    expect("any numbers, number", got.slot.time < 283115520u, 1);
    expect("any numbers, closing counter", got.slot.closing_counter, 0);
    for (size_t i = 0; i < 510; i++)
        expect("any numbers, slot", slot[i], 0);
    s = r;
    expect("any numbers, follow", tetra_follow(&s, &other), TETRA_ACCEPTED);
    expect("any numbers, follow", s.state.mode, TETRA_MODE_UL);
    expect("any numbers, sample", sampled(r, 1.0f, 1.0f, 0), TETRA_ACCEPTED);

    for (uint8_t mode = 0; mode < 5; mode++) {
        size_t done = 0, slots = 0;

        memset(&r, 0xff, sizeof r);
        r.state.demodulated_slot_available = false;
        r.state.mode = mode;
        while (done < 5000 && slots < 10) {
            struct tetra_fed fed = tetra_feed(&r, quiet, 5000 - done, (int64_t)done);

            expect("any numbers, feed", fed.refusal, TETRA_ACCEPTED);
            done += fed.taken;
            slots += fed.slot;
        }
        expect("any numbers, samples", (int64_t)done, 5000);
        expect("any numbers, a slot", slots > 0, mode == TETRA_MODE_DL || mode == TETRA_MODE_UL);
    }
}

/* ---- a carrier: bursts as samples, found, numbered and taken */

static const float TAPS[16] = {
    0.2649718f,  0.20002119f, 0.10064187f, 0.00998249f,  -0.04014123f, -0.04405674f, -0.01982716f, 0.00642452f,
    0.01744363f, 0.01213436f, 0.00071221f, -0.00609533f, -0.00488494f, 0.00028619f,  0.00345407f,  0.00220812f,
};

#define SLOTS 8

static float carrier[2 * SLOTS * SLOT_SAMPLES];

static void add_symbol(size_t place, float re, float im)
{
    for (size_t k = 0; k < 32 && place + k < SLOTS * SLOT_SAMPLES; k++) {
        float tap = TAPS[k < 16 ? 15 - k : k - 16];

        carrier[2 * (place + k)] += re * tap;
        carrier[2 * (place + k) + 1] += im * tap;
    }
}

/* The burst in `bits` over and over, behind one symbol that the first bits are told from. Symbols of two bits, phases in
 * eighths of a turn: 00 +1, 01 +3, 10 -1, 11 -3. */
static void modulate(void)
{
    static const int STEP[4] = { 1, 3, 7, 5 };
    int phase = 0;

    add_symbol(0, 1.0f, 0.0f);
    for (size_t i = 0; i < SLOTS * TETRA_SLOT_BITS; i += 2) {
        phase = (phase + STEP[2 * bits[i % TETRA_SLOT_BITS] + bits[i % TETRA_SLOT_BITS + 1]]) % 8;
        add_symbol(4 + 2 * i, cosf((float)phase * 0.78539816f), sinf((float)phase * 0.78539816f));
    }
}

static void received(void)
{
    struct tetra_receiver r = new_receiver(TETRA_MODE_DL_SEARCHING);
    size_t done = 0;
    uint32_t number = 0;

    fill_blocks(1);
    sync_burst(120, 30, 216, 510);
    modulate();
    while (done < SLOTS * SLOT_SAMPLES) {
        struct tetra_fed fed = tetra_feed(&r, carrier + 2 * done, SLOTS * SLOT_SAMPLES - done, (int64_t)done);

        expect("carrier, refusal", fed.refusal, TETRA_ACCEPTED);
        done += fed.taken;
        if (!fed.slot)
            break;
        struct tetra_taken got = take(&r, 510, 254, 254);
        number++;
        expect("carrier, taken", got.refusal, TETRA_ACCEPTED);
        expect("carrier, number", got.slot.time, number);
        expect("carrier, closing counter", got.slot.closing_counter, (int64_t)done - 1);
        burst("carrier", got.slot.full, TETRA_SYNC, 0, 0, 510);
        expect("carrier, bits", memcmp(slot, bits, TETRA_SLOT_BITS), 0);
    }
    expect("carrier, samples", (int64_t)done, SLOTS * SLOT_SAMPLES);
    expect("carrier, mode", r.state.mode, TETRA_MODE_DL);
    expect("carrier, slots", number >= SLOTS - 3, 1);
}

int main(void)
{
    built();
    not_built();
    uplink_built();
    uplink_not_built();
    layout();
    samples();
    blocks();
    takes();
    closings();
    closed_before_a_search();
    follows();
    any_slot();
    any_numbers();
    received();
    return faults == 0 ? 0 : 1;
}
