/* The C interface of the TETRA slot modem, for x86-64. Link libmodem.a, which needs nothing else but memcpy and memset.
 *
 * Raw samples in (f32 re and im in turn, 72,000 a second), the number of each slot out:
 *
 *     #include <stdio.h>
 *     #include <tetra_modem.h>
 *     int main(void) {
 *         static struct tetra_receiver receiver;
 *         uint8_t bits[510], half1[254], half2[254]; float sample[2];
 *         tetra_receiver_init(&receiver, TETRA_MODE_DL_SEARCHING);
 *         for (int64_t counter = 0; fread(sample, sizeof sample, 1, stdin) == 1; counter++)
 *             if (tetra_feed(&receiver, sample, 1, counter).slot)
 *                 printf("slot=%u\n", tetra_take(&receiver, bits, 510, half1, 254, half2, 254).slot.time);
 *     }
 *
 * Beside the number stand the burst's type and errors (slot.full.train_type, slot.full.train_errs); `bits` has its bits.
 *
 * Receivers, senders, burst builders and the call logger's call follow, each in a group of its own; examples/gateway.c uses
 * them all.
 *
 * A slice is passed as a pointer and then a length, counted in elements. The pointer must not be NULL, also where the
 * length is 0, and must be valid for that many elements; a slice that a call may write must not overlap another one of the
 * same call. Within that, every call returns for every input. The library keeps no state of its own, allocates nothing, and
 * its calls may run in several threads at once. A call needs less than 64 KB of stack.
 *
 * Receivers and senders are structs of the caller's. Leave them as the calls leave them: then each answer is what the
 * contracts say of the calls made so far. A struct with other numbers is safe too: a number that no call could have left
 * counts as a valid one (a mode above 3 as Idle, a time or a closing counter out of range as 0, a slot number modulo its range,
 * a view that does not fit its window as none, a bit byte modulo 2). Only the flags of type bool must hold 0 or 1.
 */
#ifndef TETRA_MODEM_H
#define TETRA_MODEM_H

#include <stdbool.h>
#include <stddef.h>
#include <stdint.h>

#ifdef __cplusplus
extern "C" {
#endif

/* 0, or the number of a refusal, the smallest that holds. A refused call writes no lent byte, and leaves the receiver or
 * returns the sender as it was. */
#define TETRA_ACCEPTED 0u
#define TETRA_BAD_SAMPLE 1u     /* a sample part is NaN, infinite, or beyond 1,024 either side of zero */
#define TETRA_BAD_COUNTER 2u    /* a sample counter is below 0 or above 137,438,953,471 */
#define TETRA_BAD_LENGTH 3u     /* a slice has the wrong length */
#define TETRA_BAD_BIT 4u        /* a bit byte is neither 0 nor 1 */
#define TETRA_BAD_TRAINING 5u   /* a normal burst is wanted with a training sequence other than 1 or 2 */
#define TETRA_BAD_SLOT 6u       /* a slot number to send is above 283,115,519 */
#define TETRA_BAD_KIND 7u       /* a slot kind is above 2 */
#define TETRA_PAST_COUNTER 10u  /* the counter is below the one after the last accepted sample */
#define TETRA_NO_SLOT 11u       /* no slot waits to be taken */
#define TETRA_NEED_MORE 12u     /* the sender needs the next slot */
#define TETRA_NOT_FOLLOWING 13u /* the receiver told to follow finds its own timing: its mode is 1 or 2 */

/* Burst types: the training sequence that was found. */
#define TETRA_NONE 0u
#define TETRA_NORMAL_1 1u
#define TETRA_NORMAL_2 2u
#define TETRA_EXTENDED 3u
#define TETRA_SYNC 4u

#define TETRA_SLOT_BITS 510u
#define TETRA_HALF_SLOT_BITS 254u

/* ---- Receivers
 *
 * A receiver lives in the caller's memory, 26,536 bytes, and its calls take a pointer to it; several receivers share nothing.
 * It is made with tetra_receiver_init, fed with tetra_feed, and asked with tetra_take for each slot that is handed over.
 *
 * Counters. Each sample has a number, from 0 on. A downlink receiver numbers its slots from 1 at each lock. An uplink
 * receiver follows a downlink one (tetra_follow), so both must be fed on one axis of counters: samples that were received at
 * the same time have the same counter. The uplink's numbers are 2 less than the downlink's, wrapping: the first may be
 * 283,115,518 or 283,115,519, which stand for -2 and -1. Counters end with 137,438,953,471, after 22.1 days: then begin anew
 * with new receivers.
 *
 * Gaps. Where a sample's counter shows that others are missing, zeros stand in for at most the last 1,020 of them, a slot's
 * length. After a longer gap older samples stand in the place of missing ones, and a burst can be handed over under a later
 * slot's number with 0 errors: of examples/bursts.txt as tetra_tx sends it, with the samples 6,130 to 8,169 missing, the
 * burst of slot 5 is handed over as slot 6. So call tetra_feed_zeros for the whole of every gap; then each burst keeps its
 * number. It also hands over each slot of the gap, of which one call of tetra_sample or tetra_feed would keep the last alone.
 */

/* Modes of a receiver. */
#define TETRA_MODE_IDLE 0u         /* hands no slot over */
#define TETRA_MODE_DL_SEARCHING 1u /* downlink, looks for a synchronization burst */
#define TETRA_MODE_DL 2u           /* downlink, slot timing known */
#define TETRA_MODE_UL 3u           /* uplink, slot timing taken from a downlink receiver */

/* A burst that was found in a window: a view of the window's bits. */
struct tetra_burst {
    uint8_t train_type; /* its burst type */
    size_t train_errs;  /* wrong bits in its training sequence (0 or 1), 100 where there is no burst */
    size_t burst_pos;   /* its place in the window's bits */
    size_t burst_len;   /* how many bits it has: 510, 462 or 206, or 0 where there is no burst */
};

/* A slot that was handed over: its number, 0 to 283,115,519, where its window closed, and the bursts in it and, of an uplink
 * receiver, in its halves. */
struct tetra_slot {
    uint32_t time;
    int64_t closing_counter; /* of the sample, or of the zero fed for a missing one, at which its window closed; the filter's
                                delay, 16 samples, is not taken off */
    struct tetra_burst full;
    struct tetra_burst subslot1;
    struct tetra_burst subslot2;
};

/* The newest 32 samples, oldest first. */
struct tetra_filter {
    float re[32];
    float im[32];
};

#define TETRA_STATE_BYTES 1960u
#define TETRA_PAST 2048u

/* All of a receiver but its past. To be read, if at all: a caller need write none of it. The bits are those of the windows of
 * the slot that was handed over last, one byte a bit, 510 of the slot and the first 254 for each half: what tetra_judge
 * judges. */
struct tetra_state {
    uint8_t mode;
    int64_t reference_time;
    int64_t slot_ready_time;
    uint32_t current_slot;
    float averaged_timing_error;
    uint32_t slots_since_last_valid_burst;
    bool demodulated_slot_available;
    struct tetra_slot demodulated_slot;
    uint8_t full_bits[510];
    uint8_t subslot1_bits[510];
    uint8_t subslot2_bits[510];
    int64_t next_input_sample_count;
    struct tetra_filter matched_filter;
    size_t past_index;
};

/* The newest 2,048 filtered samples and their magnitudes, in rings whose newest element stands at past_index. */
struct tetra_past {
    float re[TETRA_PAST];
    float im[TETRA_PAST];
    float abs[TETRA_PAST];
};

struct tetra_receiver {
    struct tetra_state state;
    struct tetra_past past;
};

#ifdef __cplusplus
static_assert(sizeof(struct tetra_state) == TETRA_STATE_BYTES, "the library's layout of a state");
#elif defined(__STDC_VERSION__) && __STDC_VERSION__ >= 201112L
_Static_assert(sizeof(struct tetra_state) == TETRA_STATE_BYTES, "the library's layout of a state");
#endif

/* What a block of samples came to. */
struct tetra_fed {
    size_t taken;     /* so many samples were taken */
    bool slot;        /* whether the last of them handed a slot over */
    uint32_t refusal; /* the refusal of the next sample, or 0 */
};

/* A slot that was taken, or the refusal; then the slot is all zeros. */
struct tetra_taken {
    uint32_t refusal;
    struct tetra_slot slot;
};

/* The library's own calls on a receiver: its state goes by value and the next one comes back, its past is lent. The calls
 * below these are what a gateway uses. */

struct tetra_state_answered {
    uint32_t refusal;
    struct tetra_state state;
};

struct tetra_state_fed {
    size_t taken;
    bool slot;
    uint32_t refusal;
    struct tetra_state state;
};

struct tetra_state_taken {
    uint32_t refusal;
    struct tetra_slot slot;
    struct tetra_state state;
};

struct tetra_state tetra_state_new(uint32_t mode);

struct tetra_state_answered tetra_state_sample(struct tetra_state state, float *past_re, float *past_im, float *past_abs,
                                               float re, float im, int64_t counter);

struct tetra_state_fed tetra_state_feed(struct tetra_state state, float *past_re, float *past_im, float *past_abs,
                                        const float *samples, size_t samples_len, int64_t first);

struct tetra_state_taken tetra_state_take(struct tetra_state state, uint8_t *slot, size_t slot_len, uint8_t *subslot1,
                                          size_t subslot1_len, uint8_t *subslot2, size_t subslot2_len);

struct tetra_state_answered tetra_state_follow(struct tetra_state state, struct tetra_state other);

/* Makes a receiver anew.
 *
 * mode: one of TETRA_MODE_..; any other number counts as Idle. A downlink receiver starts with TETRA_MODE_DL_SEARCHING, an
 *   uplink one with TETRA_MODE_IDLE and then tetra_follow.
 * Cost: the struct is filled once; under a microsecond.
 */
static inline void tetra_receiver_init(struct tetra_receiver *receiver, uint32_t mode)
{
    receiver->state = tetra_state_new(mode);
    for (size_t i = 0; i < TETRA_PAST; i++) {
        receiver->past.re[i] = 0.0f;
        receiver->past.im[i] = 0.0f;
        receiver->past.abs[i] = 0.0f;
    }
}

/* Takes one sample.
 *
 * re, im: its parts.
 * counter: its number, at least the one after the last accepted sample (0 when new). Where it is larger, samples are missing:
 *   see "Gaps" above.
 *
 * Returns the refusal, 0, 1, 2 or 10. A slot may be handed over: tetra_take tells.
 * Cost: a fraction of a microsecond, since the state is copied a few times: tetra_feed is much faster for a row of samples.
 *   At a window's close some 1,000 samples are read again. A missing sample that zeros stand in for is filtered as one given.
 */
static inline uint32_t tetra_sample(struct tetra_receiver *receiver, float re, float im, int64_t counter)
{
    struct tetra_state_answered answered = tetra_state_sample(receiver->state, receiver->past.re, receiver->past.im,
                                                              receiver->past.abs, re, im, counter);

    receiver->state = answered.state;
    return answered.refusal;
}

/* Takes samples from a block, as tetra_sample would one by one: up to the first that hands a slot over, and no refused one.
 *
 * samples: n of them, re and im in turn: 2 n floats.
 * first: the counter of the first sample; the others have the next ones.
 *
 * Where `slot` is true the slot waits: take it, then feed what is left, from samples + 2 * taken and first + taken on.
 * Where `refusal` is not 0 (1, 2 or 10) the sample at `taken` is refused. Otherwise all samples were taken.
 * Cost: some 10 to 15 nanoseconds a sample taken, windows included.
 */
static inline struct tetra_fed tetra_feed(struct tetra_receiver *receiver, const float *samples, size_t n, int64_t first)
{
    struct tetra_state_fed fed = tetra_state_feed(receiver->state, receiver->past.re, receiver->past.im, receiver->past.abs,
                                                  samples, 2 * n, first);
    struct tetra_fed told = { fed.taken, fed.slot, fed.refusal };

    receiver->state = fed.state;
    return told;
}

/* Takes zeros for samples that are missing, as tetra_feed would a block of them.
 *
 * n: how many; first: the counter of the first that is missing.
 *
 * It stops as tetra_feed does: where `slot` is true take the slot, then go on with n - taken zeros from first + taken on.
 * Cost: as tetra_feed.
 */
static inline struct tetra_fed tetra_feed_zeros(struct tetra_receiver *receiver, size_t n, int64_t first)
{
    static const float zeros[2 * 1020] = { 0.0f };
    struct tetra_fed told = { 0, false, TETRA_ACCEPTED };

    while (told.taken < n && !told.slot && told.refusal == TETRA_ACCEPTED) {
        size_t left = n - told.taken;
        struct tetra_fed fed = tetra_feed(receiver, zeros, left < 1020 ? left : 1020, first + (int64_t)told.taken);

        told.taken += fed.taken;
        told.slot = fed.slot;
        told.refusal = fed.refusal;
    }
    return told;
}

/* Takes the slot that was handed over last.
 *
 * slot, subslot1, subslot2: 510, 254 and 254 bytes that are lent for the call. An accepted call fills each with a view's
 *   bits and zeros behind them: that of the whole slot and, of an uplink receiver, those of its halves.
 *
 * The slot's closing_counter is that of its own window whenever it is taken: refused calls, orders to follow and the windows
 * of a search leave it. Where its window closed in a gap it is the missing sample's, not that of the sample that brought the
 * zeros; where one sample handed several slots over it is the last one's.
 *
 * The refusal is 0, 3 or 11. A slot is taken once, and a slot that is not taken is lost when the next one is handed over.
 * Cost: the lent bytes are filled once, and the state is copied a few times: a fraction of a microsecond.
 */
static inline struct tetra_taken tetra_take(struct tetra_receiver *receiver, uint8_t *slot, size_t slot_len,
                                            uint8_t *subslot1, size_t subslot1_len, uint8_t *subslot2, size_t subslot2_len)
{
    struct tetra_state_taken taken =
        tetra_state_take(receiver->state, slot, slot_len, subslot1, subslot1_len, subslot2, subslot2_len);
    struct tetra_taken told = { taken.refusal, taken.slot };

    receiver->state = taken.state;
    return told;
}

/* Has an uplink receiver follow the slot timing of a downlink one.
 *
 * receiver: in mode Idle or Ul, on the other's axis of counters; a receiver that finds its own timing is refused.
 * other: the one to follow. If it searches, the receiver turns Idle; if it is locked, the receiver turns Ul and takes over
 *   its reference time, and an Idle one its last slot number too. The other moves its reference time as it tracks its
 *   carrier: give the order again from time to time, as after each slot.
 *
 * Returns the refusal, 0 or 13. Cost: the states are copied a few times: a fraction of a microsecond.
 */
static inline uint32_t tetra_follow(struct tetra_receiver *receiver, const struct tetra_receiver *other)
{
    struct tetra_state_answered answered = tetra_state_follow(receiver->state, other->state);

    receiver->state = answered.state;
    return answered.refusal;
}

/* ---- Senders
 *
 * A sender is a struct of 260 bytes that goes in by value; the next one comes back.
 */

/* A sender's state: the filter line, and the phase of the last symbol in eighths of a turn (any number counts modulo 8). */
struct tetra_sender {
    struct tetra_filter filter;
    uint8_t phase;
};

/* What a block of sent samples came to. */
struct tetra_sent {
    size_t count;     /* so many samples were written */
    uint32_t refusal; /* the refusal of the next sample, or 0 */
    struct tetra_sender sender;
};

/* A sent sample, or the refusal; then the parts are 0. */
struct tetra_sent_sample {
    uint32_t refusal;
    float re;
    float im;
    struct tetra_sender sender;
};

/* A new sender: nothing sent so far, phase 0. Cost: the struct is filled once. */
struct tetra_sender tetra_sender_new(void);

/* Sends one sample.
 *
 * counter: its number, 0 to 137,438,953,471.
 * slot: the slot that is sent, 0 to 283,115,519. Slot n has the counters from 1020 * n - 16 on, 1,020 of them (the filter's
 *   delay is 16 samples); before them a sample is silence, behind them it is refused with 12: give the next slot.
 * has_bits: 0 for a slot without a burst; then the bits are not looked at.
 * bits: 510 bytes, 0 or 1, in every call for the slot.
 *
 * The refusal is 0, 2, 3, 4, 6 or 12. Cost: 510 bytes are checked and 32 samples filtered; about a tenth of a microsecond.
 */
struct tetra_sent_sample tetra_send_sample(struct tetra_sender sender, int64_t counter, uint32_t slot, uint32_t has_bits,
                                           const uint8_t *bits, size_t bits_len);

/* Sends samples of one slot, as tetra_send_sample would one by one: as many as there is room for, or up to the first that
 * is refused.
 *
 * first: the counter of the first sample; the others have the next ones.
 * slot, has_bits, bits, bits_len: as above.
 * out: room for the samples, re and im in turn. What is behind the samples written is left as it was.
 *
 * `count` samples were written. Where `refusal` is not 0 the next sample is refused by it; 12 at the end of the slot. A call
 * with room for no sample is refused as the first sample would be.
 * Cost: the bits are checked once, then some 10 nanoseconds a sample.
 */
struct tetra_sent tetra_send(struct tetra_sender sender, int64_t first, uint32_t slot, uint32_t has_bits, const uint8_t *bits,
                             size_t bits_len, float *out, size_t out_len);

/* ---- Burst builders
 *
 * They need no state: blocks in, a burst's bits out.
 */

/* Builds a synchronization burst (EN 300 392-2, 9.4.4.2.6).
 *
 * blk1, bbk, blk2: its blocks, one byte a bit, 0 or 1: 120, 30 and 216 of them.
 * bits: 510 bytes that are lent for the call. An accepted call fills them with the burst's bits.
 *
 * Returns 0, 3 or 4. Cost: each bit is read and written a few times; under a microsecond.
 */
uint32_t tetra_build_sync(const uint8_t *blk1, size_t blk1_len, const uint8_t *bbk, size_t bbk_len, const uint8_t *blk2,
                          size_t blk2_len, uint8_t *bits, size_t bits_len);

/* Builds a normal downlink burst (EN 300 392-2, 9.4.4.2.5).
 *
 * train: its training sequence, 1 or 2.
 * blk1, bbk, blk2: as above, 216, 30 and 216 of them.
 * bits: as above.
 *
 * Returns 0, 3, 4 or 5. Cost: as above.
 */
uint32_t tetra_build_normal(uint32_t train, const uint8_t *blk1, size_t blk1_len, const uint8_t *bbk, size_t bbk_len,
                            const uint8_t *blk2, size_t blk2_len, uint8_t *bits, size_t bits_len);

/* Builds a normal uplink burst (EN 300 392-2, 9.4.4.2.4), as a handset sends it.
 *
 * train: its training sequence, 1 or 2.
 * blk1, blk2: its blocks, one byte a bit, 0 or 1: 216 of each.
 * bits: 462 bytes that are lent for the call. An accepted call fills them with the burst's bits.
 *
 * tetra_judge of kind 1 looks for it at the even offsets from 0 to 48 of a window, 510 bits: placed at one of them among bits
 * that are otherwise 0, it is told with its type, its offset and 0 errors. Unless its blocks hold a sequence too, where kind 1
 * looks for one: its own at an earlier offset, or for sequence 2 the first sequence, with at most one wrong bit.
 *
 * Returns 0, 3, 4 or 5. Cost: as above.
 */
uint32_t tetra_build_normal_uplink(uint32_t train, const uint8_t *blk1, size_t blk1_len, const uint8_t *blk2, size_t blk2_len,
                                   uint8_t *bits, size_t bits_len);

/* Builds a control uplink burst (EN 300 392-2, 9.4.4.2.1), as a handset sends it in half a slot.
 *
 * blk1, blk2: its blocks, one byte a bit, 0 or 1: 84 of each.
 * bits: 206 bytes that are lent for the call. An accepted call fills them with the burst's bits.
 *
 * tetra_judge of kind 2 looks for it at the even offsets from 0 to 48 of a window, 254 bits, and tells it there as above, unless
 * its first block holds the extended sequence at an earlier offset.
 *
 * Returns 0, 3 or 4. Cost: as above.
 */
uint32_t tetra_build_control_uplink(const uint8_t *blk1, size_t blk1_len, const uint8_t *blk2, size_t blk2_len, uint8_t *bits,
                                    size_t bits_len);

/* ---- The call logger
 *
 * It judges the kept bits of a window again, as the receiver judged them. The bits are those of the receiver's state, to be
 * kept when its slot is taken, before more samples are fed: of a downlink receiver state.full_bits, kind 0; of an uplink one
 * state.full_bits, kind 1, and the first 254 of state.subslot1_bits and state.subslot2_bits, kind 2. (What tetra_take fills
 * in is the burst's own part of them, and zeros where none was found.)
 */

/* Slot kinds, and how many bits their windows have. */
#define TETRA_DOWNLINK 0u    /* 510 */
#define TETRA_UPLINK_FULL 1u /* 510 */
#define TETRA_UPLINK_HALF 2u /* 254 */

#define TETRA_ANSWER_BYTES 6u

/* Judges a window's kept bits.
 *
 * bits: one byte a bit, 0 or 1; 510 of them for kinds 0 and 1, 254 for kind 2.
 * answer: 6 bytes that are lent for the call. An accepted call fills them:
 *   0     burst type
 *   1     wrong bits in its training sequence (0 or 1), 100 where there is no burst
 *   2, 3  place of the burst in the window, low byte first
 *   4, 5  length of the burst, low byte first: 510, 462 or 206
 * Where there is no burst, type, place and length are 0.
 *
 * Returns 0, 3, 4 or 7. For a kind above 2 the number of bits is not judged, but the bits and the answer's length are.
 * Cost: each bit byte is read once, then at most 25 placings of each of two sequences are compared; a fraction of a microsecond.
 */
uint32_t tetra_judge(uint32_t kind, const uint8_t *bits, size_t bits_len, uint8_t *answer, size_t answer_len);

#ifdef __cplusplus
}
#endif

#endif
