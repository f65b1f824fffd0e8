/* Measures the receiver's limits: a downlink that liquid-dsp sends goes through a channel of liquid-dsp's into this library,
 * and what is handed over is held against what was sent.
 *
 *     limits noise | frequency | clock | outage | silence
 *
 * prints a table. The status is 1 where a burst was handed over under another slot's number. Only the 510 bits of a burst are
 * made with our builders. */
#include <complex.h>
#include <liquid/liquid.h>
#include <math.h>
#include <stdio.h>
#include <stdlib.h>
#include <string.h>

#include "tetra_modem.h"

#define RATE 72000.0 /* samples a second */
#define PER_SYMBOL 4
#define SYMBOLS 255 /* a slot */
#define SLOT (PER_SYMBOL * SYMBOLS)
#define DELAY 12             /* symbols, of the sending filter */
#define COUNTED 2000         /* slots of a point, behind .. */
#define LEAD 20              /* .. those in which the receiver locks */
#define OUTAGES 20           /* of a length, .. */
#define BETWEEN (120 * SLOT) /* .. and the samples from one to the next */
#define MOST 6000            /* slots of the longest run */
#define NOISE_ALONE 40000000 /* samples */
#define CLEAN INFINITY

/* Bursts share their training sequences and other fixed bits. Even so two of them differ in more places than this, and one
 * that is received in far fewer from what was sent. */
#define CLOSE (TETRA_SLOT_BITS / 4)

struct channel {
    double noise;  /* Es/N0 in dB */
    double hertz;  /* how far the carrier is off */
    double ppm;    /* how much faster the receiver samples */
    size_t outage; /* samples; 0 for none */
};

struct run {
    struct tetra_receiver receiver;
    int64_t counter;
    bool named;       /* whether it is known which slot the receiver calls 0 .. */
    uint32_t origin;  /* .. and which it is */
    bool right[MOST]; /* slots handed over with their type, under their number */
    size_t locks, bursts, wrong_bits;
};

static uint8_t sent[MOST][TETRA_SLOT_BITS];
static uint8_t types[MOST];
static float complex air[MOST * SLOT];
static double energy; /* of a symbol, behind the sending filter */
static struct run run;
static size_t other_number, of_no_slot; /* such bursts, in all runs */

/* A synchronization burst in every fourth slot, normal ones between. */
static void build(size_t slot)
{
    uint8_t blk1[216], bbk[30], blk2[216];

    for (size_t i = 0; i < 216; i++) {
        blk1[i] = randf() < 0.5f;
        blk2[i] = randf() < 0.5f;
    }
    for (size_t i = 0; i < 30; i++)
        bbk[i] = randf() < 0.5f;
    types[slot] = slot % 4 == 1 ? TETRA_SYNC : slot % 4 == 3 ? TETRA_NORMAL_2 : TETRA_NORMAL_1;
    if (types[slot] == TETRA_SYNC)
        tetra_build_sync(blk1, 120, bbk, 30, blk2, 216, sent[slot], TETRA_SLOT_BITS);
    else
        tetra_build_normal(types[slot], blk1, 216, bbk, 30, blk2, 216, sent[slot], TETRA_SLOT_BITS);
}

/* liquid-dsp's symbols turn as EN 300 392-2 has it: 00 +1, 01 +3, 10 -1, 11 -3 eighths of a turn. */
static void send_all(void)
{
    modem pi4dqpsk = modem_create(LIQUID_MODEM_PI4DQPSK);
    firinterp_crcf filter = firinterp_crcf_create_prototype(LIQUID_FIRFILT_RRC, PER_SYMBOL, DELAY, 0.35f, 0.0f);
    float complex *out = air, symbol;
    double power = 0.0;

    srand(1);
    for (size_t slot = 0; slot < MOST; slot++) {
        build(slot);
        for (size_t i = 0; i < SYMBOLS; i++, out += PER_SYMBOL) {
            modem_modulate(pi4dqpsk, 2u * sent[slot][2 * i] + sent[slot][2 * i + 1], &symbol);
            firinterp_crcf_execute(filter, symbol, out);
        }
    }
    for (size_t i = 0; i < MOST * SLOT; i++)
        power += creal(air[i] * conjf(air[i]));
    energy = PER_SYMBOL * power / (MOST * SLOT);
    firinterp_crcf_destroy(filter);
    modem_destroy(pi4dqpsk);
}

static size_t differing(const uint8_t *a, const uint8_t *b)
{
    size_t count = 0;

    for (size_t i = 0; i < TETRA_SLOT_BITS; i++)
        count += a[i] != b[i];
    return count;
}

/* Which slot the bits are of, or MOST. Those of a burst that an outage cuts are not close, but nearest, to its own. */
static uint32_t slot_of(const uint8_t *bits, uint32_t expected)
{
    uint32_t nearest = MOST;
    size_t least = TETRA_SLOT_BITS + 1;

    if (expected < MOST && differing(bits, sent[expected]) <= CLOSE)
        return expected;
    for (uint32_t slot = 0; slot < MOST; slot++) {
        size_t count = differing(bits, sent[slot]);

        if (count < least) {
            least = count;
            nearest = slot;
        }
    }
    return least <= CLOSE || nearest == expected ? nearest : MOST;
}

/* Takes the slot that was handed over. The first burst of each lock tells which slot the numbers count from. */
static void take(void)
{
    uint8_t bits[TETRA_SLOT_BITS], half1[TETRA_HALF_SLOT_BITS], half2[TETRA_HALF_SLOT_BITS];
    struct tetra_slot taken =
        tetra_take(&run.receiver, bits, sizeof bits, half1, sizeof half1, half2, sizeof half2).slot;
    uint32_t expected = run.named ? run.origin + taken.time : MOST, slot;

    if (taken.full.train_type == TETRA_NONE)
        return;
    slot = slot_of(bits, expected);
    if (slot == MOST) {
        of_no_slot++;
        return;
    }
    if (run.named && slot != expected) {
        other_number++;
        return;
    }
    run.named = true;
    run.origin = slot - taken.time;
    run.bursts++;
    run.wrong_bits += differing(bits, sent[slot]);
    run.right[slot] = taken.full.train_type == types[slot];
}

static void feed(const float complex *block, size_t count)
{
    while (count > 0) {
        bool searched = run.receiver.state.mode == TETRA_MODE_DL_SEARCHING;
        struct tetra_fed fed = tetra_feed(&run.receiver, (const float *)block, count, run.counter);

        if (fed.refusal != TETRA_ACCEPTED) {
            fprintf(stderr, "limits: a sample is refused\n");
            exit(1);
        }
        if (searched && run.receiver.state.mode == TETRA_MODE_DL) {
            run.locks++;
            run.named = false;
        }
        if (fed.slot)
            take();
        block += fed.taken;
        count -= fed.taken;
        run.counter += (int64_t)fed.taken;
    }
}

static void begin(int seed)
{
    memset(&run, 0, sizeof run);
    tetra_receiver_init(&run.receiver, TETRA_MODE_DL_SEARCHING);
    srand((unsigned int)seed);
}

/* With Es the energy of PER_SYMBOL samples, N0 is the noise's power in one: it is white over the 72 kHz. */
static void add_noise(float complex *block, size_t count, double es_n0)
{
    float deviation = (float)sqrt(energy / pow(10.0, es_n0 / 10.0));

    for (size_t i = 0; i < count && es_n0 != CLEAN; i++)
        cawgn(&block[i], deviation);
}

/* Sends so many slots through a channel to a new receiver. Where there are outages the signal comes first, then one. */
static void receive(const struct channel *channel, size_t slots, int seed)
{
    resamp_crcf clock = resamp_crcf_create((float)(1.0 + channel->ppm * 1e-6), 12, 0.45f, 60.0f, 256);
    nco_crcf carrier = nco_crcf_create(LIQUID_VCO);
    float complex in[SLOT], out[2 * SLOT];
    unsigned int count;

    begin(seed);
    nco_crcf_set_frequency(carrier, (float)(2.0 * M_PI * channel->hertz / RATE));
    for (size_t at = 0; at < slots * SLOT; at += SLOT) {
        memcpy(in, air + at, sizeof in);
        for (size_t i = 0; i < SLOT && channel->outage != 0; i++)
            if ((at + i) % (BETWEEN + channel->outage) >= BETWEEN)
                in[i] = 0.0f;
        resamp_crcf_execute_block(clock, in, SLOT, out, &count);
        nco_crcf_mix_block_up(carrier, out, out, count);
        add_noise(out, count, channel->noise);
        feed(out, count);
    }
    nco_crcf_destroy(carrier);
    resamp_crcf_destroy(clock);
}

/* How many of the slots from `from` on to before `to` were not received with their type. */
static size_t missing(size_t from, size_t to)
{
    size_t count = 0;

    for (size_t slot = from; slot < to; slot++)
        count += !run.right[slot];
    return count;
}

/* Runs a point, and prints its wrong bits and its slots without a type, two columns. The last window closes a few samples
 * behind its slot. */
static void print_rates(const struct channel *channel, int seed)
{
    receive(channel, LEAD + COUNTED + 1, seed);
    if (run.bursts == 0)
        printf(" - |");
    else
        printf(" %.2g |", (double)run.wrong_bits / (double)(run.bursts * TETRA_SLOT_BITS));
    printf(" %.4g |", (double)missing(LEAD, LEAD + COUNTED) / COUNTED);
}

/* The wrong bits of ideal differential detection of Gray coded DQPSK: Q1(a, b) - I0(ab) exp(-(a^2 + b^2) / 2) / 2 as an
 * integral (Simon and Alouini, Digital Communication over Fading Channels), summed. */
static double ideal(double es_n0)
{
    double eb_n0 = pow(10.0, es_n0 / 10.0) / 2.0, sum = 0.0;
    double b_squared = 2.0 * eb_n0 * (1.0 + M_SQRT1_2), ratio = M_SQRT2 - 1.0; /* a / b */
    int steps = 1000;

    for (int i = 0; i < steps; i++) {
        double u = 1.0 + 2.0 * ratio * sin(2.0 * M_PI * i / steps) + ratio * ratio;

        sum += (1.0 - ratio * ratio) / u * exp(-b_squared / 2.0 * u);
    }
    return sum / steps / 2.0;
}

static void noise(void)
{
    printf("| Es/N0, dB | wrong bits | slots without a type | wrong bits, ideal |\n|---|---|---|---|\n");
    for (int db = 6; db <= 20; db++) {
        printf("| %d |", db);
        print_rates(&(struct channel){.noise = db}, db);
        printf(" %.2g |\n", ideal(db));
    }
}

/* The head of a table without noise and at 15 dB; `of` is what varies. */
static void print_head(const char *of)
{
    printf("| %s | wrong bits | slots without a type | wrong bits, 15 dB | slots without a type, 15 dB |\n", of);
    printf("|---|---|---|---|---|\n");
}

static void print_row(int value, struct channel channel)
{
    printf("| %d |", value);
    channel.noise = CLEAN;
    print_rates(&channel, value);
    channel.noise = 15.0;
    print_rates(&channel, value);
    printf("\n");
}

static void frequency(void)
{
    print_head("offset, Hz");
    for (int hertz = -2500; hertz <= 2500; hertz += 100)
        print_row(hertz, (struct channel){.hertz = hertz});
}

static void clock_error(void)
{
    print_head("clock error, ppm");
    for (int ppm = -200; ppm <= 200; ppm += 20)
        print_row(ppm, (struct channel){.ppm = ppm});
}

/* Prints how often the receiver locked anew, and of the whole slots from an outage to the next how many were lost, in all and
 * at most (120 are sent). */
static void print_outages(int tenths, double ppm)
{
    size_t outage = (size_t)(RATE / 10.0) * (size_t)tenths, cycle = BETWEEN + outage, all = 0, most = 0;
    struct channel channel = {.noise = 20.0, .ppm = ppm, .outage = outage};

    receive(&channel, (OUTAGES + 1) * cycle / SLOT, tenths);
    for (size_t k = 1; k <= OUTAGES; k++) {
        size_t lost = missing(k * cycle / SLOT + 1, (k * cycle + BETWEEN - DELAY * PER_SYMBOL) / SLOT);

        all += lost;
        most = lost > most ? lost : most;
    }
    printf(" %zu | %.1f | %zu |", run.locks - 1, (double)all / OUTAGES, most);
}

static void outages(void)
{
    static const int tenths[] = {1, 2, 5, 10, 12, 13, 14, 15, 20};

    printf("| outage, s | locked anew, 10 ppm | slots lost | at most | locked anew, 20 ppm | slots lost | at most |\n");
    printf("|---|---|---|---|---|---|---|\n");
    for (size_t i = 0; i < sizeof tenths / sizeof tenths[0]; i++) {
        printf("| %.1f |", tenths[i] / 10.0);
        print_outages(tenths[i], 10.0);
        print_outages(tenths[i], 20.0);
        printf("\n");
    }
}

static void silence(void)
{
    float complex block[SLOT];
    size_t samples = 0;

    begin(1);
    for (; samples < NOISE_ALONE; samples += SLOT) {
        memset(block, 0, sizeof block);
        add_noise(block, SLOT, 0.0);
        feed(block, SLOT);
    }
    printf("locks in %zu samples of noise alone: %zu\n", samples, run.locks);
}

int main(int argc, char **argv)
{
    static const struct {
        const char *name;
        void (*measure)(void);
    } sweeps[] = {
        {"noise", noise}, {"frequency", frequency}, {"clock", clock_error}, {"outage", outages}, {"silence", silence},
    };

    for (size_t i = 0; argc == 2 && i < sizeof sweeps / sizeof sweeps[0]; i++)
        if (strcmp(argv[1], sweeps[i].name) == 0) {
            send_all();
            sweeps[i].measure();
            printf("\nbursts under another slot's number: %zu; bursts that no slot had: %zu\n\n", other_number, of_no_slot);
            return other_number != 0;
        }
    fprintf(stderr, "usage: limits noise|frequency|clock|outage|silence\n");
    return 2;
}
