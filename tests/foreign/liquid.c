/* Sends bursts with another maker's modulator: liquid-dsp's own pi/4-DQPSK (1.5 has it, in Debian 12) and its
 * root-raised-cosine filter of roll-off 0.35. Lines of bursts in, as tetra_tx takes them, and raw samples out, half as strong
 * as ours, 150 Hz off, 0.3 of a sample late and with noise. Only the 510 bits of a burst are made with our builders. */
#include <complex.h>
#include <liquid/liquid.h>
#include <math.h>
#include <stdio.h>
#include <string.h>

#include "tetra_modem.h"

#define SYMBOLS 255
#define PER_SYMBOL 4
#define DELAY 12      /* symbols, of the filter */
#define LATE 0.075f   /* symbols: 0.3 of a sample */
#define GAIN 0.5f
#define NOISE 0.02f
#define TURN (2.0 * M_PI * 150.0 / 72000.0)

static firinterp_crcf filter;
static modem pi4dqpsk;
static unsigned long counter;

static void send(float complex symbol)
{
    float complex out[PER_SYMBOL];

    firinterp_crcf_execute(filter, symbol, out);
    for (int i = 0; i < PER_SYMBOL; i++) {
        float complex sample = GAIN * out[i] * cexpf(_Complex_I * (float)fmod(TURN * (double)counter++, 2.0 * M_PI));
        float parts[2] = {crealf(sample) + NOISE * randnf(), cimagf(sample) + NOISE * randnf()};

        fwrite(parts, sizeof parts[0], 2, stdout);
    }
}

/* liquid-dsp's symbols turn as EN 300 392-2 has it: 00 +1, 01 +3, 10 -1, 11 -3 eighths of a turn. */
static void send_burst(const uint8_t *bits)
{
    float complex symbol;

    for (int i = 0; i < SYMBOLS; i++) {
        modem_modulate(pi4dqpsk, 2u * bits[2 * i] + bits[2 * i + 1], &symbol);
        send(symbol);
    }
}

static void send_silence(int symbols)
{
    while (symbols-- > 0)
        send(0.0f);
}

int main(void)
{
    char line[1024];
    uint8_t in[480], bits[TETRA_SLOT_BITS];

    filter = firinterp_crcf_create_prototype(LIQUID_FIRFILT_RRC, PER_SYMBOL, DELAY, 0.35f, LATE);
    pi4dqpsk = modem_create(LIQUID_MODEM_PI4DQPSK);
    while (fgets(line, sizeof line, stdin) != NULL) {
        char *text = strchr(line, ' ');
        uint32_t refusal = TETRA_BAD_LENGTH;
        size_t n = 0;

        if (line[0] == '#')
            continue;
        if (strncmp(line, "empty", 5) == 0) {
            send_silence(SYMBOLS);
            continue;
        }
        while (text != NULL && n < sizeof in && (text[n + 1] == '0' || text[n + 1] == '1')) {
            in[n] = (uint8_t)(text[n + 1] - '0');
            n++;
        }
        if (strncmp(line, "sync ", 5) == 0 && n == 366)
            refusal = tetra_build_sync(in, 120, in + 120, 30, in + 150, 216, bits, sizeof bits);
        else if (strncmp(line, "normal", 6) == 0 && n == 462)
            refusal = tetra_build_normal((uint32_t)(line[6] - '0'), in, 216, in + 216, 30, in + 246, 216, bits, sizeof bits);
        if (refusal != TETRA_ACCEPTED) {
            fprintf(stderr, "liquid: not a burst: %.20s\n", line);
            return 1;
        }
        send_burst(bits);
    }
    send_silence(SYMBOLS);
    firinterp_crcf_destroy(filter);
    modem_destroy(pi4dqpsk);
    return 0;
}
