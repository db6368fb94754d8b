/* The control bytes as numbers: within the limits, about them, on the brink of a width, or anything. */
#include <string.h>

#include "fuzz.h"

enum { WITHIN, ABOUT, BRINK, ANYTHING, NUMBER_MANNERS };

static const uint8_t *bytes;

void set_control(const uint8_t *from) { bytes = from; }

unsigned control(int at) { return bytes[at]; }

uint64_t control_word(int at) {
    uint64_t word;
    memcpy(&word, bytes + at, sizeof word);
    return word;
}

int64_t control_whole(int at, int manner, int64_t most) {
    static const int64_t brinks[] = {0,   1,   -1,    4095,  -4095, 4096,      -4096,     16,          -16,      17,
                                     -17, 256, 65536, 32768, -32768, 1ll << 32, 1 + (1ll << 32), INT64_MAX, INT64_MIN, 128};
    uint64_t word = control_word(at);
    switch (manner % NUMBER_MANNERS) {
        case WITHIN: return (int64_t)(word % (uint64_t)(2 * most + 1)) - most;
        case ABOUT: return (int64_t)(word % (uint64_t)(2 * most + 9)) - most - 4;
        case BRINK: return brinks[word % (sizeof brinks / sizeof *brinks)];
        default: return (int64_t)word;
    }
}

double control_double(int at, int manner) {
    static const double brinks[] = {0.0,  -0.0,   0.5,    -0.5, 4095,  4095.0000000001, 4096, -4095, -4096, 1e308,
                                    1.0,  -1e308, 5e-324, 16,   -16,   17,              -17,  0x1p53, 0x1p64, 0x1p63};
    double any;
    switch (manner % NUMBER_MANNERS) {
        case WITHIN: return (double)control_whole(at, ABOUT, 4095);
        case ABOUT: return (double)control_whole(at, ABOUT, 16);
        case BRINK: return brinks[control_word(at) % (sizeof brinks / sizeof *brinks)];
        default: memcpy(&any, bytes + at, sizeof any); return any;
    }
}
