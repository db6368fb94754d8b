/*
 * Vertices in doubles, every bit pattern as it comes, NaNs of any payload too: takes those on standard input, sixteen doubles to an entry, and prints
 * for each what the table of doubles has, from the record that was written.
 */
#include "bodhranhaze.h"
#include "libc.h"

static int taken(const double *v) {
    uint8_t record[9 + 4], kept[9 + 4];
    memset(record, 0xa5, sizeof record);
    memcpy(kept, record, sizeof record);
    size_t number = bodhranhaze_take(v[0], v[1], v[2], v[3], record, sizeof record);
    size_t place = bodhranhaze_take_place(v[0], v[1], v[2], v[3]);
    for (size_t room = 0; room < 9; room++) {
        uint8_t small[9 + 4];
        memcpy(small, kept, sizeof small);
        if (bodhranhaze_take(v[0], v[1], v[2], v[3], small, room) != (number ? number : 13)) printf("wrong with room %d\n", (int)room);
        if (memcmp(small, kept, sizeof small)) printf("written with room %d\n", (int)room);
    }
    if (number) {
        printf("refused %d %d\n", (int)number, (int)place);
        if (memcmp(record, kept, sizeof record)) printf("written under a refusal\n");
        return 0;
    }
    if (place || memcmp(record, "VX", 2) || memcmp(record + 9, kept + 9, 4)) printf("wrong record\n");
    printf("taken");
    for (int i = 2; i < 8; i += 2) printf(" %d", (int16_t)(uint16_t)(record[i] | record[i + 1] << 8));
    printf(" %d\n", (signed char)record[8]);
    return 1;
}

int main(void) {
    double entry[16];
    for (;;) {
        size_t length = 0;
        long n;
        while ((n = read(0, (char *)entry + length, sizeof entry - length)) > 0) length += (size_t)n;
        if (length < sizeof entry) return 0;
        for (int i = 0; i < 16; i += 4) taken(entry + i);
    }
}
