/*
 * A viewer's redraw, played: thousands of calls of the fit light on one set of counts, which are compared after each call with a tally of the
 * answers. The words of the command line are pairs: a colour's number and the scene that has it. Everything runs on a thread with 64 KiB of stack.
 */
#include "bodhranhaze.h"
#include "libc.h"

enum { GREEN = BODHRANHAZE_GREEN, AMBER = BODHRANHAZE_AMBER, RED = BODHRANHAZE_RED, DARK = BODHRANHAZE_DARK, UNCOUNTED = BODHRANHAZE_UNCOUNTED };
enum { LONGEST = 2048, SCENES = 128, GUARD = 8, MOST = 1000000 };

static struct { uint8_t bytes[LONGEST]; size_t length, colour; } scenes[SCENES];
static int scene_count;
static uint8_t lent[16 + GUARD];
static uint32_t tally[4];
static unsigned long calls;
static uint64_t seed = 1;

static void fail(const char *what) {
    printf("failed after %lu calls: %s\n", calls, what);
    exit(1);
}

static void expect(int holds, const char *what) {
    if (!holds) fail(what);
}

static uint32_t chance(uint32_t below) {
    seed = seed * 6364136223846793005u + 1442695040888963407u;
    return (uint32_t)(seed >> 33) % below;
}

static uint32_t word(const uint8_t *at) {
    return (uint32_t)at[0] | (uint32_t)at[1] << 8 | (uint32_t)at[2] << 16 | (uint32_t)at[3] << 24;
}

static void set_word(uint8_t *at, uint32_t n) {
    for (int i = 0; i < 4; i++) at[i] = (uint8_t)(n >> 8 * i);
}

/* The counts are the tally, and the bytes behind them are untouched. */
static void expect_counts(void) {
    for (int k = 0; k < 4; k++) expect(word(lent + 4 * k) == tally[k], "a count differs from the tally");
    for (int i = 16; i < 16 + GUARD; i++) expect(lent[i] == 0xa5, "a byte behind the counts was written");
}

/* The colour by the verdict, whose numbers are 0 cross, 1 a-in-b, 2 b-in-a, 3 apart, 4 refused. */
static size_t colour_by_verdict(const uint8_t *scene, size_t length) {
    static const size_t colours[] = {RED, AMBER, AMBER, GREEN, DARK};
    return colours[bodhranhaze_verdict(scene, length)];
}

/* One redraw: the answer is the colour wanted, and dark exactly where the scene is refused. */
static void redraw(const uint8_t *scene, size_t length, size_t colour) {
    size_t answer = bodhranhaze_light(scene, length, lent, 16);
    calls++;
    expect(answer == colour, "another colour");
    expect((answer == DARK) == (bodhranhaze_refusal(scene, length) != 0), "dark is not refused");
    tally[answer]++;
    expect_counts();
}

static void redraw_any(const uint8_t *scene, size_t length) {
    redraw(scene, length, colour_by_verdict(scene, length));
}

static void start(void) {
    memset(lent, 0, 16);
    memset(lent + 16, 0xa5, GUARD);
    memset(tally, 0, sizeof tally);
}

static void play_examples(void) {
    for (int turn = 0; turn < 4000; turn++) {
        int i = (int)chance((uint32_t)scene_count);
        redraw(scenes[i].bytes, scenes[i].length, scenes[i].colour);
    }
}

/* Bytes changed, cut off and added by chance. */
static void play_damage(void) {
    uint8_t scene[LONGEST];
    for (int turn = 0; turn < 4000; turn++) {
        int i = (int)chance((uint32_t)scene_count);
        size_t length = scenes[i].length;
        memcpy(scene, scenes[i].bytes, length);
        for (uint32_t n = chance(3); n > 0 && length > 0; n--) scene[chance((uint32_t)length)] = (uint8_t)chance(256);
        if (chance(8) == 0) length = chance((uint32_t)length + 1);
        if (chance(8) == 0 && length < LONGEST) scene[length++] = (uint8_t)chance(256);
        redraw_any(scene, length);
    }
}

static void play_empty(void) {
    for (int turn = 0; turn < 100; turn++) redraw(lent, 0, DARK);
}

/*
 * Two tetrahedra, A the workpiece and B the clamp: 129 bytes, SC at 0, FP at 6, A's vertices at 15, 24, 33, 42, B's at 51, 60, 69, 78, faces from 87 on.
 */
static size_t bench(uint8_t *scene) {
    static const int16_t rows[9][3] = {{100, 101, 103}, {0, 0, 0}, {40, 0, 0}, {0, 40, 0}, {0, 0, 40},
                                       {60, 1, 1}, {90, 11, 2}, {93, -7, 3}, {91, 2, 17}};
    static const uint8_t corners[4][3] = {{1, 2, 3}, {1, 2, 4}, {1, 3, 4}, {2, 3, 4}};
    size_t at = 0;
    memcpy(scene, "SC\4\4\4\4", 6);
    for (at = 6; at < 87; at += 9) {
        memcpy(scene + at, at == 6 ? "FP" : "VX", 2);
        for (int j = 0; j < 3; j++) {
            uint16_t n = (uint16_t)rows[at / 9][j];
            scene[at + 2 + 2 * j] = (uint8_t)n;
            scene[at + 3 + 2 * j] = (uint8_t)(n >> 8);
        }
        scene[at + 8] = 1;
    }
    for (int f = 0; f < 8; f++, at += 5) {
        memcpy(scene + at, "FC", 2);
        memcpy(scene + at + 2, corners[f % 4], 3);
    }
    memcpy(scene + at, "EN", 2);
    return at + 2;
}

/* The clamp's first vertex is dragged to x; the viewer keeps it in doubles. */
static void drag(uint8_t *scene, double x, double w, size_t refusal) {
    expect(bodhranhaze_take(x, 1.0, 1.0, w, scene + 51, 9) == refusal, "the vertex is not taken as it should be");
}

/* The same by the kernel's own move: the vertex is point 5. */
static void move(uint8_t *scene, size_t length, int64_t x, int64_t w, size_t refusal) {
    expect(bodhranhaze_move(scene, length, 5, x, 1, 1, w) == refusal, "the vertex is not moved as it should be");
}

/* Dragged from outside into the workpiece and out again; in mid-drag the weight is zero for one redraw. */
static void play_drag(void) {
    uint8_t scene[LONGEST], kept[LONGEST];
    size_t length = bench(scene);
    int seen[4] = {0, 0, 0, 0};
    for (int turn = 0; turn < 20; turn++) {
        for (int x = 60; x >= -60; x -= 2) {
            if (turn % 2)
                move(scene, length, x, 1, 0);
            else
                drag(scene, x, 1.0, 0);
            size_t colour = colour_by_verdict(scene, length);
            redraw(scene, length, colour);
            seen[colour] = 1;
            if (x != 20) continue;
            expect(colour == RED, "a clamp that cuts its workpiece is red");
            memcpy(kept, scene, length);
            drag(scene, x, -0.0, 6);
            drag(scene, x + 0.5, 1.0, 15);
            move(scene, length, x, 0, 6);
            move(scene, length, 4096, 1, 5);
            expect(memcmp(kept, scene, length) == 0, "a refused vertex was written");
            scene[51 + 8] = 0;
            redraw(scene, length, DARK);
            expect(bodhranhaze_refusal(scene, length) == 6 && bodhranhaze_place(scene, length) == 6, "weight zero is 6, record 6");
            move(scene, length, x, 1, 6);
            scene[51 + 8] = 1;
            redraw(scene, length, RED);
        }
    }
    expect(seen[GREEN] && seen[RED], "the drag passes green and red");
}

/* 16 is answered, and the counts keep their contents. */
static void expect_uncounted(uint8_t *counts, size_t length) {
    uint8_t kept[sizeof lent + 4];
    memcpy(kept, counts, sizeof lent);
    for (int i = 0; i < scene_count; i++)
        expect(bodhranhaze_light(scenes[i].bytes, scenes[i].length, counts, length) == UNCOUNTED, "counts that are not answered 16");
    expect(bodhranhaze_light(counts, 0, counts, length) == UNCOUNTED, "16 comes before an empty scene's dark");
    expect(memcmp(kept, counts, sizeof lent) == 0, "counts were written under 16");
}

static void play_uncounted(void) {
    uint8_t counts[sizeof lent];
    memset(counts, 0, sizeof counts);
    static const size_t lengths[] = {0, 1, 4, 12, 15, 17, 20, 24};
    for (size_t i = 0; i < sizeof lengths / sizeof *lengths; i++) expect_uncounted(counts, lengths[i]);
    static const uint32_t full[][4] = {
        {MOST, 0, 0, 0}, {0, MOST, 0, 0}, {0, 0, MOST, 0}, {0, 0, 0, MOST}, {250000, 250000, 250000, 250000}, {999999, 0, 0, 1},
        {0x80000000u, 0x80000000u, 0, 0}, {0xffffffffu, 1, 0, 0}, {0xffffffffu, 0xffffffffu, 0xffffffffu, 0xffffffffu}};
    for (size_t i = 0; i < sizeof full / sizeof *full; i++) {
        for (int k = 0; k < 4; k++) set_word(counts + 4 * k, full[i][k]);
        expect_uncounted(counts, 16);
    }
}

/* The last call that is counted, and those after it. */
static void play_last(void) {
    for (int i = 0; i < scene_count; i++) {
        start();
        for (int k = 0; k < 4; k++) set_word(lent + 4 * k, tally[k] = k == 3 ? 249999 : 250000);
        redraw(scenes[i].bytes, scenes[i].length, scenes[i].colour);
        expect_uncounted(lent, 16);
        expect_counts();
    }
}

static void *play(void *unused) {
    start();
    play_examples();
    play_damage();
    play_empty();
    play_drag();
    play_uncounted();
    play_last();
    return unused;
}

static void load(const char *colour, const char *path) {
    int file = open(path, 0);
    if (file < 0 || scene_count == SCENES) fail(path);
    long n, length = 0;
    while ((n = read(file, scenes[scene_count].bytes + length, (size_t)(LONGEST - length))) > 0) length += n;
    close(file);
    scenes[scene_count].length = (size_t)length;
    scenes[scene_count++].colour = (size_t)atoi(colour);
}

int main(int words, char **word_of) {
    pthread_attr_t attributes;
    pthread_t thread;
    for (int i = 1; i + 1 < words; i += 2) load(word_of[i], word_of[i + 1]);
    expect(scene_count > 0, "no scenes");
    expect(pthread_attr_init(&attributes) == 0 && pthread_attr_setstacksize(&attributes, 65536) == 0, "no stack of 64 KiB");
    expect(pthread_create(&thread, &attributes, play, NULL) == 0 && pthread_join(thread, NULL) == 0, "no thread");
    printf("%lu redraws of %d scenes and their damage are counted as they should be\n", calls, scene_count);
    return 0;
}
