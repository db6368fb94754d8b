/*
 * Everything of a scene in one call, held against the calls beside it, on a thread with 64 KiB of stack. The words of the command line are scenes; of each
 * the report is printed from what the one call told, to be compared with the report that the program prints.
 */
#include "bodhranhaze.h"
#include "libc.h"

enum { LONGEST = BODHRANHAZE_LONGEST + 1, PLACES = BODHRANHAZE_PLACES, FACTS = BODHRANHAZE_FACTS, GUARD = 8, SCENES = 128 };

static struct { uint8_t bytes[LONGEST]; size_t length; } scenes[SCENES];
static int scene_count;
static uint16_t list[PLACES + GUARD], other[PLACES];
static uint64_t facts[FACTS + GUARD];

static void expect(int holds, const char *what) {
    if (!holds) {
        printf("failed: %s\n", what);
        exit(1);
    }
}

static void lend(void) {
    memset(list, 0xa5, sizeof list);
    memset(facts, 0xa5, sizeof facts);
}

static int is_kept(const void *from, const void *end) {
    for (const uint8_t *at = from; at < (const uint8_t *)end; at++)
        if (*at != 0xa5) return 0;
    return 1;
}

/* What the calls say one by one; 0 where a refused scene has nothing. */
static void expect_alike(const uint8_t *scene, size_t length) {
    size_t pairs = bodhranhaze_pairs(scene, length);
    expect(facts[1] == bodhranhaze_place(scene, length) && facts[2] == bodhranhaze_verdict(scene, length), "place or verdict");
    expect(facts[3] == pairs && facts[4] == bodhranhaze_inside(scene, length, 1) && facts[5] == bodhranhaze_inside(scene, length, 2), "counts");
    expect((size_t)__builtin_popcountll(facts[6]) == facts[4] && (size_t)__builtin_popcountll(facts[7]) == facts[5], "the words of the enclosed vertices");
    expect(bodhranhaze_listing(scene, length, other, PLACES) == pairs, "a listing's count");
    expect(memcmp(list, other, 6 * pairs) == 0, "the listing");
    expect(is_kept(list + 3 * pairs, list + PLACES + GUARD) && is_kept(facts + FACTS, facts + FACTS + GUARD), "something behind was written");
}

static void survey(const uint8_t *scene, size_t length) {
    size_t refusal = bodhranhaze_refusal(scene, length);
    lend();
    expect(bodhranhaze_survey(scene, length, list, PLACES, facts, FACTS - 1) == 13, "seven places for facts");
    expect(is_kept(list, list + PLACES) && is_kept(facts, facts + FACTS), "something was written under 13");
    expect(bodhranhaze_survey(scene, length, list, PLACES, facts, FACTS) == refusal && facts[BODHRANHAZE_FACT_REFUSAL] == refusal, "the refusal");
    expect_alike(scene, length);
    size_t pairs = (size_t)facts[3];
    expect(bodhranhaze_listing_refusal(scene, length, 3 * pairs) == refusal && bodhranhaze_inside_refusal(scene, length, 3) == (refusal ? refusal : 11),
           "why a question is refused");
    if (pairs == 0) return;
    lend();
    expect(bodhranhaze_survey(scene, length, list, 3 * pairs - 1, facts, FACTS) == 10 && facts[0] == 10 && facts[1] == pairs, "a list one place too short");
    expect(is_kept(list, list + PLACES) && facts[3] == pairs, "something was written under 10");
    bodhranhaze_survey(scene, length, list, PLACES, facts, FACTS);
}

static void print_report(const uint8_t *scene) {
    static const char *const verdicts[] = {"cross", "a-in-b", "b-in-a", "apart"};
    if (facts[0] != 0) {
        printf("refused %d %d\n", (int)facts[0], (int)facts[1]);
        return;
    }
    printf("scene %d %d %d %d\n", scene[2], scene[3], scene[4], scene[5]);
    printf("verdict %s\ninside %d %d\npairs %d\n", verdicts[facts[2]], (int)facts[4], (int)facts[5], (int)facts[3]);
    for (size_t i = 0; i < facts[3]; i++) printf("%d %d %d\n", list[3 * i], list[3 * i + 1], list[3 * i + 2]);
}

/* Each scene, and the same with one byte turned, at every seventh place. */
static void *play(void *nothing) {
    for (int k = 0; k < scene_count; k++) {
        uint8_t *scene = scenes[k].bytes;
        for (size_t i = 0; i < scenes[k].length; i += 7) {
            scene[i] ^= 1;
            survey(scene, scenes[k].length);
            scene[i] ^= 1;
        }
        survey(scene, scenes[k].length);
        print_report(scene);
    }
    return nothing;
}

static void load(const char *path) {
    expect(scene_count < SCENES, "too many scenes");
    int file = open(path, 0);
    expect(file >= 0, path);
    long n = read(file, scenes[scene_count].bytes, LONGEST);
    expect(n >= 0, path);
    close(file);
    scenes[scene_count++].length = (size_t)n;
}

int main(int words, char **word_of) {
    pthread_attr_t attributes;
    pthread_t thread;
    for (int i = 1; i < words; i++) load(word_of[i]);
    expect(scene_count > 0, "no scenes");
    expect(pthread_attr_init(&attributes) == 0 && pthread_attr_setstacksize(&attributes, 65536) == 0, "no stack of 64 KiB");
    expect(pthread_create(&thread, &attributes, play, NULL) == 0 && pthread_join(thread, NULL) == 0, "no thread");
    return 0;
}
