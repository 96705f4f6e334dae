/* A part for one player: opens a score, puts notes into a voice as records, lets the last one be longer, and prints the bars as text.
 *
 *     (cd crates/capi && rt lib)
 *     gcc -O2 -Iinclude clients/part.c crates/capi/out/libcapi.a -o /tmp/part && /tmp/part
 */
#include <inttypes.h>
#include <stdio.h>
#include <stdlib.h>

#include "engraver.h"

enum { KEY = 8, BAR = 144, VOICES = 1, EVENTS = 64, SILENCE = 70 };

struct score {
    uint32_t *words;
    size_t word_count;
    uint8_t *bytes;
    size_t byte_count;
};

/* An event for a voice, as engraver_put_records reads it. */
struct record {
    uint32_t voice;
    uint32_t place; /* 7 times the octave and a step from c to b, or SILENCE */
    uint32_t alteration;
    uint32_t length;
};

static const char STEPS[] = "cdefgab";
static const char *const SIGNS[] = {"", "--", "-", "n", "#", "x"};

static void stop(const char *what, int64_t number)
{
    fprintf(stderr, "%s: refused %" PRIu32 " at %" PRIu32 "\n", what, engraver_refusal(number), engraver_place(number));
    exit(1);
}

/* A number in four bytes, the low one first. */
static uint8_t *four(uint8_t *at, uint32_t n)
{
    for (int i = 0; i < 4; i++)
        *at++ = (uint8_t)(n >> (8 * i));
    return at;
}

static uint32_t of_four(const uint8_t *at)
{
    return at[0] | (uint32_t)at[1] << 8 | (uint32_t)at[2] << 16 | (uint32_t)at[3] << 24;
}

static int64_t call(struct score *score, const uint8_t *input, size_t count)
{
    return engraver_call(score->words, score->word_count, score->bytes, score->byte_count, input, count);
}

/* Opens a score in memory of its own. */
static struct score opened(void)
{
    int64_t words = engraver_words(KEY, BAR, VOICES, EVENTS);
    int64_t bytes = engraver_bytes(KEY, BAR, VOICES, EVENTS);
    if (words < 0)
        stop("sizes", words);
    struct score score = {malloc((size_t)words * sizeof(uint32_t)), (size_t)words, malloc((size_t)bytes), (size_t)bytes};
    if (!score.words || !score.bytes) {
        fprintf(stderr, "no memory\n");
        exit(1);
    }
    int64_t done = engraver_open(score.words, score.word_count, score.bytes, score.byte_count, KEY, BAR, VOICES, EVENTS);
    if (done < 0)
        stop("open", done);
    return score;
}

/* Puts events last in their voices. */
static void put(struct score *score, const struct record *records, size_t count)
{
    int64_t refusal;
    int64_t done = engraver_put_records(score->words, score->word_count, (const uint32_t *)records, 4 * count, &refusal);
    if (done < 0)
        stop("put", done);
    if (refusal < 0)
        stop("put", refusal);
}

/* Changes the event of an index in a voice into a note. */
static void change(struct score *score, uint32_t index, struct record note)
{
    uint8_t input[14] = {2};
    uint8_t *at = four(four(input + 1, note.voice), index);
    *at++ = 0;
    *at++ = (uint8_t)note.place;
    *at++ = (uint8_t)note.alteration;
    *at++ = (uint8_t)(note.length & 255);
    *at++ = (uint8_t)(note.length >> 8);
    int64_t number = call(score, input, sizeof input);
    if (number < 0)
        stop("change", number);
}

/* Prints bars of a voice, a line for each. */
static void show(struct score *score, uint32_t voice, uint32_t bar, uint32_t count)
{
    uint8_t input[13] = {3};
    four(four(four(input + 1, voice), bar), count);
    int64_t number = call(score, input, sizeof input);
    if (number < 0)
        stop("show", number);
    uint32_t symbols = of_four(score->bytes + 1);
    for (const uint8_t *s = score->bytes + 5; symbols > 0; symbols--, s += 5) {
        unsigned value = s[3] | (unsigned)s[4] << 8;
        if (s[0] == 0)
            printf("|\n");
        else if (s[0] == 3)
            printf("r%u ", value);
        else
            printf("%s%c%d:%u%s ", SIGNS[s[2]], STEPS[s[1] % 7], s[1] / 7, value, s[0] == 2 ? "~" : "");
    }
    printf("\n");
}

int main(void)
{
    static const struct record notes[] = {
        {0, 32, 2, 48}, {0, 31, 3, 48}, {0, 31, 2, 72}, {0, 31, 3, 24}, {0, SILENCE, 0, 60}, {0, 29, 3, 180}, {0, 28, 2, 24},
    };
    size_t count = sizeof notes / sizeof notes[0];
    struct score score = opened();
    put(&score, notes, count);
    change(&score, (uint32_t)count - 1, (struct record){0, 28, 2, 48});
    show(&score, 0, 0, 16);
    free(score.words);
    free(score.bytes);
    return 0;
}
