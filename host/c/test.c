/* The C interface from C: document 01's printed example, refusals, short
 * output. */
#include <stdio.h>
#include <string.h>

#include "niyumbek.h"

enum { RECORD = 2530, BITS = 6, CELLS = 3, ANSWER = NIYUMBEK_ANSWER_LENGTH(BITS), CHANNEL = 12 * CELLS };

static const uint8_t fields[6] = {0x70, 0x01, 0x05, 0x00, 0x00, 0x00};
static const uint8_t one[4] = {0x3F, 0x80, 0x00, 0x00};

/* Model 0 0, scale 1, none spoilt; bits 0, 1 and 5 are negative zeros. */
static const uint8_t expected[ANSWER] = {
    0, 0, 0x3F, 0x80, 0, 0, 0, 0, 0, 0, /* report */
    0x80, 0, 0, 0, 0x80, 0, 0, 0, 0, 0, 0, 0, 0, 0, 0, 0, 0, 0, 0, 0, 0x80, 0, 0, 0,
};

static uint8_t record[RECORD];
static uint8_t out[NIYUMBEK_MAX_ANSWER];
static uint8_t channel[NIYUMBEK_MAX_CHANNEL];
static int failed;

static void check(int holds, const char *what)
{
    if (!holds) {
        printf("failed: %s\n", what);
        failed = 1;
    }
}

/* Whether the bytes from `from` on still have what `reset` put there. */
static int untouched(const uint8_t *bytes, size_t from, size_t len)
{
    for (size_t i = from; i < len; i++)
        if (bytes[i] != 0xA5)
            return 0;
    return 1;
}

/* The printed example: boost, pilot gain, p_h, five carriers' and three cells'
 * variances 1, the rest 0. */
static void reset(void)
{
    memset(record, 0, sizeof record);
    memcpy(record, fields, sizeof fields);
    for (int i = 0; i < 3 + 5 + 3; i++)
        memcpy(record + 6 + 4 * i, one, sizeof one);
    memset(out, 0xA5, sizeof out);
    memset(channel, 0xA5, sizeof channel);
}

static void printed_example(void)
{
    reset();
    check(record_bits(record, RECORD) == BITS, "bits of the printed example");
    check(refine_record(record, RECORD, out, sizeof out) == NIYUMBEK_ACCEPTED, "printed example accepted");
    check(memcmp(out, expected, ANSWER) == 0, "printed example's answer");
    check(untouched(out, ANSWER, sizeof out), "bytes past the answer");
}

static void estimates(void)
{
    reset();
    check(refine_record_channel(record, RECORD, out, ANSWER, channel, CHANNEL) == NIYUMBEK_ACCEPTED, "exact room");
    check(memcmp(out, expected, ANSWER) == 0, "the same answer with the channel");
    check(untouched(out, ANSWER, sizeof out) && untouched(channel, CHANNEL, sizeof channel), "bytes past both");
    check(channel[8] != 0xA5 && !untouched(channel, 0, CHANNEL), "estimates written");
}

/* One refusal: its number, and nothing written. */
static void refused(size_t len, uint32_t number, const char *what)
{
    check(refine_record(record, len, out, sizeof out) == number, what);
    check(refine_record_channel(record, len, out, sizeof out, channel, sizeof channel) == number, what);
    check(untouched(out, 0, sizeof out) && untouched(channel, 0, sizeof channel), "output of a refusal");
}

static void refusals(void)
{
    reset();
    refused(RECORD - 1, NIYUMBEK_RECORD, "record too short");
    check(record_bits(record, RECORD - 1) == 0, "bits of a record too short");
    record[5] = 1;
    refused(RECORD, NIYUMBEK_RECORD, "record padded with a 1");
    reset();
    record[0] = 0x90;
    refused(RECORD, NIYUMBEK_LAYOUT, "layout 9");
    reset();
    record[1] = 0;
    refused(RECORD, NIYUMBEK_SYMBOLS, "no data symbols");
    reset();
    record[RECORD - 4] = 0x7F; /* with the next byte: infinity */
    record[RECORD - 3] = 0x80;
    refused(RECORD, NIYUMBEK_NUMBERS, "infinity in the grid");
}

static void short_output(void)
{
    reset();
    check(refine_record(record, RECORD, out, ANSWER - 1) == NIYUMBEK_ROOM, "answer one byte short");
    check(refine_record_channel(record, RECORD, out, ANSWER, channel, CHANNEL - 1) == NIYUMBEK_ROOM,
          "estimates one byte short");
    check(untouched(out, 0, sizeof out) && untouched(channel, 0, sizeof channel), "short output");
}

int main(void)
{
    printed_example();
    estimates();
    refusals();
    short_output();
    puts(failed ? "C interface: FAILED" : "C interface: passed");
    return failed;
}
