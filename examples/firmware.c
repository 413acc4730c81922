/*
 * Four calls of mlgd_decode: a block that is decoded, the same with finer levels, one that fails,
 * one that is refused. It prints what examples/firmware.txt has.
 *
 *   make firmware
 *   cc -std=c11 -Wall -Wextra -Werror -Wconversion -Idist/include examples/firmware.c \
 *       -Ldist/lib -lmlgd -o dist/firmware && dist/firmware
 */
#include <mlgd.h>
#include <stdio.h>
#include <string.h>

/* Code A: seven bits and seven checks, three bits in each check and three checks on each bit. */
enum { N = 7, M = 7, RHO = 3, GAMMA = 3 };

static const uint16_t rows[M * RHO] = {
    0, 1, 3, 1, 2, 4, 2, 3, 5, 3, 4, 6, 0, 4, 5, 1, 5, 6, 0, 2, 6,
};

/* The width of a level, the most rounds of voting and the level step. */
struct setting {
    uint16_t bits, limit;
    float step;
};

/* What a call writes. */
struct written {
    uint8_t word[MLGD_WORD_BYTES(N)];
    uint8_t levels[MLGD_LEVEL_BYTES(N)];
    uint8_t report[MLGD_REPORT_BYTES];
};

/* Writes a number low byte first, whatever the machine's own order. */
static void put16(uint8_t *at, uint16_t number)
{
    at[0] = (uint8_t)(number & 0xff);
    at[1] = (uint8_t)(number >> 8);
}

static void put32(uint8_t *at, uint32_t number)
{
    put16(at, (uint16_t)(number & 0xffff));
    put16(at + 2, (uint16_t)(number >> 16));
}

/* Reads a number that stands low byte first. */
static unsigned get16(const uint8_t *at)
{
    return at[0] + 256u * at[1];
}

/* The 32 bits of a float. */
static uint32_t bits_of(float number)
{
    uint32_t bits;
    memcpy(&bits, &number, sizeof bits);
    return bits;
}

/* Reads a level: two bytes in two's complement, low byte first. */
static int level_at(const uint8_t *at)
{
    int number = (int)get16(at);
    return number < 0x8000 ? number : number - 0x10000;
}

/* Decodes one block of code A by a level step. */
static uint32_t decode(const struct setting *by, const uint32_t samples[N], struct written *out)
{
    uint8_t list_bytes[MLGD_LIST_BYTES(M, RHO)];
    uint8_t sample_bytes[MLGD_SAMPLE_BYTES(N)];
    for (size_t i = 0; i < M * RHO; i++) {
        put16(list_bytes + 2 * i, rows[i]);
    }
    for (size_t j = 0; j < N; j++) {
        put32(sample_bytes + 4 * j, samples[j]);
    }
    return mlgd_decode(N, M, RHO, GAMMA, list_bytes, sizeof list_bytes,
                       by->bits, by->limit, MLGD_LEVEL_STEP, bits_of(by->step),
                       sample_bytes, sizeof sample_bytes,
                       out->word, sizeof out->word,
                       out->levels, sizeof out->levels,
                       out->report, sizeof out->report);
}

/* Prints what was written. */
static void print_written(const struct written *out)
{
    printf("rounds %u, failing %u, changed %u, word ", get16(out->report), get16(out->report + 2),
           get16(out->report + 4));
    for (size_t i = 0; i < sizeof out->word; i++) {
        printf("%02x", (unsigned)out->word[i]);
    }
    printf(", levels");
    for (size_t j = 0; j < N; j++) {
        printf(" %d", level_at(out->levels + 2 * j));
    }
    printf("\n");
}

/* Decodes a block and prints a line. The buffers are filled before: a refusal leaves them. */
static void show(const char *name, struct setting by, const uint32_t samples[N])
{
    struct written out, before;
    memset(&before, 0xee, sizeof before);
    out = before;
    uint32_t returned = decode(&by, samples, &out);
    printf("%s: ", name);
    if (MLGD_REFUSAL(returned) != 0) {
        const char *left = memcmp(&out, &before, sizeof out) == 0 ? "nothing" : "something";
        printf("refused %u at %u, %s written\n", (unsigned)MLGD_REFUSAL(returned),
               (unsigned)MLGD_PLACE(returned), left);
        return;
    }
    printf("%s, ", returned == MLGD_DECODED ? "decoded" : "failed");
    print_written(&out);
}

int main(void)
{
    uint32_t samples[N];
    samples[0] = bits_of(0.5f);
    for (size_t j = 1; j < N; j++) {
        samples[j] = bits_of(-1.0f);
    }
    const struct setting coarse = {3, 5, 0.5f}, fine = {12, 255, 0.5f / 512}, none = {3, 0, 0.5f};
    show("limit 5", coarse, samples);
    show("12 bits", fine, samples);
    show("limit 0", none, samples);
    samples[4] = 0x7fc00000; /* not a number */
    show("sample 4 not a number", coarse, samples);
    return 0;
}
