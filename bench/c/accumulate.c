/* The program in the accumulate form, as one writes it in C: the same output for the same input.
   Each round takes the parity of every row anew, adds 1 at the columns of those that fail, and then
   goes over all levels and bits. Only sizes and lengths are looked at: the rest of the matrix and the
   setting are accepted ones. */
#include <stdint.h>
#include <stdio.h>
#include <string.h>

enum { MOST_COLUMNS = 1023, MOST_ROWS = 1023, MOST_WEIGHT = 32, MOST_BLOCKS = 65535 };

struct code {
    unsigned n, m, rho;
    uint16_t list[MOST_ROWS * MOST_WEIGHT];
    uint8_t weight[MOST_COLUMNS];
};

/* A float's magnitude is digits times 2 to the power of shift, in units of the smallest one. */
struct magnitude {
    uint64_t digits;
    int shift;
};

struct setting {
    unsigned limit;
    int largest;
    uint64_t gain;
    struct magnitude step;
};

struct block {
    int16_t level[MOST_COLUMNS];
    uint8_t bit[MOST_COLUMNS];
    uint8_t votes[MOST_COLUMNS];
    uint8_t received[MOST_COLUMNS];
    uint8_t decided[MOST_COLUMNS]; /* 1 where the level at opening is not 0. */
};

static unsigned number_at(const uint8_t *two)
{
    return two[0] | (unsigned)two[1] << 8;
}

static uint32_t float_at(const uint8_t *four)
{
    return number_at(four) | (uint32_t)number_at(four + 2) << 16;
}

static struct magnitude magnitude_of(uint32_t bits)
{
    uint32_t field = bits >> 23 & 0xFF, digits = bits & 0x7FFFFF;
    struct magnitude all = { digits, 0 };
    if (field > 0) {
        all.digits |= 0x800000;
        all.shift = (int)field - 1;
    }
    return all;
}

/* The nearest level, half-ways away from 0. Beyond 27 places of difference the quotient is 0 or above
   the largest level, as it is at 27. */
static int level_of(const struct setting *setting, uint32_t bits)
{
    struct magnitude sample = magnitude_of(bits);
    uint64_t dividend = setting->gain * sample.digits, divisor = setting->step.digits;
    int places = sample.shift - setting->step.shift;
    if (places > 0)
        dividend <<= places < 27 ? places : 27;
    else
        divisor <<= -places < 27 ? -places : 27;
    uint64_t quotient = (2 * dividend + divisor) / (2 * divisor);
    int level = quotient < (uint64_t)setting->largest ? (int)quotient : setting->largest;
    return bits >> 31 ? -level : level;
}

/* Levels and hard bits; gives the first place of a sample that is not finite, or n. */
static unsigned open_block(const struct code *code, const struct setting *setting,
                           const uint8_t *samples, struct block *block)
{
    for (unsigned j = 0; j < code->n; j++) {
        uint32_t bits = float_at(samples + 4 * j);
        if ((bits & 0x7F800000) == 0x7F800000)
            return j;
        int level = level_of(setting, bits);
        block->level[j] = (int16_t)level;
        block->bit[j] = bits != 0 && bits >> 31 == 0;
        block->decided[j] = level != 0;
    }
    memcpy(block->received, block->bit, code->n);
    return code->n;
}

/* Votes of the failing rows; gives how many fail. */
static unsigned count_votes(const struct code *code, struct block *block)
{
    unsigned failing = 0, rho = code->rho;
    memset(block->votes, 0, code->n);
    for (unsigned i = 0; i < code->m; i++) {
        const uint16_t *row = code->list + i * rho;
        unsigned parity = 0;
        for (unsigned k = 0; k < rho; k++)
            parity ^= block->bit[row[k]];
        if (parity) {
            failing++;
            for (unsigned k = 0; k < rho; k++)
                block->votes[row[k]]++;
        }
    }
    return failing;
}

/* A failing row speaks for the other bit, each other row for the bit that stands. */
static void update(const struct code *code, int largest, struct block *block)
{
    for (unsigned j = 0; j < code->n; j++) {
        int e = 2 * block->votes[j] - code->weight[j];
        int level = block->level[j] + (block->bit[j] ? -e : e);
        if (level > largest)
            level = largest;
        if (level < -largest)
            level = -largest;
        block->level[j] = (int16_t)level;
        block->bit[j] = level > 0;
    }
}

static void print_block(const struct code *code, const struct block *block, unsigned number,
                        unsigned rounds, unsigned failing)
{
    char word[2 * ((MOST_COLUMNS + 7) / 8) + 1];
    unsigned changed = 0, length = 0;
    for (unsigned j = 0; j < code->n; j++)
        changed += block->decided[j] & (block->bit[j] ^ block->received[j]);
    for (unsigned j = 0; j < code->n; j += 8) {
        unsigned byte = 0;
        for (unsigned k = j; k < j + 8; k++)
            byte = byte << 1 | (k < code->n ? block->bit[k] : 0);
        word[length++] = "0123456789abcdef"[byte >> 4];
        word[length++] = "0123456789abcdef"[byte & 15];
    }
    word[length] = 0;
    printf("%u %s %u %u %u %s\n", number, failing ? "failed" : "decoded", rounds, failing, changed, word);
}

/* 1 where the head is whole and its sizes fit. */
static int read_head(struct code *code, struct setting *setting)
{
    static uint8_t head[2 * MOST_ROWS * MOST_WEIGHT + 7];
    if (fread(head, 1, 8, stdin) < 8)
        return puts("short"), 0;
    code->n = number_at(head);
    code->m = number_at(head + 2);
    code->rho = number_at(head + 4);
    if (code->n > MOST_COLUMNS || code->m > MOST_ROWS || code->rho > MOST_WEIGHT)
        return puts("refused 1 0"), 0;
    size_t ones = (size_t)code->m * code->rho;
    if (fread(head, 1, 2 * ones + 7, stdin) < 2 * ones + 7)
        return puts("short"), 0;
    for (size_t k = 0; k < ones; k++) {
        code->list[k] = (uint16_t)number_at(head + 2 * k);
        code->weight[code->list[k]]++;
    }
    const uint8_t *rest = head + 2 * ones;
    setting->largest = (1 << (rest[0] - 1)) - 1;
    setting->limit = rest[1];
    setting->gain = rest[2] ? (uint64_t)setting->largest : 1;
    setting->step = magnitude_of(float_at(rest + 3));
    return 1;
}

int main(void)
{
    static struct code code;
    static struct block block;
    static uint8_t samples[4 * MOST_COLUMNS];
    struct setting setting;
    puts("block end rounds failing changed word");
    if (!read_head(&code, &setting))
        return 0;
    for (unsigned number = 0; number < MOST_BLOCKS; number++) {
        size_t count = fread(samples, 1, 4 * code.n, stdin);
        if (count < 4 * code.n) {
            if (count > 0)
                puts("short");
            break;
        }
        unsigned place = open_block(&code, &setting, samples, &block);
        if (place < code.n) {
            printf("%u refused 8 %u\n", number, place);
            continue;
        }
        unsigned rounds = 0, failing;
        while ((failing = count_votes(&code, &block)) > 0 && rounds < setting.limit) {
            update(&code, setting.largest, &block);
            rounds++;
        }
        print_block(&code, &block, number, rounds, failing);
    }
    return 0;
}
