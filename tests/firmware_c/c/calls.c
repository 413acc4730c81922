/*
 * Reads calls of mlgd_decode from standard input and prints a line for each: the returned number,
 * the three written buffers in hexadecimal digits, and whether the bytes around them were kept.
 */
#include "stream.h"

static void print_bytes(const struct buffer *b)
{
    putchar(' ');
    putchar('x');
    for (size_t i = 0; i < b->length; i++) {
        printf("%02x", (unsigned)b->bytes[i]);
    }
}

static int print_call(struct call *c)
{
    struct buffer *written[3] = {&c->word, &c->levels, &c->report};
    int kept = 1;
    printf("%lu", (unsigned long)decode(c));
    for (size_t i = 0; i < 3; i++) {
        print_bytes(written[i]);
        kept = kept && guards_stand(written[i]);
    }
    return puts(kept ? " kept" : " touched") != EOF;
}

int main(void)
{
    int place;
    while ((place = getchar()) != EOF) {
        struct call c = read_call((uint32_t)place);
        if (!print_call(&c)) {
            give_up("standard output can't be written");
        }
        give_back(&c.list);
        give_back(&c.samples);
        give_back(&c.word);
        give_back(&c.levels);
        give_back(&c.report);
    }
    return 0;
}
