/*
 * Reads one call of mlgd_decode from standard input, runs it on a thread whose stack was painted
 * before, and prints the returned number, how many bytes of the stack it used, and how many the
 * header allows.
 */
#include "stream.h"
#include <pthread.h>

enum { STACK = 512 * 1024, PAINT = 0x5c };

struct run {
    struct call call;
    uint32_t returned;
    uint8_t *top;
};

/* The stack below this function's frame is what the call needs. */
static void *on_thread(void *lent)
{
    struct run *run = lent;
    run->top = __builtin_frame_address(0);
    run->returned = decode(&run->call);
    return NULL;
}

static uint8_t *painted_stack(void)
{
    uint8_t *stack = mmap(NULL, STACK, PROT_READ | PROT_WRITE, MAP_PRIVATE | MAP_ANONYMOUS, -1, 0);
    if (stack == MAP_FAILED) {
        give_up("no memory for the stack");
    }
    memset(stack, PAINT, STACK);
    return stack;
}

int main(void)
{
    struct run run;
    pthread_attr_t attributes;
    pthread_t thread;
    int place = getchar();
    if (place == EOF) {
        give_up("no call");
    }
    run.call = read_call((uint32_t)place);
    uint8_t *stack = painted_stack();
    if (pthread_attr_init(&attributes) != 0 || pthread_attr_setstack(&attributes, stack, STACK) != 0
        || pthread_create(&thread, &attributes, on_thread, &run) != 0
        || pthread_join(thread, NULL) != 0) {
        give_up("no thread on the painted stack");
    }
    uint8_t *lowest = stack;
    while (lowest < run.top && *lowest == PAINT) {
        lowest++;
    }
    printf("%lu %lu %lu\n", (unsigned long)run.returned, (unsigned long)(run.top - lowest),
           (unsigned long)MLGD_STACK_BYTES);
    return 0;
}
