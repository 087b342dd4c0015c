/* How much stack a call of the library takes, with the return address and the arguments that stand there: a stack of
 * its own is painted, the call is made on it, and the lowest byte that changed is looked for. Prints for each call the
 * most that it took, opened tables of 1 and of 64 flows, refused calls and Idle among them, and blocks of the log card,
 * full ones and others.
 *
 * tools/bench --stack builds and runs it. It has to be compiled without optimisation and with
 * -maccumulate-outgoing-args: then the stack pointer does not move while the arguments of a call are put there. */
#include <stdint.h>
#include <stdio.h>
#include <string.h>
#include <ucontext.h>
#include "card.h"
#include "uplink.h"

enum { STACK_BYTES = 1 << 16, PAINT = 0xa5, MOST_FLOWS = 64, PACKETS = 200, WORD_BYTES = 8 };
enum call { OPENING, ARRIVAL, PICK, DEPTH, WRITE, READ, CALLS };

static unsigned char stack[STACK_BYTES] __attribute__((aligned(4096)));
static unsigned char *top; /* where the stack stood before the call and its arguments */
static ucontext_t measuring, measured;
static uint64_t record[UPLINK_RECORD_WORDS], reply[UPLINK_REPLY_WORDS], depth[UPLINK_DEPTH_WORDS];
static uint16_t lengths[UPLINK_PLACES];
static uint32_t handles[UPLINK_PLACES], shares[MOST_FLOWS], largest[MOST_FLOWS];
static uint32_t flows, header, flow, length;
static struct card_block content;
static uint8_t block[CARD_BLOCK_BYTES];
static size_t block_bytes;
static long most[CALLS];

/* Notes the top: so many arguments of the call that follows stand on the stack. */
#define NOTE_TOP(arguments)                                                                                            \
    do {                                                                                                               \
        __asm__ volatile("mov %%rsp, %0" : "=r"(top));                                                                 \
        top += WORD_BYTES * (arguments);                                                                               \
    } while (0)

static void call_opening(void)
{
    NOTE_TOP(5);
    uplink_opening(shares, flows, largest, flows, header, record, UPLINK_RECORD_WORDS, lengths, UPLINK_PLACES, handles,
                   UPLINK_PLACES);
}

static void call_arrival(void)
{
    NOTE_TOP(3);
    uplink_arrival(flow, length, 7, record, UPLINK_RECORD_WORDS, lengths, UPLINK_PLACES, handles, UPLINK_PLACES);
}

static void call_pick(void)
{
    NOTE_TOP(2);
    uplink_pick(record, UPLINK_RECORD_WORDS, lengths, UPLINK_PLACES, handles, UPLINK_PLACES, reply, UPLINK_REPLY_WORDS);
}

static void call_depth(void)
{
    NOTE_TOP(0);
    uplink_depth(flow, record, UPLINK_RECORD_WORDS, depth, UPLINK_DEPTH_WORDS);
}

static void call_write(void)
{
    NOTE_TOP(0);
    card_write(&content.number, CARD_CONTENT_WORDS, block, block_bytes);
}

static void call_read(void)
{
    NOTE_TOP(0);
    card_read(block, block_bytes, &content.number, CARD_CONTENT_WORDS);
}

/* Makes the call on a painted stack. */
static void measure(enum call call)
{
    static void (*const calls[CALLS])(void) = {call_opening, call_arrival, call_pick, call_depth, call_write,
                                                call_read};
    long lowest = 0;

    memset(stack, PAINT, sizeof stack);
    getcontext(&measured);
    measured.uc_stack.ss_sp = stack;
    measured.uc_stack.ss_size = sizeof stack;
    measured.uc_link = &measuring;
    makecontext(&measured, calls[call], 0);
    swapcontext(&measuring, &measured);
    while (stack[lowest] == PAINT)
        lowest++;
    if (top - (stack + lowest) > most[call])
        most[call] = top - (stack + lowest);
}

/* A table of so many flows: packets come and go to Idle; then calls that are refused. */
static void measure_table(uint32_t count)
{
    flows = count;
    header = 12;
    measure(OPENING);
    for (uint32_t k = 0; k < PACKETS; k++) {
        flow = k % flows;
        length = 1 + k;
        measure(ARRIVAL);
        measure(DEPTH);
    }
    for (uint32_t k = 0; k <= PACKETS; k++)
        measure(PICK);
    header = UINT32_MAX;
    measure(OPENING);
    measure(ARRIVAL);
    measure(PICK);
}

/* A block of so many entries, written and read; then the same with a field outside the rules, and of another size. */
static void measure_block(uint64_t count)
{
    content = (struct card_block){.number = 7, .count = count};
    for (uint64_t k = 0; k < count; k++)
        content.entries[k] = (struct card_entry){CARD_LEAP, 63, 1500, UINT32_MAX, UINT64_MAX};
    block_bytes = CARD_BLOCK_BYTES;
    measure(WRITE);
    measure(READ);
    block[4] ^= 1;
    measure(READ);
    content.entries[0].flow = 64;
    measure(WRITE);
    block_bytes--;
    measure(WRITE);
    measure(READ);
}

int main(void)
{
    static const char *const names[CALLS] = {"opening", "arrival", "pick", "depth", "write", "read"};

    for (uint32_t f = 0; f < MOST_FLOWS; f++) {
        shares[f] = 15;
        largest[f] = 1500;
    }
    measure_table(1);
    measure_table(MOST_FLOWS);
    measure_block(1);
    measure_block(CARD_ENTRIES);
    for (int call = 0; call < CALLS; call++)
        printf("%-8s %6ld bytes\n", names[call], most[call]);
    return 0;
}
