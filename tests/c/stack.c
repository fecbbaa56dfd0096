/* Measures the stack of each call: `stack FILE` paints a stack, makes a call on it and looks how far down the paint is gone. It
   takes File Seven (FILE), a largest file and one input for each refusal, and prints the bytes of each call; status 1 if one of them took more
   than PREEMPT_STACK_BYTES. The return address counts, and what memcpy and memset take; what a dynamic linker takes to find these does not, so
   link with -z now. */
#define _XOPEN_SOURCE 700
#include <preempt.h>
#include <stdio.h>
#include <string.h>
#include <ucontext.h>

enum { BLOCK = PREEMPT_BLOCK_BYTES, STACK_WORDS = 1 << 15, N_MOST = 64, M_MOST = 32, READS_MOST = 124 };

static _Alignas(16) uint64_t stack[STACK_WORDS];
static ucontext_t caller, callee;
static int wrong;

/* What the next call is given, and what it returned. */
static const uint8_t *file, *points;
static size_t file_len, points_len, block_len;
static uint8_t block[BLOCK];
static uint32_t returned;

static void nothing(void) {}

static void plan(void) {
    returned = preempt_plan(file, file_len, block, block_len);
}

static void price(void) {
    returned = preempt_price(file, file_len, points, points_len, block, block_len);
}

static void (*volatile to_call)(void);

static void on_stack(void) {
    to_call();
}

/* How many bytes the painted stack has from the lowest word that was written to. */
static size_t depth(void (*call)(void)) {
    static const uint64_t paint = 0x9E3779B97F4A7C15u;
    size_t kept = 0;
    for (size_t i = 0; i < STACK_WORDS; i++)
        stack[i] = paint;
    getcontext(&callee);
    callee.uc_stack.ss_sp = stack;
    callee.uc_stack.ss_size = sizeof stack;
    callee.uc_link = &caller;
    to_call = call;
    makecontext(&callee, on_stack, 0);
    swapcontext(&caller, &callee);
    while (kept < STACK_WORDS && stack[kept] == paint)
        kept++;
    return sizeof stack - sizeof *stack * kept;
}

/* Makes a call that must return `number`, and holds its stack to the limit. What is on the stack without a call does not count. */
static void hold(const char *name, void (*call)(void), const char *input, uint32_t number) {
    size_t bytes = depth(call) - depth(nothing);
    printf("stack: %-5s %-36s %6zu bytes%s\n", name, input, bytes, bytes > PREEMPT_STACK_BYTES ? ", too many" : "");
    if (PREEMPT_NUMBER(returned) != number)
        printf("stack: that returned %u\n", (unsigned)PREEMPT_NUMBER(returned));
    wrong |= bytes > PREEMPT_STACK_BYTES || PREEMPT_NUMBER(returned) != number;
}

static void put(uint8_t *at, uint32_t value, int bytes) {
    for (int i = 0; i < bytes; i++)
        at[i] = (uint8_t)(value >> (8 * i));
}

static void seal(uint8_t *at) {
    uint32_t checksum = 2166136261u;
    for (int i = 0; i < BLOCK - 4; i++)
        checksum = (checksum ^ at[i]) * 16777619u;
    put(at + BLOCK - 4, checksum, 4);
}

/* A task file with N, M, S and the reads of every block at their most, and two numbers on each line. */
static void make_largest(uint8_t *at) {
    uint32_t drawn = 1;
    memset(at, 0, PREEMPT_FILE_BYTES_MOST);
    at[0] = 1;
    put(at + 2, N_MOST, 2);
    put(at + 4, M_MOST, 2);
    put(at + 6, 512, 2);
    put(at + 8, 5000, 4);
    put(at + 12, 10, 4);
    seal(at);
    for (uint32_t k = 1; k <= N_MOST + M_MOST; k++) {
        uint8_t *of = at + BLOCK * k;
        of[0] = k <= N_MOST ? 2 : 3;
        put(of + 2, READS_MOST, 2);
        put(of + 4, 100 + k, 4);
        for (int i = 0; i < READS_MOST; i++) {
            drawn = drawn * 1664525u + 1013904223u;
            put(of + 8 + 4 * i, drawn >> 22, 4);
        }
        put(of + BLOCK - 8, k, 4);
        seal(of);
    }
}

/* A file or a block with some bytes of one of its blocks made others, and that block's checksum right. */
static uint8_t changed[PREEMPT_FILE_BYTES_MOST];

static const uint8_t *with(const uint8_t *bytes, size_t len, size_t at, uint32_t value, int count) {
    memcpy(changed, bytes, len);
    put(changed + at, value, count);
    seal(changed + at / BLOCK * BLOCK);
    return changed;
}

/* Both calls with the file given. */
static void hold_file(const char *input, const uint8_t *bytes, size_t len, uint32_t number) {
    file = bytes;
    file_len = len;
    hold("plan", plan, input, number);
    hold("price", price, input, number);
}

static void hold_points(const char *input, const uint8_t *bytes, size_t len, uint32_t number) {
    points = bytes;
    points_len = len;
    hold("price", price, input, number);
}

static void hold_refusals(const uint8_t *largest, const uint8_t *planned) {
    static uint8_t flawed[PREEMPT_FILE_BYTES_MOST];
    static const uint8_t zeros[BLOCK];
    const size_t whole = sizeof flawed;
    memcpy(flawed, largest, whole);
    flawed[whole - 100] ^= 1;
    block_len = BLOCK - 1;
    hold_file("9, the output one byte short", largest, whole, PREEMPT_OUTPUT);
    block_len = BLOCK;
    hold_file("1, no file", NULL, 0, PREEMPT_LENGTH);
    hold_file("2, the last block", flawed, whole, PREEMPT_CHECKSUM);
    hold_file("3, S 513", with(largest, whole, 6, 513, 2), whole, PREEMPT_HEADER);
    hold_file("4, M 31", with(largest, whole, 4, 31, 2), whole, PREEMPT_BLOCK_COUNT);
    hold_file("5, 125 reads in the last block", with(largest, whole, whole - BLOCK + 2, 125, 2), whole, PREEMPT_BLOCK);
    file = with(largest, whole, 8, 100, 4);
    hold("plan", plan, "6, a limit of 100", PREEMPT_NONE_FITS);
    hold("price", price, "8, a limit of 100", PREEMPT_ABOVE_LIMIT);
    file = largest;
    hold_points("1, no points", NULL, 0, PREEMPT_LENGTH);
    hold_points("2, points of zeros", zeros, BLOCK, PREEMPT_CHECKSUM);
    hold_points("5, points of kind 3", with(planned, BLOCK, 0, 3, 1), BLOCK, PREEMPT_BLOCK);
}

int main(int argc, char **argv) {
    static uint8_t largest[PREEMPT_FILE_BYTES_MOST], seven[PREEMPT_FILE_BYTES_MOST], planned[BLOCK];
    FILE *from = argc == 2 ? fopen(argv[1], "rb") : NULL;
    if (!from) {
        printf("usage: stack FILE\n");
        return 2;
    }
    size_t seven_len = fread(seven, 1, sizeof seven, from);
    make_largest(largest);

    block_len = points_len = BLOCK;
    points = planned;
    preempt_plan(seven, seven_len, planned, BLOCK);
    hold_file("File Seven", seven, seven_len, PREEMPT_OK);
    preempt_plan(largest, sizeof largest, planned, BLOCK);
    hold_file("the largest file", largest, sizeof largest, PREEMPT_OK);
    hold_refusals(largest, planned);
    file = seven;
    file_len = seven_len;
    hold_points("7, points of another file", planned, BLOCK, PREEMPT_POINT);
    return wrong;
}
