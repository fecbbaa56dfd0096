/* Plans a task file, prices the plan's points once more, and then prices them with each point left out in turn. It prints each plan as it is
   stored in its block.

   LINKING.txt of a release says how to build it; in the repository `make example` does, as target/example/firmware. It takes a path, or reads
   standard input. Status 0, 1 if the task file is refused, 2 if it cannot be read. */
#include <inttypes.h>
#include <stdio.h>
#include <string.h>

#include "preempt.h"

/* What a refusal says, by its number. */
static const char *const words[] = {
    "",
    "wrong length",
    "wrong checksum of a block",
    "wrong header",
    "wrong count of blocks",
    "wrong block",
    "no list of points fits",
    "wrong point",
    "a region is above the limit",
    "output of a wrong length",
};

/* The number in `bytes` bytes from `at`, the lowest first. */
static uint64_t field(const uint8_t *block, size_t at, size_t bytes) {
    uint64_t value = 0;
    while (bytes > 0) {
        bytes--;
        value = value << 8 | block[at + bytes];
    }
    return value;
}

/* Stores a number in `bytes` bytes from `at`. */
static void put_field(uint8_t *block, size_t at, size_t bytes, uint64_t value) {
    for (size_t i = 0; i < bytes; i++) {
        block[at + i] = (uint8_t)(value >> (8 * i));
    }
}

/* Point `i` of a plan, from 0. */
static uint64_t point(const uint8_t *plan, size_t i) {
    return field(plan, PREEMPT_PLAN_POINTS_AT + 2 * i, 2);
}

/* 32-bit FNV-1a over all bytes before the checksum. */
static uint32_t checksum(const uint8_t *block) {
    uint32_t state = 2166136261u;
    for (size_t i = 0; i < PREEMPT_PLAN_CHECKSUM_AT; i++) {
        state = (state ^ block[i]) * 16777619u;
    }
    return state;
}

/* Makes the plan block of a plan's points without point `out`. Pricing looks at no other field of it, so they stay 0, as the block's
   number must. */
static void leave_out(const uint8_t *plan, size_t out, uint8_t *block) {
    size_t count = (size_t)field(plan, PREEMPT_PLAN_COUNT_AT, 2);
    memset(block, 0, PREEMPT_BLOCK_BYTES);
    put_field(block, PREEMPT_PLAN_KIND_AT, 1, PREEMPT_PLAN_KIND);
    put_field(block, PREEMPT_PLAN_BLOCKS_AT, 2, field(plan, PREEMPT_PLAN_BLOCKS_AT, 2));
    put_field(block, PREEMPT_PLAN_COUNT_AT, 2, count - 1);
    for (size_t i = 0; i + 1 < count; i++) {
        put_field(block, PREEMPT_PLAN_POINTS_AT + 2 * i, 2, point(plan, i < out ? i : i + 1));
    }
    put_field(block, PREEMPT_PLAN_CHECKSUM_AT, 4, checksum(block));
}

static void print_plan(const uint8_t *block) {
    uint64_t count = field(block, PREEMPT_PLAN_COUNT_AT, 2);
    printf("task %" PRIu64 " blocks %" PRIu64 " points %" PRIu64 " lines %" PRIu64 " cost %" PRIu64,
           field(block, PREEMPT_PLAN_ID_AT, 4), field(block, PREEMPT_PLAN_BLOCKS_AT, 2), count,
           field(block, PREEMPT_PLAN_LINES_AT, 2), field(block, PREEMPT_PLAN_COST_AT, 8));
    for (size_t i = 0; i < count; i++) {
        printf("%s %" PRIu64, i == 0 ? " at" : "", point(block, i));
    }
    printf("\n");
}

/* Prints the plan that a call left, or what it refused; 1 on a refusal. */
static int print_answer(uint32_t returned, const uint8_t *block) {
    if (returned == PREEMPT_OK) {
        print_plan(block);
        return 0;
    }
    uint32_t number = PREEMPT_NUMBER(returned);
    printf("refused %" PRIu32 " at %" PRIu32 ": %s\n", number, PREEMPT_PLACE(returned),
           number < sizeof words / sizeof words[0] ? words[number] : "unknown");
    return 1;
}

/* Prices the plan's points with each of them left out in turn. */
static void price_without(const uint8_t *file, size_t len, const uint8_t *planned) {
    static uint8_t points[PREEMPT_BLOCK_BYTES];
    static uint8_t priced[PREEMPT_BLOCK_BYTES];
    uint64_t count = field(planned, PREEMPT_PLAN_COUNT_AT, 2);
    for (size_t i = 0; i < count; i++) {
        leave_out(planned, i, points);
        printf("without %" PRIu64 ": ", point(planned, i));
        print_answer(preempt_price(file, len, points, sizeof points, priced, sizeof priced), priced);
    }
}

int main(int argc, char **argv) {
    /* One byte more than the longest task file, so that a longer one is refused for its length. */
    static uint8_t file[PREEMPT_FILE_BYTES_MOST + 1];
    static uint8_t planned[PREEMPT_BLOCK_BYTES];
    static uint8_t priced[PREEMPT_BLOCK_BYTES];

    if (argc > 2) {
        fprintf(stderr, "usage: %s [FILE]\n", argv[0]);
        return 2;
    }
    FILE *from = argc == 2 ? fopen(argv[1], "rb") : stdin;
    if (!from) {
        perror(argv[1]);
        return 2;
    }
    size_t len = fread(file, 1, sizeof file, from);
    if (ferror(from)) {
        perror(argc == 2 ? argv[1] : "standard input");
        return 2;
    }

    printf("planned: ");
    if (print_answer(preempt_plan(file, len, planned, sizeof planned), planned)) {
        return 1;
    }
    printf("priced: ");
    print_answer(preempt_price(file, len, planned, sizeof planned, priced, sizeof priced), priced);
    price_without(file, len, planned);
    return 0;
}
