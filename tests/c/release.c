/* Calls the archive of a release: `release FILE` plans File Seven and prices the plan's points, which must give the same block, plans it
   once more at Q 40, there with the buffers at eight addresses in turn, and tries the refusals that need no file. RELEASED is what VERSION
   says. It prints what went wrong; status 1 if anything did. */
#include <preempt.h>
#include <stdio.h>
#include <string.h>

static int wrong;

static void hold(int right, const char *what) {
    if (!right) {
        printf("release: %s\n", what);
        wrong = 1;
    }
}

static int refused(uint32_t returned, uint32_t number, uint32_t place) {
    return PREEMPT_NUMBER(returned) == number && PREEMPT_PLACE(returned) == place;
}

/* Makes the limit of a task file another one, and its header's checksum right. */
static void set_limit(uint8_t *file, uint32_t limit) {
    uint32_t checksum = 2166136261u;
    for (int i = 0; i < 4; i++)
        file[8 + i] = (uint8_t)(limit >> (8 * i));
    for (int i = 0; i < 508; i++)
        checksum = (checksum ^ file[i]) * 16777619u;
    for (int i = 0; i < 4; i++)
        file[508 + i] = (uint8_t)(checksum >> (8 * i));
}

/* Planning, and pricing what was planned, leave the block `planned` wherever the buffers begin. */
static void hold_addresses(const uint8_t *file, size_t len, const uint8_t *planned) {
    static uint8_t moved[PREEMPT_FILE_BYTES_MOST + 8], points[PREEMPT_BLOCK_BYTES + 8], priced[PREEMPT_BLOCK_BYTES + 8];
    for (size_t by = 0; by < 8; by++) {
        memcpy(moved + by, file, len);
        hold(preempt_plan(moved + by, len, points + 7 - by, PREEMPT_BLOCK_BYTES) == PREEMPT_OK, "planning at another address");
        hold(memcmp(planned, points + 7 - by, PREEMPT_BLOCK_BYTES) == 0, "the address makes a difference to planning");
        hold(preempt_price(moved + by, len, points + 7 - by, PREEMPT_BLOCK_BYTES, priced + by, PREEMPT_BLOCK_BYTES) == PREEMPT_OK,
             "pricing at another address");
        hold(memcmp(planned, priced + by, PREEMPT_BLOCK_BYTES) == 0, "the address makes a difference to pricing");
    }
}

int main(int argc, char **argv) {
    static uint8_t file[PREEMPT_FILE_BYTES_MOST], planned[PREEMPT_BLOCK_BYTES], priced[PREEMPT_BLOCK_BYTES];
    static uint8_t before[PREEMPT_BLOCK_BYTES];
    FILE *from = argc == 2 ? fopen(argv[1], "rb") : NULL;
    if (!from) {
        printf("usage: release FILE\n");
        return 2;
    }
    size_t len = fread(file, 1, sizeof file, from);

    hold(strcmp(PREEMPT_VERSION, RELEASED) == 0, "PREEMPT_VERSION is not what VERSION says");
    memset(priced, 85, sizeof priced);
    memset(before, 85, sizeof before);
    hold(refused(preempt_plan(NULL, 0, NULL, 0), PREEMPT_OUTPUT, 0), "planning into no block");
    hold(refused(preempt_plan(NULL, 0, priced, sizeof priced), PREEMPT_LENGTH, 0), "planning no file");
    hold(refused(preempt_price(NULL, 0, NULL, 0, priced, 511), PREEMPT_OUTPUT, 0), "pricing into 511 bytes");
    hold(refused(preempt_price(NULL, 0, NULL, 0, priced, sizeof priced), PREEMPT_LENGTH, 0), "pricing no file");
    hold(refused(preempt_price(file, len, NULL, 0, priced, sizeof priced), PREEMPT_LENGTH, PREEMPT_POINTS_PLACE),
         "pricing no points");
    hold(refused(preempt_price(file, len, before, sizeof before, priced, sizeof priced), PREEMPT_CHECKSUM, PREEMPT_POINTS_PLACE),
         "pricing a block with a wrong checksum");
    hold(memcmp(priced, before, sizeof priced) == 0, "a refusal changed the block");

    /* count, lines and cost of the plans at Q 60 and at Q 40, as they follow each other in a plan block */
    static const uint8_t numbers_60[] = {2, 0, 1, 0, 10, 0, 0, 0, 0, 0, 0, 0}, points_1_2[] = {1, 0, 2, 0, 0, 0};
    static const uint8_t numbers_40[] = {3, 0, 2, 0, 20, 0, 0, 0, 0, 0, 0, 0}, points_1_2_3[] = {1, 0, 2, 0, 3, 0, 0, 0};
    hold(preempt_plan(file, len, planned, sizeof planned) == PREEMPT_OK, "planning the file");
    hold(memcmp(planned + PREEMPT_PLAN_COUNT_AT, numbers_60, sizeof numbers_60) == 0, "not two points, one line and cost 10 at Q 60");
    hold(memcmp(planned + PREEMPT_PLAN_POINTS_AT, points_1_2, sizeof points_1_2) == 0, "not the points 1, 2 at Q 60");
    hold(preempt_price(file, len, planned, sizeof planned, priced, sizeof priced) == PREEMPT_OK, "pricing the plan's points");
    hold(memcmp(planned, priced, sizeof planned) == 0, "the two blocks differ");

    /* at Q 40 the points 1, 2, 3 and 2, 3 cost the same, and the first of the two is planned whatever the block held */
    set_limit(file, 40);
    hold(preempt_plan(file, len, planned, sizeof planned) == PREEMPT_OK, "planning the file at Q 40");
    hold(memcmp(planned + PREEMPT_PLAN_COUNT_AT, numbers_40, sizeof numbers_40) == 0, "not three points, two lines and cost 20 at Q 40");
    hold(memcmp(planned + PREEMPT_PLAN_POINTS_AT, points_1_2_3, sizeof points_1_2_3) == 0, "not the points 1, 2, 3 at Q 40");
    hold(preempt_plan(file, len, before, sizeof before) == PREEMPT_OK, "planning the file at Q 40 once more");
    hold(memcmp(planned, before, sizeof planned) == 0, "two plans of one file differ");
    hold_addresses(file, len, planned);
    return wrong;
}
