/* The planner of preemption points, for C99 and later and for C++, on x86-64 Linux. Link with libfirmware.a. FORMAT.txt has the bytes of task
   files and of plan blocks. */
#ifndef PREEMPT_H
#define PREEMPT_H

#include <stddef.h>
#include <stdint.h>

#ifdef __cplusplus
extern "C" {
#endif

#define PREEMPT_VERSION "1.1.0"

#define PREEMPT_BLOCK_BYTES 512
#define PREEMPT_FILE_BYTES_MOST 49664 /* a task file of 97 blocks */

/* preempt_price adds this to the place of what it refuses in `points` by 1, 2 or 5. */
#define PREEMPT_POINTS_PLACE 97

/* Where a plan block has its fields; the lowest byte of each comes first, and all other bytes are 0. */
#define PREEMPT_PLAN_KIND_AT 0       /* 1 byte: PREEMPT_PLAN_KIND */
#define PREEMPT_PLAN_BLOCKS_AT 2     /* 2 bytes: basic blocks of the task */
#define PREEMPT_PLAN_COUNT_AT 4      /* 2 bytes: points, at most 63 */
#define PREEMPT_PLAN_LINES_AT 6      /* 2 bytes: lines reloaded */
#define PREEMPT_PLAN_COST_AT 8       /* 8 bytes: ticks for these reloads and for the switch at each point */
#define PREEMPT_PLAN_ID_AT 16        /* 4 bytes: the task's id */
#define PREEMPT_PLAN_POINTS_AT 20    /* 2 bytes for each point, rising */
#define PREEMPT_PLAN_NUMBER_AT 504   /* 4 bytes: the block's number, 0 */
#define PREEMPT_PLAN_CHECKSUM_AT 508 /* 4 bytes: 32-bit FNV-1a over bytes 0 to 507 */
#define PREEMPT_PLAN_KIND 4

/* Both calls return 0, or the number of a refusal times 65536 plus its place. */
#define PREEMPT_NUMBER(returned) ((returned) >> 16)
#define PREEMPT_PLACE(returned) ((returned) & 0xFFFFu)

/* The place is 0 where nothing else is said. Where several apply, 9 comes first, then the file's 1 to 5 by number, then 1, 2 and 5
   of `points`, then 7, then 6 or 8. */
enum preempt_number {
    PREEMPT_OK = 0,
    PREEMPT_LENGTH = 1,      /* file: length 0, no multiple of 512 or above 49664; points: not 512 */
    PREEMPT_CHECKSUM = 2,    /* the checksum of a block is wrong; place: the lowest such block */
    PREEMPT_HEADER = 3,      /* file: a field or a zero byte of the header is wrong */
    PREEMPT_BLOCK_COUNT = 4, /* file: it has not as many blocks as its header says */
    PREEMPT_BLOCK = 5,       /* file: a block has a wrong kind, number, count or zero byte; place: the lowest such block.
                                points: a wrong kind, number, count or zero byte, or points that do not rise below its own N */
    PREEMPT_NONE_FITS = 6,   /* planning: each list of points has a region above a limit that counts for it */
    PREEMPT_POINT = 7,       /* pricing: a point is not below the file's basic blocks; place: the lowest such index, from 0 */
    PREEMPT_ABOVE_LIMIT = 8, /* pricing: a region is above a limit that counts for it; place: the lowest such region, from 0 */
    PREEMPT_OUTPUT = 9       /* block_len is not 512 */
};

/* What a caller owes, in both calls:
   - Each pointer leads to as many bytes as the length behind it says. Where a length is 0 the pointer may be NULL.
   - No two of the buffers have a byte in common, and nothing else writes to them during the call.
   Any bytes and any lengths are answered, and the buffers may begin at any address. `block` is written only where 0 is returned, and then
   wholly; `file` and `points` never are. Nothing is kept between calls, allocated or shared, so any thread may call, and several at once. */
#define PREEMPT_STACK_BYTES 12288 /* this much stack is enough for either call, and for memcpy and memset within it */

/* Plans the task file and leaves the plan in `block`: of the lists of points that fit and cost least, that of the first in lexicographic
   order, where a list comes before any longer one that starts with it. So a file has one plan, and its bytes are the same on every host. */
uint32_t preempt_plan(const uint8_t *file, size_t file_len, uint8_t *block, size_t block_len);

/* Prices the points of the plan block `points` for the task file and leaves their plan in `block`, with the file's basic blocks and
   id. Only the points of `points` count: its other fields may be those of another task. */
uint32_t preempt_price(const uint8_t *file, size_t file_len, const uint8_t *points, size_t points_len, uint8_t *block,
                       size_t block_len);

#ifdef __cplusplus
}
#endif

#endif
