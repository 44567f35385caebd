/*
 * A planner for file gateways, for C: the calls of the static library libexport.a, which `rt lib`, in crates/export, writes to
 * crates/export/out/. It is for Linux on x86-64 (level x86-64-v2). crates/export/src/lib.rt has the contract of each call.
 *
 * A caller in C keeps to what Rust's types would hold it to: no pointer is NULL, also where the length is 0; each has as much
 * memory behind it as is said here, aligned as its type; and memory that a call writes overlaps no other memory lent to it.
 * For everything else the calls test what they are given. Each comes back for every file and every table, and a refusal
 * changes nothing but the counts, which it sets to 0.
 */
#ifndef XARBULEST_H
#define XARBULEST_H

#include <stddef.h>
#include <stdint.h>

#ifdef __cplusplus
extern "C" {
#endif

/* What `xarbulest_sound`, `xarbulest_read` and `xarbulest_plan` answer. The first that applies is given. */
enum {
    XARBULEST_ACCEPTED = 0,
    XARBULEST_VERSION = 1,       /* file empty, or first byte not 1 */
    XARBULEST_FILE_LENGTH = 2,   /* file under 10 bytes, or the length word isn't the count of bytes after byte 4 */
    XARBULEST_STAGES = 3,        /* stage count not 1 to 4 */
    XARBULEST_TOO_MANY = 4,      /* over 64 flows or over 1,024 blocks */
    XARBULEST_RECORD = 5,        /* a record's length byte is wrong, a record runs past the end, or bytes are left over */
    XARBULEST_NAME_BYTE = 6,     /* a name byte outside 33 to 126 */
    XARBULEST_SHORT_TABLE = 7,   /* a lent table is too short */
    XARBULEST_NO_SUCH_FLOW = 8,  /* a block's flow number isn't below the flow count */
    XARBULEST_OVER_LIMIT = 9,    /* an arrival or a time above its limit, or a time above 0 for a stage the load lacks */
    XARBULEST_ALL_ZERO = 10,     /* all times of a block are 0 */
    XARBULEST_OUT_OF_ORDER = 11  /* a block arrives before the one above it */
};

/* A block: six 32-bit words. Times of stages that the load lacks are 0. */
struct xarbulest_block {
    uint32_t flow;
    uint32_t arrival;
    uint32_t times[4];
};

/* A flow's record: three 64-bit words. */
struct xarbulest_flow {
    uint64_t blocks; /* listed */
    uint64_t turns;  /* begun */
    uint64_t time;   /* the sum of the listed blocks' dominant times */
};

/* A row: 15 words of 64 bits. Blocks and flows count from 0; rounds, turns and stages from 1. */
struct xarbulest_row {
    uint64_t block;
    uint64_t flow;
    uint64_t round;
    uint64_t turn;
    uint64_t balance; /* before the block */
    uint64_t hold;
    uint64_t dominant_stage; /* the one with the largest time; of several, the highest numbered */
    struct {
        uint64_t start;
        uint64_t finish;
    } stages[4]; /* 0 for stages that the load lacks */
};

/* The counts of a load. */
struct xarbulest_load_counts {
    uint64_t stages;
    uint64_t flows;
    uint64_t blocks;
};

/* The counts of a plan. */
struct xarbulest_plan_counts {
    uint64_t blocks; /* listed */
    uint64_t turns;
    uint64_t rounds;
    uint64_t held;  /* turns held: rows whose hold is above 0 */
    uint64_t ticks; /* held ticks in sum */
    uint64_t end;   /* the last row's finish at the last stage */
};

/* The length of a table of n blocks, flow records or rows, as the calls take it: in words, and of flow records in records. */
#define XARBULEST_BLOCKS_LENGTH(n) ((size_t)6 * (n))
#define XARBULEST_FLOWS_LENGTH(n) ((size_t)(n))
#define XARBULEST_ROWS_LENGTH(n) ((size_t)15 * (n))

/* The soundness call. It tests 1 to 6, and 8 to 11. */
uint64_t xarbulest_sound(const uint8_t *file, size_t file_length);

/*
 * The reader. It tests 1, 2, 3, 4, 7, then record by record: for a flow 5, 6; for a block 5, 8, 9, 10, 11; then left-over
 * bytes (5). An accepted file gives its counts, and its blocks from the table's start on; room beyond them is left as found.
 * The table's length is in words, 6 a block.
 */
uint64_t xarbulest_read(const uint8_t *file, size_t file_length, struct xarbulest_block *table, size_t table_length,
                        struct xarbulest_load_counts *counts);

/*
 * The name call: the length of the name shown for a flow. It is the file's own where it has at least one byte, and otherwise
 * the entry with the flow's number, from 0, in the standing list (length byte, name, repeated). If the file isn't sound, the
 * flow isn't in it, or the standing list ends before the last byte of that entry, the name is empty.
 * Its bytes are copied to the start of the room, with no byte after them; room beyond them is left as found. Where the
 * answer is above room_length, nothing is copied. A length is a byte, so 255 bytes of room are always enough, and
 * 31 where the standing list is empty.
 */
size_t xarbulest_name(const uint8_t *file, size_t file_length, const uint8_t *standing, size_t standing_length, size_t flow,
                      uint8_t *room, size_t room_length);

/*
 * The plan call. It tests 3, 4, 7 and then, block by block, 8, 9, 10, 11. It lists the first `limit` blocks started, or all
 * if there are fewer: a row for each, from the row table's start on, and a record for each flow. It needs 6 words for each
 * block, one flow record for each flow, and 15 row words for each block it will list. Room beyond that is left as found.
 * The lengths of table and rows are in words, 6 a block and 15 a row; the length of records counts flow records.
 */
uint64_t xarbulest_plan(size_t stages, size_t flows, size_t blocks, uint64_t limit, const struct xarbulest_block *table,
                        size_t table_length, struct xarbulest_flow *records, size_t records_length,
                        struct xarbulest_row *rows, size_t rows_length, struct xarbulest_plan_counts *counts);

#ifdef __cplusplus
}
#endif

#endif
