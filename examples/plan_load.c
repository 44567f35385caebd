/* Plans the load of document 01's example E3 through the static library: one flow, A, and three blocks of two stages. */
#include <stdint.h>
#include <stdio.h>
#include <string.h>

#include "xarbulest.h"

enum { BLOCKS = 3, FLOWS = 1, NAME_ROOM = 255 };

/* The load file. It is 57 bytes long; the length word says 52, which is what follows it. */
static const uint8_t file[] = {
    1, 0, 0, 0, 52, 2, 0, 1, 0, 3, /* version, length word; 2 stages, 1 flow, 3 blocks */
    1, 'A',                        /* flow 0: its name */
    14, 0, 0, 0, 0, 0, 0, 0, 0, 0, 1, 0, 0, 0, 10, /* block 0: flow 0, arrival 0, times 1 and 10 */
    14, 0, 0, 0, 0, 0, 0, 0, 0, 0, 1, 0, 0, 0, 10, /* block 1 */
    14, 0, 0, 0, 0, 0, 0, 0, 0, 0, 1, 0, 0, 0, 10, /* block 2 */
};

/* An empty standing list. C has no array of length 0, and no pointer may be NULL. */
static const uint8_t standing[1];

static uint64_t plan(const struct xarbulest_load_counts *load, const struct xarbulest_block *blocks, struct xarbulest_flow *flows,
                     struct xarbulest_row *rows, size_t rows_length, struct xarbulest_plan_counts *counts)
{
    return xarbulest_plan(load->stages, load->flows, load->blocks, UINT64_MAX, blocks, XARBULEST_BLOCKS_LENGTH(BLOCKS), flows,
                          XARBULEST_FLOWS_LENGTH(FLOWS), rows, rows_length, counts);
}

static void print_counts(const struct xarbulest_plan_counts *counts)
{
    printf("counts %llu %llu %llu %llu %llu %llu\n", (unsigned long long)counts->blocks, (unsigned long long)counts->turns,
           (unsigned long long)counts->rounds, (unsigned long long)counts->held, (unsigned long long)counts->ticks,
           (unsigned long long)counts->end);
}

static void print_row(const char *name, const struct xarbulest_row *row, uint64_t stages)
{
    printf("%s %llu %llu %llu %llu %llu %llu", name, (unsigned long long)row->block, (unsigned long long)row->round,
           (unsigned long long)row->turn, (unsigned long long)row->balance, (unsigned long long)row->hold,
           (unsigned long long)row->dominant_stage);
    for (uint64_t i = 0; i < stages; i++)
        printf(" %llu-%llu", (unsigned long long)row->stages[i].start, (unsigned long long)row->stages[i].finish);
    printf("\n");
}

int main(void)
{
    struct xarbulest_block blocks[BLOCKS];
    struct xarbulest_flow flows[FLOWS];
    struct xarbulest_row rows[BLOCKS], before[BLOCKS];
    struct xarbulest_load_counts load;
    struct xarbulest_plan_counts counts;
    char name[NAME_ROOM + 1];

    printf("sound %llu\n", (unsigned long long)xarbulest_sound(file, sizeof file));
    printf("read %llu\n",
           (unsigned long long)xarbulest_read(file, sizeof file, blocks, XARBULEST_BLOCKS_LENGTH(BLOCKS), &load));
    printf("load %llu %llu %llu\n", (unsigned long long)load.stages, (unsigned long long)load.flows,
           (unsigned long long)load.blocks);
    if (load.blocks != BLOCKS || load.flows != FLOWS)
        return 1;

    size_t length = xarbulest_name(file, sizeof file, standing, 0, 0, (uint8_t *)name, NAME_ROOM);
    if (length > NAME_ROOM)
        return 1;
    name[length] = '\0';
    printf("name %s\n", name);

    /* A row table that is a word too short is refused by 7. It stays as it was, and the counts are 0. */
    memset(rows, 0xa5, sizeof rows);
    memcpy(before, rows, sizeof rows);
    printf("plan %llu\n",
           (unsigned long long)plan(&load, blocks, flows, rows, XARBULEST_ROWS_LENGTH(BLOCKS) - 1, &counts));
    print_counts(&counts);
    printf("rows %s\n", memcmp(before, rows, sizeof rows) == 0 ? "unchanged" : "changed");

    printf("plan %llu\n", (unsigned long long)plan(&load, blocks, flows, rows, XARBULEST_ROWS_LENGTH(BLOCKS), &counts));
    print_counts(&counts);
    for (uint64_t i = 0; i < counts.blocks; i++)
        print_row(name, &rows[i], load.stages);
    printf("flow %llu %llu %llu\n", (unsigned long long)flows[0].blocks, (unsigned long long)flows[0].turns,
           (unsigned long long)flows[0].time);
    return 0;
}
