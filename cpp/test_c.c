/* The raw calls from plain C99: the scope paper's listing, cleaned for the chromosomes 501 and 502, and a panel of its alleles. */
#include "ffridwelan.h"

#include <stdio.h>

#define CELLS(column) column, sizeof(column) / sizeof(column[0])

int main(void) {
    const uint32_t time[] = {0, 0, 1, 2, 3}, birth[] = {501, 502, 401, 301, 201};
    const uint16_t population[] = {1, 2, 2, 1, 65535}; /* stocks, which are copied */
    const uint32_t left[] = {0, 4, 0, 0, 6, 0}, right[] = {10, 6, 10, 4, 10, 10};
    const uint32_t parent[] = {2, 2, 3, 3, 3, 4}, child[] = {0, 1, 2, 1, 1, 3};
    const uint32_t position[] = {5, 8};
    const uint8_t ancestral[] = {'A', 'C'};
    const uint32_t site[] = {0, 1, 1}, node[] = {3, 4, 2};
    const uint8_t derived[] = {'T', 'T', 'G'};
    const uint32_t samples[] = {501, 502};

    /* Room of each table's limit: enough for every result that is within the limits. */
    static uint32_t out_time[FFR_MOST_NODES], out_birth[FFR_MOST_NODES];
    static uint16_t out_population[FFR_MOST_NODES];
    static uint32_t out_left[FFR_MOST_EDGES], out_right[FFR_MOST_EDGES], out_parent[FFR_MOST_EDGES], out_child[FFR_MOST_EDGES];
    static uint32_t out_position[FFR_MOST_SITES];
    static uint8_t out_ancestral[FFR_MOST_SITES];
    static uint32_t out_site[FFR_MOST_MUTATIONS], out_node[FFR_MOST_MUTATIONS];
    static uint8_t out_derived[FFR_MOST_MUTATIONS];
    static uint32_t out_map[FFR_MOST_MAP];
    uint32_t rows[FFR_BLOCK_CELLS];

    /* A panel: site rows and birth numbers, and two blocks of a byte for each pair; 601 is tied to nobody in the record below. */
    const uint32_t with_time[] = {0, 0, 1, 2, 3, 0}, with_birth[] = {501, 502, 401, 301, 201, 601};
    const uint16_t no_stocks[] = {0, 0, 0, 0, 0, 0}; /* a caller without stocks lends zeros */
    const uint32_t sites[] = {1, 0}, fish[] = {501, 502, 201, 601}, unknown[] = {501, 999};
    uint8_t states[4 * 2], missing[4 * 2];
    uint64_t answer;
    uint32_t i, j;

    answer = ffr_clean(10, CELLS(time), CELLS(birth), CELLS(population), CELLS(left), CELLS(right), CELLS(parent), CELLS(child),
                       CELLS(position), CELLS(ancestral), CELLS(site), CELLS(node), CELLS(derived), CELLS(samples),
                       CELLS(out_time), CELLS(out_birth), CELLS(out_population), CELLS(out_left), CELLS(out_right),
                       CELLS(out_parent), CELLS(out_child), CELLS(out_position), CELLS(out_ancestral), CELLS(out_site),
                       CELLS(out_node), CELLS(out_derived), CELLS(out_map), CELLS(rows));
    if (ffr_number(answer) != FFR_DONE) {
        fprintf(stderr, "refused: %s (%u, row %u)\n", ffr_reason(ffr_number(answer)), (unsigned)ffr_number(answer),
                (unsigned)ffr_row(answer));
        return 1;
    }
    for (i = 0; i < rows[0]; ++i)
        printf("N %u %u %u %u\n", (unsigned)i, (unsigned)out_time[i], (unsigned)out_birth[i], (unsigned)out_population[i]);
    for (i = 0; i < rows[1]; ++i)
        printf("E %u %u %u %u\n", (unsigned)out_left[i], (unsigned)out_right[i], (unsigned)out_parent[i], (unsigned)out_child[i]);
    for (i = 0; i < rows[2]; ++i) printf("S %u %u\n", (unsigned)out_position[i], (unsigned)out_ancestral[i]);
    for (i = 0; i < rows[3]; ++i) printf("M %u %u %u\n", (unsigned)out_site[i], (unsigned)out_node[i], (unsigned)out_derived[i]);
    for (i = 0; i < sizeof(time) / sizeof(time[0]); ++i) {
        printf("X %u ", (unsigned)i);
        if (out_map[i] == FFR_NONE) printf("-\n");
        else printf("%u\n", (unsigned)out_map[i]);
    }

    answer = ffr_alleles(10, CELLS(with_time), CELLS(with_birth), CELLS(no_stocks), CELLS(left), CELLS(right), CELLS(parent),
                         CELLS(child), CELLS(position), CELLS(ancestral), CELLS(site), CELLS(node), CELLS(derived), CELLS(sites),
                         CELLS(fish), CELLS(states), CELLS(missing));
    if (ffr_number(answer) != FFR_DONE) return 1;
    for (i = 0; i < 4; ++i)
        for (j = 0; j < 2; ++j) {
            printf("A %u %u ", (unsigned)fish[i], (unsigned)sites[j]);
            if (missing[i * 2 + j]) printf("-\n");
            else printf("%u\n", (unsigned)states[i * 2 + j]);
        }
    answer = ffr_alleles(10, CELLS(with_time), CELLS(with_birth), CELLS(no_stocks), CELLS(left), CELLS(right), CELLS(parent),
                         CELLS(child), CELLS(position), CELLS(ancestral), CELLS(site), CELLS(node), CELLS(derived), CELLS(sites),
                         CELLS(unknown), CELLS(states), CELLS(missing));
    printf("refused %u %u\n", (unsigned)ffr_number(answer), (unsigned)ffr_row(answer));
    return 0;
}
