/*
 * Ffridwelan: cleaning and joining of ancestry tables and reading of alleles, called from C99 or C++ on x86-64 Linux.
 * The code behind these three calls is proved; this header only says how to reach it.
 *
 * A NODE IS ONE CHROMOSOME, and so is every "fish", birth number and sample below. A diploid fish is two nodes with two
 * birth numbers, and both are listed as samples to keep the fish, and in a panel to read it. One number for each fish gives
 * tables that pass every check and an ancestry that is wrong; no call can see it.
 *
 * A birth number is given once and never again. A join refuses one that is in the record (FFR_BATCH_BIRTH), but it cannot
 * see one whose node was cleaned away: given again, that one is taken for a new chromosome without a word.
 *
 * Time counts ticks before the planned end, so it falls towards 0 and cannot fall further. Before a run goes on past its
 * planned end, add one number to every time of the record.
 *
 * A node has a population number, which stock it came from: any number of 16 bits. Cleaning and joining copy it; it plays no
 * part in order, in what stands or in any allele. A caller without stocks lends zeros, a cell for each node. (The stored form
 * has no field for it: reading gives 0, and writing refuses any other, so keep the stocks beside a stored file.)
 *
 * Columns.  A table is a set of columns, each an array and its length in cells. Rows count from 0.
 * - Every pointer must be aligned for its type and must not be null, also where the length is 0: an
 *   empty column is the address of any cell and length 0. (The wrapper ffridwelan.hpp sees to this.)
 * - An output column must overlap nothing: no input column, no other output column, not the block; nor may either block of
 *   ffr_alleles. Input columns and lists are only read, and may overlap each other, wholly or in part.
 * - Nothing else may write any column while a call runs.
 *
 * Answers.  A call returns number * 4294967296 + row; ffr_number and ffr_row take them apart.
 * - Done: the number and the row are 0, the result stands at the front of each output column, and the
 *   block has the rows written in tables 1 to 4. Cells past the result, and past the block's fourth,
 *   keep their values. (ffr_alleles has two blocks of bytes in place of columns and block; the same holds for them.)
 * - Refused: the number says why and the row says where. No cell changes, those of the blocks included.
 *
 * The room of an output table is its shortest column: that of table 1 is the least of times, birth numbers and populations.
 * The node map needs a cell for each INPUT node row, however few nodes are kept. FFR_MOST_NODES, FFR_MOST_EDGES,
 * FFR_MOST_SITES, FFR_MOST_MUTATIONS and FFR_MOST_MAP cells are enough for every result that is within the limits. Cleaned
 * edges alone can pass theirs, for they can outnumber the input's: then the answer is FFR_NO_ROOM, row FFR_EDGES, whatever
 * the room, and the cure is to list fewer samples.
 *
 * Any input is taken, broken rows too: no call crashes, and none runs for ever. A call keeps no state,
 * allocates nothing and reads and writes no file, so threads may call at the same time, each with its own outputs.
 * It needs stack: a thread with 220 KiB can make every call that the tests know how to make (the most that one takes is
 * 197,704 bytes for ffr_clean, 163,480 for ffr_join and 109,272 for ffr_alleles).
 */
#ifndef FFRIDWELAN_H
#define FFRIDWELAN_H

#include <stddef.h>
#include <stdint.h>

/*
 * The second interface, whose nodes have a population: the symbols have names of their own, so that object files of the first
 * find no symbol, and its sources have too few arguments.
 */
#define FFR_INTERFACE 2
#define ffr_clean ffr_clean_v2
#define ffr_join ffr_join_v2
#define ffr_alleles ffr_alleles_v2

/* The most rows that a table may have, on the way in and on the way out. */
#define FFR_MOST_NODES 1024u
#define FFR_MOST_EDGES 4096u
#define FFR_MOST_SITES 512u
#define FFR_MOST_MUTATIONS 1024u
#define FFR_MOST_SAMPLES 256u

/* The most cells that the node map of a cleaning needs: one for each input node row. */
#define FFR_MOST_MAP FFR_MOST_NODES

/* The chromosome's length is 1 to this. */
#define FFR_MOST_LENGTH 1073741824u

/* In the node map only: this input node is not in the output. (As a time or a birth number it is like any other.) */
#define FFR_NONE 4294967295u

/* Cells that the block of row counts must have. */
#define FFR_BLOCK_CELLS 4u

/* The tables' numbers, which are the row of an answer about a whole table. */
enum ffr_table {
    FFR_NODES = 1,
    FFR_EDGES = 2,
    FFR_SITES = 3,
    FFR_MUTATIONS = 4,
    FFR_SAMPLES = 5,
    FFR_MAP = 6,
    FFR_BLOCK = 7 /* the block of row counts; in ffr_alleles either block of bytes */
};

/*
 * The numbers of the answers, and what the row counts. The lowest number that applies is given, FFR_NO_ROOM
 * after all others, with the lowest row that it applies to. (FFR_NO_SITE and FFR_NO_BIRTH go by the order of the
 * cells: see ffr_alleles.)
 */
enum ffr_answer {
    FFR_DONE = 0,                /* row 0 */
    FFR_COLUMNS = 1,             /* table: its columns differ in length */
    FFR_TOO_MANY = 2,            /* table: it has too many rows */
    FFR_LENGTH = 3,              /* row 0: the chromosome's length is 0 or above FFR_MOST_LENGTH */
    FFR_BIRTH_REPEATED = 4,      /* node row: an earlier row has this birth number */
    FFR_EDGE_BROKEN = 5,         /* edge row: no such node, left >= right, right > length, or the parent is not older */
    FFR_EDGE_ORDER = 6,          /* edge row: its key is not above that of the row before (see ffr_clean) */
    FFR_EDGE_SHARED = 7,         /* edge row: it shares a position with an earlier edge of the same child */
    FFR_SITE_BROKEN = 8,         /* site row: position >= length, or not above the one before */
    FFR_MUTATION_BROKEN = 9,     /* mutation row: no such site or node, or its site is below that of the row before */
    FFR_MUTATION_ABOVE = 10,     /* mutation row: its node is above the node of an earlier mutation at that site */
    FFR_SAMPLE_UNKNOWN = 11,     /* sample: no node has this birth number */
    FFR_SAMPLE_REPEATED = 12,    /* sample: an earlier one is equal */
    FFR_NO_ROOM = 13,            /* table: the result does not fit it (FFR_MAP and FFR_BLOCK count as tables), or cleaned edges pass FFR_MOST_EDGES */
    FFR_BATCH_COLUMNS = 20,      /* batch table: its columns differ in length */
    FFR_BATCH_TOO_MANY = 21,     /* batch table: base and batch together have too many rows */
    FFR_BATCH_BIRTH = 22,        /* batch node row: the birth number is in the base or earlier in the batch */
    FFR_BATCH_EDGE = 23,         /* batch edge row: child not in the batch, parent nowhere, or broken as in 5 */
    FFR_BATCH_SHARED = 24,       /* batch edge row: it shares a position with an earlier batch edge of that child */
    FFR_BATCH_MUTATION = 25,     /* batch mutation row: no such site, or its node is not in the batch */
    FFR_BATCH_ABOVE = 26,        /* batch mutation row: as 10, among the batch's mutations at one site */
    FFR_NO_SITE = 41,            /* row 0: a listed site row is not in the record */
    FFR_NO_BIRTH = 42            /* row 0: no node has a listed birth number */
};

#ifdef __cplusplus
extern "C" {
#endif

/*
 * Cleaning: keeps the samples and every place where their lines meet, with the links between them.
 * Answers 0 to 13.
 *
 * Edge rows must be in the order of their keys: parent time, parent birth, child birth, left. (Edges in any other order
 * are put in it by ffr_join: give them as a batch to a base that has the sites alone.)
 * The output nodes are the samples in list order, then the others by time and birth number.
 *
 * Wherever the output gives a sample a state, the input gives the same. Cleaning can isolate a sample: where it is left with no
 * parent, no child and no mutation of its own at a site, it is missing there, and the ancestral state is not told of it any more.
 */
uint64_t ffr_clean(
    uint32_t length,                                         /* the chromosome's length */
    const uint32_t *time, size_t time_len,                   /* nodes: ticks before the planned end; larger is older */
    const uint32_t *birth, size_t birth_len,                 /* nodes: birth number, of one chromosome for ever */
    const uint16_t *population, size_t population_len,       /* nodes: population, any number; zeros where there are no stocks */
    const uint32_t *left, size_t left_len,                   /* edges: first position */
    const uint32_t *right, size_t right_len,                 /* edges: the position after the last */
    const uint32_t *parent, size_t parent_len,               /* edges: node row of the parent */
    const uint32_t *child, size_t child_len,                 /* edges: node row of the child */
    const uint32_t *position, size_t position_len,           /* sites: position, rising */
    const uint8_t *ancestral, size_t ancestral_len,          /* sites: state before any mutation */
    const uint32_t *site, size_t site_len,                   /* mutations: site row, never falling */
    const uint32_t *node, size_t node_len,                   /* mutations: node row */
    const uint8_t *derived, size_t derived_len,              /* mutations: state after it */
    const uint32_t *samples, size_t samples_len,             /* birth numbers of the chromosomes to keep, two for a diploid fish */
    uint32_t *out_time, size_t out_time_len,                 /* cleaned nodes: time */
    uint32_t *out_birth, size_t out_birth_len,               /* cleaned nodes: birth number */
    uint16_t *out_population, size_t out_population_len,     /* cleaned nodes: population, that of the input node */
    uint32_t *out_left, size_t out_left_len,                 /* cleaned edges, each as long as it can be, in key order: left */
    uint32_t *out_right, size_t out_right_len,               /* cleaned edges: right */
    uint32_t *out_parent, size_t out_parent_len,             /* cleaned edges: output row of the parent */
    uint32_t *out_child, size_t out_child_len,               /* cleaned edges: output row of the child */
    uint32_t *out_position, size_t out_position_len,         /* sites, unchanged: position */
    uint8_t *out_ancestral, size_t out_ancestral_len,        /* sites: ancestral state */
    uint32_t *out_site, size_t out_site_len,                 /* mutations kept, in their order: site row */
    uint32_t *out_node, size_t out_node_len,                 /* mutations: output row of the nearest kept node at or below */
    uint8_t *out_derived, size_t out_derived_len,            /* mutations: derived state */
    uint32_t *out_map, size_t out_map_len,                   /* a cell for each input node row: its output row or FFR_NONE */
    uint32_t *block, size_t block_len);                      /* rows written: nodes, edges, sites, mutations */

/*
 * Joining: the base tables with a batch of new births, whose rows may stand in any order and name
 * chromosomes by birth number. Answers 0 to 10, 13 and 20 to 26; the base is checked first.
 *
 * The result has the base's nodes, then the batch's; all edges in key order, none merged; the base's
 * sites; the mutations by site, base before batch.
 */
uint64_t ffr_join(
    uint32_t length,                                         /* the chromosome's length */
    const uint32_t *time, size_t time_len,                   /* base nodes: time */
    const uint32_t *birth, size_t birth_len,                 /* base nodes: birth number */
    const uint16_t *population, size_t population_len,       /* base nodes: population */
    const uint32_t *left, size_t left_len,                   /* base edges: left */
    const uint32_t *right, size_t right_len,                 /* base edges: right */
    const uint32_t *parent, size_t parent_len,               /* base edges: node row of the parent */
    const uint32_t *child, size_t child_len,                 /* base edges: node row of the child */
    const uint32_t *position, size_t position_len,           /* base sites: position */
    const uint8_t *ancestral, size_t ancestral_len,          /* base sites: ancestral state */
    const uint32_t *site, size_t site_len,                   /* base mutations: site row */
    const uint32_t *node, size_t node_len,                   /* base mutations: node row */
    const uint8_t *derived, size_t derived_len,              /* base mutations: derived state */
    const uint32_t *batch_time, size_t batch_time_len,       /* batch nodes: time */
    const uint32_t *batch_birth, size_t batch_birth_len,     /* batch nodes: birth number */
    const uint16_t *batch_population, size_t batch_population_len, /* batch nodes: population */
    const uint32_t *batch_left, size_t batch_left_len,       /* batch edges: left */
    const uint32_t *batch_right, size_t batch_right_len,     /* batch edges: right */
    const uint32_t *batch_parent, size_t batch_parent_len,   /* batch edges: birth number of a base or batch node */
    const uint32_t *batch_child, size_t batch_child_len,     /* batch edges: birth number of a batch node */
    const uint32_t *batch_site, size_t batch_site_len,       /* batch mutations: site row of the base */
    const uint32_t *batch_node, size_t batch_node_len,       /* batch mutations: birth number of a batch node */
    const uint8_t *batch_derived, size_t batch_derived_len,  /* batch mutations: derived state */
    uint32_t *out_time, size_t out_time_len,                 /* joined nodes: time */
    uint32_t *out_birth, size_t out_birth_len,               /* joined nodes: birth number */
    uint16_t *out_population, size_t out_population_len,     /* joined nodes: population, as in base or batch */
    uint32_t *out_left, size_t out_left_len,                 /* joined edges: left */
    uint32_t *out_right, size_t out_right_len,               /* joined edges: right */
    uint32_t *out_parent, size_t out_parent_len,             /* joined edges: node row of the parent */
    uint32_t *out_child, size_t out_child_len,               /* joined edges: node row of the child */
    uint32_t *out_position, size_t out_position_len,         /* sites: position */
    uint8_t *out_ancestral, size_t out_ancestral_len,        /* sites: ancestral state */
    uint32_t *out_site, size_t out_site_len,                 /* joined mutations: site row */
    uint32_t *out_node, size_t out_node_len,                 /* joined mutations: node row */
    uint8_t *out_derived, size_t out_derived_len,            /* joined mutations: derived state */
    uint32_t *block, size_t block_len);                      /* rows written: nodes, edges, sites, mutations */

/*
 * Alleles for a whole panel: the state of each listed chromosome at each listed site, chromosome by chromosome. The cell of
 * fish[i] and sites[j] is i * sites_len + j in both blocks. Answers 0 to 10, 13, 41 and 42.
 *
 * The state is that of the last mutation at the site on the nearest node at or above the chromosome, at the site's position,
 * that has one there; with none on the way up it is the site's ancestral state. A chromosome with no parent and no child at
 * the site's position and no mutation of its own at that site is missing there: its state byte is 0 and its missing byte 1.
 * Everywhere else the missing byte is 0. (A state may be 0 too: ask the missing byte, not the state.)
 *
 * Either list may repeat entries, be empty, be in any order and be longer than any table. Refusals, in this order:
 * - FFR_COLUMNS to FFR_MUTATION_ABOVE (1 to 10), for the tables;
 * - the first cell, in the order of the block, whose site row does not exist (FFR_NO_SITE) or whose birth number names no
 *   node (FFR_NO_BIRTH), row 0; in one cell FFR_NO_SITE goes first. Where a list is empty there is no cell, so the entries
 *   of the other one are not looked at;
 * - FFR_NO_ROOM, row FFR_BLOCK, if either block has fewer than fish_len * sites_len cells. This number may pass 2 to the 32
 *   and 2 to the 64: nothing wraps, for no such product is made, and a panel of more cells than a block can have is refused.
 * After a refusal no byte of either block has changed; after 0 the bytes past the panel have kept their values.
 */
uint64_t ffr_alleles(
    uint32_t length,                                         /* the chromosome's length */
    const uint32_t *time, size_t time_len,                   /* nodes: time */
    const uint32_t *birth, size_t birth_len,                 /* nodes: birth number */
    const uint16_t *population, size_t population_len,       /* nodes: population, of which only the length is looked at */
    const uint32_t *left, size_t left_len,                   /* edges: left */
    const uint32_t *right, size_t right_len,                 /* edges: right */
    const uint32_t *parent, size_t parent_len,               /* edges: node row of the parent */
    const uint32_t *child, size_t child_len,                 /* edges: node row of the child */
    const uint32_t *position, size_t position_len,           /* sites: position */
    const uint8_t *ancestral, size_t ancestral_len,          /* sites: ancestral state */
    const uint32_t *site, size_t site_len,                   /* mutations: site row */
    const uint32_t *node, size_t node_len,                   /* mutations: node row */
    const uint8_t *derived, size_t derived_len,              /* mutations: derived state */
    const uint32_t *sites, size_t sites_len,                 /* the panel's sites: site rows, not positions */
    const uint32_t *fish, size_t fish_len,                   /* the panel's chromosomes: birth numbers, two for a diploid fish */
    uint8_t *states, size_t states_len,                      /* first block: the state, 0 where missing; fish_len * sites_len cells */
    uint8_t *missing, size_t missing_len);                   /* second block: 1 where missing, else 0; as many cells */

/* The number of an answer: one of enum ffr_answer. */
static inline uint32_t ffr_number(uint64_t answer) {
    return (uint32_t)(answer >> 32);
}

/* The row of an answer; what it counts stands beside the number in enum ffr_answer. */
static inline uint32_t ffr_row(uint64_t answer) {
    return (uint32_t)(answer & 4294967295u);
}

/* A number in words, for people; never null. */
static inline const char *ffr_reason(uint32_t number) {
    switch (number) {
    case FFR_DONE: return "done";
    case FFR_COLUMNS: return "columns of one table differ in length";
    case FFR_TOO_MANY: return "a table has too many rows";
    case FFR_LENGTH: return "the chromosome's length is 0 or too large";
    case FFR_BIRTH_REPEATED: return "a birth number is repeated";
    case FFR_EDGE_BROKEN: return "an edge names no node, has no or wrong positions, or its parent is not older";
    case FFR_EDGE_ORDER: return "edges are not in key order";
    case FFR_EDGE_SHARED: return "two edges of one child share a position";
    case FFR_SITE_BROKEN: return "a site is past the end or not above the one before";
    case FFR_MUTATION_BROKEN: return "a mutation names no site or node, or is not in site order";
    case FFR_MUTATION_ABOVE: return "a mutation is above an earlier one of its site";
    case FFR_SAMPLE_UNKNOWN: return "a sample names no node";
    case FFR_SAMPLE_REPEATED: return "a sample is repeated";
    case FFR_NO_ROOM: return "the result does not fit";
    case FFR_BATCH_COLUMNS: return "columns of one batch table differ in length";
    case FFR_BATCH_TOO_MANY: return "base and batch together have too many rows";
    case FFR_BATCH_BIRTH: return "a batch birth number is known already";
    case FFR_BATCH_EDGE: return "a batch edge names a wrong fish, has no or wrong positions, or its parent is not older";
    case FFR_BATCH_SHARED: return "two batch edges of one child share a position";
    case FFR_BATCH_MUTATION: return "a batch mutation names no site, or no fish of the batch";
    case FFR_BATCH_ABOVE: return "a batch mutation is above an earlier one of its site";
    case FFR_NO_SITE: return "a listed site is not in the record";
    case FFR_NO_BIRTH: return "a listed birth number names no node";
    default: return "no such answer";
    }
}

#ifdef __cplusplus
}
#endif

#endif
