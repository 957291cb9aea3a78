/* Searches by the calls for C, in process. It reads lines as crates/session_lines has them: `again`, `bin W H D`, `box W H D 0`,
   `turn I X Y Z` and `search TRIES SEED LEAVE`, and answers a bin with its index, and a search with 0, how many boxes stand, the bins
   that are used, how many are needed, whether that is optimal, the tries, how many are left, and how many microseconds it took; or with
   -1 where there is no space.

   cc -O3 -Ibuild search_times.c build/librectangle_pack.a
   search_times PIECE: makes so many tries at a time, or all in one call where that is 0. */
#include <inttypes.h>
#include <stdio.h>
#include <stdlib.h>
#include <string.h>
#include <time.h>

#include "rectangle_pack.h"

enum { MOST = 1000 };

static rp_bin bins[MOST];
static rp_box boxes[MOST];
static uint32_t turns[MOST];
static rp_location places[MOST];
static size_t bin_count, box_count;

static double seconds(void)
{
    struct timespec now;
    clock_gettime(CLOCK_MONOTONIC, &now);
    return (double)now.tv_sec + (double)now.tv_nsec / 1e9;
}

static size_t next_of(size_t *count)
{
    if (*count == MOST) {
        fprintf(stderr, "search_times: more than %d\n", MOST);
        exit(2);
    }
    return (*count)++;
}

static uint32_t in_pieces(const rp_collection *all, const rp_search_options *options, uint64_t piece, rp_searched *said)
{
    rp_search search = RP_NO_SEARCH;
    rp_progress now = {0};
    uint32_t status = rectangle_pack_search_begin(bins, bin_count, all, options, &search);
    while (status == RP_DONE && !now.is_over && now.tries < options->tries) {
        uint64_t left = options->tries - now.tries;
        status = rectangle_pack_search_run(&search, left < piece ? left : piece, &now);
    }
    if (status == RP_DONE)
        status = rectangle_pack_found(bins, bin_count, all, options, &search, places, box_count, said);
    return status;
}

static void search(uint64_t piece, const uint64_t *asked)
{
    const rp_collection all = RP_COLLECTION(boxes, box_count);
    rp_search_options options = RP_SEARCH_OPTIONS(asked[0]);
    rp_searched said;
    options.seed = asked[1];
    options.may_leave = (uint32_t)asked[2];
    options.turns = turns;
    options.turn_count = box_count;
    double start = seconds();
    uint32_t status = piece > 0 ? in_pieces(&all, &options, piece, &said)
                                : rectangle_pack_searched(bins, bin_count, &all, &options, places, box_count, &said);
    double took = seconds() - start;
    if (status == RP_DONE)
        printf("0 %zu %zu %" PRId64 " %" PRIu32 " %" PRIu64 " %zu %.0f\n", box_count - said.left, said.used, (int64_t)said.least,
               said.is_optimal, said.tries, said.left, took * 1e6);
    else
        puts("-1");
}

static void obey(uint64_t piece, const char *word, const uint64_t *it)
{
    if (!strcmp(word, "again")) {
        bin_count = box_count = 0;
    } else if (!strcmp(word, "bin")) {
        size_t index = next_of(&bin_count);
        bins[index] = (rp_bin){(uint32_t)it[0], (uint32_t)it[1], (uint32_t)it[2]};
        printf("%zu\n", index);
    } else if (!strcmp(word, "box")) {
        size_t index = next_of(&box_count);
        boxes[index] = (rp_box){(uint32_t)it[0], (uint32_t)it[1], (uint32_t)it[2], 0};
        turns[index] = 0;
    } else if (!strcmp(word, "turn") && it[0] < box_count) {
        turns[it[0]] = (uint32_t)(it[1] != 0) + 2 * (uint32_t)(it[2] != 0) + 4 * (uint32_t)(it[3] != 0);
    } else if (!strcmp(word, "search")) {
        search(piece, it);
    }
}

int main(int count, char **arguments)
{
    uint64_t piece = count > 1 ? strtoull(arguments[1], NULL, 10) : 0;
    char line[200], word[12];
    while (fgets(line, sizeof line, stdin)) {
        uint64_t it[4] = {0};
        if (sscanf(line, "%11s %" SCNu64 " %" SCNu64 " %" SCNu64 " %" SCNu64, word, &it[0], &it[1], &it[2], &it[3]) > 0)
            obey(piece, word, it);
    }
    return 0;
}
