/* Searches in a session, held against its account. To be included once in a program. */
#ifndef SESSION_SEARCHING_H
#define SESSION_SEARCHING_H

#include "searching.h"
#include "session_commands.h"

/* One call, or one in pieces. */
static void perform_session_search(rp_session *session, const wanted *wants, const request *asked, int in_pieces, found *said)
{
    quest now = guarded_quest(wants, asked);
    size_t size = asked->places * sizeof(rp_standing);
    rp_standing *placed = guarded_untouched(PLACEMENTS_LIST, size);
    rp_searched *written = guarded_untouched(CHOSEN, sizeof *written);
    rp_search search = RP_NO_SEARCH;
    memset(said, UNTOUCHED, sizeof *said);
    refused = 0;
    if (!in_pieces) {
        said->status = rectangle_pack_session_pack_searched(session, now.all, now.options, placed, asked->places, written);
    } else {
        said->status = begin_and_run(&now, NULL, 0, session, &search);
        if (said->status == RP_DONE)
            said->status = rectangle_pack_session_pack_found(session, now.all, now.options, &search, placed, asked->places, written);
        check(!search.at, "a search that was packed has not ended");
    }
    take_written(said, placed, size, written);
    memcpy(said->placed, placed, size);
    check_quest_kept(&now);
}

/* Takes up in the account what was found, in the order of the numbers, which are the next ones. */
static void take_up_found(account *now, const request *asked, const found *it)
{
    size_t placed = entries_of(asked) - it->said.left;
    int is_taken[ENTRIES] = {0};
    for (size_t i = 0; i < entries_of(asked); i++) {
        const rp_standing *at = &it->placed[i];
        const rp_section *section = &at->section;
        uint64_t turn = at->number - now->next;
        if (at->number == RP_LEFT_NUMBER)
            continue;
        check(turn < placed && !is_taken[turn]++, "the number of a placement");
        now->placed[now->count + turn] = (standing){{at->number, {at->bin, section->x, section->y, section->z}},
                                                    {section->width, section->height, section->depth, 0},
                                                    at->index};
    }
    now->count += placed;
    now->next += placed;
}

/* Takes up what is then free, and that no cell was lost, nor given twice. */
static void read_after_search(rp_session *session, account *now)
{
    static sections after[BINS];
    read_session(session, now, now->stats, after);
    for (size_t i = 0; i < BINS; i++)
        copy_sections(&now->free[i], &after[i]);
}

/* The requests for memory that are refused, from the first to the last. */
typedef struct refusals {
    long first, last;
} refusals;

/* A search in the session, with refusals. Where memory is wanted the session is as it was, and the same call is made again with all
   memory. Whether each heuristic is bettered. */
static int search_session(rp_session *session, account *now, const wanted *wants, const request *asked, int in_pieces,
                          refusals with, found *said)
{
    static shelf bins;
    static answer nothing;
    uint32_t fault = fault_of_call(wants, asked, in_pieces);
    shelve(&bins, now);
    memset(nothing.places, UNTOUCHED, sizeof nothing.places);
    refuse_requests(with.first, with.last);
    perform_session_search(session, wants, asked, in_pieces, said);
    refuse_nothing();
    if (said->status == RP_OUT_OF_MEMORY) {
        check(refused, "want of memory is answered where all was there");
        check_nothing_done(session, now, &nothing);
        perform_session_search(session, wants, asked, in_pieces, said);
    }
    check(fault == RP_DONE ? said->status == RP_DONE || said->status == RP_NOT_ENOUGH_SPACE : said->status == fault,
          "the status of a search in a session");
    if (said->status != RP_DONE)
        check_nothing_done(session, now, &nothing);
    if (fault != RP_DONE)
        return 0;
    int is_better = check_found(wants, asked, &bins, said);
    if (said->status == RP_DONE) {
        take_up_found(now, asked, said);
        read_after_search(session, now);
    }
    return is_better;
}

#endif
