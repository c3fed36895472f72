#include "examples.h"

#include "check.h"

_Static_assert(DESK_DONE == 0 && DESK_SHORT == 1 && DESK_MARK == 2 && DESK_EXTRA == 3 && DESK_LIMIT == 4, "numbers");
_Static_assert(DESK_SYMBOL == 5 && DESK_USELESS == 6 && DESK_ROOM == 7 && DESK_CONFLICT == 8, "numbers");
_Static_assert(DESK_TABLE == 9 && DESK_TOKEN == 10 && DESK_SYNTAX == 11 && DESK_PRODUCTION == 12, "numbers");
_Static_assert(DESK_FORM == 13 && DESK_PATTERN == 14 && DESK_NO_TOKEN == 15 && DESK_STATES == 16, "numbers");
_Static_assert(DESK_DIFFERS == 17, "numbers");
_Static_assert(DESK_PROFILE == 21, "numbers");
_Static_assert(DESK_CUT_ROOM_MACHINE == 1 && DESK_CUT_ROOM_TOKENS == 2, "details");
_Static_assert(DESK_ROOM_STACK == 1 && DESK_ROOM_LIST == 2 && DESK_ROOM_TOKENS == 3, "details");
_Static_assert(DESK_ROOM_FIRST == 4 && DESK_ROOM_FOLLOW == 5 && DESK_ROOM_TABLE == 6, "details");
_Static_assert(DESK_ANSWER_SIZE == 40 && DESK_MOST_CELLS == 65535 && DESK_MOST_TOKENS == 4096, "sizes");

_Static_assert(DESK_SLR_REDUCE == 512 && DESK_SLR_ACCEPT == 1023 && DESK_SLR_NONE == 65535, "cells");
_Static_assert(DESK_MOST_SLR_CELLS == 256 * (126 + 1 + 64), "cells");

int main(void)
{
    check_refused_books();
    check_sets_and_tables();
    check_tables();
    check_runs();
    check_slr_runs();
    check_expansions();
    check_rooms();
    check_trees();
    check_formula();
    check_all_patterns();
    check_cut_lines();
    check_sheets();
    check_profile();
    return report();
}
