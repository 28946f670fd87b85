/* The layout program in small: compares the five calls of aldrynja.h with docs/RULES.md by the rules of tests/second,
   and says what it compared. The first difference ends it with status 1. */

#include "conversions.h"

enum { SEED = 2026 };

int main(void)
{
    count_points();
    count_for_ranking();
    chance_from(SEED);
    tell_faults();
    compare_counts();
    compare_growth();
    compare_faults();
    compare_sizes();
    compare_edges();
    compare_cases();
    compare_book_cases();
    compare_conversions();
    compare_conversion_faults();
    compare_conversion_edges();
    compare_conversion_cases();
    compare_old_pages();
    require_slate_kinds();
    require_conversion_kinds();
    return 0;
}
