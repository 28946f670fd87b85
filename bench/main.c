/* The benchmark: the calls, ours against plain C, and then the listing program. Its arguments are those of
   bench_programs. Without arguments the answers of the calls are compared, and nothing is measured. */

#include "bench.h"

enum { LEAST_ARGUMENTS = 7, SEED_OF_DRAWS = 2, SEED = 1 };

/* Each workload draws its inputs after those before it. So a new one comes last, and the others keep their inputs. */
static void bench_calls(void)
{
    bench_points();
    for (int i = 0; i < SETTINGS; i++) {
        bench_vectors(&settings[i]);
        bench_takes(&settings[i]);
        bench_reads(&settings[i]);
    }
    bench_overflowing_reads(&settings[0]);
    bench_takes(&many_books);
    bench_reads(&many_books);
    for (int i = 0; i < SETTINGS; i++)
        bench_sends(&settings[i]);
    bench_sends(&long_page);
    for (int i = 0; i < OTHER_ROWS; i++) {
        bench_vectors(&other_rows[i]);
        bench_reads(&other_rows[i]);
        bench_sends(&other_rows[i]);
    }
    bench_takes(&states_first);
    bench_reads(&many_books_states_first);
    bench_conversions(&largest_page);
}

/* The draws begin anew before what is measured, so that the inputs do not depend on what is drawn before. */
int main(int words, char **arguments)
{
    const int is_measured = words > 1;
    if (is_measured && words <= LEAST_ARGUMENTS)
        fail("arguments", "too few");
    count_points();
    count_for_ranking();
    plain_begin();
    begin_settings();
    chance_from(SEED_OF_DRAWS);
    compare_draws();
    compare_calls();
    chance_from(SEED);
    if (is_measured)
        begin_measuring();
    bench_calls();
    if (is_measured) {
        bench_programs(arguments + 1);
        print_slow_lines();
    } else {
        print_compared();
    }
    return 0;
}
