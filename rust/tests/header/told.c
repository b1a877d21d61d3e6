/* What the header's functions tell of each number on standard input, one line a number. */

#include <inttypes.h>
#include <stdio.h>

#include "cerahupo.h"

int main(void)
{
    uint64_t answer;

    while (scanf("%" SCNu64, &answer) == 1) {
        printf("%u %u %d %" PRIu64 " %u", cerahupo_code(answer), cerahupo_number(answer), cerahupo_accepted(answer),
               cerahupo_value(answer), cerahupo_declined_listing(answer));
        printf(" %u %u %d %zu", cerahupo_policies(answer), cerahupo_conditions(answer), cerahupo_yes(answer),
               cerahupo_records(answer));
        printf(" %u %u %u", cerahupo_choice_kind(answer), cerahupo_lowest_yes(answer), cerahupo_lowest_no(answer));
        printf(" %" PRIu32 " %zu", cerahupo_judged(answer), cerahupo_answers(answer));
        printf(" %d %u %u", cerahupo_alike(answer), cerahupo_lowest_difference(answer), cerahupo_yes_listing(answer));
        printf(" %" PRId32 "\n", cerahupo_hundredths(answer));
    }
    return 0;
}
