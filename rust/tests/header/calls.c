/* The header's calls on a book whose condition only an excluded pair meets: the listing, and what each call tells. */

#include <inttypes.h>
#include <stdio.h>

#include "cerahupo.h"

int main(void)
{
    static const uint8_t book[] = "x 0 1\np sum\nr 0 1\nr 1 1\nc 1 < p0\n";
    static const size_t length = sizeof book - 1;
    static const uint32_t never[4] = {16, 3, 0, 0};
    uint32_t words[12];

    uint64_t checked = cerahupo_check(book, length);
    size_t records = cerahupo_records(cerahupo_compile(book, length, 0, words, 12));
    for (size_t i = 0; i < 4 * records; i++)
        printf("%" PRIu32 " ", words[i]);
    printf("\n%u policies, %u conditions\n", cerahupo_policies(checked), cerahupo_conditions(checked));
    printf("logger %d\n", cerahupo_yes(cerahupo_decide(book, length, 0, 3)));
    uint64_t remainder = 77;
    printf("none %u", cerahupo_number(cerahupo_score(book, length, 1, 3, &remainder)));
    printf(" lent %" PRIu64 "\n", remainder);
    printf("score %" PRId32, cerahupo_hundredths(cerahupo_score(book, length, 0, 3, &remainder)));
    printf(" and %" PRIu64 "\n", remainder);
    printf("rod %d\n", cerahupo_yes(cerahupo_read(words, 4 * records, 3)));
    static const uint16_t sets[3] = {3, 0, 65535};
    uint8_t answers[3];
    printf("traverse %zu:", cerahupo_answers(cerahupo_traverse(words, 4 * records, sets, 3, answers, 3)));
    printf(" %u %u %u\n", answers[0], answers[1], answers[2]);
    answers[0] = answers[1] = answers[2] = 7;
    printf("unequal %u", cerahupo_number(cerahupo_traverse(words, 4 * records, sets, 2, answers, 3)));
    printf(" left %u %u %u\n", answers[0], answers[1], answers[2]);
    printf("no sets %" PRIu64 "\n", cerahupo_traverse(words, 4 * records, NULL, 0, NULL, 0));
    uint64_t choice = cerahupo_choice(words, 4 * records);
    printf("never %d judged %" PRIu32 "\n", cerahupo_choice_kind(choice) == CERAHUPO_NEVER, cerahupo_judged(choice));
    printf("alike %d\n", cerahupo_alike(cerahupo_compare(words, 4 * records, never, 4)));
    return 0;
}
