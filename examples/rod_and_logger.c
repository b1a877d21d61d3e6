/* An office, a rod and a logger in one program: condition 0 of a book is compiled and checked, and on a few signal sets the rod
 * is asked by the listing and the logger by the book; the logger shows its score too. Then the rod decides the same sets as one
 * traverse. The book is document 01's, or the file named on the command line.
 *
 *     tools/build.sh exports
 *     cc -O2 -Iinclude examples/rod_and_logger.c target/staticlib/libexports.a -o target/rod_and_logger
 */

#include <inttypes.h>
#include <stdio.h>
#include <string.h>

#include "cerahupo.h"

/* One byte more than a book may have, so that a longer file is refused and not cut. */
static uint8_t book[8193] =
    "p sum 0\n"
    "r 0 40\n"
    "r 1 30\n"
    "r 2 30\n"
    "p min 100\n"
    "r 3 20\n"
    "c 50 < min(p0,p1)\n";

static uint32_t words[4 * 4096];

/* What was found at each corner of a small traverse. */
enum { CORNERS = 6 };
static const uint16_t sets[CORNERS] = {0, 3, 6, 8, 11, 65535};

static const char *answer_text(uint64_t answer)
{
    if (!cerahupo_accepted(answer))
        return "refused";
    return cerahupo_yes(answer) ? "yes" : "no";
}

static int refused(const char *call, uint64_t answer)
{
    printf("%s: refused %u %" PRIu64 "\n", call, cerahupo_number(answer), cerahupo_value(answer));
    return 1;
}

static void print_listing(size_t records)
{
    for (size_t i = 0; i < records; i++) {
        const uint32_t *r = words + 4 * i;
        printf("%" PRIu32 " %" PRIu32 " %" PRIu32 " %" PRIu32 "\n", r[0], r[1], r[2], r[3]);
    }
}

static void print_choice(uint64_t choice)
{
    switch (cerahupo_choice_kind(choice)) {
    case CERAHUPO_ALWAYS:
        printf("choice: always");
        break;
    case CERAHUPO_NEVER:
        printf("choice: never");
        break;
    default:
        printf("choice: both, yes from set %u, no from set %u", cerahupo_lowest_yes(choice), cerahupo_lowest_no(choice));
    }
    printf("; sets judged: %" PRIu32 "\n", cerahupo_judged(choice));
}

/* The score by which the logger decides, with all its decimals. */
static void print_score(size_t length, uint16_t set)
{
    uint64_t remainder;
    uint64_t score = cerahupo_score(book, length, 0, set, &remainder);
    if (cerahupo_accepted(score))
        printf(", score %" PRId32 ".%014" PRIu64 " hundredths", cerahupo_hundredths(score), remainder);
}

static void ask_both(size_t length, size_t records)
{
    for (size_t i = 0; i < CORNERS; i++) {
        uint64_t rod = cerahupo_read(words, 4 * records, sets[i]);
        uint64_t logger = cerahupo_decide(book, length, 0, sets[i]);
        printf("set %u: rod %s, logger %s", sets[i], answer_text(rod), answer_text(logger));
        print_score(length, sets[i]);
        printf("\n");
    }
}

/* The corners in one call, for which the listing is examined once: 1 holds a corner, 0 doesn't. */
static int print_traverse(size_t records)
{
    uint8_t answers[CORNERS];
    uint64_t traverse = cerahupo_traverse(words, 4 * records, sets, CORNERS, answers, CORNERS);
    if (!cerahupo_accepted(traverse))
        return refused("traverse", traverse);
    printf("traverse of %zu corners:", cerahupo_answers(traverse));
    for (size_t i = 0; i < CORNERS; i++)
        printf(" %u", answers[i]);
    printf("\n");
    return 0;
}

/* How calls decline. The listing is still compared after the first, which wrote no word. */
static void show_refusals(size_t length, size_t records)
{
    refused("one word too few", cerahupo_compile(book, length, 0, words, 4 * records - 1));
    refused("condition 8", cerahupo_decide(book, length, 8, 0));
    refused("no words", cerahupo_read(NULL, 0, 0));

    uint8_t answers[CORNERS];
    refused("one answer too few", cerahupo_traverse(words, 4 * records, sets, CORNERS, answers, CORNERS - 1));

    uint64_t cut = cerahupo_compare(words, 4 * records, words, 4 * records - 1);
    printf("compared with itself cut short: listing %u refused %u\n", cerahupo_declined_listing(cut), cerahupo_number(cut));

    uint64_t same = cerahupo_compare(words, 4 * records, words, 4 * records);
    printf("compared with itself: %s\n", cerahupo_alike(same) ? "alike" : "different");
}

static bool read_book(const char *name, size_t *length)
{
    FILE *file = fopen(name, "rb");
    if (file == NULL)
        return false;
    *length = fread(book, 1, sizeof book, file);
    bool read = !ferror(file);
    fclose(file);
    return read;
}

int main(int count, char **names)
{
    size_t length = strlen((const char *)book);
    if (count > 1 && !read_book(names[1], &length)) {
        perror(names[1]);
        return 2;
    }

    uint64_t checked = cerahupo_check(book, length);
    if (!cerahupo_accepted(checked))
        return refused("book", checked);
    printf("book: %u policies, %u conditions\n", cerahupo_policies(checked), cerahupo_conditions(checked));

    uint64_t compiled = cerahupo_compile(book, length, 0, words, sizeof words / sizeof words[0]);
    if (!cerahupo_accepted(compiled))
        return refused("condition 0", compiled);

    size_t records = cerahupo_records(compiled);
    printf("condition 0: %zu records\n", records);
    print_listing(records);
    print_choice(cerahupo_choice(words, 4 * records));
    ask_both(length, records);
    int status = print_traverse(records);
    show_refusals(length, records);
    return status;
}
