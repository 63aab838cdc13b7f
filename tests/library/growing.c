/* Adds drawn ranges one by one to a plan, as many as wait for their place, and each by an array to another plan. At drawn
 * times it makes a call that needs the ranges in their place, over both, and compares the plans, as texts. It prints how
 * many additions had one status in both, and how often the plans were the same. Its word: a seed. */
#include "cgrlist.h"
#include <stdio.h>
#include <stdlib.h>
#include <string.h>

enum { ADDITIONS = 3000, BYTES = 1 << 18, SPAN = 40 };

static char one_text[BYTES], other_text[BYTES];
static cgrlist_plan *one, *other;
static uint64_t state;

static uint64_t draw(uint64_t below) {
    state = state * 6364136223846793005u + 1442695040888963407u;
    return (state >> 33) % below;
}

static void must(cgrlist_status status) {
    if (status == CGRLIST_OK) return;
    printf("%s\n", cgrlist_status_name(status));
    exit(1);
}

static bool are_alike(void) {
    size_t bytes, others;
    must(cgrlist_plan_text(one, one_text, BYTES, &bytes));
    must(cgrlist_plan_text(other, other_text, BYTES, &others));
    return bytes == others && memcmp(one_text, other_text, bytes) == 0;
}

/* A call that changes the plan or looks at it, the same over both. */
static bool is_same_call(const cgrlist_range *last) {
    cgrlist_range found = {0, 0, 0, 0, 0}, others = {0, 0, 0, 0, 0};
    cgrlist_counts counts, other_counts;
    uint32_t number;
    size_t place = (size_t)draw(50);
    switch (draw(5)) {
    case 0: return cgrlist_plan_delete_range(one, last->one, last->other, last->start) ==
                   cgrlist_plan_delete_range(other, last->one, last->other, last->start);
    case 1: return cgrlist_plan_range_at(one, place, &found) == cgrlist_plan_range_at(other, place, &others) &&
                   found.one == others.one && found.other == others.other && found.start == others.start;
    case 2:
        must(cgrlist_plan_counts(one, &counts));
        must(cgrlist_plan_counts(other, &other_counts));
        return counts.ranges == other_counts.ranges;
    case 3: return cgrlist_plan_add_contact(one, last->one, last->other, last->start, last->end, 1, &number) ==
                   cgrlist_plan_add_contact(other, last->one, last->other, last->start, last->end, 1, &number);
    default: return true;
    }
}

int main(int words, char **word) {
    size_t alike = 0, same = 0, seen = 0;
    state = words > 1 ? strtoull(word[1], NULL, 10) : 1;
    must(cgrlist_plan_new(&one));
    must(cgrlist_plan_new(&other));
    for (size_t i = 0; i < ADDITIONS; i++) {
        uint64_t start = draw(SPAN) * 10, end = start + draw(15), from = 1 + draw(9), to = 1 + draw(9);
        cgrlist_range it = {from, to, start, end, (uint32_t)draw(1000)};
        alike += cgrlist_plan_add_range(one, it.one, it.other, it.start, it.end, it.light) == cgrlist_plan_add_ranges(other, &it, 1, NULL);
        if (draw(40) != 0) continue;
        seen++;
        same += is_same_call(&it) && are_alike();
    }
    same += are_alike();
    printf("%zu of %d additions, %zu of %zu plans\n", alike, ADDITIONS, same, seen + 1);
    cgrlist_plan_close(one);
    cgrlist_plan_close(other);
    return 0;
}
