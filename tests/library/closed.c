/* Uses a plan or a listing that was closed, as its word says; the library for debugging notices it. */
#include "cgrlist.h"
#include <stdio.h>
#include <string.h>

int main(int argc, char **argv) {
    const char *what = argc > 1 ? argv[1] : "";
    cgrlist_request request = {1, 2, 0, 0, 0, NULL, 0};
    cgrlist_plan *plan;
    cgrlist_listing *listing;
    uint64_t bytes[16] = {0};
    if (cgrlist_plan_new(&plan) || cgrlist_listing_open(plan, &request, &listing)) return 2;
    if (!strcmp(what, "copied")) {
        memcpy(bytes, plan, 32);
        cgrlist_plan_counts((cgrlist_plan *)bytes, NULL);
    }
    if (!strcmp(what, "copied-listing")) {
        memcpy(bytes, listing, 24);
        cgrlist_listing_place((cgrlist_listing *)bytes, NULL);
    }
    cgrlist_plan_close(plan);
    if (!strcmp(what, "plan")) cgrlist_plan_counts(plan, NULL);
    if (!strcmp(what, "twice")) cgrlist_plan_close(plan);
    cgrlist_listing_close(listing);
    if (!strcmp(what, "listing")) cgrlist_listing_back(listing);
    puts("done");
    return 0;
}
