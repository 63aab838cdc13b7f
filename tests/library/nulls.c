/* Passes NULL for each plan, listing, buffer and output in turn, and prints each call that returns another status than the one
 * before it. Its word: a plan's text, over which 31 1 1893458700 has a route. */
#include "cgrlist.h"
#include <stdio.h>

#define WANT(status, call) want(status, call, #call)

static char text[1 << 16];
static char spelled[1 << 16];

static void want(cgrlist_status wanted, cgrlist_status found, const char *call) {
    if (wanted != found) printf("%s: %s\n", call, cgrlist_status_name(found));
}

static void no_plan(const cgrlist_request *asked) {
    WANT(CGRLIST_OK, cgrlist_plan_new(NULL));
    WANT(CGRLIST_OK, cgrlist_plan_read(NULL, NULL, 5, NULL));
    WANT(CGRLIST_LINE_UNKNOWN_COMMAND, cgrlist_plan_read(NULL, "b", 1, NULL));
    WANT(CGRLIST_NO_PLAN, cgrlist_plan_copy(NULL, NULL));
    WANT(CGRLIST_NO_PLAN, cgrlist_plan_add_contact(NULL, 1, 2, 3, 4, 5, NULL));
    WANT(CGRLIST_NO_PLAN, cgrlist_plan_add_range(NULL, 1, 2, 3, 4, 5));
    WANT(CGRLIST_NO_PLAN, cgrlist_plan_delete_contact(NULL, 1, 2, 3, NULL));
    WANT(CGRLIST_NO_PLAN, cgrlist_plan_delete_range(NULL, 1, 2, 3));
    WANT(CGRLIST_NO_PLAN, cgrlist_plan_delete_number(NULL, 1));
    WANT(CGRLIST_NO_PLAN, cgrlist_plan_add_contacts(NULL, NULL, 0, NULL));
    WANT(CGRLIST_NO_PLAN, cgrlist_plan_add_ranges(NULL, NULL, 0, NULL));
    WANT(CGRLIST_NO_PLAN, cgrlist_plan_prepare(NULL));
    WANT(CGRLIST_NO_PLAN, cgrlist_plan_renumber(NULL, 0, NULL, NULL, 0));
    WANT(CGRLIST_NO_PLAN, cgrlist_plan_nodes(NULL, NULL, 0, NULL));
    WANT(CGRLIST_NO_PLAN, cgrlist_plan_text(NULL, NULL, 0, NULL));
    WANT(CGRLIST_NO_PLAN, cgrlist_plan_canonical(NULL, NULL, 0, NULL));
    WANT(CGRLIST_NO_PLAN, cgrlist_plan_counts(NULL, NULL));
    WANT(CGRLIST_NO_PLAN, cgrlist_plan_greatest(NULL, NULL));
    WANT(CGRLIST_NO_PLAN, cgrlist_plan_digest(NULL, NULL));
    WANT(CGRLIST_NO_PLAN, cgrlist_plan_contact(NULL, 1, NULL));
    WANT(CGRLIST_NO_PLAN, cgrlist_plan_contact_at(NULL, 0, NULL));
    WANT(CGRLIST_NO_PLAN, cgrlist_plan_range_at(NULL, 0, NULL));
    WANT(CGRLIST_NO_PLAN, cgrlist_best(NULL, asked, NULL, NULL, 0));
    WANT(CGRLIST_NO_PLAN, cgrlist_best_each(NULL, asked, NULL, 0, NULL));
    WANT(CGRLIST_NO_PLAN, cgrlist_first(NULL, asked, 1, NULL, 0, NULL, 0, NULL));
    WANT(CGRLIST_NO_PLAN, cgrlist_follow(NULL, asked, NULL, 0, NULL));
    WANT(CGRLIST_NO_PLAN, cgrlist_hops(NULL, asked, NULL, 0, NULL, 0, NULL));
    WANT(CGRLIST_NO_PLAN, cgrlist_verify(NULL, NULL, 0));
    WANT(CGRLIST_NO_PLAN, cgrlist_listing_open(NULL, asked, NULL));
    WANT(CGRLIST_NO_PLAN, cgrlist_listing_load(NULL, NULL, 0, NULL, NULL));
    WANT(CGRLIST_NO_LISTING, cgrlist_listing_next(NULL, 1, NULL, 0, NULL, 0, NULL));
    WANT(CGRLIST_NO_LISTING, cgrlist_listing_back(NULL));
    WANT(CGRLIST_NO_LISTING, cgrlist_listing_place(NULL, NULL));
    WANT(CGRLIST_NO_LISTING, cgrlist_listing_text(NULL, NULL, 0, NULL));
    cgrlist_plan_close(NULL);
    cgrlist_listing_close(NULL);
}

static void no_output(cgrlist_plan *plan, const cgrlist_request *asked) {
    uint32_t contacts[64];
    cgrlist_route routes[4];
    const cgrlist_new_contact none = {0, 0, 0, 0, 0};
    WANT(CGRLIST_OK, cgrlist_plan_copy(plan, NULL));
    WANT(CGRLIST_OK, cgrlist_plan_add_contact(plan, 1, 2, 3, 4, 5, NULL));
    WANT(CGRLIST_OK, cgrlist_plan_delete_contact(plan, 1, 2, 3, NULL));
    WANT(CGRLIST_OK, cgrlist_plan_add_contacts(plan, NULL, 3, NULL));
    WANT(CGRLIST_VALUE_NODE, cgrlist_plan_add_contacts(plan, &none, 1, NULL));
    WANT(CGRLIST_OK, cgrlist_plan_add_ranges(plan, NULL, 3, NULL));
    WANT(CGRLIST_OK, cgrlist_plan_renumber(plan, 0, NULL, NULL, 9));
    WANT(CGRLIST_ROOM, cgrlist_plan_nodes(plan, NULL, 999, NULL));
    WANT(CGRLIST_OK, cgrlist_best_each(plan, asked, NULL, 9, NULL));
    WANT(CGRLIST_OK, cgrlist_best_each(plan, asked, &asked->to, 9, NULL));
    WANT(CGRLIST_ROOM, cgrlist_plan_text(plan, NULL, sizeof spelled, NULL));
    WANT(CGRLIST_OK, cgrlist_plan_text(plan, spelled, sizeof spelled, NULL));
    WANT(CGRLIST_ROOM, cgrlist_plan_canonical(plan, NULL, sizeof spelled, NULL));
    WANT(CGRLIST_OK, cgrlist_plan_canonical(plan, spelled, sizeof spelled, NULL));
    WANT(CGRLIST_OK, cgrlist_plan_counts(plan, NULL));
    WANT(CGRLIST_OK, cgrlist_plan_greatest(plan, NULL));
    WANT(CGRLIST_OK, cgrlist_plan_digest(plan, NULL));
    WANT(CGRLIST_OK, cgrlist_plan_contact_at(plan, 0, NULL));
    WANT(CGRLIST_NO, cgrlist_plan_contact(plan, 0, NULL));
    WANT(CGRLIST_OK, cgrlist_plan_range_at(plan, 0, NULL));
    WANT(CGRLIST_ROOM, cgrlist_best(plan, asked, NULL, NULL, 64));
    WANT(CGRLIST_OK, cgrlist_best(plan, asked, NULL, contacts, 64));
    WANT(CGRLIST_SAME_NODE, cgrlist_best(plan, NULL, NULL, NULL, 0));
    WANT(CGRLIST_ROOM, cgrlist_first(plan, asked, 1, NULL, 4, contacts, 64, NULL));
    WANT(CGRLIST_ROOM, cgrlist_first(plan, asked, 1, routes, 4, NULL, 64, NULL));
    WANT(CGRLIST_OK, cgrlist_first(plan, asked, 1, routes, 4, contacts, 64, NULL));
    WANT(CGRLIST_NO, cgrlist_follow(plan, asked, NULL, 9, NULL));
    WANT(CGRLIST_OK, cgrlist_follow(plan, asked, contacts, routes[0].hops, NULL));
    WANT(CGRLIST_ROOM, cgrlist_hops(plan, asked, contacts, routes[0].hops, NULL, 64, NULL));
    WANT(CGRLIST_NO, cgrlist_verify(plan, NULL, 9));
    WANT(CGRLIST_OK, cgrlist_listing_open(plan, asked, NULL));
    WANT(CGRLIST_SESSION_BAD_HEADER, cgrlist_listing_load(plan, NULL, 9, NULL, NULL));
}

static void no_output_of_a_listing(cgrlist_listing *listing) {
    WANT(CGRLIST_ROOM, cgrlist_listing_next(listing, 1, NULL, 4, NULL, 64, NULL));
    WANT(CGRLIST_OK, cgrlist_listing_place(listing, NULL));
    WANT(CGRLIST_ROOM, cgrlist_listing_text(listing, NULL, sizeof spelled, NULL));
    WANT(CGRLIST_OK, cgrlist_listing_text(listing, spelled, sizeof spelled, NULL));
}

int main(int argc, char **argv) {
    cgrlist_request asked = {31, 1, 1893458700, 0, 0, NULL, 3};
    cgrlist_plan *plan;
    cgrlist_listing *listing;
    FILE *file = argc > 1 ? fopen(argv[1], "rb") : NULL;
    if (!file) return 2;
    size_t bytes = fread(text, 1, sizeof text, file);
    fclose(file);
    no_plan(&asked);
    WANT(CGRLIST_OK, cgrlist_plan_read(&plan, text, bytes, NULL));
    WANT(CGRLIST_OK, cgrlist_listing_open(plan, &asked, &listing));
    no_output(plan, &asked);
    cgrlist_plan_close(plan);
    no_output_of_a_listing(listing);
    cgrlist_listing_close(listing);
    puts("done");
    return 0;
}
