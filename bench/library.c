/* Makes calls of the C library some times, so that what one of them takes follows from two counts.
 *
 *     library PLAN FROM TO SECOND WHAT TIMES
 *
 * The plan is read, and one question asked. Then comes, so many times: `best`, a best route, each a minute later than the
 * one before; `change`, a contact deleted, and a best route; `once`, the first 1000 routes; `pages`, the same by
 * pages of 100; `follow` and `hops`, what the first answer's list of contacts does. `read` reads the plan and asks no
 * question. */
#include "cgrlist.h"
#include <stdio.h>
#include <stdlib.h>
#include <string.h>

static char text[1 << 24];
static cgrlist_route routes[1000];
static uint32_t contacts[1 << 20];
static cgrlist_plan *plan;
static cgrlist_request request;
static cgrlist_page page;

static void must(uint32_t status) {
    if (status > CGRLIST_NO) exit(1);
}

static void ask(void) {
    must(cgrlist_best(plan, &request, routes, contacts, sizeof contacts / sizeof *contacts));
}

static void best(void) {
    ask();
    request.at += 60;
}

/* A plan of 20000 contacts takes no more, so contacts are deleted, in the order of their numbers. */
static void change(void) {
    static uint32_t last;
    cgrlist_contact contact;
    while (cgrlist_plan_contact(plan, ++last, &contact) == CGRLIST_NO) continue;
    must(cgrlist_plan_delete_contact(plan, contact.from, contact.to, contact.start, NULL));
    ask();
}

static void once(void) {
    must(cgrlist_first(plan, &request, 1000, routes, 1000, contacts, sizeof contacts / sizeof *contacts, &page));
}

static void pages(void) {
    cgrlist_listing *listing;
    must(cgrlist_listing_open(plan, &request, &listing));
    for (int i = 0; i < 10; i++)
        must(cgrlist_listing_next(listing, 100, routes, 1000, contacts, sizeof contacts / sizeof *contacts, &page));
    cgrlist_listing_close(listing);
}

static void follow(void) {
    cgrlist_outcome outcome;
    must(cgrlist_follow(plan, &request, contacts, routes->hops, &outcome));
}

static void hops(void) {
    static cgrlist_hop given[20000];
    size_t count;
    must(cgrlist_hops(plan, &request, contacts, routes->hops, given, sizeof given / sizeof *given, &count));
}

static const struct { const char *name; void (*call)(void); } CALLS[] = {
    {"best", best}, {"change", change}, {"once", once}, {"pages", pages},
    {"follow", follow}, {"hops", hops}};

int main(int argc, char **argv) {
    if (argc != 7) return 2;
    FILE *file = fopen(argv[1], "rb");
    if (!file) return 2;
    size_t bytes = fread(text, 1, sizeof text, file);
    fclose(file);
    request.from = strtoull(argv[2], NULL, 10);
    request.to = strtoull(argv[3], NULL, 10);
    request.at = strtoull(argv[4], NULL, 10);
    must(cgrlist_plan_read(&plan, text, bytes, NULL));
    if (strcmp(argv[5], "read")) ask();
    for (size_t i = 0; i < sizeof CALLS / sizeof *CALLS; i++)
        for (long left = strcmp(argv[5], CALLS[i].name) ? 0 : atol(argv[6]); left; left--) CALLS[i].call();
    cgrlist_plan_close(plan);
    return 0;
}
