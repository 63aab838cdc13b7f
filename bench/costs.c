/* What the calls of the C library cost, over plans of 1000 nodes with half as many ranges as contacts, and over a chain.
 *
 *     costs [CONTACTS] [REPEATS]
 *
 * It prints a line for each call: the time of processor in microseconds, the least of some repeats. The plan has 20000 contacts
 * unless a number is given. Each node sends to the ten nodes that follow it in a ring, over two contacts or more each. */
#include "cgrlist.h"
#include <stdio.h>
#include <stdlib.h>
#include <time.h>

enum { NODES = 1000, NEAR = 10, TEXT = 1 << 22, ROOM = 1 << 20 };
#define BEGIN 1893456000u

static size_t contacts_count = 20000, repeats = 7;
static char text[TEXT], spelled[TEXT], session[TEXT];
static uint32_t numbers[ROOM];
static cgrlist_route routes[1000];
static cgrlist_reach reaches[NODES];
static uint64_t nodes[NODES];
static cgrlist_new_contact *contacts;
static cgrlist_range *ranges;
static size_t ranges_count;
static cgrlist_plan *plan;
static cgrlist_request request = {1, 500, BEGIN, 0, 0, NULL, 0};

static void must(cgrlist_status status) {
    if (status <= CGRLIST_NO) return;
    fprintf(stderr, "costs: %s\n", cgrlist_status_name(status));
    exit(1);
}

static double now(void) {
    struct timespec it;
    clock_gettime(CLOCK_THREAD_CPUTIME_ID, &it);
    return (double)it.tv_sec * 1e6 + (double)it.tv_nsec / 1e3;
}

/* Prints the least time of a statement, after another one that isn't timed, for each of `count` calls in it. */
#define COST(name, count, before, statement) do { \
    double least = 1e18; \
    for (size_t turn = 0; turn < repeats; turn++) { \
        before; \
        double begun = now(); \
        statement; \
        double taken = now() - begun; \
        if (taken < least) least = taken; \
    } \
    printf("%-44s %10.2f\n", name, least / (double)(count)); \
} while (0)

/* ---- The plan ---- */

static void draw(void) {
    size_t pairs = NODES * NEAR;
    contacts = calloc(contacts_count, sizeof *contacts);
    ranges = calloc(pairs, sizeof *ranges);
    if (!contacts || !ranges) exit(1);
    for (size_t i = 0; i < contacts_count; i++) {
        uint64_t from = i % NODES, to = (from + 1 + i / NODES % NEAR) % NODES, start = BEGIN + i * 7919 % 86400;
        contacts[i] = (cgrlist_new_contact){from + 1, to + 1, start, start + 7200 + i % 1000, 1000};
    }
    for (size_t i = 0; i < pairs; i++) {
        uint64_t from = i % NODES, to = (from + 1 + i / NODES) % NODES;
        if (from < to || contacts_count < pairs)
            ranges[ranges_count++] = (cgrlist_range){from + 1, to + 1, BEGIN, BEGIN + 200000, 1};
    }
}

/* The text of the plan, with seconds since 1970, which is the fast way to build one. */
static size_t text_of_records(void) {
    int at = sprintf(text, "@ 1970/01/01-00:00:00\n");
    for (size_t i = 0; i < contacts_count; i++) {
        const cgrlist_new_contact *it = &contacts[i];
        at += sprintf(text + at, "a contact +%llu +%llu %llu %llu %llu\n", (unsigned long long)it->start, (unsigned long long)it->end,
                      (unsigned long long)it->from, (unsigned long long)it->to, (unsigned long long)it->rate);
    }
    for (size_t i = 0; i < ranges_count; i++) {
        const cgrlist_range *it = &ranges[i];
        at += sprintf(text + at, "a range +%llu +%llu %llu %llu %u\n", (unsigned long long)it->start, (unsigned long long)it->end,
                      (unsigned long long)it->one, (unsigned long long)it->other, (unsigned)it->light);
    }
    return (size_t)at;
}

static void anew(void) {
    cgrlist_plan_close(plan);
    must(cgrlist_plan_new(&plan));
}

static void add_contacts(void) {
    for (size_t i = 0; i < contacts_count; i++)
        must(cgrlist_plan_add_contact(plan, contacts[i].from, contacts[i].to, contacts[i].start, contacts[i].end, contacts[i].rate, NULL));
}

static void add_ranges(void) {
    for (size_t i = 0; i < ranges_count; i++)
        must(cgrlist_plan_add_range(plan, ranges[i].one, ranges[i].other, ranges[i].start, ranges[i].end, ranges[i].light));
}

static void read_anew(const char *of, size_t bytes) {
    cgrlist_plan_close(plan);
    must(cgrlist_plan_read(&plan, of, bytes, NULL));
}

static void delete_some(size_t count) {
    for (size_t i = 0; i < count; i++) must(cgrlist_plan_delete_contact(plan, contacts[i].from, contacts[i].to, contacts[i].start, NULL));
}

static void delete_ranges(size_t count) {
    for (size_t i = 0; i < count; i++) must(cgrlist_plan_delete_range(plan, ranges[i].one, ranges[i].other, ranges[i].start));
}

/* The text of a plan with as many contacts, of which the first 1000 go from each node to a node of its own. */
static size_t text_with_own_nodes(void) {
    size_t bytes = 0;
    anew();
    for (uint64_t i = 1; i <= NODES; i++) must(cgrlist_plan_add_contact(plan, i, NODES + i, BEGIN, BEGIN + 86400, 1000, NULL));
    must(cgrlist_plan_add_contacts(plan, contacts, contacts_count - NODES, NULL));
    must(cgrlist_plan_add_ranges(plan, ranges, ranges_count, NULL));
    must(cgrlist_plan_text(plan, spelled, TEXT, &bytes));
    return bytes;
}

/* Deletes these contacts, each the only one of a node. */
static void delete_own_nodes(void) {
    for (uint64_t i = 1; i <= NODES; i++) must(cgrlist_plan_delete_contact(plan, i, NODES + i, BEGIN, NULL));
}

/* ---- The costs ---- */

static void costs_of_changes(size_t bytes) {
    char name[64];
    size_t own_bytes = text_with_own_nodes();
    COST("plan_new, and plan_close of an empty one", 1000, (void)0, for (int i = 0; i < 1000; i++) anew());
    COST("plan_read, whole", 1, cgrlist_plan_close(plan), must(cgrlist_plan_read(&plan, text, bytes, NULL)));
    COST("plan_close", 1, read_anew(text, bytes), (cgrlist_plan_close(plan), plan = NULL));
    snprintf(name, sizeof name, "add_contact, all %zu", contacts_count);
    COST(name, 1, anew(), add_contacts());
    snprintf(name, sizeof name, "add_range, all %zu", ranges_count);
    COST(name, 1, anew(), add_ranges());
    COST("add_contacts, all at once", 1, anew(), must(cgrlist_plan_add_contacts(plan, contacts, contacts_count, NULL)));
    COST("add_ranges, all at once", 1, anew(), must(cgrlist_plan_add_ranges(plan, ranges, ranges_count, NULL)));
    COST("delete_contact, each of the first 1000", 1000, read_anew(text, bytes), delete_some(1000));
    COST("delete_contact, each the last of a node", NODES, read_anew(spelled, own_bytes), delete_own_nodes());
    COST("delete_number, the last", 1, read_anew(text, bytes), must(cgrlist_plan_delete_number(plan, (uint32_t)contacts_count)));
    COST("delete_range, each of the first 1000", 1000, read_anew(text, bytes), delete_ranges(1000));
    read_anew(text, bytes);
}

/* A change that leaves the plan as it was. */
static void touch(void) {
    const cgrlist_range *it = &ranges[0];
    must(cgrlist_plan_delete_range(plan, it->one, it->other, it->start));
    must(cgrlist_plan_add_range(plan, it->one, it->other, it->start, it->end, it->light));
}

static void costs_of_looks(void) {
    cgrlist_counts counts;
    cgrlist_contact contact;
    cgrlist_range range;
    uint8_t digest[32];
    uint32_t greatest;
    size_t bytes, count;
    cgrlist_plan *copy = NULL;
    COST("plan_greatest", 1000, (void)0, for (int i = 0; i < 1000; i++) must(cgrlist_plan_greatest(plan, &greatest)));
    COST("plan_contact", 1000, (void)0, for (uint32_t i = 1; i <= 1000; i++) must(cgrlist_plan_contact(plan, i, &contact)));
    COST("plan_contact_at", 1000, (void)0, for (size_t i = 0; i < 1000; i++) must(cgrlist_plan_contact_at(plan, i, &contact)));
    COST("plan_range_at", 1000, (void)0, for (size_t i = 0; i < 1000; i++) must(cgrlist_plan_range_at(plan, i, &range)));
    COST("plan_counts, the first after a change", 1, touch(), must(cgrlist_plan_counts(plan, &counts)));
    COST("plan_counts", 1000, (void)0, for (int i = 0; i < 1000; i++) must(cgrlist_plan_counts(plan, &counts)));
    COST("plan_digest, the first after a change", 1, touch(), must(cgrlist_plan_digest(plan, digest)));
    COST("plan_digest", 1000, (void)0, for (int i = 0; i < 1000; i++) must(cgrlist_plan_digest(plan, digest)));
    COST("plan_prepare, the first after a change", 1, touch(), must(cgrlist_plan_prepare(plan)));
    COST("plan_nodes", 1, (void)0, must(cgrlist_plan_nodes(plan, nodes, NODES, &count)));
    COST("plan_text", 1, (void)0, must(cgrlist_plan_text(plan, spelled, TEXT, &bytes)));
    COST("plan_canonical", 1, (void)0, must(cgrlist_plan_canonical(plan, spelled, TEXT, &bytes)));
    COST("plan_copy", 1, cgrlist_plan_close(copy), must(cgrlist_plan_copy(plan, &copy)));
    COST("plan_renumber", 1, cgrlist_plan_close(copy), must(cgrlist_plan_renumber(plan, 0, &copy, numbers, ROOM)));
    cgrlist_plan_close(copy);
}

static void best_to_all(void) {
    for (uint64_t to = 2; to <= NODES; to++) {
        request.to = to;
        must(cgrlist_best(plan, &request, routes, numbers, ROOM));
    }
    request.to = 500;
}

static void costs_of_searches(void) {
    cgrlist_page page;
    cgrlist_outcome outcome;
    cgrlist_hop hops[1000];
    size_t count;
    for (uint64_t to = 2; to <= NODES; to++) nodes[to - 2] = to;
    COST("best, the first after a change", 1, touch(), must(cgrlist_best(plan, &request, routes, numbers, ROOM)));
    COST("best", 1, (void)0, must(cgrlist_best(plan, &request, routes, numbers, ROOM)));
    COST("follow, its route", 1, (void)0, must(cgrlist_follow(plan, &request, numbers, routes->hops, &outcome)));
    COST("hops, of its route", 1, (void)0, must(cgrlist_hops(plan, &request, numbers, routes->hops, hops, 1000, &count)));
    COST("best to 999 destinations, 999 calls", 1, (void)0, best_to_all());
    COST("best_each to 999 destinations", 1, (void)0, must(cgrlist_best_each(plan, &request, nodes, NODES - 1, reaches)));
    COST("first, 1000 routes", 1, (void)0, must(cgrlist_first(plan, &request, 1000, routes, 1000, numbers, ROOM, &page)));
}

/* A list of as many contacts as a plan takes, in a chain, and half of it. Each hop costs the same if the time is linear. */
static void costs_of_a_long_list(void) {
    enum { HOPS = 20000 };
    static cgrlist_new_contact chain[HOPS];
    static cgrlist_range links[HOPS];
    static cgrlist_hop hops[HOPS];
    cgrlist_request along = {1, HOPS + 1, BEGIN, 0, 0, NULL, 0}, halfway = along;
    cgrlist_outcome outcome;
    cgrlist_plan *line;
    size_t count;
    halfway.to = HOPS / 2 + 1;
    for (uint32_t i = 0; i < HOPS; i++) {
        chain[i] = (cgrlist_new_contact){i + 1, i + 2, BEGIN, BEGIN + 1000000, 1000};
        links[i] = (cgrlist_range){i + 1, i + 2, BEGIN, BEGIN + 1000000, 1};
        numbers[i] = i + 1;
    }
    must(cgrlist_plan_new(&line));
    must(cgrlist_plan_add_contacts(line, chain, HOPS, NULL));
    must(cgrlist_plan_add_ranges(line, links, HOPS, NULL));
    COST("follow, each of 10000 hops", HOPS / 2, (void)0, must(cgrlist_follow(line, &halfway, numbers, HOPS / 2, &outcome)));
    COST("follow, each of 20000 hops", HOPS, (void)0, must(cgrlist_follow(line, &along, numbers, HOPS, &outcome)));
    COST("hops, each of 10000", HOPS / 2, (void)0, must(cgrlist_hops(line, &halfway, numbers, HOPS / 2, hops, HOPS, &count)));
    COST("hops, each of 20000", HOPS, (void)0, must(cgrlist_hops(line, &along, numbers, HOPS, hops, HOPS, &count)));
    cgrlist_plan_close(line);
}

static void costs_of_listings(void) {
    cgrlist_page page;
    cgrlist_place place;
    size_t bytes;
    cgrlist_listing *listing = NULL;
    request.to = 50;
    COST("listing_open", 1, cgrlist_listing_close(listing), must(cgrlist_listing_open(plan, &request, &listing)));
    COST("listing_next, 100 routes", 1, (void)0, must(cgrlist_listing_next(listing, 100, routes, 1000, numbers, ROOM, &page)));
    COST("listing_place", 1, (void)0, must(cgrlist_listing_place(listing, &place)));
    COST("listing_text", 1, (void)0, must(cgrlist_listing_text(listing, session, TEXT, &bytes)));
    COST("listing_back", 1, must(cgrlist_listing_next(listing, 100, routes, 1000, numbers, ROOM, &page)), must(cgrlist_listing_back(listing)));
    cgrlist_listing_close(listing), listing = NULL;
    COST("listing_load of that text", 1, cgrlist_listing_close(listing), must(cgrlist_listing_load(plan, session, bytes, &listing, NULL)));
    COST("verify of that text", 1, (void)0, must(cgrlist_verify(plan, session, bytes)));
    cgrlist_listing_close(listing), listing = NULL;
    COST("listing_close", 1, must(cgrlist_listing_open(plan, &request, &listing)), cgrlist_listing_close(listing));
}

int main(int argc, char **argv) {
    if (argc > 1) contacts_count = strtoull(argv[1], NULL, 10);
    if (argc > 2) repeats = strtoull(argv[2], NULL, 10);
    if (contacts_count < 1000 || contacts_count > 20000 || repeats == 0) return 2;
    draw();
    costs_of_changes(text_of_records());
    costs_of_looks();
    costs_of_searches();
    costs_of_a_long_list();
    costs_of_listings();
    cgrlist_plan_close(plan);
    return 0;
}
