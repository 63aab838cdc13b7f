/* Makes all calls with a const plan in four threads at the same time, over a plan to which ranges were added one by one, and
 * that was then only prepared. Prints how many of them returned what they return over another such plan, alone and not
 * prepared. Its word: a plan's text, over which 31 1 1893458700 has three routes. */
#include "cgrlist.h"
#include <pthread.h>
#include <stdio.h>
#include <string.h>

enum { THREADS = 4, TURNS = 50, CALLS = 22, CONTACTS = 64, BYTES = 1 << 14 };

/* What the calls return and write. */
typedef struct seen {
    uint32_t statuses[CALLS], greatest, last, renumbered[CONTACTS], best[CONTACTS], first[CONTACTS], next[CONTACTS];
    cgrlist_counts counts;
    uint8_t digest[32];
    cgrlist_outcome outcome;
    size_t bytes, canonical, nodes, hops, session;
    uint64_t all[CONTACTS], line, given, reached;
    cgrlist_route routes[5];
} seen;

static char text[1 << 16];
static cgrlist_plan *plan, *alone;
static cgrlist_request request = {31, 1, 1893458700, 0, 0, NULL, 0};
static uint32_t contacts[CONTACTS];
static cgrlist_route route;

static void look(const cgrlist_plan *it, seen *out) {
    uint32_t *status = out->statuses;
    char spelled[BYTES];
    cgrlist_contact contact;
    cgrlist_range range;
    cgrlist_hop hops[CONTACTS];
    cgrlist_reach reach;
    cgrlist_plan *copy, *other;
    cgrlist_listing *listing, *loaded;
    cgrlist_place place;
    memset(out, 0, sizeof *out);
    *status++ = cgrlist_plan_counts(it, &out->counts);
    *status++ = cgrlist_plan_digest(it, out->digest);
    *status++ = cgrlist_plan_greatest(it, &out->greatest);
    *status++ = cgrlist_plan_contact(it, 4, &contact);
    *status++ = cgrlist_plan_contact_at(it, 3, &contact);
    *status++ = cgrlist_plan_range_at(it, 3, &range);
    *status++ = cgrlist_plan_nodes(it, out->all, CONTACTS, &out->nodes);
    *status++ = cgrlist_best(it, &request, out->routes, out->best, CONTACTS);
    *status++ = cgrlist_first(it, &request, 3, out->routes + 1, 3, out->first, CONTACTS, NULL);
    *status++ = cgrlist_best_each(it, &request, &request.to, 1, &reach);
    out->reached = reach.delivery;
    *status++ = cgrlist_follow(it, &request, contacts, route.hops, &out->outcome);
    *status++ = cgrlist_hops(it, &request, contacts, route.hops, hops, CONTACTS, &out->hops);
    *status++ = cgrlist_plan_text(it, spelled, sizeof spelled, &out->bytes);
    *status++ = cgrlist_plan_canonical(it, spelled, sizeof spelled, &out->canonical);
    *status++ = cgrlist_plan_copy(it, &copy);
    *status++ = cgrlist_plan_renumber(it, 0, &other, out->renumbered, CONTACTS);
    *status++ = cgrlist_plan_greatest(other, &out->last);
    *status++ = cgrlist_listing_open(it, &request, &listing);
    *status++ = cgrlist_listing_next(listing, 1, out->routes + 4, 1, out->next, CONTACTS, NULL);
    *status++ = cgrlist_listing_text(listing, spelled, sizeof spelled, &out->session);
    *status++ = cgrlist_listing_load(it, spelled, out->session, &loaded, &out->line);
    *status++ = cgrlist_verify(it, spelled, out->session);
    if (!cgrlist_listing_place(loaded, &place)) out->given = place.given;
    cgrlist_plan_close(copy);
    cgrlist_plan_close(other);
    cgrlist_listing_close(listing);
    cgrlist_listing_close(loaded);
}

static seen first;
static int same[THREADS];

static void *run(void *place) {
    int *count = place;
    seen now;
    for (int i = 0; i < TURNS; i++) {
        look(plan, &now);
        *count += !memcmp(&now, &first, sizeof now);
    }
    return NULL;
}

/* The plan of the text, with ranges that wait for their place. */
static bool make(cgrlist_plan **made, size_t bytes) {
    bool good = !cgrlist_plan_read(made, text, bytes, NULL);
    for (uint64_t start = 20; start && good; start--) good = !cgrlist_plan_add_range(*made, 8001, 8002, start, start + 1, 1);
    return good;
}

int main(int argc, char **argv) {
    pthread_t threads[THREADS];
    int all = 0;
    FILE *file = argc > 1 ? fopen(argv[1], "rb") : NULL;
    if (!file) return 2;
    size_t bytes = fread(text, 1, sizeof text, file);
    fclose(file);
    if (!make(&alone, bytes) || cgrlist_best(alone, &request, &route, contacts, CONTACTS)) return 2;
    if (!make(&plan, bytes) || cgrlist_plan_prepare(plan)) return 2;
    look(alone, &first);
    for (int i = 0; i < CALLS; i++)
        if (first.statuses[i]) return 2;
    for (int i = 0; i < THREADS; i++)
        if (pthread_create(&threads[i], NULL, run, &same[i])) return 2;
    for (int i = 0; i < THREADS; i++) pthread_join(threads[i], NULL), all += same[i];
    cgrlist_plan_close(alone);
    cgrlist_plan_close(plan);
    printf("%d of %d\n", all, THREADS * TURNS);
    return 0;
}
