/* Makes drawn calls over drawn plans, requests and texts, and compares what several calls say of one thing. It is meant for
 * valgrind and for the sanitizers: each buffer is a block of just its length. Its words: how many plans, and a seed. Status 1:
 * two calls don't agree, and standard error tells which. */
#include "cgrlist.h"
#include <inttypes.h>
#include <stdio.h>
#include <stdlib.h>
#include <string.h>

static uint64_t state;
static unsigned long run, counts[256];

static uint32_t draw(uint32_t below) {
    state = state * 6364136223846793005u + 1442695040888963407u;
    return (uint32_t)((state >> 33) % below);
}

static void *block(size_t count, size_t size) {
    void *made = count ? calloc(count, size) : NULL;
    if (count && !made) exit(2);
    return made;
}

/* Counts a status, and returns it. */
static uint32_t met(uint32_t status) {
    counts[status & 255]++;
    return status;
}

static void must(bool is_so, const char *what) {
    if (is_so) return;
    fprintf(stderr, "plan %lu: %s\n", run, what);
    exit(1);
}

/* ---- What is drawn ---- */

static uint64_t draw_node(void) { return draw(40) ? draw(6) : UINT64_MAX; }
static uint64_t draw_time(void) { return draw(40) ? draw(60) : CGRLIST_LAST_TIME - 1 + draw(3); }

static cgrlist_request draw_request(void) {
    cgrlist_request it; /* one statement a draw, so that each compiler draws in the same order */
    it.from = draw_node();
    it.to = draw_node();
    it.at = draw_time();
    it.margin_ppm = draw(2) ? 0 : draw(1100000);
    it.max_hops = draw(5);
    it.avoids = draw(3);
    uint64_t *avoid = block(it.avoids, sizeof *avoid);
    for (size_t i = 0; i < it.avoids; i++) avoid[i] = 1 + i + draw(4);
    it.avoid = avoid;
    return it;
}

static const char *const PIECES[] = {"a ", "d ", "a contact ", "a range ", "d contact ", "@ 2030/01/01-00:00:00\n", "+0 ", "+10 ", "+99 ",
                                     "1 ", "2 ", "3 ", "4 ", "5 ", "\n", "2030/01/01-00:00:00 ", "#", "\t", "5000000", "\r\n"};

/* A plan's text: pieces and stray bytes, after a line that makes relative times good. */
static char *draw_text(size_t *bytes) {
    char text[4096];
    size_t used = 0;
    for (uint32_t left = draw(60), first = 5; left; left--, first = 0) {
        const char *piece = PIECES[first && draw(8) ? first : draw(sizeof PIECES / sizeof *PIECES)];
        memcpy(text + used, piece, strlen(piece));
        used += strlen(piece);
        if (!draw(50)) text[used++] = (char)draw(256);
    }
    char *out = block(used, 1);
    if (used) memcpy(out, text, used);
    *bytes = used;
    return out;
}

static cgrlist_plan *open_plan(void) {
    cgrlist_plan *plan = NULL;
    if (draw(2)) {
        size_t bytes;
        uint64_t line;
        char *text = draw_text(&bytes);
        uint32_t status = met(cgrlist_plan_read(&plan, text, bytes, &line));
        must((plan != NULL) == (status == CGRLIST_OK), "a plan is open if it was read");
        must((line > 0) == (status >= CGRLIST_LINE_TOO_LONG), "a refused text has a bad line");
        free(text);
    }
    if (plan == NULL) must(met(cgrlist_plan_new(&plan)) == CGRLIST_OK, "a new plan");
    return plan;
}

/* A change, which is refused without a trace or taken. */
static void change(cgrlist_plan *plan) {
    uint64_t from = draw_node(), to = draw_node(), start = draw_time(), end = start + draw(40);
    uint8_t before[32], after[32];
    uint32_t light = draw(40) ? draw(5) : 999999 + draw(3), status;
    cgrlist_plan_digest(plan, before);
    switch (draw(8)) {
    case 0: status = cgrlist_plan_delete_contact(plan, from, to, start, NULL); break;
    case 1: status = cgrlist_plan_delete_range(plan, from, to, 0); break;
    case 2: status = cgrlist_plan_add_range(plan, from, to, 0, 1000 + draw(9), light); break;
    default: status = cgrlist_plan_add_contact(plan, from, to, start, end, draw(9), NULL);
    }
    cgrlist_plan_digest(plan, after);
    must((memcmp(before, after, 32) != 0) == (met(status) == CGRLIST_OK), "a plan changes if a change is taken");
}

/* ---- Routes ---- */

typedef struct page {
    cgrlist_page told;
    cgrlist_route *routes;
    uint32_t *contacts;
} page;

static void drop(page *it) {
    free(it->routes);
    free(it->contacts);
}

/* What gives a page: a request over a plan, or a listing. */
typedef struct giver {
    cgrlist_plan *plan;
    const cgrlist_request *request;
    cgrlist_listing *listing;
} giver;

static uint32_t give(const giver *it, uint32_t count, page *out, size_t routes, size_t contacts) {
    if (it->listing) return cgrlist_listing_next(it->listing, count, out->routes, routes, out->contacts, contacts, &out->told);
    return cgrlist_first(it->plan, it->request, count, out->routes, routes, out->contacts, contacts, &out->told);
}

/* The next routes, in blocks of just their length. */
static uint32_t take(const giver *it, uint32_t count, page *out) {
    memset(out, 0, sizeof *out);
    for (int turn = 0;; turn++) {
        uint32_t status = met(give(it, count, out, out->told.routes, out->told.contacts));
        if (status != CGRLIST_ROOM) return status;
        must(turn == 0, "there is room for what was needed");
        out->routes = block(out->told.routes, sizeof *out->routes);
        out->contacts = block(out->told.contacts, sizeof *out->contacts);
    }
}

static uint32_t take_next(cgrlist_listing *listing, uint32_t count, page *out) {
    return take(&(giver){NULL, NULL, listing}, count, out);
}

static bool is_same_route(const page *one, size_t i, const page *other, size_t j) {
    const cgrlist_route *a = &one->routes[i], *b = &other->routes[j];
    return a->delivery == b->delivery && a->until == b->until && a->entry == b->entry && a->hops == b->hops &&
           !memcmp(one->contacts + a->first, other->contacts + b->first, a->hops * sizeof *one->contacts);
}

/* Buffers that are too small take the routes that fit. */
static void cramp(cgrlist_plan *plan, const cgrlist_request *request, uint32_t count, const page *all) {
    page few = {{0, 0, 0, false}, NULL, NULL};
    size_t routes = draw((uint32_t)all->told.routes + 1), contacts = draw((uint32_t)all->told.contacts + 1);
    few.routes = block(routes, sizeof *few.routes);
    few.contacts = block(contacts, sizeof *few.contacts);
    met(cgrlist_first(plan, request, count, few.routes, routes, few.contacts, contacts, &few.told));
    must(few.told.routes == all->told.routes && few.told.contacts == all->told.contacts && few.told.more == all->told.more, "what is needed");
    must(few.told.written <= routes, "no more is written than there is room for");
    for (size_t i = 0; i < few.told.written; i++) must(is_same_route(&few, i, all, i), "what fits is written");
    drop(&few);
}

static void check_route(cgrlist_plan *plan, const cgrlist_request *request, const page *all, size_t place) {
    const cgrlist_route *route = &all->routes[place];
    cgrlist_outcome outcome;
    size_t count = 0;
    cgrlist_hop *hops = block(route->hops, sizeof *hops);
    const uint32_t *contacts = all->contacts + route->first;
    must(met(cgrlist_follow(plan, request, contacts, route->hops, &outcome)) == CGRLIST_OK, "a listed route is one");
    must(outcome.delivery == route->delivery && outcome.until == route->until && outcome.entry == route->entry, "its record is followed");
    must(met(cgrlist_hops(plan, request, contacts, route->hops, hops, route->hops, &count)) == CGRLIST_OK && count == route->hops, "it has its hops");
    must(hops[count - 1].arrival == route->delivery && hops[0].to == route->entry && hops[count - 1].to == request->to, "its hops lead there");
    free(hops);
}

static void check_best(cgrlist_plan *plan, const cgrlist_request *request, const page *all) {
    size_t room = draw(8);
    page best = {{0, 0, 0, false}, block(1, sizeof(cgrlist_route)), block(room, sizeof(uint32_t))};
    uint32_t status = met(cgrlist_best(plan, request, best.routes, best.contacts, room));
    if (!all->told.routes) must(status == CGRLIST_NO, "there is no best route");
    else if (all->routes->hops > room) must(status == CGRLIST_ROOM && best.routes->hops == all->routes->hops, "what a best route needs");
    else must(status == CGRLIST_OK && is_same_route(&best, 0, all, 0), "the best route is the first");
    drop(&best);
}

static void follow_any(cgrlist_plan *plan, const cgrlist_request *request) {
    size_t count = draw(5), room = draw(5), given = 0;
    uint32_t *contacts = block(count, sizeof *contacts);
    cgrlist_hop *hops = block(room, sizeof *hops);
    cgrlist_outcome outcome;
    for (size_t i = 0; i < count; i++) contacts[i] = draw(40) ? draw(20) : UINT32_MAX;
    uint32_t status = met(cgrlist_follow(plan, request, contacts, count, &outcome));
    uint32_t other = met(cgrlist_hops(plan, request, contacts, count, hops, room, &given));
    must(other == status || (other == CGRLIST_ROOM && given > room), "hops and follow agree");
    if (status == CGRLIST_NO) must(outcome.place ? given == outcome.place - 1 : given == count, "the hops before the fault");
    free(contacts);
    free(hops);
}

/* ---- Listings ---- */

/* The session text of the place, in a block of just its length. */
static char *text_of(cgrlist_listing *listing, size_t *bytes) {
    must(met(cgrlist_listing_text(listing, NULL, 0, bytes)) == CGRLIST_ROOM, "a text needs room");
    char *text = block(*bytes, 1);
    must(met(cgrlist_listing_text(listing, text, *bytes, bytes)) == CGRLIST_OK, "a text");
    return text;
}

/* Takes pages, some of them back, and compares them with all routes. */
static void walk(cgrlist_listing *listing, const page *all) {
    size_t place = 0, before[8], backs = 0;
    for (int turn = 0; turn < 6; turn++) {
        if (!draw(3)) {
            must(met(cgrlist_listing_back(listing)) == (backs ? CGRLIST_OK : CGRLIST_NO), "a page back");
            if (backs) place = before[--backs];
            continue;
        }
        page next;
        must(take_next(listing, draw(4), &next) == CGRLIST_OK, "a page");
        for (size_t i = 0; i < next.told.routes; i++) must(place + i < all->told.routes && is_same_route(&next, i, all, place + i), "a page's routes");
        if (next.told.routes) before[backs++] = place;
        place += next.told.routes;
        must(next.told.more == (place < all->told.routes || all->told.more), "a page's end");
        drop(&next);
    }
    cgrlist_place where;
    must(met(cgrlist_listing_place(listing, &where)) == CGRLIST_OK && where.given == place && where.can_back == (backs > 0), "the place");
}

/* Loads a text, whole or damaged. */
static void reload(cgrlist_plan *plan, char *text, size_t bytes) {
    bool is_damaged = draw(2);
    cgrlist_listing *listing;
    uint64_t line;
    if (is_damaged) text[draw((uint32_t)bytes)] ^= (char)(1 << draw(8));
    uint32_t verified = met(cgrlist_verify(plan, text, bytes)), status = met(cgrlist_listing_load(plan, text, bytes, &listing, &line));
    if (!is_damaged) must(!verified && !status, "an own text is good");
    if (verified == CGRLIST_OK) must(status == CGRLIST_OK, "a verified text can be loaded");
    must((listing != NULL) == (status == CGRLIST_OK), "a listing is open if it was loaded");
    if (status != CGRLIST_OK) return;
    page next;
    uint32_t taken = take_next(listing, draw(4), &next);
    if (verified == CGRLIST_OK) must(taken == CGRLIST_OK, "a page after a text");
    drop(&next);
    cgrlist_listing_close(listing);
}

/* Two listings, between which the plan changes, stay what they are. */
static void list(cgrlist_plan *plan, const cgrlist_request *request, const page *all) {
    cgrlist_listing *listings[2];
    size_t bytes, again;
    for (int i = 0; i < 2; i++) must(met(cgrlist_listing_open(plan, request, &listings[i])) == CGRLIST_OK, "a listing");
    walk(listings[0], all);
    char *text = text_of(listings[0], &bytes), *same = text_of(listings[0], &again);
    must(bytes == again && !memcmp(text, same, bytes), "a place has one text");
    free(same);
    cgrlist_plan *copy;
    must(met(cgrlist_plan_copy(plan, &copy)) == CGRLIST_OK, "a copy");
    change(plan);
    walk(listings[1], all);
    for (int i = 0; i < 2; i++) cgrlist_listing_close(listings[i]);
    reload(copy, text, bytes);
    cgrlist_plan_close(copy);
    free(text);
}

/* ---- Plans ---- */

/* A plan's text makes the same plan again, and so does a copy. */
static void copy(cgrlist_plan *plan) {
    cgrlist_plan *others[2];
    size_t bytes = 0, again;
    uint32_t greatest, other;
    uint8_t digest[32], found[32];
    cgrlist_plan_text(plan, NULL, 0, &bytes);
    char *text = block(bytes, 1);
    must(met(cgrlist_plan_text(plan, text, bytes, &bytes)) == CGRLIST_OK, "a plan's text");
    must(met(cgrlist_plan_read(&others[0], text, bytes, NULL)) == CGRLIST_OK, "a plan's text is read");
    must(met(cgrlist_plan_copy(plan, &others[1])) == CGRLIST_OK, "a copy");
    cgrlist_plan_digest(plan, digest);
    cgrlist_plan_greatest(plan, &greatest);
    for (int i = 0; i < 2; i++) {
        cgrlist_plan_digest(others[i], found);
        must(!memcmp(digest, found, 32), "the same records");
        must(cgrlist_plan_greatest(others[i], &other) == CGRLIST_OK && other == greatest, "the same numbers");
        must(cgrlist_plan_text(others[i], text, bytes, &again) == CGRLIST_OK && again == bytes, "the same text");
        cgrlist_plan_close(others[i]);
    }
    free(text);
}

/* Contacts and ranges by place are as many as are counted. */
static void look(cgrlist_plan *plan) {
    cgrlist_counts all;
    cgrlist_contact one, other;
    cgrlist_range range;
    cgrlist_plan_counts(plan, &all);
    uint64_t dark = 0;
    for (size_t i = 0; i < all.contacts; i++) {
        must(met(cgrlist_plan_contact_at(plan, i, &one)) == CGRLIST_OK, "a contact by place");
        must(cgrlist_plan_contact(plan, one.number, &other) == CGRLIST_OK && one.start == other.start && one.to == other.to, "a contact by number");
        dark += !one.has_light;
    }
    must(dark == all.without_light, "the contacts without light");
    for (size_t i = 0; i < all.ranges; i++) must(met(cgrlist_plan_range_at(plan, i, &range)) == CGRLIST_OK, "a range by place");
    must(cgrlist_plan_contact_at(plan, all.contacts, &one) == CGRLIST_NO && cgrlist_plan_range_at(plan, all.ranges, &range) == CGRLIST_NO, "no more");
}

static void ask(cgrlist_plan *plan) {
    cgrlist_request request = draw_request();
    page all;
    uint32_t count = draw(500) ? draw(30) : 10000 + draw(2);
    follow_any(plan, &request);
    if (take(&(giver){plan, &request, NULL}, count, &all) == CGRLIST_OK) {
        if (count) check_best(plan, &request, &all);
        cramp(plan, &request, count, &all);
        for (size_t i = 0; i < all.told.routes && i < 3; i++) check_route(plan, &request, &all, i);
        if (count > 24) list(plan, &request, &all);
    }
    drop(&all);
    free((void *)request.avoid);
}

int main(int argc, char **argv) {
    unsigned long runs = argc > 1 ? strtoul(argv[1], NULL, 10) : 1000;
    state = argc > 2 ? strtoull(argv[2], NULL, 10) : 1;
    for (run = 0; run < runs; run++) {
        cgrlist_plan *plan = open_plan();
        for (uint32_t left = draw(80); left; left--) {
            change(plan);
            if (!draw(4)) ask(plan);
        }
        look(plan);
        copy(plan);
        cgrlist_plan_close(plan);
    }
    for (int i = 0; i < 256; i++)
        if (counts[i]) printf("%d:%lu ", i, counts[i]);
    puts("");
    return 0;
}
