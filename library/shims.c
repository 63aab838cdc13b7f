/* The functions of cgrlist.h over the proved ones of proved.h, which take no NULL. They are tested, and not proved. */
#include "proved.h"
#include <stdlib.h>

/* The library for debugging alone marks plans and listings, and checks the marks. */
#ifdef CGRLIST_DEBUG
#include "debug.h"
#else
#define MARK
#define BEGIN(made) (void)0
#define CHECK(opened) (void)0
#define END(opened) free(opened)
#endif

struct cgrlist_plan { handle handle; MARK };

/* A copy of a plan, over which a listing is open. */
struct cgrlist_listing { cgrlist_plan *plan; MARK };

/* The handle of a plan, and that of a listing. A call with a const plan takes a copy (SEEN): the call gives back
 * what it takes out of a handle, so such calls may share a plan. */
#define HELD(plan) (CHECK(plan), &(plan)->handle)
#define PAGED(listing) (CHECK(listing), HELD((listing)->plan))
#define SEEN(plan) &(handle){(CHECK(plan), (plan)->handle.is_open), (plan)->handle.at}

/* A request, with its nodes to avoid. */
typedef struct question { asked asked; const uint64_t *avoid; size_t avoids; } question;

/* Buffers of length 0, which nothing reads or writes. */
static uint64_t no_nodes[1];
static uint32_t no_numbers[1];
static uint8_t no_bytes[1];
static cgrlist_route no_routes[1];
static cgrlist_hop no_hops[1];
static cgrlist_new_contact no_contacts[1];
static cgrlist_range no_ranges[1];
static cgrlist_reach no_reaches[1];

/* Two arguments: a buffer and its length, or an empty one for NULL. */
#define BUFFER(place, length, empty) (place) != NULL ? (place) : (empty), (place) != NULL ? (length) : 0
#define TEXT(place, length) (place) != NULL ? (uint8_t *)(place) : no_bytes, (place) != NULL ? (length) : 0

static question question_of(const cgrlist_request *request) {
    static const cgrlist_request zeros;
    const cgrlist_request *it = request != NULL ? request : &zeros;
    return (question){{it->from, it->to, it->at, it->margin_ppm, it->max_hops}, BUFFER(it->avoid, it->avoids, no_nodes)};
}

/* ---- Plans ---- */

/* A plan with a closed handle, or NULL. */
static cgrlist_plan *begin(void) {
    cgrlist_plan *plan = malloc(sizeof *plan);
    if (plan != NULL) plan->handle = (handle){false, NULL}, BEGIN(plan);
    return plan;
}

/* Gives a plan to the caller who wants it, or closes it. */
static cgrlist_status give(uint32_t status, cgrlist_plan *made, cgrlist_plan **plan) {
    if (plan != NULL) *plan = status == CGRLIST_OK ? made : NULL;
    if (plan == NULL || status != CGRLIST_OK) cgrlist_plan_close(made);
    return status;
}

cgrlist_status cgrlist_plan_new(cgrlist_plan **plan) {
    cgrlist_plan *made = begin();
    return give(made != NULL ? cgrlist_proved_plan_new(&made->handle) : CGRLIST_MEMORY, made, plan);
}

cgrlist_status cgrlist_plan_read(cgrlist_plan **plan, const char *text, size_t bytes, uint64_t *line) {
    cgrlist_plan *made = begin();
    uint32_t status = CGRLIST_MEMORY, bad = 0;
    if (made != NULL) status = cgrlist_proved_plan_read(&made->handle, TEXT(text, bytes), &bad);
    if (line != NULL) *line = bad;
    return give(status, made, plan);
}

cgrlist_status cgrlist_plan_copy(const cgrlist_plan *plan, cgrlist_plan **copy) {
    cgrlist_plan *made = plan != NULL ? begin() : NULL;
    uint32_t status = plan != NULL ? CGRLIST_MEMORY : CGRLIST_NO_PLAN;
    if (made != NULL) status = cgrlist_proved_plan_copy(SEEN(plan), &made->handle);
    return give(status, made, copy);
}

cgrlist_status cgrlist_plan_renumber(const cgrlist_plan *plan, uint64_t second, cgrlist_plan **copy, uint32_t *numbers,
                                     size_t room) {
    cgrlist_plan *made = plan != NULL ? begin() : NULL;
    uint32_t status = plan != NULL ? CGRLIST_MEMORY : CGRLIST_NO_PLAN;
    if (made != NULL)
        status = cgrlist_proved_plan_renumber(SEEN(plan), second, &made->handle, BUFFER(numbers, room, no_numbers));
    return give(status, made, copy);
}

void cgrlist_plan_close(cgrlist_plan *plan) {
    if (plan == NULL) return;
    cgrlist_proved_plan_close(HELD(plan));
    END(plan);
}

cgrlist_status cgrlist_plan_add_contact(cgrlist_plan *plan, uint64_t from, uint64_t to, uint64_t start, uint64_t end,
                                        uint64_t rate, uint32_t *number) {
    uint32_t unwanted = 0;
    if (plan == NULL) return CGRLIST_NO_PLAN;
    return cgrlist_proved_plan_add_contact(HELD(plan), from, to, start, end, rate, number != NULL ? number : &unwanted);
}

cgrlist_status cgrlist_plan_add_range(cgrlist_plan *plan, uint64_t one, uint64_t other, uint64_t start, uint64_t end,
                                      uint32_t light) {
    if (plan == NULL) return CGRLIST_NO_PLAN;
    return cgrlist_proved_plan_add_range(HELD(plan), one, other, start, end, light);
}

cgrlist_status cgrlist_plan_delete_contact(cgrlist_plan *plan, uint64_t from, uint64_t to, uint64_t start,
                                           uint32_t *number) {
    uint32_t unwanted = 0;
    if (plan == NULL) return CGRLIST_NO_PLAN;
    return cgrlist_proved_plan_delete_contact(HELD(plan), from, to, start, number != NULL ? number : &unwanted);
}

cgrlist_status cgrlist_plan_delete_range(cgrlist_plan *plan, uint64_t one, uint64_t other, uint64_t start) {
    if (plan == NULL) return CGRLIST_NO_PLAN;
    return cgrlist_proved_plan_delete_range(HELD(plan), one, other, start);
}

cgrlist_status cgrlist_plan_delete_number(cgrlist_plan *plan, uint32_t number) {
    return plan != NULL ? cgrlist_proved_plan_delete_number(HELD(plan), number) : CGRLIST_NO_PLAN;
}

cgrlist_status cgrlist_plan_add_contacts(cgrlist_plan *plan, const cgrlist_new_contact *contacts, size_t count,
                                         size_t *place) {
    size_t unwanted = 0;
    if (plan == NULL) return CGRLIST_NO_PLAN;
    return cgrlist_proved_plan_add_contacts(HELD(plan), BUFFER(contacts, count, no_contacts), place != NULL ? place : &unwanted);
}

cgrlist_status cgrlist_plan_add_ranges(cgrlist_plan *plan, const cgrlist_range *ranges, size_t count, size_t *place) {
    size_t unwanted = 0;
    if (plan == NULL) return CGRLIST_NO_PLAN;
    return cgrlist_proved_plan_add_ranges(HELD(plan), BUFFER(ranges, count, no_ranges), place != NULL ? place : &unwanted);
}

cgrlist_status cgrlist_plan_prepare(cgrlist_plan *plan) {
    return plan != NULL ? cgrlist_proved_plan_prepare(HELD(plan)) : CGRLIST_NO_PLAN;
}

cgrlist_status cgrlist_plan_text(const cgrlist_plan *plan, char *text, size_t room, size_t *bytes) {
    size_t unwanted = 0;
    if (plan == NULL) return CGRLIST_NO_PLAN;
    return cgrlist_proved_plan_text(SEEN(plan), TEXT(text, room), bytes != NULL ? bytes : &unwanted);
}

cgrlist_status cgrlist_plan_canonical(const cgrlist_plan *plan, char *text, size_t room, size_t *bytes) {
    size_t unwanted = 0;
    if (plan == NULL) return CGRLIST_NO_PLAN;
    return cgrlist_proved_plan_canonical(SEEN(plan), TEXT(text, room), bytes != NULL ? bytes : &unwanted);
}

cgrlist_status cgrlist_plan_counts(const cgrlist_plan *plan, cgrlist_counts *counts) {
    cgrlist_counts unwanted = {0, 0, 0, 0, 0};
    if (plan == NULL) return CGRLIST_NO_PLAN;
    return cgrlist_proved_plan_counts(SEEN(plan), counts != NULL ? counts : &unwanted);
}

cgrlist_status cgrlist_plan_greatest(const cgrlist_plan *plan, uint32_t *number) {
    uint32_t unwanted = 0;
    if (plan == NULL) return CGRLIST_NO_PLAN;
    return cgrlist_proved_plan_greatest(SEEN(plan), number != NULL ? number : &unwanted);
}

cgrlist_status cgrlist_plan_digest(const cgrlist_plan *plan, uint8_t digest[32]) {
    uint8_t unwanted[32] = {0};
    if (plan == NULL) return CGRLIST_NO_PLAN;
    return cgrlist_proved_plan_digest(SEEN(plan), digest != NULL ? digest : unwanted);
}

cgrlist_status cgrlist_plan_contact(const cgrlist_plan *plan, uint32_t number, cgrlist_contact *contact) {
    cgrlist_contact found = {0, 0, 0, 0, 0, 0, 0, false};
    uint32_t status = plan != NULL ? cgrlist_proved_plan_contact(SEEN(plan), number, &found) : CGRLIST_NO_PLAN;
    if (contact != NULL && status == CGRLIST_OK) *contact = found;
    return status;
}

cgrlist_status cgrlist_plan_contact_at(const cgrlist_plan *plan, size_t place, cgrlist_contact *contact) {
    cgrlist_contact found = {0, 0, 0, 0, 0, 0, 0, false};
    uint32_t status = plan != NULL ? cgrlist_proved_plan_contact_at(SEEN(plan), place, &found) : CGRLIST_NO_PLAN;
    if (contact != NULL && status == CGRLIST_OK) *contact = found;
    return status;
}

cgrlist_status cgrlist_plan_range_at(const cgrlist_plan *plan, size_t place, cgrlist_range *range) {
    cgrlist_range unwanted = {0, 0, 0, 0, 0};
    if (plan == NULL) return CGRLIST_NO_PLAN;
    return cgrlist_proved_plan_range_at(SEEN(plan), place, range != NULL ? range : &unwanted);
}

cgrlist_status cgrlist_plan_nodes(const cgrlist_plan *plan, uint64_t *nodes, size_t room, size_t *count) {
    size_t unwanted = 0;
    if (plan == NULL) return CGRLIST_NO_PLAN;
    return cgrlist_proved_plan_nodes(SEEN(plan), BUFFER(nodes, room, no_nodes), count != NULL ? count : &unwanted);
}

/* ---- Routes ---- */

cgrlist_status cgrlist_best(const cgrlist_plan *plan, const cgrlist_request *request, cgrlist_route *route,
                            uint32_t *contacts, size_t contacts_room) {
    const question it = question_of(request);
    cgrlist_route unwanted = {0, 0, 0, 0, 0};
    if (plan == NULL) return CGRLIST_NO_PLAN;
    return cgrlist_proved_best(SEEN(plan), &it.asked, it.avoid, it.avoids, route != NULL ? route : &unwanted,
                               BUFFER(contacts, contacts_room, no_numbers));
}

cgrlist_status cgrlist_best_each(const cgrlist_plan *plan, const cgrlist_request *request, const uint64_t *to, size_t count,
                                 cgrlist_reach *reaches) {
    const question it = question_of(request);
    if (plan == NULL) return CGRLIST_NO_PLAN;
    if (to == NULL || reaches == NULL) count = 0;
    return cgrlist_proved_best_each(SEEN(plan), &it.asked, it.avoid, it.avoids, BUFFER(to, count, no_nodes),
                                    BUFFER(reaches, count, no_reaches));
}

cgrlist_status cgrlist_first(const cgrlist_plan *plan, const cgrlist_request *request, uint32_t count, cgrlist_route *routes,
                             size_t routes_room, uint32_t *contacts, size_t contacts_room, cgrlist_page *page) {
    const question it = question_of(request);
    cgrlist_page given = {0, 0, 0, false};
    if (plan == NULL) return CGRLIST_NO_PLAN;
    uint32_t status = cgrlist_proved_first(SEEN(plan), &it.asked, it.avoid, it.avoids, count,
                                           BUFFER(routes, routes_room, no_routes),
                                           BUFFER(contacts, contacts_room, no_numbers), &given);
    if (page != NULL && (status == CGRLIST_OK || status == CGRLIST_ROOM)) *page = given;
    return status;
}

cgrlist_status cgrlist_follow(const cgrlist_plan *plan, const cgrlist_request *request, const uint32_t *contacts,
                              size_t count, cgrlist_outcome *outcome) {
    const question it = question_of(request);
    cgrlist_outcome unwanted = {0, 0, 0, 0, 0};
    if (plan == NULL) return CGRLIST_NO_PLAN;
    return cgrlist_proved_follow(SEEN(plan), &it.asked, it.avoid, it.avoids, BUFFER(contacts, count, no_numbers),
                                 outcome != NULL ? outcome : &unwanted);
}

cgrlist_status cgrlist_hops(const cgrlist_plan *plan, const cgrlist_request *request, const uint32_t *contacts, size_t count,
                            cgrlist_hop *hops, size_t hops_room, size_t *hops_count) {
    const question it = question_of(request);
    size_t found = 0;
    uint32_t status = CGRLIST_NO_PLAN;
    if (plan != NULL)
        status = cgrlist_proved_hops(SEEN(plan), &it.asked, it.avoid, it.avoids, BUFFER(contacts, count, no_numbers),
                                     BUFFER(hops, hops_room, no_hops), &found);
    if (hops_count != NULL) *hops_count = found;
    return status;
}

cgrlist_status cgrlist_verify(const cgrlist_plan *plan, const char *text, size_t bytes) {
    if (plan == NULL) return CGRLIST_NO_PLAN;
    return cgrlist_proved_verify(SEEN(plan), TEXT(text, bytes));
}

/* ---- Listings ---- */

/* A listing over a copy of a plan, as its handle; it isn't open yet. */
static uint32_t begin_listing(const cgrlist_plan *plan, cgrlist_listing **made) {
    *made = plan != NULL ? malloc(sizeof **made) : NULL;
    if (*made == NULL) return plan != NULL ? CGRLIST_MEMORY : CGRLIST_NO_PLAN;
    BEGIN(*made);
    return cgrlist_plan_copy(plan, &(*made)->plan);
}

/* Gives a listing to the caller who wants it, or closes it. */
static cgrlist_status give_listing(uint32_t status, cgrlist_listing *made, cgrlist_listing **listing) {
    if (listing != NULL) *listing = status == CGRLIST_OK ? made : NULL;
    if (listing == NULL || status != CGRLIST_OK) cgrlist_listing_close(made);
    return status;
}

cgrlist_status cgrlist_listing_open(const cgrlist_plan *plan, const cgrlist_request *request, cgrlist_listing **listing) {
    const question it = question_of(request);
    cgrlist_listing *made;
    uint32_t status = begin_listing(plan, &made);
    if (status == CGRLIST_OK)
        status = cgrlist_proved_listing_open(&made->plan->handle, &it.asked, it.avoid, it.avoids);
    return give_listing(status, made, listing);
}

cgrlist_status cgrlist_listing_load(const cgrlist_plan *plan, const char *text, size_t bytes, cgrlist_listing **listing,
                                    uint64_t *line) {
    cgrlist_listing *made;
    uint64_t bad = 0;
    uint32_t status = begin_listing(plan, &made);
    if (status == CGRLIST_OK) status = cgrlist_proved_listing_load(&made->plan->handle, TEXT(text, bytes), &bad);
    if (line != NULL) *line = bad;
    return give_listing(status, made, listing);
}

cgrlist_status cgrlist_listing_next(cgrlist_listing *listing, uint32_t count, cgrlist_route *routes, size_t routes_room,
                                    uint32_t *contacts, size_t contacts_room, cgrlist_page *page) {
    cgrlist_page given = {0, 0, 0, false};
    if (listing == NULL) return CGRLIST_NO_LISTING;
    uint32_t status = cgrlist_proved_listing_next(PAGED(listing), count, BUFFER(routes, routes_room, no_routes),
                                                  BUFFER(contacts, contacts_room, no_numbers), &given);
    if (page != NULL && (status == CGRLIST_OK || status == CGRLIST_ROOM)) *page = given;
    return status;
}

cgrlist_status cgrlist_listing_back(cgrlist_listing *listing) {
    return listing != NULL ? cgrlist_proved_listing_back(PAGED(listing)) : CGRLIST_NO_LISTING;
}

cgrlist_status cgrlist_listing_place(const cgrlist_listing *listing, cgrlist_place *place) {
    cgrlist_place found = {0, false, false};
    if (listing == NULL) return CGRLIST_NO_LISTING;
    CHECK(listing);
    uint32_t status = cgrlist_proved_listing_place(SEEN(listing->plan), &found);
    if (place != NULL && status == CGRLIST_OK) *place = found;
    return status;
}

cgrlist_status cgrlist_listing_text(cgrlist_listing *listing, char *text, size_t room, size_t *bytes) {
    size_t unwanted = 0;
    if (listing == NULL) return CGRLIST_NO_LISTING;
    return cgrlist_proved_listing_text(PAGED(listing), TEXT(text, room), bytes != NULL ? bytes : &unwanted);
}

void cgrlist_listing_close(cgrlist_listing *listing) {
    if (listing == NULL) return;
    CHECK(listing);
    cgrlist_plan_close(listing->plan);
    END(listing);
}
