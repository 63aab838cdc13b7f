/* cgrlist: the routes of a contact plan, best first, in process.
 *
 * A plan and a listing are opaque. What makes one writes its place, or NULL if it refuses; the caller closes it. The
 * library has no global state: threads may use different plans and listings at the same time, each by one call at a
 * time. After cgrlist_plan_prepare, and until the next call that takes the plan without const, any number of calls with a
 * const plan may run at the same time. Prepare after the last change, also after cgrlist_plan_add_range: each leaves work to
 * the next call. A listing has its own copy of its plan.
 *
 * No call prints, blocks, or calls back, and none aborts as long as the stack suffices. With any status but CGRLIST_OK,
 * plans and listings are as they were. With any but CGRLIST_OK and CGRLIST_ROOM, so are records and buffers, unless the
 * call says otherwise.
 *
 * Buffers belong to the caller and may not overlap. A buffer may be NULL, and is empty then. An output may be NULL if it
 * isn't wanted. Times are whole seconds since 1970-01-01T00:00:00Z. Memory comes from malloc, realloc and free.
 *
 * This header needs C99 or C++11. See cgrlist(3).
 */
#ifndef CGRLIST_H
#define CGRLIST_H

#include <stdbool.h>
#include <stddef.h>
#include <stdint.h>

#ifdef __cplusplus
extern "C" {
#endif

/* The version of this interface: cgrlist_abi() returns that of the library. */
#define CGRLIST_ABI 2

typedef enum cgrlist_status {
    CGRLIST_OK = 0,
    CGRLIST_NO = 1,         /* no route; the contacts make none; no such contact or range; no session text of a place;
                             * no page to take back */
    CGRLIST_ROOM = 2,       /* a buffer is too small, and how much is needed is said; cgrlist_first, cgrlist_hops and
                             * cgrlist_listing_next wrote what fits, cgrlist_best its route without contact numbers,
                             * and the calls for texts nothing */
    CGRLIST_MEMORY = 3,     /* malloc or realloc failed */
    CGRLIST_NO_PLAN = 4,    /* the plan is NULL */
    CGRLIST_NO_LISTING = 7, /* the listing is NULL */
    /* The request is refused. One that is NULL is one of zeros. */
    CGRLIST_SAME_NODE = 16,
    CGRLIST_BAD_NODE = 17,
    CGRLIST_BAD_TIME = 18,
    CGRLIST_BAD_MARGIN = 19,
    CGRLIST_BAD_HOPS = 20,
    CGRLIST_BAD_AVOID = 21,
    /* A line of the plan's text is refused; its number is given. */
    CGRLIST_LINE_TOO_LONG = 32,
    CGRLIST_LINE_BAD_BYTE = 33,
    CGRLIST_LINE_UNKNOWN_COMMAND = 34,
    CGRLIST_LINE_WRONG_OPERANDS = 35,
    CGRLIST_LINE_BAD_TIME = 36,
    CGRLIST_LINE_NO_REFERENCE = 37,
    CGRLIST_LINE_BAD_NODE = 38,
    CGRLIST_LINE_BAD_NUMBER = 39,
    CGRLIST_LINE_EMPTY_WINDOW = 40,
    CGRLIST_LINE_SELF_PAIR = 41,
    CGRLIST_LINE_DUPLICATE_CONTACT = 42,
    CGRLIST_LINE_RANGE_OVERLAP = 43,
    CGRLIST_LINE_TOO_MANY = 44,
    CGRLIST_LINE_NOTHING_TO_DELETE = 45,
    /* The change is refused. */
    CGRLIST_EMPTY_WINDOW = 48,
    CGRLIST_SELF_PAIR = 49,
    CGRLIST_DUPLICATE_CONTACT = 50,
    CGRLIST_RANGE_OVERLAP = 51,
    CGRLIST_TOO_MANY = 52,
    CGRLIST_NOTHING_TO_DELETE = 53,
    /* A value of a change or a count is outside its limits. */
    CGRLIST_VALUE_NODE = 64,  /* a node is 0 */
    CGRLIST_VALUE_TIME = 65,  /* a time is above CGRLIST_LAST_TIME */
    CGRLIST_VALUE_LIGHT = 66, /* a light time is above CGRLIST_MOST_LIGHT */
    CGRLIST_VALUE_COUNT = 67, /* a count of routes is above CGRLIST_MOST_ROUTES */
    /* The session text is refused; its line is given where one is named. */
    CGRLIST_SESSION_BAD_HEADER = 80,
    CGRLIST_SESSION_BAD_LINE = 81,
    CGRLIST_SESSION_OTHER_PLAN = 82,
    CGRLIST_SESSION_BAD_REQUEST = 83,
    CGRLIST_SESSION_NOT_CLOSED = 84,
    CGRLIST_SESSION_BAD_ROUTE = 85,
    CGRLIST_SESSION_BAD_COUNT = 86
} cgrlist_status;

/* The first fault of a list of contacts. */
typedef enum cgrlist_fault {
    CGRLIST_FAULT_NONE = 0,
    CGRLIST_FAULT_EMPTY = 1,
    CGRLIST_FAULT_NO_SUCH_CONTACT = 2,
    CGRLIST_FAULT_NOT_CHAINED = 3,
    CGRLIST_FAULT_NODE_AGAIN = 4,
    CGRLIST_FAULT_NO_LIGHT = 5,
    CGRLIST_FAULT_TOO_LATE = 6,
    CGRLIST_FAULT_WRONG_END = 7,
    CGRLIST_FAULT_AVOIDED_NODE = 8,
    CGRLIST_FAULT_TOO_MANY_HOPS = 9
} cgrlist_fault;

#define CGRLIST_LAST_TIME 253370764799u
#define CGRLIST_MOST_LIGHT 1000000u
#define CGRLIST_MOST_MARGIN 1000000u
#define CGRLIST_MOST_HOPS 20000u
#define CGRLIST_MOST_AVOIDED 16u
#define CGRLIST_MOST_ROUTES 10000u

typedef struct cgrlist_plan cgrlist_plan;
typedef struct cgrlist_listing cgrlist_listing;

/* A request. `max_hops` 0 is no limit. The nodes to avoid rise, and are at most 16. */
typedef struct cgrlist_request {
    uint64_t from, to, at;
    uint32_t margin_ppm, max_hops;
    const uint64_t *avoid;
    size_t avoids;
} cgrlist_request;

/* A route: best-case delivery time, termination time, entry node. Its contact numbers are contacts[first] ..
 * contacts[first + hops - 1]. */
typedef struct cgrlist_route { uint64_t delivery, until, entry; size_t first, hops; } cgrlist_route;

/* A page: how many routes and contact numbers it has, how many of the routes were written (all of them, unless there
 * was no room), and whether the list goes on after it. */
typedef struct cgrlist_page { size_t routes, contacts, written; bool more; } cgrlist_page;

/* What a list of contacts does: a route's record, or its first fault and the fault's place from 1 (0 for EMPTY and
 * WRONG_END). */
typedef struct cgrlist_outcome { uint64_t delivery, until, entry, place; uint32_t fault; } cgrlist_outcome;

/* A hop: who sends to whom, when the bundle is sent and when it arrives, over which contact. */
typedef struct cgrlist_hop { uint64_t from, to, sent, arrival; uint32_t contact; } cgrlist_hop;

/* What a plan has, as `check` prints it, and the greatest contact number given (deleted ones count). */
typedef struct cgrlist_counts { uint64_t contacts, ranges, nodes, without_light, greatest; } cgrlist_counts;

/* A contact: window, rate in bytes a second, one-way light time in seconds where it has one. */
typedef struct cgrlist_contact {
    uint64_t from, to, start, end, rate;
    uint32_t number, light;
    bool has_light;
} cgrlist_contact;

/* A range: one-way light time in seconds between two nodes, over a window. */
typedef struct cgrlist_range { uint64_t one, other, start, end; uint32_t light; } cgrlist_range;

/* A contact to add. */
typedef struct cgrlist_new_contact { uint64_t from, to, start, end, rate; } cgrlist_new_contact;

/* The best route to a destination, without its contact numbers, and the status that cgrlist_best has for it. */
typedef struct cgrlist_reach { uint64_t delivery, until, entry; size_t hops; uint32_t status; } cgrlist_reach;

/* Where a listing stands: how many routes were given, whether the list goes on, whether a page can be taken back. */
typedef struct cgrlist_place { uint64_t given; bool more, can_back; } cgrlist_place;

/* ---- Plans ---- */
cgrlist_status cgrlist_plan_new(cgrlist_plan **plan);
/* *line is the text's bad line, or 0. */
cgrlist_status cgrlist_plan_read(cgrlist_plan **plan, const char *text, size_t bytes, uint64_t *line);
/* A copy of a plan, with the numbers of its contacts. */
cgrlist_status cgrlist_plan_copy(const cgrlist_plan *plan, cgrlist_plan **copy);
/* A copy of what ends after a second, all for 0, with the contacts numbered from 1 on in their order. numbers[k - 1] is
 * the number that the copy's contact k has in the plan; as many are written as there is room for. */
cgrlist_status cgrlist_plan_renumber(const cgrlist_plan *plan, uint64_t second, cgrlist_plan **copy, uint32_t *numbers,
                                     size_t room);
void cgrlist_plan_close(cgrlist_plan *plan);
cgrlist_status cgrlist_plan_add_contact(cgrlist_plan *plan, uint64_t from, uint64_t to, uint64_t start, uint64_t end,
                                        uint64_t rate, uint32_t *number);
cgrlist_status cgrlist_plan_add_range(cgrlist_plan *plan, uint64_t one, uint64_t other, uint64_t start, uint64_t end,
                                      uint32_t light);
cgrlist_status cgrlist_plan_delete_contact(cgrlist_plan *plan, uint64_t from, uint64_t to, uint64_t start,
                                           uint32_t *number);
cgrlist_status cgrlist_plan_delete_number(cgrlist_plan *plan, uint32_t number);
cgrlist_status cgrlist_plan_delete_range(cgrlist_plan *plan, uint64_t one, uint64_t other, uint64_t start);
/* Records in their order, all or none. If one is refused, *place is the first such record's place from 0, and the status
 * its reason. The contacts have the numbers after the largest one given. */
cgrlist_status cgrlist_plan_add_contacts(cgrlist_plan *plan, const cgrlist_new_contact *contacts, size_t count,
                                         size_t *place);
cgrlist_status cgrlist_plan_add_ranges(cgrlist_plan *plan, const cgrlist_range *ranges, size_t count, size_t *place);
/* Puts ranges that were added one by one in their place, and makes what serves until a plan changes: the index of searches,
 * the digest, and the counts. What is missing is made by the first call that needs it. */
cgrlist_status cgrlist_plan_prepare(cgrlist_plan *plan);
/* The plan as a text from which cgrlist_plan_read makes it again, with the numbers of its contacts and the largest one
 * given: *bytes is its length; ROOM if it doesn't fit (nothing is written then). */
cgrlist_status cgrlist_plan_text(const cgrlist_plan *plan, char *text, size_t room, size_t *bytes);
/* The canonical text, of which the digest is the SHA-256: one for all plans with the same contacts, numbers and ranges.
 * It isn't read back. *bytes is its length; ROOM if it doesn't fit (nothing is written then). */
cgrlist_status cgrlist_plan_canonical(const cgrlist_plan *plan, char *text, size_t room, size_t *bytes);
cgrlist_status cgrlist_plan_counts(const cgrlist_plan *plan, cgrlist_counts *counts);
/* The largest contact number given, 0 at first. */
cgrlist_status cgrlist_plan_greatest(const cgrlist_plan *plan, uint32_t *number);
cgrlist_status cgrlist_plan_digest(const cgrlist_plan *plan, uint8_t digest[32]);
/* NO: no such contact stands */
cgrlist_status cgrlist_plan_contact(const cgrlist_plan *plan, uint32_t number, cgrlist_contact *contact);
/* The contact, or the range, at a place from 0: contacts are in the order of their numbers, and ranges in that of their
 * nodes and starts. NO: there are no more */
cgrlist_status cgrlist_plan_contact_at(const cgrlist_plan *plan, size_t place, cgrlist_contact *contact);
cgrlist_status cgrlist_plan_range_at(const cgrlist_plan *plan, size_t place, cgrlist_range *range);
/* The nodes that send or receive a contact, ascending: *count of them; ROOM if there is no room for all (none is written
 * then). */
cgrlist_status cgrlist_plan_nodes(const cgrlist_plan *plan, uint64_t *nodes, size_t room, size_t *count);

/* ---- Routes ---- */
/* The best route. OK, NO if there is none, ROOM if `contacts` is too small (route->hops is how many it needs). */
cgrlist_status cgrlist_best(const cgrlist_plan *plan, const cgrlist_request *request, cgrlist_route *route,
                            uint32_t *contacts, size_t contacts_room);
/* The first `count` routes, at most 10000, or all if they are fewer. */
cgrlist_status cgrlist_first(const cgrlist_plan *plan, const cgrlist_request *request, uint32_t count, cgrlist_route *routes,
                             size_t routes_room, uint32_t *contacts, size_t contacts_room, cgrlist_page *page);
/* The best route to each of `count` destinations, in place of the request's. OK also if some have none. */
cgrlist_status cgrlist_best_each(const cgrlist_plan *plan, const cgrlist_request *request, const uint64_t *to, size_t count,
                                 cgrlist_reach *reaches);
/* OK: the contacts make a route, whose record is in `outcome`. NO: its first fault is. */
cgrlist_status cgrlist_follow(const cgrlist_plan *plan, const cgrlist_request *request, const uint32_t *contacts,
                              size_t count, cgrlist_outcome *outcome);
/* The hops before the first fault: *hops_count of them; ROOM if they are more than there is room for. OK or NO as
 * cgrlist_follow otherwise. With any other status *hops_count is 0. */
cgrlist_status cgrlist_hops(const cgrlist_plan *plan, const cgrlist_request *request, const uint32_t *contacts, size_t count,
                            cgrlist_hop *hops, size_t hops_room, size_t *hops_count);

/* ---- A listing: page after page, over a copy of the plan as it stood when the listing was opened. ---- */
cgrlist_status cgrlist_listing_open(const cgrlist_plan *plan, const cgrlist_request *request, cgrlist_listing **listing);
/* Opens the listing of a session text, at its place; no search is made. *line is the text's bad line, or 0. */
cgrlist_status cgrlist_listing_load(const cgrlist_plan *plan, const char *text, size_t bytes, cgrlist_listing **listing,
                                    uint64_t *line);
/* The next page. With ROOM (what fits is written, page->routes and page->contacts are needed) the listing stays where
 * it was. */
cgrlist_status cgrlist_listing_next(cgrlist_listing *listing, uint32_t count, cgrlist_route *routes, size_t routes_room,
                                    uint32_t *contacts, size_t contacts_room, cgrlist_page *page);
/* Takes the last page that gave routes back; NO if there is none. */
cgrlist_status cgrlist_listing_back(cgrlist_listing *listing);
cgrlist_status cgrlist_listing_place(const cgrlist_listing *listing, cgrlist_place *place);
/* The session text of the place: *bytes is its length; ROOM if it doesn't fit (nothing is written then). */
cgrlist_status cgrlist_listing_text(cgrlist_listing *listing, char *text, size_t room, size_t *bytes);
void cgrlist_listing_close(cgrlist_listing *listing);
/* OK: the text is the session text of a place in the list of its request over this plan. NO: it isn't. */
cgrlist_status cgrlist_verify(const cgrlist_plan *plan, const char *text, size_t bytes);

/* ---- Texts, which last as long as the program. ---- */
const char *cgrlist_status_name(uint32_t status); /* "CGRLIST_SAME_NODE" ..; "" if there is no such status */
const char *cgrlist_fault_name(uint32_t fault);   /* "CGRLIST_FAULT_NOT_CHAINED" ..; "" if there is no such fault */
const char *cgrlist_version(void);                /* "MAJOR.MINOR.PATCH" */
uint32_t cgrlist_abi(void);

#ifdef __cplusplus
}
#endif

#endif
