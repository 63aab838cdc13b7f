/* Refuses each allocation of a call in turn: the call then returns CGRLIST_MEMORY and changes nothing, or does without it,
 * and the next try answers as ever. It is linked with -Wl,--wrap=malloc,--wrap=realloc. Its words: PLAN FROM TO SECOND */
#include "cgrlist.h"
#include <stdio.h>
#include <stdlib.h>
#include <string.h>

#define ROUTES 64
#define CONTACTS 1024
#define BYTES (1 << 14)

void *__real_malloc(size_t size);
void *__real_realloc(void *at, size_t size);
void *__wrap_malloc(size_t size);
void *__wrap_realloc(void *at, size_t size);

static long left = -1; /* the allocations before the one that is refused */
static long met;       /* how many there were */

static bool is_refused(void) {
    met++;
    return left >= 0 && left-- == 0;
}

void *__wrap_malloc(size_t size) { return is_refused() ? NULL : __real_malloc(size); }
void *__wrap_realloc(void *at, size_t size) { return is_refused() ? NULL : __real_realloc(at, size); }

/* ---- What a call writes, and what can be seen of a plan ---- */

typedef struct answer {
    uint32_t status, contacts[CONTACTS], number;
    cgrlist_route routes[ROUTES];
    cgrlist_page page;
    char text[BYTES];
    size_t bytes;
} answer;

typedef struct shown {
    bool is_open, is_listed;
    uint8_t digest[32];
    char text[BYTES];
    size_t bytes;
    cgrlist_place place;
} shown;

static cgrlist_plan *plan;
static cgrlist_listing *listing;
static cgrlist_request request;
static char plan_text[BYTES], session_text[BYTES];
static size_t plan_bytes, session_bytes;

static void see(shown *out) {
    memset(out, 0, sizeof *out);
    out->is_open = plan != NULL;
    out->is_listed = listing != NULL;
    cgrlist_plan_digest(plan, out->digest);
    cgrlist_listing_place(listing, &out->place);
    cgrlist_listing_text(listing, out->text, sizeof out->text, &out->bytes);
}

/* ---- The calls ---- */

static void call_read(answer *a) { a->status = cgrlist_plan_read(&plan, plan_text, plan_bytes, NULL); }
static void call_new(answer *a) { a->status = cgrlist_plan_new(&plan); }
static void call_best(answer *a) { a->status = cgrlist_best(plan, &request, a->routes, a->contacts, CONTACTS); }
static void call_first(answer *a) {
    a->status = cgrlist_first(plan, &request, 20, a->routes, ROUTES, a->contacts, CONTACTS, &a->page);
}
static void call_open(answer *a) { a->status = cgrlist_listing_open(plan, &request, &listing); }
static void call_load(answer *a) { a->status = cgrlist_listing_load(plan, session_text, session_bytes, &listing, NULL); }
static void call_next(answer *a) {
    a->status = cgrlist_listing_next(listing, 15, a->routes, ROUTES, a->contacts, CONTACTS, &a->page);
}
static void call_text(answer *a) { a->status = cgrlist_listing_text(listing, a->text, BYTES, &a->bytes); }
static void call_plan_text(answer *a) { a->status = cgrlist_plan_text(plan, a->text, BYTES, &a->bytes); }
static void call_canonical(answer *a) { a->status = cgrlist_plan_canonical(plan, a->text, BYTES, &a->bytes); }
static void call_copy(answer *a) {
    cgrlist_plan *copy;
    a->status = cgrlist_plan_copy(plan, &copy);
    cgrlist_plan_digest(copy, (uint8_t *)a->text);
    cgrlist_plan_close(copy);
}
static void call_renumber(answer *a) {
    cgrlist_plan *copy;
    a->status = cgrlist_plan_renumber(plan, 1893470000, &copy, a->contacts, CONTACTS);
    cgrlist_plan_digest(copy, (uint8_t *)a->text);
    cgrlist_plan_close(copy);
}
static void call_add_contacts(answer *a) {
    static const cgrlist_new_contact all[] = {{7001, 7002, 5, 9, 1}, {7001, 7002, 9, 12, 1}};
    a->status = cgrlist_plan_add_contacts(plan, all, 2, NULL);
}
static void call_add_ranges(answer *a) {
    static const cgrlist_range all[] = {{7001, 7002, 5, 9, 1}, {7001, 7002, 9, 12, 1}};
    a->status = cgrlist_plan_add_ranges(plan, all, 2, NULL);
}
static void call_nodes(answer *a) { a->status = cgrlist_plan_nodes(plan, (uint64_t *)a->text, BYTES / 8, &a->bytes); }
static void call_prepare(answer *a) { a->status = cgrlist_plan_prepare(plan); }
static void call_best_each(answer *a) {
    cgrlist_reach reach;
    a->status = cgrlist_best_each(plan, &request, &request.to, 1, &reach);
    if (a->status == CGRLIST_OK) a->status = reach.status;
    if (a->status == CGRLIST_OK) a->bytes = reach.delivery;
}
static void call_place(answer *a) {
    cgrlist_place place = {0, false, false};
    a->status = cgrlist_listing_place(listing, &place);
    a->bytes = (size_t)place.given;
}
/* That there is no page to undo is an answer, too. */
static void call_back(answer *a) {
    a->status = cgrlist_listing_back(listing);
    a->number = a->status == CGRLIST_NO;
    if (a->number) a->status = CGRLIST_OK;
}
static void call_contact_at(answer *a) {
    cgrlist_contact contact = {0, 0, 0, 0, 0, 0, 0, false};
    a->status = cgrlist_plan_contact_at(plan, 2, &contact);
    a->number = contact.number;
}
static void call_range_at(answer *a) {
    cgrlist_range range = {0, 0, 0, 0, 0};
    a->status = cgrlist_plan_range_at(plan, 2, &range);
    a->bytes = (size_t)range.end;
}
static void call_greatest(answer *a) { a->status = cgrlist_plan_greatest(plan, &a->number); }
static void call_delete_number(answer *a) { a->status = cgrlist_plan_delete_number(plan, 1); }
static void call_verify(answer *a) { a->status = cgrlist_verify(plan, session_text, session_bytes); }
static void call_add_contact(answer *a) { a->status = cgrlist_plan_add_contact(plan, 7001, 7002, 5, 9, 1, &a->number); }
static void call_add_range(answer *a) { a->status = cgrlist_plan_add_range(plan, 7001, 7002, 5, 9, 1); }
/* Adds 40 ranges one after another, so that most wait for their place. If one isn't added, the others are deleted. */
static void call_add_in_turn(answer *a) {
    uint64_t start = 40;
    while (start && !(a->status = cgrlist_plan_add_range(plan, 8001, 8002, start, start + 1, 1))) start--;
    while (start && start < 40)
        if (cgrlist_plan_delete_range(plan, 8001, 8002, ++start)) a->status = CGRLIST_NOTHING_TO_DELETE;
}
static void call_delete_contact(answer *a) { a->status = cgrlist_plan_delete_contact(plan, 7001, 7003, 5, &a->number); }
static void call_delete_range(answer *a) { a->status = cgrlist_plan_delete_range(plan, 7001, 7003, 5); }

static void close_all(void) {
    cgrlist_plan_close(plan);
    cgrlist_listing_close(listing);
    plan = NULL;
    listing = NULL;
}

/* What stands before a call. */
static bool is_made(uint32_t status) { return status == CGRLIST_OK; }

static bool nothing(void) { return true; }
static bool a_plan(void) {
    return is_made(cgrlist_plan_read(&plan, plan_text, plan_bytes, NULL)) &&
           is_made(cgrlist_plan_add_contact(plan, 7001, 7003, 5, 9, 1, NULL)) &&
           is_made(cgrlist_plan_add_range(plan, 7001, 7003, 5, 9, 1));
}
/* A plan to which ranges were added one after another, the last of which wait for their place. */
static bool a_growing_plan(void) {
    bool made = a_plan();
    for (uint64_t start = 20; start && made; start--)
        made = is_made(cgrlist_plan_add_range(plan, 8001, 8002, start, start + 1, 1));
    return made;
}
static bool an_asked_plan(void) {
    static answer a;
    if (!a_plan()) return false;
    call_best(&a);
    return is_made(a.status);
}
static bool a_listing(void) {
    static answer a;
    if (!a_plan() || !is_made(cgrlist_listing_open(plan, &request, &listing))) return false;
    return is_made(cgrlist_listing_next(listing, 5, a.routes, ROUTES, a.contacts, CONTACTS, &a.page));
}
static bool a_loaded_listing(void) {
    return a_plan() && is_made(cgrlist_listing_load(plan, session_text, session_bytes, &listing, NULL));
}

static const struct { const char *name; bool (*before)(void); void (*call)(answer *); } CALLS[] = {
    {"read", nothing, call_read}, {"new", nothing, call_new}, {"best", a_plan, call_best},
    {"best", an_asked_plan, call_best}, {"best", a_growing_plan, call_best}, {"first", a_plan, call_first},
    {"open", a_plan, call_open}, {"load", a_plan, call_load}, {"next", a_listing, call_next},
    {"text", a_listing, call_text}, {"plan text", an_asked_plan, call_plan_text},
    {"plan text", a_growing_plan, call_plan_text}, {"canonical text", an_asked_plan, call_canonical},
    {"copy", a_listing, call_copy}, {"verify", a_plan, call_verify}, {"add contact", an_asked_plan, call_add_contact},
    {"add range", an_asked_plan, call_add_range}, {"add range", a_growing_plan, call_add_range},
    {"add in turn", a_plan, call_add_in_turn}, {"delete contact", an_asked_plan, call_delete_contact},
    {"delete range", an_asked_plan, call_delete_range}, {"renumber", an_asked_plan, call_renumber},
    {"add contacts", an_asked_plan, call_add_contacts}, {"add ranges", an_asked_plan, call_add_ranges},
    {"nodes", a_plan, call_nodes}, {"prepare", a_plan, call_prepare}, {"best each", a_plan, call_best_each},
    {"delete number", an_asked_plan, call_delete_number}, {"place", a_listing, call_place},
    {"back", a_listing, call_back}, {"loaded next", a_loaded_listing, call_next}, {"loaded back", a_loaded_listing, call_back},
    {"loaded text", a_loaded_listing, call_text}, {"contact at", a_plan, call_contact_at}, {"range at", a_plan, call_range_at},
    {"greatest", a_plan, call_greatest},
};

/* ---- Comparing: member by member, since what lies between members may be anything ---- */

static bool is_same_answer(const answer *one, const answer *other) {
    return one->status == other->status && one->number == other->number && one->bytes == other->bytes &&
           one->page.routes == other->page.routes && one->page.contacts == other->page.contacts &&
           one->page.written == other->page.written && one->page.more == other->page.more &&
           !memcmp(one->routes, other->routes, sizeof one->routes) && !memcmp(one->text, other->text, sizeof one->text) &&
           !memcmp(one->contacts, other->contacts, sizeof one->contacts);
}

static bool is_same_plan(const shown *one, const shown *other) {
    return one->is_open == other->is_open && one->is_listed == other->is_listed && one->bytes == other->bytes && one->place.given == other->place.given &&
           one->place.more == other->place.more && one->place.can_back == other->place.can_back &&
           !memcmp(one->digest, other->digest, sizeof one->digest) && !memcmp(one->text, other->text, sizeof one->text);
}

/* ---- Refusing ---- */

static answer ever, found;
static shown before, after, ever_after;

static int failed(const char *name, long place, const char *what) {
    fprintf(stderr, "%s, allocation %ld: %s\n", name, place, what);
    return 1;
}

/* What stands before a call, what the call returns, and what stands after it, if nothing is refused. The call is made over
 * a plan and a listing that weren't looked at before, since a look may make an index. They are also closed so. */
static bool make_ever(size_t call) {
    memset(&ever, 0, sizeof ever);
    if (!CALLS[call].before()) return false;
    close_all();
    if (!CALLS[call].before()) return false;
    see(&before);
    close_all();
    if (!CALLS[call].before()) return false;
    CALLS[call].call(&ever);
    see(&ever_after);
    close_all();
    return is_made(ever.status);
}

/* Refuses one allocation of a call; *is_last is set if the call makes fewer. */
static int refuse(size_t call, long place, bool *is_last) {
    const char *name = CALLS[call].name;
    if (!CALLS[call].before()) return failed(name, place, "the plan can't be made");
    memset(&found, 0, sizeof found);
    left = place;
    met = 0;
    CALLS[call].call(&found);
    left = -1;
    *is_last = met <= place;
    if (found.status == CGRLIST_MEMORY) {
        see(&after);
        if (!is_same_plan(&before, &after)) return failed(name, place, "something has changed");
        memset(&found, 0, sizeof found);
        CALLS[call].call(&found);
    }
    if (!is_same_answer(&found, &ever)) return failed(name, place, "another answer");
    see(&after);
    if (!is_same_plan(&ever_after, &after)) return failed(name, place, "another plan or place");
    close_all();
    return 0;
}

static int refuse_all(size_t call) {
    bool is_last = false;
    long place = 0;
    if (!make_ever(call)) return failed(CALLS[call].name, -1, "the call can't be made");
    for (; !is_last; place++)
        if (refuse(call, place, &is_last)) return 1;
    if (call + 1 == sizeof CALLS / sizeof *CALLS || strcmp(CALLS[call].name, CALLS[call + 1].name))
        printf("%s: %ld refused\n", CALLS[call].name, place - 1);
    return 0;
}

int main(int argc, char **argv) {
    if (argc != 5) return 2;
    FILE *file = fopen(argv[1], "rb");
    if (!file) return 2;
    plan_bytes = fread(plan_text, 1, sizeof plan_text, file);
    fclose(file);
    request.from = strtoull(argv[2], NULL, 10);
    request.to = strtoull(argv[3], NULL, 10);
    request.at = strtoull(argv[4], NULL, 10);
    if (!a_listing() || cgrlist_listing_text(listing, session_text, BYTES, &session_bytes)) return 2;
    close_all();
    for (size_t call = 0; call < sizeof CALLS / sizeof *CALLS; call++)
        if (refuse_all(call)) return 1;
    return 0;
}
