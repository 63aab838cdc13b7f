/* Makes the calls that standard input names, a line each, and prints what each returns.
 *
 *     calls [--kept]      --kept: after each refused call, the plan and its listing must be as they were
 *
 * A line is the name of a call without `cgrlist_`, and its words. It is printed before what the call returns. A request is FROM TO AT, or PPM, HOPS and NODES (joined by
 * commas, - for none) after these. A text is the path of a file. Each call with a buffer is made twice: without room, and
 * with as much as the first one said is needed, so that a byte beyond it is found by valgrind and by the sanitizers. After
 * a line `room N ..` the next call is made once, with these lengths of its buffers. What a call opens replaces what was
 * open before. `use N` goes on with another plan and another listing.
 */
#include "cgrlist.h"
#include <inttypes.h>
#include <stdio.h>
#include <stdlib.h>
#include <string.h>
#include <time.h>

#define MOST_WORDS 32
#define UNSET SIZE_MAX

/* A plan and a listing. */
typedef struct slot {
    cgrlist_plan *plan;
    cgrlist_listing *listing;
} slot;

static slot slots[4];
static slot *here = slots;
static size_t rooms[2] = {UNSET, UNSET};
static char *words[MOST_WORDS];
static size_t word_count;
static uint32_t last_status;

/* ---- Memory and words ---- */

static void *block(size_t count, size_t size) {
    void *made = count ? malloc(count * size) : NULL;
    if (count && !made) exit(9);
    if (made) memset(made, 0xAA, count * size);
    return made;
}

static const char *word(size_t place) {
    return place < word_count ? words[place] : "0";
}

static uint64_t number(size_t place) {
    return strtoull(word(place), NULL, 10);
}

/* Numbers joined by commas. */
static size_t numbers(const char *text, uint64_t **out) {
    size_t count = 0;
    *out = NULL;
    if (*text < '0' || *text > '9') return 0;
    *out = block(strlen(text) / 2 + 1, sizeof **out);
    for (char *end; *text; text = *end ? end + 1 : end) (*out)[count++] = strtoull(text, &end, 10);
    return count;
}

static uint32_t *narrowed(const uint64_t *wide, size_t count) {
    uint32_t *out = block(count, sizeof *out);
    for (size_t i = 0; i < count; i++) out[i] = (uint32_t)wide[i];
    return out;
}

static uint64_t second_of(const char *text) {
    int year, month, day, hour, minute, second;
    if (sscanf(text, "%d/%d/%d-%d:%d:%d", &year, &month, &day, &hour, &minute, &second) != 6)
        return strtoull(text, NULL, 10);
    struct tm parts = {.tm_year = year - 1900, .tm_mon = month - 1, .tm_mday = day,
                       .tm_hour = hour, .tm_min = minute, .tm_sec = second};
    return (uint64_t)timegm(&parts);
}

/* The request in the words from this place on. */
static cgrlist_request asked_from(size_t place) {
    uint64_t *avoid = NULL;
    size_t avoids = place + 5 < word_count ? numbers(word(place + 5), &avoid) : 0;
    return (cgrlist_request){number(place), number(place + 1), second_of(word(place + 2)), (uint32_t)number(place + 3),
                             (uint32_t)number(place + 4), avoid, avoids};
}

static void drop(cgrlist_request *request) {
    free((void *)request->avoid);
}

/* A file's bytes, in a block of just their length. */
static char *bytes_of(const char *path, size_t *bytes) {
    FILE *file = fopen(path, "rb");
    if (!file || fseek(file, 0, SEEK_END)) exit(9);
    *bytes = (size_t)ftell(file);
    rewind(file);
    char *out = block(*bytes, 1);
    if (*bytes && fread(out, 1, *bytes, file) != *bytes) exit(9);
    fclose(file);
    return out;
}

/* ---- Printing ---- */

static void print_time(const char *before, uint64_t second) {
    time_t at = (time_t)second;
    struct tm parts;
    char text[40];
    gmtime_r(&at, &parts);
    strftime(text, sizeof text, "%Y/%m/%d-%H:%M:%S", &parts);
    printf("%s%s", before, text);
}

static uint32_t print_status(uint32_t status) {
    last_status = status;
    printf("status %" PRIu32 "\n", status);
    return status;
}

static void print_route(const cgrlist_route *route, const uint32_t *contacts) {
    print_time("delivery ", route->delivery);
    printf(" hops %zu entry %" PRIu64, route->hops, route->entry);
    print_time(" until ", route->until);
    printf(" contacts");
    for (size_t i = 0; i < route->hops; i++) printf(" %" PRIu32, contacts[route->first + i]);
    printf("\n");
}

static void print_page(uint32_t status, const cgrlist_page *page, const cgrlist_route *routes, const uint32_t *contacts) {
    print_status(status);
    if (status == CGRLIST_ROOM)
        printf("needs %zu routes, %zu contacts; written %zu\n", page->routes, page->contacts, page->written);
    if (status != CGRLIST_OK && status != CGRLIST_ROOM) return;
    for (size_t i = 0; i < page->written; i++) {
        printf("%zu ", i + 1);
        print_route(&routes[i], contacts);
    }
    if (status == CGRLIST_OK && page->written != page->routes) printf("written %zu of %zu\n", page->written, page->routes);
    puts(page->more ? "more" : "end");
}

/* ---- Calls ---- */

/* The length of a buffer: what is set, or else what is needed. */
static size_t room_of(int buffer, size_t needed) {
    return rooms[buffer] == UNSET ? needed : rooms[buffer];
}

static int is_room_set(void) {
    return rooms[0] != UNSET;
}

static void best(void) {
    cgrlist_request request = asked_from(1);
    cgrlist_route route = {0, 0, 0, 0, 0};
    uint32_t status = CGRLIST_ROOM;
    if (!is_room_set()) status = cgrlist_best(here->plan, &request, &route, NULL, 0);
    uint32_t *contacts = NULL;
    size_t room = 0;
    if (status == CGRLIST_ROOM) {
        room = room_of(0, route.hops);
        contacts = block(room, sizeof *contacts);
        status = cgrlist_best(here->plan, &request, &route, contacts, room);
    }
    print_status(status);
    if (status == CGRLIST_ROOM) {
        printf("needs %zu contacts\n", route.hops);
        route.hops = room;
    }
    if (status == CGRLIST_OK || status == CGRLIST_ROOM) print_route(&route, contacts);
    free(contacts);
    drop(&request);
}

/* The first word is the destinations. */
static void best_each(void) {
    cgrlist_request request = asked_from(2);
    uint64_t *to;
    size_t count = numbers(word(1), &to);
    cgrlist_reach *reaches = block(count, sizeof *reaches);
    uint32_t status = print_status(cgrlist_best_each(here->plan, &request, to, count, reaches));
    for (size_t i = 0; status == CGRLIST_OK && i < count; i++) {
        printf("to %" PRIu64 " status %" PRIu32, to[i], reaches[i].status);
        print_time(" delivery ", reaches[i].delivery);
        printf(" hops %zu entry %" PRIu64, reaches[i].hops, reaches[i].entry);
        print_time(" until ", reaches[i].until);
        puts("");
    }
    free(reaches);
    free(to);
    drop(&request);
}

/* Makes a call for a page, of a request or of the listing. */
static uint32_t page_of(const cgrlist_request *request, uint32_t count, cgrlist_route *routes, size_t routes_room, uint32_t *contacts,
                        size_t contacts_room, cgrlist_page *page) {
    if (!request) return cgrlist_listing_next(here->listing, count, routes, routes_room, contacts, contacts_room, page);
    return cgrlist_first(here->plan, request, count, routes, routes_room, contacts, contacts_room, page);
}

static void take_page(const cgrlist_request *request) {
    uint32_t count = (uint32_t)number(1), status = CGRLIST_ROOM;
    cgrlist_page page = {0, 0, 0, false};
    if (!is_room_set()) status = page_of(request, count, NULL, 0, NULL, 0, &page);
    cgrlist_route *routes = NULL;
    uint32_t *contacts = NULL;
    if (status == CGRLIST_ROOM) {
        size_t routes_room = room_of(0, page.routes), contacts_room = room_of(1, page.contacts);
        routes = block(routes_room, sizeof *routes);
        contacts = block(contacts_room, sizeof *contacts);
        status = page_of(request, count, routes, routes_room, contacts, contacts_room, &page);
    }
    print_page(status, &page, routes, contacts);
    free(routes);
    free(contacts);
}

static void first(void) {
    cgrlist_request request = asked_from(2);
    take_page(&request);
    drop(&request);
}

static void follow(void) {
    cgrlist_request request = asked_from(2);
    uint64_t *wide;
    size_t count = numbers(word(1), &wide);
    uint32_t *contacts = narrowed(wide, count);
    cgrlist_outcome outcome = {0, 0, 0, 0, 0};
    uint32_t status = print_status(cgrlist_follow(here->plan, &request, contacts, count, &outcome));
    if (status == CGRLIST_OK) {
        cgrlist_route route = {outcome.delivery, outcome.until, outcome.entry, 0, count};
        print_route(&route, contacts);
    } else if (status == CGRLIST_NO) {
        printf("refused");
        if (outcome.place) printf(" hop %" PRIu64, outcome.place);
        printf(": %s\n", cgrlist_fault_name(outcome.fault));
    }
    free(contacts);
    free(wide);
    drop(&request);
}

static void print_hop(size_t place, const cgrlist_hop *hop) {
    printf("hop %zu contact %" PRIu32 " from %" PRIu64 " to %" PRIu64, place, hop->contact, hop->from, hop->to);
    print_time(" send ", hop->sent);
    print_time(" arrive ", hop->arrival);
    printf("\n");
}

static void hops(void) {
    cgrlist_request request = asked_from(2);
    uint64_t *wide;
    size_t count = numbers(word(1), &wide), needed = 0, room = 0;
    uint32_t *contacts = narrowed(wide, count), status = CGRLIST_ROOM;
    cgrlist_hop *given = NULL;
    if (!is_room_set()) status = cgrlist_hops(here->plan, &request, contacts, count, NULL, 0, &needed);
    if (status == CGRLIST_ROOM) {
        room = room_of(0, needed);
        given = block(room, sizeof *given);
        status = cgrlist_hops(here->plan, &request, contacts, count, given, room, &needed);
    }
    print_status(status);
    if (status == CGRLIST_ROOM) printf("needs %zu hops\n", needed);
    if (status <= CGRLIST_ROOM)
        for (size_t i = 0; i < needed && i < room; i++) print_hop(i + 1, &given[i]);
    free(given);
    free(contacts);
    free(wide);
    drop(&request);
}

/* Puts what a call opened in the place of what was open. */
static void put_plan(slot *it, uint32_t status, cgrlist_plan *plan) {
    if (print_status(status)) return;
    cgrlist_plan_close(it->plan);
    it->plan = plan;
}

static void put_listing(uint32_t status, cgrlist_listing *listing) {
    if (print_status(status)) return;
    cgrlist_listing_close(here->listing);
    here->listing = listing;
}

static void plan_read(void) {
    size_t bytes;
    char *text = bytes_of(word(1), &bytes);
    uint64_t line = 0;
    cgrlist_plan *plan;
    uint32_t status = cgrlist_plan_read(&plan, text, bytes, &line);
    put_plan(here, status, plan);
    if (status >= CGRLIST_LINE_TOO_LONG) printf("line %" PRIu64 "\n", line);
    free(text);
}

static void plan_new(void) {
    cgrlist_plan *plan;
    uint32_t status = cgrlist_plan_new(&plan);
    put_plan(here, status, plan);
}

static void plan_close(void) {
    cgrlist_plan_close(here->plan);
    here->plan = NULL;
}

static void add_contact(void) {
    uint32_t given = 0;
    if (!print_status(cgrlist_plan_add_contact(here->plan, number(1), number(2), second_of(word(3)), second_of(word(4)), number(5), &given)))
        printf("number %" PRIu32 "\n", given);
}

static void add_range(void) {
    print_status(cgrlist_plan_add_range(here->plan, number(1), number(2), second_of(word(3)), second_of(word(4)), (uint32_t)number(5)));
}

static void delete_contact(void) {
    uint32_t had = 0;
    if (!print_status(cgrlist_plan_delete_contact(here->plan, number(1), number(2), second_of(word(3)), &had)))
        printf("number %" PRIu32 "\n", had);
}

static void delete_number(void) { print_status(cgrlist_plan_delete_number(here->plan, (uint32_t)number(1))); }

static void delete_range(void) {
    print_status(cgrlist_plan_delete_range(here->plan, number(1), number(2), second_of(word(3))));
}

/* Prints the status of a call for many records, and which of them is refused. */
static void print_added(uint32_t status, size_t place) {
    print_status(status);
    if (place != UNSET) printf("place %zu\n", place);
}

/* The words are five values of each contact. */
static void add_contacts(void) {
    size_t count = word_count / 5, place = UNSET;
    cgrlist_new_contact *all = block(count, sizeof *all);
    for (size_t i = 0; i < count; i++)
        all[i] = (cgrlist_new_contact){number(5 * i + 1), number(5 * i + 2), second_of(word(5 * i + 3)), second_of(word(5 * i + 4)), number(5 * i + 5)};
    uint32_t status = cgrlist_plan_add_contacts(here->plan, all, count, &place);
    print_added(status, place);
    free(all);
}

/* The words are five values of each range. */
static void add_ranges(void) {
    size_t count = word_count / 5, place = UNSET;
    cgrlist_range *all = block(count, sizeof *all);
    for (size_t i = 0; i < count; i++)
        all[i] = (cgrlist_range){number(5 * i + 1), number(5 * i + 2), second_of(word(5 * i + 3)), second_of(word(5 * i + 4)), (uint32_t)number(5 * i + 5)};
    uint32_t status = cgrlist_plan_add_ranges(here->plan, all, count, &place);
    print_added(status, place);
    free(all);
}

static void prepare(void) { print_status(cgrlist_plan_prepare(here->plan)); }

static void nodes(void) {
    size_t count = 0;
    uint64_t *all = NULL;
    uint32_t status = CGRLIST_ROOM;
    if (!is_room_set()) status = cgrlist_plan_nodes(here->plan, NULL, 0, &count);
    if (status == CGRLIST_ROOM) {
        size_t room = room_of(0, count);
        all = block(room, sizeof *all);
        status = cgrlist_plan_nodes(here->plan, all, room, &count);
    }
    print_status(status);
    if (status == CGRLIST_ROOM) printf("needs %zu nodes\n", count);
    if (status == CGRLIST_OK) printf("nodes");
    for (size_t i = 0; status == CGRLIST_OK && i < count; i++) printf(" %" PRIu64, all[i]);
    if (status == CGRLIST_OK) puts("");
    free(all);
}

static void counts(void) {
    cgrlist_counts c = {0, 0, 0, 0, 0};
    uint8_t digest[32];
    if (print_status(cgrlist_plan_counts(here->plan, &c)) || cgrlist_plan_digest(here->plan, digest)) return;
    printf("contacts %" PRIu64 "\nranges %" PRIu64 "\nnodes %" PRIu64 "\nwithout light %" PRIu64 "\ndigest ", c.contacts, c.ranges, c.nodes, c.without_light);
    for (int i = 0; i < 32; i++) printf("%02x", digest[i]);
    printf("\ngreatest %" PRIu64 "\n", c.greatest);
}

static void digest(void) {
    uint8_t it[32];
    print_status(cgrlist_plan_digest(here->plan, it));
}

static void print_contact(uint32_t status, const cgrlist_contact *c) {
    if (print_status(status)) return;
    printf("contact %" PRIu32 " from %" PRIu64 " to %" PRIu64, c->number, c->from, c->to);
    print_time(" start ", c->start);
    print_time(" end ", c->end);
    printf(" rate %" PRIu64, c->rate);
    if (c->has_light) printf(" light %" PRIu32, c->light);
    printf("\n");
}

static void contact(void) {
    cgrlist_contact c = {0, 0, 0, 0, 0, 0, 0, false};
    print_contact(cgrlist_plan_contact(here->plan, (uint32_t)number(1), &c), &c);
}

static void contact_at(void) {
    cgrlist_contact c = {0, 0, 0, 0, 0, 0, 0, false};
    print_contact(cgrlist_plan_contact_at(here->plan, number(1), &c), &c);
}

static void range_at(void) {
    cgrlist_range r = {0, 0, 0, 0, 0};
    if (print_status(cgrlist_plan_range_at(here->plan, number(1), &r))) return;
    printf("range one %" PRIu64 " other %" PRIu64, r.one, r.other);
    print_time(" start ", r.start);
    print_time(" end ", r.end);
    printf(" light %" PRIu32 "\n", r.light);
}

static void greatest(void) {
    uint32_t given = 0;
    if (!print_status(cgrlist_plan_greatest(here->plan, &given))) printf("greatest %" PRIu32 "\n", given);
}

static void listing_open(void) {
    cgrlist_request request = asked_from(1);
    cgrlist_listing *listing;
    uint32_t status = cgrlist_listing_open(here->plan, &request, &listing);
    put_listing(status, listing);
    drop(&request);
}

static void listing_load(void) {
    size_t bytes;
    char *text = bytes_of(word(1), &bytes);
    uint64_t line = 0;
    cgrlist_listing *listing;
    uint32_t status = cgrlist_listing_load(here->plan, text, bytes, &listing, &line);
    put_listing(status, listing);
    if (status >= CGRLIST_SESSION_BAD_HEADER) printf("line %" PRIu64 "\n", line);
    free(text);
}

static void listing_next(void) { take_page(NULL); }

static void listing_back(void) { print_status(cgrlist_listing_back(here->listing)); }

static void listing_place(void) {
    cgrlist_place place = {0, false, false};
    if (print_status(cgrlist_listing_place(here->listing, &place))) return;
    printf("given %" PRIu64 " %s %s\n", place.given, place.more ? "more" : "end", place.can_back ? "back" : "first");
}

static uint32_t plan_text_of(char *text, size_t room, size_t *bytes) {
    return cgrlist_plan_text(here->plan, text, room, bytes);
}

static uint32_t canonical_of(char *text, size_t room, size_t *bytes) {
    return cgrlist_plan_canonical(here->plan, text, room, bytes);
}

static uint32_t session_text_of(char *text, size_t room, size_t *bytes) {
    return cgrlist_listing_text(here->listing, text, room, bytes);
}

/* Writes a text to the file that the second word names, or prints it if there is none. */
static void put_text(uint32_t (*text_of)(char *, size_t, size_t *)) {
    size_t bytes = 0, room;
    uint32_t status = CGRLIST_ROOM;
    char *text = NULL;
    if (!is_room_set()) status = text_of(NULL, 0, &bytes);
    if (status == CGRLIST_ROOM) {
        room = room_of(0, bytes);
        text = block(room, 1);
        status = text_of(text, room, &bytes);
    }
    print_status(status);
    if (status == CGRLIST_ROOM) printf("needs %zu bytes\n", bytes);
    if (status == CGRLIST_OK) {
        FILE *file = word_count > 1 ? fopen(word(1), "wb") : stdout;
        if (!file || (bytes && fwrite(text, 1, bytes, file) != bytes)) exit(9);
        if (file != stdout) fclose(file);
    }
    free(text);
}

static void listing_text(void) { put_text(session_text_of); }
static void plan_text(void) { put_text(plan_text_of); }
static void plan_canonical(void) { put_text(canonical_of); }

/* Copies the plan to another slot. */
static void plan_copy(void) {
    cgrlist_plan *copy;
    uint32_t status = cgrlist_plan_copy(here->plan, &copy);
    put_plan(&slots[number(1) & 3], status, copy);
}

/* Copies the plan to another slot: what ends after a second, with the contacts numbered from 1 on. */
static void renumber(void) {
    cgrlist_plan *copy;
    size_t room = room_of(0, 64);
    uint32_t *had = block(room, sizeof *had), greatest = 0;
    uint32_t status = cgrlist_plan_renumber(here->plan, second_of(word(2)), &copy, had, room);
    put_plan(&slots[number(1) & 3], status, copy);
    if (!status) {
        cgrlist_plan_greatest(copy, &greatest);
        printf("numbers");
        for (size_t i = 0; i < greatest && i < room; i++) printf(" %" PRIu32, had[i]);
        puts("");
    }
    free(had);
}

static void listing_close(void) {
    cgrlist_listing_close(here->listing);
    here->listing = NULL;
}

static void verify(void) {
    size_t bytes;
    char *text = bytes_of(word(1), &bytes);
    print_status(cgrlist_verify(here->plan, text, bytes));
    free(text);
}

static void status_name(void) { puts(cgrlist_status_name((uint32_t)number(1))); }
static void fault_name(void) { puts(cgrlist_fault_name((uint32_t)number(1))); }
static void version(void) { puts(cgrlist_version()); }
static void abi(void) { printf("%" PRIu32 "\n", cgrlist_abi()); }

static void use(void) { here = &slots[number(1) & 3]; }

static const struct { const char *name; void (*call)(void); } CALLS[] = {
    {"plan_new", plan_new}, {"plan_read", plan_read}, {"plan_close", plan_close}, {"plan_add_contact", add_contact},
    {"plan_add_range", add_range}, {"plan_delete_contact", delete_contact}, {"plan_delete_range", delete_range},
    {"plan_delete_number", delete_number}, {"plan_add_contacts", add_contacts}, {"plan_add_ranges", add_ranges},
    {"plan_prepare", prepare}, {"plan_nodes", nodes}, {"plan_renumber", renumber}, {"best_each", best_each},
    {"plan_copy", plan_copy}, {"plan_text", plan_text}, {"plan_canonical", plan_canonical}, {"plan_counts", counts},
    {"plan_greatest", greatest}, {"plan_digest", digest}, {"plan_contact", contact}, {"plan_contact_at", contact_at},
    {"plan_range_at", range_at}, {"best", best}, {"first", first},
    {"follow", follow}, {"hops", hops}, {"listing_open", listing_open}, {"listing_load", listing_load},
    {"listing_next", listing_next}, {"listing_back", listing_back}, {"listing_place", listing_place},
    {"listing_text", listing_text}, {"listing_close", listing_close}, {"verify", verify}, {"status_name", status_name},
    {"fault_name", fault_name}, {"version", version}, {"abi", abi}, {"use", use},
};

/* ---- What stays after a refused call ---- */

typedef struct shown {
    cgrlist_counts counts;
    cgrlist_place place;
    uint8_t digest[32];
    char *text;
    size_t bytes;
} shown;

/* What can be seen of the plan and of its listing. */
static shown seen(void) {
    shown out;
    memset(&out, 0, sizeof out);
    if (cgrlist_plan_counts(here->plan, &out.counts) || cgrlist_plan_digest(here->plan, out.digest)) return out;
    if (cgrlist_listing_place(here->listing, &out.place)) return out;
    if (cgrlist_listing_text(here->listing, NULL, 0, &out.bytes) != CGRLIST_ROOM) exit(9);
    out.text = block(out.bytes, 1);
    if (cgrlist_listing_text(here->listing, out.text, out.bytes, &out.bytes)) exit(9);
    return out;
}

static bool is_same(const shown *one, const shown *other) {
    return one->counts.contacts == other->counts.contacts && one->counts.ranges == other->counts.ranges &&
           one->counts.greatest == other->counts.greatest && one->place.given == other->place.given &&
           one->place.more == other->place.more && one->place.can_back == other->place.can_back &&
           !memcmp(one->digest, other->digest, 32) && one->bytes == other->bytes &&
           (!one->bytes || !memcmp(one->text, other->text, one->bytes));
}

/* Makes a call after which, if it is refused, all must be as it was. */
static void keeping(void (*call)(void)) {
    shown before = seen();
    last_status = CGRLIST_OK;
    call();
    if (last_status > CGRLIST_NO) {
        shown after = seen();
        if (!is_same(&before, &after)) puts("changed");
        free(after.text);
    }
    free(before.text);
}

static void make_call(bool is_kept) {
    for (size_t i = 0; i < sizeof CALLS / sizeof *CALLS; i++)
        if (!strcmp(word(0), CALLS[i].name)) {
            if (is_kept && CALLS[i].call != use) keeping(CALLS[i].call);
            else CALLS[i].call();
            rooms[0] = rooms[1] = UNSET;
            return;
        }
    fprintf(stderr, "calls: there is no call %s\n", word(0));
    exit(9);
}

/* ---- Lines ---- */

static void split(char *line) {
    word_count = 0;
    for (char *it = strtok(line, " \n"); it && word_count < MOST_WORDS; it = strtok(NULL, " \n")) words[word_count++] = it;
}

int main(int argc, char **argv) {
    static char line[1 << 20];
    bool is_kept = argc > 1 && !strcmp(argv[1], "--kept");
    while (fgets(line, sizeof line, stdin)) {
        if (*line == '\n') continue;
        printf("> %s%s", line, strchr(line, '\n') ? "" : "\n");
        split(line);
        if (!strcmp(words[0], "room")) {
            rooms[0] = (size_t)number(1);
            rooms[1] = (size_t)number(2);
        } else {
            make_call(is_kept);
        }
    }
    for (slot *it = slots; it < slots + 4; it++) {
        cgrlist_plan_close(it->plan);
        cgrlist_listing_close(it->listing);
    }
    return 0;
}
