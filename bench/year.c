/* A router that runs for a year of simulated time: each minute a contact is added and another deleted, over 5000 contacts.
 *
 *     year DAYS PROGRAM FOLDER
 *
 * Each hour it asks for a best route, and pages two listings over the plan in turn. Each day it writes the plan and a listing's
 * session text into the folder, and the call and PROGRAM verify the text over the plan. Before the plan has given all contact
 * numbers, a new one is made of what stands. In the end it prints of each call how many there were, the mean and the longest time
 * of processor in milliseconds, and the resident memory in kB after a month and in the end. Status 1: an answer is wrong, a
 * call took more than 10 milliseconds, or the memory grew by more than a tenth after a month, when numbers were renewed twice. */
#include "cgrlist.h"
#include <stdio.h>
#include <stdlib.h>
#include <sys/wait.h>
#include <time.h>

enum { CONTACTS = 5000, NODES = 50, NEAR = 5, MINUTE = 60, LENGTH = 600, MOST_NUMBERS = 20000, MOST_MILLISECONDS = 10 };
#define BEGIN 1893456000u

/* ---- Timed calls ---- */

typedef struct timing { const char *name; unsigned long count; double sum, longest; } timing;

static timing add = {"add_contact", 0, 0, 0}, take = {"delete_contact", 0, 0, 0}, best = {"best", 0, 0, 0},
              open = {"listing_open", 0, 0, 0}, next = {"listing_next", 0, 0, 0}, text = {"plan_text", 0, 0, 0},
              counted = {"plan_counts", 0, 0, 0}, copied = {"plan_copy", 0, 0, 0},
              renewal = {"plan_renumber", 0, 0, 0}, spelled = {"listing_text", 0, 0, 0}, judged = {"verify", 0, 0, 0};

static double now(void) {
    struct timespec it;
    clock_gettime(CLOCK_THREAD_CPUTIME_ID, &it);
    return (double)it.tv_sec * 1e3 + (double)it.tv_nsec / 1e6;
}

static double begun;

static void fail(const char *what, cgrlist_status status) {
    fprintf(stderr, "year: %s: %s\n", what, cgrlist_status_name(status));
    exit(1);
}

/* Notes what a call took, which began at `begun`. */
static void note(timing *it, cgrlist_status status) {
    double taken = now() - begun;
    if (status != CGRLIST_OK && (status != CGRLIST_NO || it == &judged)) fail(it->name, status);
    it->count++;
    it->sum += taken;
    if (it->longest < taken) it->longest = taken;
}

#define TIMED(it, call) (begun = now(), note(&(it), (call)))

static long resident(void) {
    long pages = 0;
    FILE *file = fopen("/proc/self/statm", "r");
    if (!file || fscanf(file, "%*d %ld", &pages) != 1) exit(1);
    fclose(file);
    return pages * 4;
}

/* ---- The plan ---- */

/* The contact of a minute: who sends to whom, and when. */
typedef struct window { uint64_t from, to, start; } window;

static window window_of(uint64_t minute) {
    uint64_t from = minute % NODES, step = 1 + minute / NODES % NEAR;
    return (window){from + 1, (from + step) % NODES + 1, BEGIN + minute * MINUTE};
}

static void add_window(cgrlist_plan *plan, uint64_t minute) {
    window it = window_of(minute);
    TIMED(add, cgrlist_plan_add_contact(plan, it.from, it.to, it.start, it.start + LENGTH, 1000, NULL));
}

static cgrlist_plan *first_plan(void) {
    cgrlist_plan *plan;
    if (cgrlist_plan_new(&plan)) exit(1);
    for (uint64_t node = 0; node < NODES; node++)
        for (uint64_t step = 1; step <= NEAR; step++)
            if (cgrlist_plan_add_range(plan, node + 1, (node + step) % NODES + 1, BEGIN, CGRLIST_LAST_TIME, 1)) exit(1);
    for (uint64_t minute = 0; minute < CONTACTS; minute++) add_window(plan, minute);
    return plan;
}

/* A plan of what stands, with contact numbers from 1. */
static cgrlist_plan *renewed(cgrlist_plan *old) {
    cgrlist_plan *plan;
    TIMED(renewal, cgrlist_plan_renumber(old, 0, &plan, NULL, 0));
    cgrlist_plan_close(old);
    return plan;
}

/* A minute goes by: its contact goes, and a later one comes. */
static cgrlist_plan *after_minute(cgrlist_plan *plan, uint64_t minute) {
    window over = window_of(minute);
    uint32_t greatest = 0;
    cgrlist_plan_greatest(plan, &greatest);
    if (greatest == MOST_NUMBERS) plan = renewed(plan);
    TIMED(take, cgrlist_plan_delete_contact(plan, over.from, over.to, over.start, NULL));
    add_window(plan, minute + CONTACTS);
    return plan;
}

/* ---- Asking ---- */

static cgrlist_request request_at(uint64_t minute, uint64_t turn) {
    uint64_t from = (minute + turn * 7) % NODES;
    return (cgrlist_request){from + 1, (from + 11) % NODES + 1, BEGIN + minute * MINUTE, 0, 0, NULL, 0};
}

/* Opens two listings, and takes pages of both in turn. The first one is returned. */
static cgrlist_listing *page_two(cgrlist_plan *plan, uint64_t minute) {
    cgrlist_listing *listings[2];
    static cgrlist_route routes[16];
    static uint32_t contacts[1 << 12];
    for (uint64_t i = 0; i < 2; i++) {
        cgrlist_request asked = request_at(minute, i);
        TIMED(open, cgrlist_listing_open(plan, &asked, &listings[i]));
    }
    for (int i = 0; i < 6; i++)
        TIMED(next, cgrlist_listing_next(listings[i % 2], 5, routes, 16, contacts, sizeof contacts / sizeof *contacts, NULL));
    cgrlist_listing_close(listings[1]);
    return listings[0];
}

static void put(const char *folder, const char *name, const char *bytes, size_t count) {
    char path[4096];
    snprintf(path, sizeof path, "%s/%s", folder, name);
    FILE *file = fopen(path, "wb");
    if (!file || fwrite(bytes, 1, count, file) != count || fclose(file)) exit(1);
}

/* Runs a command, which has to end with status 0. */
static void run(const char *command) {
    int ended = system(command);
    if (ended == 0) return;
    if (ended != -1 && WIFEXITED(ended)) fprintf(stderr, "year: status %d of %s\n", WEXITSTATUS(ended), command);
    else fprintf(stderr, "year: a signal, or no process, at %s\n", command);
    exit(1);
}

/* Writes the plan and the session text of a listing, which the library and the program verify over the plan. */
static void verify(cgrlist_plan *plan, cgrlist_listing *listing, const char *program, const char *folder) {
    static char bytes[1 << 21];
    char command[3 * 4096];
    size_t count = 0;
    TIMED(text, cgrlist_plan_text(plan, bytes, sizeof bytes, &count));
    put(folder, "plan.txt", bytes, count);
    TIMED(spelled, cgrlist_listing_text(listing, bytes, sizeof bytes, &count));
    put(folder, "session.txt", bytes, count);
    TIMED(judged, cgrlist_verify(plan, bytes, count));
    snprintf(command, sizeof command, "'%s' verify --plan '%s/plan.txt' --session '%s/session.txt' >/dev/null", program, folder, folder);
    run(command);
}

static void ask(cgrlist_plan *plan, uint64_t minute, const char *program, const char *folder) {
    cgrlist_request asked = request_at(minute, 0);
    cgrlist_route route;
    static uint32_t contacts[256];
    cgrlist_counts counts;
    TIMED(best, cgrlist_best(plan, &asked, &route, contacts, 256));
    TIMED(counted, cgrlist_plan_counts(plan, &counts));
    if (counts.contacts != CONTACTS) exit(1);
    cgrlist_listing *listing = page_two(plan, minute);
    if (minute % (24 * 60) == 0) {
        TIMED(copied, cgrlist_plan_copy(plan, NULL));
        verify(plan, listing, program, folder);
    }
    cgrlist_listing_close(listing);
}

int main(int argc, char **argv) {
    if (argc != 4) return 2;
    const timing *all[] = {&add, &take, &best, &open, &next, &text, &counted, &copied, &renewal, &spelled, &judged};
    cgrlist_plan *plan = first_plan();
    long first = 0;
    for (uint64_t minute = 0, minutes = strtoull(argv[1], NULL, 10) * 24 * 60; minute < minutes; minute++) {
        if (minute % 60 == 0) ask(plan, minute, argv[2], argv[3]);
        plan = after_minute(plan, minute);
        if (minute == 30 * 24 * 60) first = resident();
    }
    cgrlist_plan_close(plan);
    long last = resident();
    int status = first != 0 && last > first + first / 10;
    for (size_t i = 0; i < sizeof all / sizeof *all; i++) {
        printf("%-15s %8lu calls, mean %7.3f ms, longest %7.3f ms\n", all[i]->name, all[i]->count,
               all[i]->count ? all[i]->sum / (double)all[i]->count : 0, all[i]->longest);
        if (all[i]->longest > MOST_MILLISECONDS) status = 1;
    }
    printf("resident %ld kB after a month, %ld kB in the end\n", first, last);
    return status;
}
