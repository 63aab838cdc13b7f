/* Asks for the best route of a request over a contact plan, loses the route's first contact, and asks again. Then it makes
 * a new plan of the contacts that stand, as a router that runs for long does before its contact numbers run out.
 *
 *     cc router.c $(pkg-config --cflags --libs cgrlist) -o router
 *     ./router relay.txt 31 1 1893458700        the last word is a second after 1970
 */
#include <cgrlist.h>
#include <inttypes.h>
#include <stdio.h>
#include <stdlib.h>

/* Ends the program if a call was refused. */
static cgrlist_status must(cgrlist_status status, const char *what) {
    if (status <= CGRLIST_NO) return status;
    fprintf(stderr, "%s: %s\n", what, cgrlist_status_name(status));
    exit(1);
}

static void *resized(void *block, size_t bytes) {
    void *made = realloc(block, bytes);
    if (!made) exit(1);
    return made;
}

/* The bytes of a file, however many they are. */
static char *text_of(const char *path, size_t *bytes) {
    char *text = NULL;
    size_t room = 0, given;
    FILE *file = fopen(path, "rb");
    if (!file) exit(1);
    *bytes = 0;
    do {
        if (*bytes == room) text = resized(text, room = 2 * room + 4096);
        *bytes += given = fread(text + *bytes, 1, room - *bytes, file);
    } while (given);
    fclose(file);
    return text;
}

static cgrlist_plan *plan_of(const char *path) {
    cgrlist_plan *plan;
    uint64_t line;
    size_t bytes;
    char *text = text_of(path, &bytes);
    cgrlist_status status = cgrlist_plan_read(&plan, text, bytes, &line);
    free(text);
    if (line) fprintf(stderr, "line %" PRIu64 ": ", line);
    must(status, path);
    return plan;
}

/* Prints the best route, and returns its first contact, or 0 if there is no route. */
static uint32_t ask(const cgrlist_plan *plan, const cgrlist_request *request) {
    cgrlist_route route = {0, 0, 0, 0, 0};
    uint32_t *contacts = NULL;
    cgrlist_status status;
    while ((status = cgrlist_best(plan, request, &route, contacts, contacts ? route.hops : 0)) == CGRLIST_ROOM)
        contacts = resized(contacts, route.hops * sizeof *contacts);
    if (must(status, "best") == CGRLIST_NO) {
        puts("no route");
        return 0;
    }
    printf("to node %" PRIu64 " first, there at %" PRIu64 ", over", route.entry, route.delivery);
    for (size_t i = 0; i < route.hops; i++) printf(" %" PRIu32, contacts[i]);
    puts("");
    uint32_t first = contacts[0];
    free(contacts);
    return first;
}

static void lose(cgrlist_plan *plan, uint32_t number) {
    must(cgrlist_plan_delete_number(plan, number), "delete");
    printf("contact %" PRIu32 " is lost\n", number);
}

/* Makes a plan of what isn't over at a second, with contact numbers from 1, in place of another one. */
static cgrlist_plan *renewed(cgrlist_plan *old, uint64_t second) {
    cgrlist_plan *plan;
    must(cgrlist_plan_renumber(old, second, &plan, NULL, 0), "renumber");
    cgrlist_plan_close(old);
    return plan;
}

int main(int argc, char **argv) {
    if (argc != 5) return 2;
    if (cgrlist_abi() != CGRLIST_ABI) {
        fprintf(stderr, "this library has another interface than the header\n");
        return 2;
    }
    cgrlist_request request = {strtoull(argv[2], NULL, 10), strtoull(argv[3], NULL, 10), strtoull(argv[4], NULL, 10), 0, 0, NULL, 0};
    cgrlist_plan *plan = plan_of(argv[1]);
    uint32_t first = ask(plan, &request);
    if (first) {
        lose(plan, first);
        ask(plan, &request);
        plan = renewed(plan, request.at);
        puts("with new numbers:");
        ask(plan, &request);
    }
    cgrlist_plan_close(plan);
    return 0;
}
