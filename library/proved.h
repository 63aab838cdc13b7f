/* What the proved crate libcgrlist exports. library/build puts `proved_` into its names, and shims.c alone calls it.
 *
 * No place that it is given may be NULL, records with a bool are initialized, and a handle begins as zeros.
 */
#ifndef PROVED_H
#define PROVED_H

#include "cgrlist.h"

/* A handle: whether a plan is open, and its place. It has a listing or none. */
typedef struct handle { bool is_open; void *at; } handle;

/* A request but for the nodes to avoid: cgrlist_request begins with it. */
typedef struct asked { uint64_t from, to, at; uint32_t margin_ppm, max_hops; } asked;

uint32_t cgrlist_proved_plan_new(handle *plan);
uint32_t cgrlist_proved_plan_read(handle *plan, const uint8_t *text, size_t bytes, uint32_t *line);
uint32_t cgrlist_proved_plan_copy(handle *plan, handle *copy);
uint32_t cgrlist_proved_plan_renumber(handle *plan, uint64_t second, handle *copy, uint32_t *numbers, size_t room);
void cgrlist_proved_plan_close(handle *plan);
uint32_t cgrlist_proved_plan_add_contact(handle *plan, uint64_t from, uint64_t to, uint64_t start, uint64_t end,
                                         uint64_t rate, uint32_t *number);
uint32_t cgrlist_proved_plan_add_range(handle *plan, uint64_t one, uint64_t other, uint64_t start, uint64_t end,
                                       uint32_t light);
uint32_t cgrlist_proved_plan_delete_contact(handle *plan, uint64_t from, uint64_t to, uint64_t start, uint32_t *number);
uint32_t cgrlist_proved_plan_delete_range(handle *plan, uint64_t one, uint64_t other, uint64_t start);
uint32_t cgrlist_proved_plan_delete_number(handle *plan, uint32_t number);
uint32_t cgrlist_proved_plan_add_contacts(handle *plan, const cgrlist_new_contact *contacts, size_t count, size_t *place);
uint32_t cgrlist_proved_plan_add_ranges(handle *plan, const cgrlist_range *ranges, size_t count, size_t *place);
uint32_t cgrlist_proved_plan_prepare(handle *plan);
uint32_t cgrlist_proved_plan_text(handle *plan, uint8_t *text, size_t room, size_t *bytes);
uint32_t cgrlist_proved_plan_canonical(handle *plan, uint8_t *text, size_t room, size_t *bytes);
uint32_t cgrlist_proved_plan_counts(handle *plan, cgrlist_counts *counts);
uint32_t cgrlist_proved_plan_greatest(handle *plan, uint32_t *number);
uint32_t cgrlist_proved_plan_digest(handle *plan, uint8_t digest[32]);
uint32_t cgrlist_proved_plan_contact(handle *plan, uint32_t number, cgrlist_contact *contact);
uint32_t cgrlist_proved_plan_contact_at(handle *plan, size_t place, cgrlist_contact *contact);
uint32_t cgrlist_proved_plan_range_at(handle *plan, size_t place, cgrlist_range *range);
uint32_t cgrlist_proved_plan_nodes(handle *plan, uint64_t *nodes, size_t room, size_t *count);

uint32_t cgrlist_proved_best(handle *plan, const asked *request, const uint64_t *avoid, size_t avoids,
                             cgrlist_route *route, uint32_t *contacts, size_t contacts_room);
uint32_t cgrlist_proved_best_each(handle *plan, const asked *request, const uint64_t *avoid, size_t avoids,
                                  const uint64_t *to, size_t count, cgrlist_reach *reaches, size_t room);
uint32_t cgrlist_proved_first(handle *plan, const asked *request, const uint64_t *avoid, size_t avoids, uint32_t count,
                              cgrlist_route *routes, size_t routes_room, uint32_t *contacts, size_t contacts_room,
                              cgrlist_page *page);
uint32_t cgrlist_proved_follow(handle *plan, const asked *request, const uint64_t *avoid, size_t avoids,
                               const uint32_t *contacts, size_t count, cgrlist_outcome *outcome);
uint32_t cgrlist_proved_hops(handle *plan, const asked *request, const uint64_t *avoid, size_t avoids,
                             const uint32_t *contacts, size_t count, cgrlist_hop *hops, size_t hops_room,
                             size_t *hops_count);

uint32_t cgrlist_proved_listing_open(handle *plan, const asked *request, const uint64_t *avoid, size_t avoids);
uint32_t cgrlist_proved_listing_load(handle *plan, const uint8_t *text, size_t bytes, uint64_t *line);
uint32_t cgrlist_proved_listing_next(handle *plan, uint32_t count, cgrlist_route *routes, size_t routes_room,
                                     uint32_t *contacts, size_t contacts_room, cgrlist_page *page);
uint32_t cgrlist_proved_listing_back(handle *plan);
uint32_t cgrlist_proved_listing_place(handle *plan, cgrlist_place *place);
uint32_t cgrlist_proved_listing_text(handle *plan, uint8_t *text, size_t room, size_t *bytes);
uint32_t cgrlist_proved_verify(handle *plan, const uint8_t *text, size_t bytes);

#endif
