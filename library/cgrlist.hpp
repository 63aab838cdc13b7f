// cgrlist.h for C++17: plans and listings that close themselves, and vectors in place of buffers.
//
//     cgrlist::plan plan = cgrlist::plan::read(text);
//     if (auto route = plan.best({31, 1, 1893458700})) std::cout << route->delivery << '\n';
//
// A call that is refused throws a cgrlist::error with the status. cgrlist(3) says what the calls do, and cgrlist.h has the
// records without vectors. One plan, and one listing, is used by one call at a time, but for const calls after prepare().
#ifndef CGRLIST_HPP
#define CGRLIST_HPP

#include "cgrlist.h"
#include <array>
#include <memory>
#include <optional>
#include <stdexcept>
#include <string>
#include <string_view>
#include <utility>
#include <vector>

namespace cgrlist {

// A call was refused. `line` is that of a bad text, or the place from 0 of a record among those to add, or 0.
class error : public std::runtime_error {
public:
    explicit error(cgrlist_status why, std::uint64_t bad_line = 0)
        : std::runtime_error(cgrlist_status_name(why)), status(why), line(bad_line) {}

    cgrlist_status status;
    std::uint64_t line;
};

struct request {
    std::uint64_t from, to, at;
    std::uint32_t margin_ppm = 0, max_hops = 0;
    std::vector<std::uint64_t> avoid = {};
};

struct route {
    std::uint64_t delivery, until, entry;
    std::vector<std::uint32_t> contacts;
};

struct page {
    std::vector<route> routes;
    bool more;
};

class plan;

// A copy of a plan, and the number in the plan of each of its contacts.
struct renumbered;

namespace detail {

// OK, NO and ROOM are answers, and all else is thrown.
inline cgrlist_status checked(cgrlist_status status, std::uint64_t line = 0) {
    if (status > CGRLIST_ROOM) throw error(status, line);
    return status;
}

inline cgrlist_request asked(const request &it) {
    return {it.from, it.to, it.at, it.margin_ppm, it.max_hops, it.avoid.data(), it.avoid.size()};
}

inline route route_of(const cgrlist_route &row, const std::vector<std::uint32_t> &contacts) {
    const auto first = contacts.begin() + static_cast<std::ptrdiff_t>(row.first);
    return {row.delivery, row.until, row.entry, {first, first + static_cast<std::ptrdiff_t>(row.hops)}};
}

// The page of a call that takes buffers, which grow until there is room.
template <class Call> page page_of(Call call) {
    std::vector<cgrlist_route> rows;
    std::vector<std::uint32_t> contacts;
    cgrlist_page given = {};
    while (checked(call(rows.data(), rows.size(), contacts.data(), contacts.size(), &given)) == CGRLIST_ROOM) {
        rows.resize(given.routes);
        contacts.resize(given.contacts);
    }
    page out{{}, given.more};
    for (std::size_t i = 0; i < given.written; i++) out.routes.push_back(route_of(rows[i], contacts));
    return out;
}

// The text of a call that takes a buffer for it.
template <class Call> std::string text_of(Call call) {
    std::string text;
    std::size_t bytes = 0;
    while (checked(call(text.data(), text.size(), &bytes)) == CGRLIST_ROOM) text.resize(bytes);
    return text;
}

struct closing {
    void operator()(cgrlist_plan *it) const noexcept { cgrlist_plan_close(it); }
    void operator()(cgrlist_listing *it) const noexcept { cgrlist_listing_close(it); }
};

} // namespace detail

// All routes of a request, page after page, over a copy of the plan as it stood.
class listing {
public:
    explicit listing(cgrlist_listing *it) noexcept : opened(it) {}

    page next(std::uint32_t count) {
        return detail::page_of([&](auto... given) { return cgrlist_listing_next(get(), count, given...); });
    }

    // Takes the last page that had routes back; false if there is none.
    bool back() { return detail::checked(cgrlist_listing_back(get())) == CGRLIST_OK; }

    cgrlist_place place() const {
        cgrlist_place found = {};
        detail::checked(cgrlist_listing_place(get(), &found));
        return found;
    }

    std::string text() const {
        return detail::text_of([&](auto... given) { return cgrlist_listing_text(get(), given...); });
    }

    cgrlist_listing *get() const noexcept { return opened.get(); }

private:
    std::unique_ptr<cgrlist_listing, detail::closing> opened;
};

class plan {
public:
    explicit plan(cgrlist_plan *it) noexcept : opened(it) {}

    // An empty plan.
    plan() {
        cgrlist_plan *made;
        detail::checked(cgrlist_plan_new(&made));
        opened.reset(made);
    }

    static plan read(std::string_view text) {
        cgrlist_plan *made;
        std::uint64_t line;
        const cgrlist_status status = cgrlist_plan_read(&made, text.data(), text.size(), &line);
        detail::checked(status, line);
        return plan(made);
    }

    plan copy() const {
        cgrlist_plan *made;
        detail::checked(cgrlist_plan_copy(get(), &made));
        return plan(made);
    }

    std::uint32_t add_contact(std::uint64_t from, std::uint64_t to, std::uint64_t start, std::uint64_t end, std::uint64_t rate) {
        std::uint32_t number = 0;
        detail::checked(cgrlist_plan_add_contact(get(), from, to, start, end, rate, &number));
        return number;
    }

    void add_range(std::uint64_t one, std::uint64_t other, std::uint64_t start, std::uint64_t end, std::uint32_t light) {
        detail::checked(cgrlist_plan_add_range(get(), one, other, start, end, light));
    }

    std::uint32_t delete_contact(std::uint64_t from, std::uint64_t to, std::uint64_t start) {
        std::uint32_t number = 0;
        detail::checked(cgrlist_plan_delete_contact(get(), from, to, start, &number));
        return number;
    }

    void delete_number(std::uint32_t number) { detail::checked(cgrlist_plan_delete_number(get(), number)); }

    // Adds contacts, all or none.
    void add_contacts(const std::vector<cgrlist_new_contact> &all) {
        std::size_t place = 0;
        const cgrlist_status status = cgrlist_plan_add_contacts(get(), all.data(), all.size(), &place);
        detail::checked(status, place);
    }

    // Adds ranges, all or none.
    void add_ranges(const std::vector<cgrlist_range> &all) {
        std::size_t place = 0;
        const cgrlist_status status = cgrlist_plan_add_ranges(get(), all.data(), all.size(), &place);
        detail::checked(status, place);
    }

    // Makes what is kept until the next change. Until then, threads may make const calls at the same time.
    void prepare() { detail::checked(cgrlist_plan_prepare(get())); }

    inline renumbered renumber(std::uint64_t second) const;

    void delete_range(std::uint64_t one, std::uint64_t other, std::uint64_t start) {
        detail::checked(cgrlist_plan_delete_range(get(), one, other, start));
    }

    std::string text() const {
        return detail::text_of([&](auto... given) { return cgrlist_plan_text(get(), given...); });
    }

    // The canonical text, of which the digest is the SHA-256. It isn't read back.
    std::string canonical() const {
        return detail::text_of([&](auto... given) { return cgrlist_plan_canonical(get(), given...); });
    }

    cgrlist_counts counts() const {
        cgrlist_counts found = {};
        detail::checked(cgrlist_plan_counts(get(), &found));
        return found;
    }

    std::uint32_t greatest() const {
        std::uint32_t number = 0;
        detail::checked(cgrlist_plan_greatest(get(), &number));
        return number;
    }

    std::array<std::uint8_t, 32> digest() const {
        std::array<std::uint8_t, 32> found;
        detail::checked(cgrlist_plan_digest(get(), found.data()));
        return found;
    }

    std::optional<cgrlist_contact> contact(std::uint32_t number) const {
        cgrlist_contact found = {};
        if (detail::checked(cgrlist_plan_contact(get(), number, &found)) == CGRLIST_NO) return std::nullopt;
        return found;
    }

    // The contacts that stand, in the order of their numbers.
    std::vector<cgrlist_contact> contacts() const {
        std::vector<cgrlist_contact> out;
        for (cgrlist_contact it = {}; cgrlist_plan_contact_at(get(), out.size(), &it) == CGRLIST_OK;) out.push_back(it);
        return out;
    }

    // The ranges that stand, in the order of their nodes and starts.
    std::vector<cgrlist_range> ranges() const {
        std::vector<cgrlist_range> out;
        for (cgrlist_range it = {}; cgrlist_plan_range_at(get(), out.size(), &it) == CGRLIST_OK;) out.push_back(it);
        return out;
    }

    // The nodes that send or receive a contact, ascending.
    std::vector<std::uint64_t> nodes() const {
        std::vector<std::uint64_t> out;
        std::size_t count = 0;
        while (detail::checked(cgrlist_plan_nodes(get(), out.data(), out.size(), &count)) == CGRLIST_ROOM) out.resize(count);
        return out;
    }

    // The best route to each destination, in place of the request's.
    std::vector<cgrlist_reach> best_each(const request &it, const std::vector<std::uint64_t> &to) const {
        const cgrlist_request asked = detail::asked(it);
        std::vector<cgrlist_reach> out(to.size());
        detail::checked(cgrlist_best_each(get(), &asked, to.data(), to.size(), out.data()));
        return out;
    }

    std::optional<route> best(const request &it) const {
        const cgrlist_request asked = detail::asked(it);
        std::vector<std::uint32_t> contacts(64);
        cgrlist_route row = {};
        cgrlist_status status;
        while ((status = detail::checked(cgrlist_best(get(), &asked, &row, contacts.data(), contacts.size()))) == CGRLIST_ROOM)
            contacts.resize(row.hops);
        if (status == CGRLIST_NO) return std::nullopt;
        return detail::route_of(row, contacts);
    }

    page first(const request &it, std::uint32_t count) const {
        const cgrlist_request asked = detail::asked(it);
        return detail::page_of([&](auto... given) { return cgrlist_first(get(), &asked, count, given...); });
    }

    // What contacts do: the record of a route if the fault is CGRLIST_FAULT_NONE, else the fault and its place.
    cgrlist_outcome follow(const request &it, const std::vector<std::uint32_t> &contacts) const {
        const cgrlist_request asked = detail::asked(it);
        cgrlist_outcome found = {};
        detail::checked(cgrlist_follow(get(), &asked, contacts.data(), contacts.size(), &found));
        return found;
    }

    // The hops of contacts, up to their first fault.
    std::vector<cgrlist_hop> hops(const request &it, const std::vector<std::uint32_t> &contacts) const {
        const cgrlist_request asked = detail::asked(it);
        std::vector<cgrlist_hop> out(contacts.size());
        std::size_t count = 0;
        detail::checked(cgrlist_hops(get(), &asked, contacts.data(), contacts.size(), out.data(), out.size(), &count));
        out.resize(count);
        return out;
    }

    listing list(const request &it) const {
        const cgrlist_request asked = detail::asked(it);
        cgrlist_listing *made;
        detail::checked(cgrlist_listing_open(get(), &asked, &made));
        return listing(made);
    }

    // The listing of a session text.
    listing load(std::string_view text) const {
        cgrlist_listing *made;
        std::uint64_t line;
        const cgrlist_status status = cgrlist_listing_load(get(), text.data(), text.size(), &made, &line);
        detail::checked(status, line);
        return listing(made);
    }

    // Whether a text is the session text of a place in the list of its request.
    bool verify(std::string_view text) const {
        return detail::checked(cgrlist_verify(get(), text.data(), text.size())) == CGRLIST_OK;
    }

    cgrlist_plan *get() const noexcept { return opened.get(); }

private:
    std::unique_ptr<cgrlist_plan, detail::closing> opened;
};

struct renumbered {
    plan copy;
    std::vector<std::uint32_t> numbers;
};

// A copy of what ends after a second, with the contacts numbered from 1 on.
inline renumbered plan::renumber(std::uint64_t second) const {
    std::vector<std::uint32_t> numbers(greatest());
    cgrlist_plan *made;
    detail::checked(cgrlist_plan_renumber(get(), second, &made, numbers.data(), numbers.size()));
    renumbered out{plan(made), std::move(numbers)};
    out.numbers.resize(out.copy.greatest());
    return out;
}

} // namespace cgrlist

#endif
