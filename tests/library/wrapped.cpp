// Asks by cgrlist.hpp what wrapped.rs and wrapped.py ask, and prints it in the same words. Its word: examples/relay.txt.
#include "cgrlist.hpp"
#include <fstream>
#include <iostream>
#include <iterator>

static void print(const cgrlist::route &route) {
    std::cout << route.delivery << " " << route.until << " " << route.entry;
    for (auto contact : route.contacts) std::cout << " " << contact;
    std::cout << "\n";
}

int main(int, char **argv) {
    std::ifstream file(argv[1]);
    const std::string text(std::istreambuf_iterator<char>(file), {});
    const cgrlist::request asked = {31, 1, 1893458700};
    auto plan = cgrlist::plan::read(text);
    const auto &seen = plan;
    print(*seen.best(asked));
    auto listing = plan.list(asked);
    for (const auto &route : listing.next(2).routes) print(route);
    auto first = *plan.contact(seen.first(asked, 1).routes[0].contacts[0]);
    std::cout << plan.hops(asked, {4, 11}).size() << " " << cgrlist_fault_name(plan.follow(asked, {4, 11}).fault) << "\n";
    std::cout << plan.delete_contact(first.from, first.to, first.start) << "\n";
    print(*plan.best(asked));
    print(listing.next(9).routes.at(0));
    std::cout << listing.back() << listing.place().given << "\n";
    auto copy = cgrlist::plan::read(plan.text());
    std::cout << (copy.digest() == plan.copy().digest()) << " " << copy.greatest() << " " << copy.contacts().size() << " "
              << copy.ranges().size() << " " << copy.counts().nodes << " " << copy.canonical().size() << "\n";
    auto renewed = plan.renumber(1893480000);
    auto reach = seen.best_each(asked, {1, 31, 0});
    plan.prepare();
    std::cout << renewed.copy.greatest() << " " << renewed.numbers.at(0) << " " << renewed.copy.nodes().size() << " " << reach[0].delivery << " "
              << reach[0].entry << " " << reach[0].hops << " " << reach[1].status << " " << reach[2].status << "\n";
    renewed.copy.add_contacts({{1, 2, 3, 4, 5}, {1, 2, 4, 5, 5}});
    renewed.copy.add_ranges({{1, 7001, 3, 4, 5}});
    renewed.copy.delete_number(1);
    std::cout << renewed.copy.counts().contacts << " " << renewed.copy.counts().ranges << "\n";
    std::cout << seen.verify(seen.list(asked).text()) << seen.verify(listing.text()) << "\n";
    cgrlist::plan empty;
    std::cout << empty.add_contact(1, 2, 3, 4, 5) << " " << empty.best({1, 2, 3}).has_value() << "\n";
    try {
        plan.load(listing.text());
    } catch (const cgrlist::error &error) {
        std::cout << error.what() << " " << error.line << "\n";
    }
    try {
        plan.add_contacts({{7001, 7002, 3, 4, 5}, {7001, 7002, 4, 4, 5}});
    } catch (const cgrlist::error &error) {
        std::cout << error.what() << " " << error.line << "\n";
    }
    try {
        cgrlist::plan::read("a\n");
    } catch (const cgrlist::error &error) {
        std::cout << error.what() << " " << error.line << "\n";
    }
}
