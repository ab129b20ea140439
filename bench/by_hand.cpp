// Each task of the benchmark over one document, written out by hand over simdjson's DOM, which checks the
// whole document as jp does. Its word is the task's name; `bench/run` builds it where simdjson is installed.
#include "by_hand.h"

#include <simdjson.h>

#include <algorithm>
#include <functional>
#include <map>
#include <string>
#include <string_view>
#include <vector>

namespace dom = simdjson::dom;
using dom::element;
using simdjson::SUCCESS;

namespace {

std::vector<std::string> path;

void line(element value) {
    static simdjson::internal::string_builder<> text;
    text.clear();
    text.append(value);
    written.append(text.str());
    end_line();
}

template <class Visit>
void each_child(element value, Visit visit) {
    if (value.is_array()) {
        for (element item : dom::array(value)) {
            visit(item);
        }
    } else if (value.is_object()) {
        for (dom::key_value_pair member : dom::object(value)) {
            visit(member.value);
        }
    }
}

void named(element value, std::string_view name) {
    element found;
    if (value.is_object() && dom::object(value).at_key(name).get(found) == SUCCESS) {
        line(found);
    }
    each_child(value, [name](element child) { named(child, name); });
}

// The normalized path of each member of that name. The names of the benchmark have no character that has
// to be escaped.
void paths_of_named(element value, std::string_view name) {
    if (value.is_object()) {
        for (dom::key_value_pair member : dom::object(value)) {
            path.push_back("['" + std::string(member.key) + "']");
            if (member.key == name) {
                written.push_back('$');
                for (const std::string &step : path) {
                    written.append(step);
                }
                end_line();
            }
            paths_of_named(member.value, name);
            path.pop_back();
        }
    } else if (value.is_array()) {
        size_t index = 0;
        for (element item : dom::array(value)) {
            path.push_back("[" + std::to_string(index++) + "]");
            paths_of_named(item, name);
            path.pop_back();
        }
    }
}

void inside(element value) {
    each_child(value, line);
    each_child(value, inside);
}

// Writes the member of that name of each item that is to be kept.
template <class Keep>
void of_each(element list, std::string_view name, Keep keep) {
    each_child(list, [name, keep](element item) {
        element found;
        if (keep(item) && item[name].get(found) == SUCCESS) {
            line(found);
        }
    });
}

bool is_cheap(element item) {
    uint64_t price;
    return item["price"].get(price) == SUCCESS && price < 10;
}

bool is_bargain(element item) {
    double price;
    return item["price"].get(price) == SUCCESS && price < 10.5;
}

void equal_pairs(element list) {
    each_child(list, [](element item) {
        uint64_t left, right;
        if (item["a"]["b"].get(left) == SUCCESS && item["c"]["d"].get(right) == SUCCESS && left == right) {
            line(item);
        }
    });
}

bool has_stamp(element item) {
    std::string_view text;
    return item["time"].get(text) == SUCCESS && is_stamp(text);
}

bool has_event(element item) {
    std::string_view text;
    return item["message"].get(text) == SUCCESS && is_event(text);
}

void backwards(element list) {
    std::vector<element> items;
    each_child(list, [&items](element item) { items.push_back(item); });
    std::for_each(items.rbegin(), items.rend(), line);
}

bool always(element) {
    return true;
}

const std::map<std::string_view, std::function<void(element)>> tasks = {
    {"parse and print", line},
    {"$[*].name", [](element value) { of_each(value, "name", always); }},
    {"$..price", [](element value) { named(value, "price"); }},
    {"$..*", inside},
    {"$[?@.price<10].title", [](element value) { of_each(value, "title", is_cheap); }},
    {"$[?@.a.b==@.c.d]", equal_pairs},
    {"match of a time stamp", [](element value) { of_each(value, "id", has_stamp); }},
    {"search in a message", [](element value) { of_each(value, "id", has_event); }},
    {"$[::-1]", backwards},
    {"$.*", [](element value) { each_child(value, line); }},
    {"$..leaf", [](element value) { named(value, "leaf"); }},
    {"paths of $..leaf", [](element value) { paths_of_named(value, "leaf"); }},
    {"decimals: print", line},
    {"decimals: $[*].name", [](element value) { of_each(value, "name", always); }},
    {"decimals: filter", [](element value) { of_each(value, "title", is_bargain); }},
    {"random names: print", line},
    {"random names: $.*", [](element value) { each_child(value, line); }},
};

} // namespace

int main(int count, char **words) {
    auto task = tasks.find(count > 1 ? words[1] : "");
    if (task == tasks.end()) {
        std::fputs("no such task\n", stderr);
        return 2;
    }
    simdjson::padded_string bytes;
    dom::parser parser;
    element value;
    if (simdjson::padded_string::load("/dev/stdin").get(bytes) != SUCCESS || parser.parse(bytes).get(value) != SUCCESS) {
        std::fputs("no document\n", stderr);
        return 3;
    }
    task->second(value);
    flush();
    return 0;
}
