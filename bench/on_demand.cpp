// Each task of the benchmark over one document, written out by hand over simdjson's On-Demand, which passes over what
// is not asked for. What it prints stands as in the document. Its word is the task's name; `bench/run` builds it where
// simdjson is installed.
#include "by_hand.h"

#include <simdjson.h>

#include <sys/stat.h>
#include <unistd.h>

#include <algorithm>
#include <functional>
#include <map>
#include <optional>
#include <string>
#include <string_view>
#include <vector>

namespace ondemand = simdjson::ondemand;
using ondemand::document;
using ondemand::field;
using ondemand::json_type;
using ondemand::value;
using simdjson::NO_SUCH_FIELD;
using simdjson::SUCCESS;

namespace {

ondemand::parser parser;
std::string path;

// Calls `visit` with the list or the object that a value or the document is, if it is one.
template <class Whole, class Visit>
void open(Whole &whole, Visit visit) {
    switch (json_type(whole.type())) {
    case json_type::array:
        visit(ondemand::array(whole.get_array()));
        break;
    case json_type::object:
        visit(ondemand::object(whole.get_object()));
        break;
    default:
        break;
    }
}

template <class Visit>
void each_part(ondemand::array items, Visit visit) {
    for (value item : items) {
        visit(item);
    }
}

template <class Visit>
void each_part(ondemand::object members, Visit visit) {
    for (field member : members) {
        visit(member.value());
    }
}

template <class Whole, class Visit>
void each_child(Whole &whole, Visit visit) {
    open(whole, [visit](auto parts) { each_part(parts, visit); });
}

// A token reaches up to the next one.
std::string_view without_blanks(std::string_view text) {
    while (text.back() == ' ' || text.back() == '\n' || text.back() == '\r' || text.back() == '\t') {
        text.remove_suffix(1);
    }
    return text;
}

std::string_view text_of(value it) {
    if (it.is_scalar()) {
        return without_blanks(it.raw_json_token());
    }
    return simdjson::to_json_string(it);
}

void write_line(std::string_view text) {
    written.append(text);
    end_line();
}

void line(value it) {
    write_line(text_of(it));
}

// What stands from a name's first character to the value.
simdjson_inline std::string_view up_to_value(field &member) {
    const char *start = member.key().raw();
    return {start, size_t(member.value().raw_json_token().data() - start)};
}

// A name as it stands, with its quotation marks: the last mark before the value is the second of them.
std::string_view name_of(field &member) {
    std::string_view text = up_to_value(member);
    return {text.data() - 1, text.rfind('"') + 2};
}

template <class Whole>
void print(Whole &whole);

void print_parts(ondemand::array items) {
    std::string_view before = "";
    written.push_back('[');
    for (value item : items) {
        written.append(before);
        print(item);
        before = ",";
    }
    written.push_back(']');
}

void print_parts(ondemand::object members) {
    std::string_view before = "";
    written.push_back('{');
    for (field member : members) {
        written.append(before).append(name_of(member)).push_back(':');
        print(member.value());
        before = ",";
    }
    written.push_back('}');
}

// Writes a value token by token, without the blanks between.
template <class Whole>
void print(Whole &whole) {
    if (whole.is_scalar()) {
        written.append(without_blanks(whole.raw_json_token()));
        flush_when_full();
    } else {
        open(whole, [](auto parts) { print_parts(parts); });
    }
}

void print_document(document &whole) {
    print(whole);
    end_line();
}

// Whether a name is that one once its escapes are undone, in room of their own: the parser has room for each text once.
bool stands_for(field &member, std::string_view name) {
    std::vector<uint8_t> room(up_to_value(member).size() + simdjson::SIMDJSON_PADDING);
    uint8_t *end = room.data();
    return std::string_view(parser.unescape(member.key(), end)) == name;
}

// Whether a name is that one by its escapes, which are longer than what they stand for.
simdjson_inline bool is_spelled(field &member, std::string_view name) {
    std::string_view text = up_to_value(member);
    return text.size() > name.size() + 2 && text.find('\\') != text.npos && stands_for(member, name);
}

simdjson_inline bool is_named(field &member, std::string_view name) {
    return member.key() == name || is_spelled(member, name);
}

std::optional<value> find_spelled(ondemand::object &members, std::string_view name) {
    members.reset();
    for (field member : members) {
        if (is_spelled(member, name)) {
            return member.value();
        }
    }
    return {};
}

// `find_field_unordered` compares names as they stand.
simdjson_inline std::optional<value> find(ondemand::object &members, std::string_view name) {
    auto found = members.find_field_unordered(name);
    return found.error() == NO_SUCH_FIELD ? find_spelled(members, name) : found.value();
}

template <class Whole>
void named(Whole &whole, std::string_view name);

void named_inside(ondemand::array items, std::string_view name) {
    for (value item : items) {
        named(item, name);
    }
}

void line_and_named(value it, std::string_view name);

// What is found is written in the order of the document.
void named_inside(ondemand::object members, std::string_view name) {
    for (field member : members) {
        if (is_named(member, name)) {
            line_and_named(member.value(), name);
        } else {
            named(member.value(), name);
        }
    }
}

template <class Whole>
void named(Whole &whole, std::string_view name) {
    open(whole, [name](auto parts) { named_inside(parts, name); });
}

void line_and_named(value it, std::string_view name) {
    if (it.is_scalar()) {
        line(it);
    }
    open(it, [name](auto parts) {
        write_line(without_blanks(parts.raw_json()));
        parts.reset();
        named_inside(parts, name);
    });
}

template <class Whole>
void paths_of_named(Whole &whole, std::string_view name);

void paths_inside(ondemand::array items, std::string_view name) {
    size_t index = 0, length = path.size();
    for (value item : items) {
        path.append("[").append(std::to_string(index++)).append("]");
        paths_of_named(item, name);
        path.resize(length);
    }
}

// The names of the benchmark have no character that has to be escaped.
void paths_inside(ondemand::object members, std::string_view name) {
    size_t length = path.size();
    for (field member : members) {
        std::string_view key = member.unescaped_key();
        path.append("['").append(key).append("']");
        if (key == name) {
            write_line(path);
        }
        paths_of_named(member.value(), name);
        path.resize(length);
    }
}

// Writes the normalized path of each member of that name. `path` is that of the value.
template <class Whole>
void paths_of_named(Whole &whole, std::string_view name) {
    open(whole, [name](auto parts) { paths_inside(parts, name); });
}

// Lists and objects are gone over twice: the children come before what is inside them.
template <class Whole>
void inside(Whole &whole) {
    open(whole, [](auto parts) {
        each_part(parts, line);
        parts.reset();
        each_part(parts, [](value part) { inside(part); });
    });
}

// Calls `visit` with each item that is an object.
template <class Visit>
void each_object(document &list, Visit visit) {
    each_child(list, [visit](value item) {
        ondemand::object members;
        if (item.get_object().get(members) == SUCCESS) {
            visit(members);
        }
    });
}

// Writes the member of that name of each item that is to be kept.
template <class Keep>
void of_each(document &list, std::string_view name, Keep keep) {
    each_object(list, [name, keep](ondemand::object &members) {
        if (keep(members)) {
            if (std::optional<value> found = find(members, name)) {
                line(*found);
            }
        }
    });
}

// The member of that name as a number or text, if it is there and is one.
template <class Kind>
simdjson_inline std::optional<Kind> find_as(ondemand::object &members, std::string_view name) {
    std::optional<value> found = find(members, name);
    Kind it;
    return found && found->get(it) == SUCCESS ? std::optional(it) : std::nullopt;
}

bool is_cheap(ondemand::object &members) {
    std::optional<uint64_t> price = find_as<uint64_t>(members, "price");
    return price && *price < 10;
}

bool is_bargain(ondemand::object &members) {
    std::optional<double> price = find_as<double>(members, "price");
    return price && *price < 10.5;
}

bool has_stamp(ondemand::object &members) {
    std::optional<std::string_view> text = find_as<std::string_view>(members, "time");
    return text && is_stamp(*text);
}

bool has_event(ondemand::object &members) {
    std::optional<std::string_view> text = find_as<std::string_view>(members, "message");
    return text && is_event(*text);
}

bool always(ondemand::object &) {
    return true;
}

simdjson_inline std::optional<uint64_t> number_at(ondemand::object &members, std::string_view outer, std::string_view inner) {
    std::optional<ondemand::object> part = find_as<ondemand::object>(members, outer);
    return part ? find_as<uint64_t>(*part, inner) : std::nullopt;
}

void equal_pairs(document &list) {
    each_object(list, [](ondemand::object &members) {
        std::optional<uint64_t> left = number_at(members, "a", "b");
        if (left && left == number_at(members, "c", "d")) {
            members.reset();
            write_line(without_blanks(members.raw_json()));
        }
    });
}

void backwards(document &list) {
    std::vector<std::string_view> items;
    each_child(list, [&items](value item) { items.push_back(text_of(item)); });
    std::for_each(items.rbegin(), items.rend(), write_line);
}

void children(document &whole) {
    each_child(whole, line);
}

void paths_of_leaves(document &whole) {
    path = "$";
    paths_of_named(whole, "leaf");
}

const std::map<std::string_view, std::function<void(document &)>> tasks = {
    {"parse and print", print_document},
    {"$[*].name", [](document &list) { of_each(list, "name", always); }},
    {"$..price", [](document &whole) { named(whole, "price"); }},
    {"$..*", inside<document>},
    {"$[?@.price<10].title", [](document &list) { of_each(list, "title", is_cheap); }},
    {"$[?@.a.b==@.c.d]", equal_pairs},
    {"match of a time stamp", [](document &list) { of_each(list, "id", has_stamp); }},
    {"search in a message", [](document &list) { of_each(list, "id", has_event); }},
    {"$[::-1]", backwards},
    {"$.*", children},
    {"$..leaf", [](document &whole) { named(whole, "leaf"); }},
    {"paths of $..leaf", paths_of_leaves},
    {"decimals: print", print_document},
    {"decimals: $[*].name", [](document &list) { of_each(list, "name", always); }},
    {"decimals: filter", [](document &list) { of_each(list, "title", is_bargain); }},
    {"random names: print", print_document},
    {"random names: $.*", children},
};

// What stands on the standard input, which is a file.
simdjson::padded_string input() {
    struct stat about = {};
    fstat(STDIN_FILENO, &about);
    simdjson::padded_string bytes{size_t(about.st_size)};
    if (read(STDIN_FILENO, bytes.data(), bytes.size()) != about.st_size) {
        throw simdjson::simdjson_error(simdjson::IO_ERROR);
    }
    return bytes;
}

} // namespace

int main(int count, char **words) {
    auto task = tasks.find(count > 1 ? words[1] : "");
    if (task == tasks.end()) {
        std::fputs("no such task\n", stderr);
        return 2;
    }
    try {
        simdjson::padded_string bytes = input();
        document whole = parser.iterate(bytes);
        task->second(whole);
    } catch (const simdjson::simdjson_error &) {
        std::fputs("no document\n", stderr);
        return 3;
    }
    flush();
    return 0;
}
