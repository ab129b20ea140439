// What the programs over simdjson share: the lines that are gathered for the output, and what two tasks ask of a text.

#pragma once

#include <cstdio>
#include <string>
#include <string_view>

inline std::string written;

inline void flush() {
    std::fwrite(written.data(), 1, written.size(), stdout);
    written.clear();
}

inline void flush_when_full() {
    if (written.size() > 65536) {
        flush();
    }
}

inline void end_line() {
    written.push_back('\n');
    flush_when_full();
}

// Whether a text is as 2026-(0[1-9]|1[0-2])-..T..:..:..Z says.
inline bool is_stamp(std::string_view text) {
    static const std::string_view form = "2026-##-..T..:..:..Z";
    if (text.size() != form.size()) {
        return false;
    }
    for (size_t i = 0; i < form.size(); i++) {
        if (form[i] != '#' && form[i] != '.' && form[i] != text[i]) {
            return false;
        }
    }
    return text[5] == '0' ? text[6] >= '1' && text[6] <= '9'
                          : text[5] == '1' && text[6] >= '0' && text[6] <= '2';
}

inline bool is_event(std::string_view text) {
    return text.find("timeout") != text.npos || text.find("refused") != text.npos;
}
