/* Times the calls of calls.c on what C++ programs make of absl's hash map: it leads from the strings to their numbers, and the strings
 * stand one behind the other in an arena, with an array of them by their numbers. A new string is searched for once.
 *
 *     absl NEW SHUFFLED ABSENT TURNS */
#include <absl/container/flat_hash_map.h>
#include <algorithm>
#include <memory>
#include <string_view>
#include <vector>

#include "lines.h"

/* Copies of strings, in blocks that aren't moved. */
class arena {
    std::vector<std::unique_ptr<char[]>> blocks;
    char *at = nullptr, *end = nullptr;
    size_t room = 4096;

  public:
    std::string_view copy(std::string_view s) {
        if ((size_t)(end - at) < s.size()) {
            if (room < 1 << 20) room *= 2;
            size_t size = std::max(room, s.size());
            blocks.emplace_back(new char[size]);
            at = blocks.back().get();
            end = at + size;
        }
        std::string_view copy(at, s.copy(at, s.size()));
        at += s.size();
        return copy;
    }
};

struct interner {
    absl::flat_hash_map<std::string_view, uint32_t> numbers;
    std::vector<std::string_view> texts;
    arena copies;

    uint32_t intern(std::string_view s) {
        auto found = numbers.lazy_emplace(s, [&](const auto &make) {
            texts.push_back(copies.copy(s));
            make(texts.back(), (uint32_t)(texts.size() - 1));
        });
        return found->second;
    }

    uint32_t find(std::string_view s) const {
        auto found = numbers.find(s);
        return found == numbers.end() ? UINT32_MAX : found->second;
    }
};

static std::string_view view(string s) {
    return std::string_view((const char *)s.at, s.len);
}

static uint64_t intern_each(void *table, strings of) {
    uint64_t sum = 0;
    for (size_t i = 0; i < of.count; i++) sum += ((interner *)table)->intern(view(of.items[i]));
    return sum;
}

static uint64_t find_each(void *table, strings of) {
    uint64_t sum = 0;
    for (size_t i = 0; i < of.count; i++) sum += ((interner *)table)->find(view(of.items[i]));
    return sum;
}

int main(int count, char **words) {
    if (count != 5) return 2;
    strings fresh = read_lines(words[1]), shuffled = read_lines(words[2]), absent = read_lines(words[3]);
    for (int i = 0; i < atoi(words[4]); i++) {
        interner table;
        measure("absl", "new", intern_each, &table, fresh);
        measure("absl", "again", intern_each, &table, fresh);
        measure("absl", "found", find_each, &table, fresh);
        measure("absl", "again, shuffled", intern_each, &table, shuffled);
        measure("absl", "found, shuffled", find_each, &table, shuffled);
        measure("absl", "absent", find_each, &table, absent);
    }
    return 0;
}
