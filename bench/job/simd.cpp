// The job of `generate`'s plan by simdjson's on-demand reader, a hash map of the standard library and a sort at the
// end.
//
// `simd INPUT SIZE SLIDE`

#include <algorithm>
#include <cstdint>
#include <cstdio>
#include <cstdlib>
#include <iostream>
#include <limits>
#include <string>
#include <unordered_map>
#include <utility>
#include <vector>

#include <simdjson.h>

using namespace simdjson;

struct Place {
    int64_t start;
    int64_t key;

    bool operator==(const Place &other) const { return start == other.start && key == other.key; }
    bool operator<(const Place &other) const { return start != other.start ? start < other.start : key < other.key; }
};

struct PlaceHash {
    size_t operator()(const Place &place) const {
        uint64_t mixed = uint64_t(place.start) * 0x9e3779b97f4a7c15 + uint64_t(place.key);
        mixed = (mixed ^ (mixed >> 32)) * 0xbf58476d1ce4e5b9;
        return mixed ^ (mixed >> 29);
    }
};

struct Totals {
    uint64_t count = 0;
    __int128 sum = 0;
    int64_t least = std::numeric_limits<int64_t>::max();
    int64_t greatest = std::numeric_limits<int64_t>::min();
};

struct Windows {
    int64_t size;
    int64_t slide;
    std::unordered_map<Place, Totals, PlaceHash> totals;

    void add(int64_t time, int64_t key, int64_t value) {
        int64_t rest = time % slide;
        for (int64_t start = time - (rest < 0 ? rest + slide : rest); start > time - size; start -= slide) {
            Totals &into = totals[Place{start, key}];
            into.count += 1;
            into.sum += value;
            into.least = std::min(into.least, value);
            into.greatest = std::max(into.greatest, value);
        }
    }
};

// A late row is refused, as streamjob does.
void read_row(ondemand::array row, int64_t watermark, Windows &windows) {
    int64_t numbers[3];
    size_t width = 0;
    for (ondemand::value value : row) {
        int64_t number = value.get_int64();
        if (width < 3) {
            numbers[width] = number;
        }
        width += 1;
    }
    if (width < 3 || numbers[0] <= watermark) {
        std::exit(1);
    }
    windows.add(numbers[0], numbers[1], numbers[2]);
}

void read_entry(ondemand::object entry, int64_t &watermark, Windows &windows) {
    for (ondemand::field member : entry) {
        if (member.key() == "rows") {
            for (ondemand::array row : member.value().get_array()) {
                read_row(row, watermark, windows);
            }
        } else {
            watermark = std::max<int64_t>(watermark, member.value().get_int64());
        }
    }
}

void append(std::string &text, __int128 number) {
    char digits[40];
    char *first = digits + sizeof digits;
    unsigned __int128 rest = number < 0 ? -static_cast<unsigned __int128>(number) : number;
    while (rest > std::numeric_limits<uint64_t>::max()) {
        *--first = char('0' + int(rest % 10));
        rest /= 10;
    }
    uint64_t low = uint64_t(rest);
    do {
        *--first = char('0' + low % 10);
        low /= 10;
    } while (low != 0);
    if (number < 0) {
        *--first = '-';
    }
    text.append(first, digits + sizeof digits);
}

std::string text_of(const Windows &windows) {
    std::vector<std::pair<Place, Totals>> rows(windows.totals.begin(), windows.totals.end());
    std::sort(rows.begin(), rows.end(), [](const auto &one, const auto &other) { return one.first < other.first; });
    std::string text;
    for (const auto &[place, totals] : rows) {
        const __int128 numbers[] = {place.start, place.start + windows.size, place.key, totals.count, totals.sum, totals.least, totals.greatest};
        for (const __int128 &number : numbers) {
            if (&number != numbers) {
                text += ' ';
            }
            append(text, number);
        }
        text += '\n';
    }
    return text;
}

int main(int count, char **words) {
    if (count != 4) {
        std::cerr << "simd INPUT SIZE SLIDE\n";
        return 2;
    }
    Windows windows{std::atoll(words[2]), std::atoll(words[3]), {}};
    padded_string bytes = padded_string::load(words[1]);
    ondemand::parser parser;
    ondemand::document document = parser.iterate(bytes);
    for (ondemand::field source : document.get_object()) {
        for (ondemand::array partition : source.value().get_array()) {
            int64_t watermark = std::numeric_limits<int64_t>::min();
            for (ondemand::object entry : partition) {
                read_entry(entry, watermark, windows);
            }
        }
    }
    std::string text = text_of(windows);
    return std::fwrite(text.data(), 1, text.size(), stdout) == text.size() ? 0 : 1;
}
