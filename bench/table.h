// r.stats -c: combinations and their counts.
#pragma once

#include "grid.h"

#include <algorithm>
#include <numeric>
#include <utility>

// A cell as a number that orders as tables do, null last.
inline uint32_t rank_of(int32_t cell) { return uint32_t(cell - 1u) ^ 0x80000000u; }
inline int32_t cell_of(uint32_t rank) { return int32_t((rank ^ 0x80000000u) + 1u); }

// The combinations of one, two and more maps.
struct One {
    using Key = uint32_t;
    static constexpr size_t WIDTH = 1;
    static Key key(const std::array<uint32_t, 1> &ranks) { return ranks[0]; }
    static uint32_t rank(Key key, size_t) { return key; }
    static uint64_t mixed(Key key) { return key * 0x9E3779B97F4A7C15u; }
};

struct Two {
    using Key = uint64_t;
    static constexpr size_t WIDTH = 2;
    static Key key(const std::array<uint32_t, 2> &ranks) { return uint64_t(ranks[0]) << 32 | ranks[1]; }
    static uint32_t rank(Key key, size_t at) { return uint32_t(at == 0 ? key >> 32 : key); }
    static uint64_t mixed(Key key) { return (key ^ key >> 32) * 0x9E3779B97F4A7C15u; }
};

template <size_t N> struct Many {
    using Key = std::array<uint32_t, N>;
    static constexpr size_t WIDTH = N;
    static Key key(const Key &ranks) { return ranks; }
    static uint32_t rank(const Key &key, size_t at) { return key[at]; }
    static uint64_t mixed(const Key &key) {
        uint64_t sum = 0;
        for (const uint32_t rank : key) sum = (sum + rank) * 0x9E3779B97F4A7C15u;
        return sum;
    }
};

template <typename Form> using Entries = std::vector<std::pair<typename Form::Key, uint64_t>>;

// Counts in one array of places, at most half of them taken: a combination is at the first free one from where its
// hash says.
template <typename Form> class OwnCounts {
public:
    using Key = typename Form::Key;

    OwnCounts() : places(size_t(1) << length_log) {}

    void add(const Key &key, uint64_t cells) {
        Place &place = find(key);
        if (place.count == 0) {
            if (++taken * 2 > places.size()) {
                grow();
                return add_new(find(key), key, cells);
            }
            return add_new(place, key, cells);
        }
        place.count += cells;
    }

    Entries<Form> entries() const {
        Entries<Form> found;
        found.reserve(taken);
        for (const Place &place : places) {
            if (place.count > 0) found.push_back({place.key, place.count});
        }
        return found;
    }

private:
    struct Place {
        Key key{};
        uint64_t count = 0;
    };

    static void add_new(Place &place, const Key &key, uint64_t cells) { place = {key, cells}; }

    Place &find(const Key &key) {
        size_t at = Form::mixed(key) >> (64 - length_log);
        while (places[at].count > 0 && places[at].key != key) at = (at + 1) & (places.size() - 1);
        return places[at];
    }

    void grow() {
        std::vector<Place> old(size_t(1) << (length_log += 2));
        old.swap(places);
        for (const Place &place : old) {
            if (place.count > 0) find(place.key) = place;
        }
    }

    int length_log = 12;
    std::vector<Place> places;
    size_t taken = 0;
};

// The entries of one map whose categories lie close together, counted in an array; empty for another map. Neighbours are
// counted in different columns, so that no addition waits for the one before.
inline Entries<One> entries_by_array(const Map &map) {
    constexpr int64_t LONGEST = 4096;
    constexpr size_t COLUMNS = 4;
    const CategoryRange range = category_range(map);
    const int32_t least = range.least;
    const int64_t length = range.length();
    if (length < 1 || length > LONGEST) return {};
    std::vector<std::array<uint32_t, COLUMNS>> counts(size_t(length) + 1);
    for (size_t i = 0; i < map.size(); i++) {
        const uint32_t place = std::min(rank_of(map.cells[i]) - rank_of(least), uint32_t(length));
        counts[place][i % COLUMNS]++;
    }
    Entries<One> entries;
    for (size_t place = 0; place < counts.size(); place++) {
        const uint64_t count = std::accumulate(counts[place].begin(), counts[place].end(), uint64_t(0));
        const uint32_t rank = place == size_t(length) ? rank_of(NULL_CELL) : rank_of(least) + uint32_t(place);
        if (count > 0) entries.push_back({rank, count});
    }
    return entries;
}

template <typename Form> inline Entries<Form> entries_by_hash(const std::vector<Map> &maps) {
    OwnCounts<Form> counts;
    std::array<const int32_t *, Form::WIDTH> cells;
    for (size_t m = 0; m < Form::WIDTH; m++) cells[m] = maps[m].cells.get();
    const size_t size = maps[0].size();
    // Cells that have the combination of the cell before are counted together.
    for (size_t from = 0, to = 0; from < size; from = to) {
        std::array<uint32_t, Form::WIDTH> ranks{};
        for (size_t m = 0; m < Form::WIDTH; m++) ranks[m] = rank_of(cells[m][from]);
        bool is_same = true;
        while (is_same && ++to < size) {
            for (size_t m = 0; m < Form::WIDTH; m++) is_same &= cells[m][to] == cells[m][from];
        }
        counts.add(Form::key(ranks), to - from);
    }
    Entries<Form> entries = counts.entries();
    std::sort(entries.begin(), entries.end());
    return entries;
}

template <typename Form> inline void write_table_of(const std::vector<Map> &maps, Output &output) {
    Entries<Form> entries;
    if constexpr (Form::WIDTH == 1) entries = entries_by_array(maps[0]);
    if (entries.empty()) entries = entries_by_hash<Form>(maps);
    char *at = output.start();
    for (const auto &[key, count] : entries) {
        for (size_t m = 0; m < Form::WIDTH; m++) {
            at = put_cell(output.room(at), cell_of(Form::rank(key, m)));
            *at++ = ' ';
        }
        at = put_number(output.room(at), count);
        *at++ = '\n';
    }
    output.wrote_to(at);
}

inline void write_table(const std::vector<Map> &maps, Output &output) {
    for (const Map &map : maps) {
        if (map.edges != maps[0].edges || map.rows != maps[0].rows || map.cols != maps[0].cols) fail("other region");
    }
    if (maps.size() == 1) write_table_of<One>(maps, output);
    else if (maps.size() == 2) write_table_of<Two>(maps, output);
    else if (maps.size() == 3) write_table_of<Many<3>>(maps, output);
    else if (maps.size() == 8) write_table_of<Many<8>>(maps, output);
    else if (maps.size() == 12) write_table_of<Many<12>>(maps, output);
    else if (maps.size() == 16) write_table_of<Many<16>>(maps, output);
    else fail("another number of maps than 1, 2, 3, 8, 12 and 16");
}
