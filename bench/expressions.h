// r.mapcalc and r.reclass: plain loops over rows of cells.
#pragma once

#include "grid.h"

#include <algorithm>
#include <utility>

inline int32_t plus(int32_t one, int32_t other) {
    const int32_t sum = int32_t(uint32_t(one) + uint32_t(other));
    const bool wraps = ((one ^ sum) & (other ^ sum)) < 0;
    return one == NULL_CELL || other == NULL_CELL || sum == NULL_CELL || wraps ? NULL_CELL : sum;
}

// g[-1,-1] + g[-1,0] + .. + g[1,1]. Each row is copied with a null on either side of it.
inline void sum_of_nine(Map &map) {
    const size_t cols = map.cols;
    std::vector<int32_t> above(cols + 2, NULL_CELL), here(cols + 2, NULL_CELL), below(cols + 2, NULL_CELL);
    std::memcpy(&here[1], &map.cells[0], cols * sizeof(int32_t));
    auto sums = new_cells(map.size());
    for (size_t r = 0; r < map.rows; r++) {
        if (r + 1 < map.rows) std::memcpy(&below[1], &map.cells[(r + 1) * cols], cols * sizeof(int32_t));
        else std::fill(below.begin(), below.end(), NULL_CELL);
        const int32_t *up = above.data(), *at = here.data(), *down = below.data();
        int32_t *row = &sums[r * cols];
        for (size_t c = 0; c < cols; c++) {
            const int32_t top = plus(plus(up[c], up[c + 1]), up[c + 2]);
            const int32_t middle = plus(plus(plus(top, at[c]), at[c + 1]), at[c + 2]);
            row[c] = plus(plus(plus(middle, down[c]), down[c + 1]), down[c + 2]);
        }
        above.swap(here);
        here.swap(below);
    }
    map.cells = std::move(sums);
}

// if(isnull(g), 40, if(g == 1, 10, if(g == 2 || g == 3, 20, if(g > 6 && g < 10, 30, g + 100))))
inline void choose(Map &map) {
    auto chosen = new_cells(map.size());
    const int32_t *from = map.cells.get();
    int32_t *to = chosen.get();
    for (size_t i = 0; i < map.size(); i++) {
        const int32_t g = from[i];
        const int32_t others = g > 6 && g < 10 ? 30 : plus(g, 100);
        to[i] = g == NULL_CELL ? 40 : g == 1 ? 10 : g == 2 || g == 3 ? 20 : others;
    }
    map.cells = std::move(chosen);
}

// The rules of r.reclass that bench/run.py gives; no two name one category.
struct Rule {
    int32_t low, high, output;
};
constexpr std::array<Rule, 8> RULES = {{{1, 3, 1}, {4, 4, 2}, {6, 6, 2}, {11, 24, 3}, {31, 31, 4}, {41, 43, 4}, {52, 71, 5}, {90, 95, NULL_CELL}}};
constexpr int32_t OTHERS = 6;
constexpr int64_t LONGEST_TABLE = 1 << 20;

inline int32_t new_category(int32_t category) {
    for (const Rule &rule : RULES) {
        if (category >= rule.low && category <= rule.high) return rule.output;
    }
    return OTHERS;
}

// By a table from the smallest category to the largest if that is short.
inline void reclass(Map &map) {
    auto made = new_cells(map.size());
    const CategoryRange range = category_range(map);
    const int32_t least = range.least;
    const int64_t length = range.length();
    if (length > 0 && length <= LONGEST_TABLE) {
        std::vector<int32_t> table(size_t(length), 0);
        for (int64_t i = 0; i < length; i++) table[size_t(i)] = new_category(int32_t(least + i));
        for (size_t i = 0; i < map.size(); i++) {
            const int32_t cell = map.cells[i];
            made[i] = cell == NULL_CELL ? NULL_CELL : table[size_t(cell - least)];
        }
    } else {
        for (size_t i = 0; i < map.size(); i++) {
            const int32_t cell = map.cells[i];
            made[i] = cell == NULL_CELL ? NULL_CELL : new_category(cell);
        }
    }
    map.cells = std::move(made);
}
