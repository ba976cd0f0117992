// r.clump: areas by a union of labels.
#pragma once

#include "grid.h"

// Labels from 1 on, each with a label that it belongs to, never a larger one; one that belongs to itself is the first of
// an area's.
class Labels {
public:
    explicit Labels(size_t most) : whole(new uint32_t[most + 1]) { whole[0] = 0; }

    uint32_t add() {
        count++;
        whole[count] = count;
        return count;
    }

    uint32_t join(uint32_t one, uint32_t other) {
        one = first(one);
        other = first(other);
        if (one < other) return whole[other] = one;
        return whole[one] = other;
    }

    // In place of each label, the number of its area; null for 0. Areas are numbered by their first labels.
    const int32_t *numbers() {
        int32_t areas = 0;
        int32_t *number = reinterpret_cast<int32_t *>(whole.get());
        number[0] = NULL_CELL;
        for (uint32_t label = 1; label <= count; label++) {
            const uint32_t smaller = whole[label];
            number[label] = smaller == label ? ++areas : number[smaller];
        }
        return number;
    }

private:
    uint32_t first(uint32_t label) {
        while (whole[label] != label) label = whole[label] = whole[whole[label]];
        return label;
    }

    std::unique_ptr<uint32_t[]> whole;
    uint32_t count = 0;
};

// The label of a cell that is not null. `here` and `above` point to the cell and to the one above it, and the labels
// likewise; what is outside the map is null. Neighbours that touch each other have been joined before.
template <bool CORNERS>
inline uint32_t label_of(const int32_t *here, const int32_t *above, const uint32_t *label, const uint32_t *label_above, Labels &labels) {
    const int32_t category = *here;
    if constexpr (CORNERS) {
        if (above[0] == category) return label_above[0];
        if (above[1] == category) {
            if (here[-1] == category) return labels.join(label_above[1], label[-1]);
            if (above[-1] == category) return labels.join(label_above[1], label_above[-1]);
            return label_above[1];
        }
        if (here[-1] == category) return label[-1];
        return above[-1] == category ? label_above[-1] : labels.add();
    } else {
        if (here[-1] == category) {
            const bool meets = above[0] == category && above[-1] != category;
            return meets ? labels.join(label[-1], label_above[0]) : label[-1];
        }
        return above[0] == category ? label_above[0] : labels.add();
    }
}

template <bool CORNERS> inline void clump(Map &map) {
    const size_t cols = map.cols;
    Labels labels(map.size());
    // The first row of labels is that above the map. The rows of cells have a null on each side.
    std::unique_ptr<uint32_t[]> label(new uint32_t[map.size() + cols]);
    std::vector<int32_t> above(cols + 2, NULL_CELL), here(cols + 2, NULL_CELL);
    for (size_t r = 0; r < map.rows; r++) {
        std::memcpy(&here[1], &map.cells[r * cols], cols * sizeof(int32_t));
        uint32_t *row = &label[(r + 1) * cols];
        for (size_t c = 0; c < cols; c++) {
            const bool is_null = here[c + 1] == NULL_CELL;
            row[c] = is_null ? 0 : label_of<CORNERS>(&here[c + 1], &above[c + 1], row + c, row + c - cols, labels);
        }
        above.swap(here);
    }
    const int32_t *numbers = labels.numbers();
    for (size_t i = 0; i < map.size(); i++) map.cells[i] = numbers[label[i + cols]];
}
