// Reads a request of rcell-pipe with one map of bytes, no script, and a question for the measures of its patches (by edges,
// depth 1, no zones), and writes the same response. It does not check the request. Rows are read once: measures are added
// up for each label of a run, and labels are joined with a union-find.
#include <algorithm>
#include <bit>
#include <cstdint>
#include <cstdio>
#include <cstring>
#include <emmintrin.h>
#include <vector>

namespace {

constexpr uint8_t NULL_CELL = 255;
constexpr size_t WORD = 64;

struct Patch {
    uint8_t category;
    uint32_t cells = 0, ends = 0, flanks = 0, core = 0;
    uint32_t first_row, last_row, first_col, last_col;

    void add(const Patch &other) {
        cells += other.cells, ends += other.ends, flanks += other.flanks, core += other.core;
        last_row = std::max(last_row, other.last_row);
        first_col = std::min(first_col, other.first_col), last_col = std::max(last_col, other.last_col);
    }
};

struct Run {
    uint32_t from, to, label;
};

using Bits = std::vector<uint64_t>;

// The cells of a row, with a null before them and nulls up to the end of a word, and their runs. A bit of `up` is set if a
// cell equals the cell above, and a bit of `begin` if it differs from the cell on its left.
struct Row {
    explicit Row(size_t words) : bytes((words + 1) * WORD, NULL_CELL), up(words), begin(words), labels(words * WORD) {}

    uint8_t *cells() { return &bytes[WORD]; }

    std::vector<uint8_t> bytes;
    Bits up, begin;
    std::vector<Run> runs;
    std::vector<uint32_t> labels;
};

uint64_t equal_bits(const uint8_t *one, const uint8_t *other) {
    uint64_t bits = 0;
    for (size_t at = 0; at < WORD; at += 16) {
        const __m128i a = _mm_loadu_si128(reinterpret_cast<const __m128i *>(one + at));
        const __m128i b = _mm_loadu_si128(reinterpret_cast<const __m128i *>(other + at));
        bits |= uint64_t(uint32_t(_mm_movemask_epi8(_mm_cmpeq_epi8(a, b)))) << at;
    }
    return bits;
}

// Calls `each` with the index of a word and its bits from `from` up to `to`.
template <typename Each> inline void words_of(const Bits &bits, size_t from, size_t to, Each each) {
    for (size_t word = from / WORD; word * WORD < to; word++) {
        uint64_t some = bits[word];
        if (word == from / WORD) some &= ~uint64_t(0) << from % WORD;
        if (to < (word + 1) * WORD) some &= (uint64_t(1) << to % WORD) - 1;
        each(word, some);
    }
}

inline uint32_t ones(const Bits &bits, size_t from, size_t to) {
    uint32_t count = 0;
    words_of(bits, from, to, [&](size_t, uint64_t some) { count += std::popcount(some); });
    return count;
}

class Measuring {
public:
    explicit Measuring(size_t cols) : words((cols + WORD - 1) / WORD), above(words), here(words), parent(1), patches(1) {}

    void row(const uint8_t *cells, size_t cols, uint32_t r) {
        std::memcpy(here.cells(), cells, cols);
        for (size_t word = 0; word < words; word++) {
            const uint8_t *at = here.cells() + word * WORD;
            here.up[word] = equal_bits(at, above.cells() + word * WORD);
            here.begin[word] = ~equal_bits(at, at - 1);
        }
        find_runs();
        if (r > 0) measure(above, here.up, r - 1);
        std::swap(above, here);
    }

    // The patches, in the order of their first cells.
    const std::vector<Patch> &end(uint32_t rows) {
        measure(above, Bits(words), rows - 1);
        size_t count = 0;
        for (uint32_t label = 1; label < patches.size(); label++) {
            const bool is_first = parent[label] == label;
            parent[label] = is_first ? uint32_t(count) : parent[parent[label]];
            if (is_first) patches[count++] = patches[label];
            else patches[parent[label]].add(patches[label]);
        }
        patches.resize(count);
        return patches;
    }

private:
    uint32_t first(uint32_t label) {
        while (parent[label] != label) label = parent[label] = parent[parent[label]];
        return label;
    }

    uint32_t join(uint32_t one, uint32_t other) {
        one = first(one), other = first(other);
        return one < other ? parent[other] = one : parent[one] = other;
    }

    void find_runs() {
        here.runs.clear();
        size_t from = 0;
        for (size_t word = 0; word < words; word++)
            for (uint64_t begin = here.begin[word]; begin != 0; begin &= begin - 1) {
                const size_t at = word * WORD + std::countr_zero(begin);
                add_run(from, at);
                from = at;
            }
        add_run(from, words * WORD);
    }

    void add_run(size_t from, size_t to) {
        if (from == to || here.cells()[from] == NULL_CELL) return;
        uint32_t label = 0;
        words_of(here.up, from, to, [&](size_t word, uint64_t up) {
            for (up &= ~(up << 1); up != 0; up &= up - 1) {
                const uint32_t other = above.labels[word * WORD + std::countr_zero(up)];
                label = label == 0 || label == other ? other : join(label, other);
            }
        });
        if (label == 0) {
            label = uint32_t(parent.size());
            parent.push_back(label);
            patches.push_back({.category = here.cells()[from], .first_row = UINT32_MAX, .first_col = UINT32_MAX});
        }
        std::fill(&here.labels[from], &here.labels[to], label);
        here.runs.push_back({uint32_t(from), uint32_t(to), label});
    }

    void measure(const Row &row, const Bits &down, uint32_t r) {
        for (size_t word = 0; word < words; word++) both[word] = row.up[word] & down[word];
        for (const Run &run : row.runs) {
            Patch &patch = patches[run.label];
            const uint32_t length = run.to - run.from;
            patch.cells += length, patch.flanks += 2;
            patch.ends += 2 * length - ones(row.up, run.from, run.to) - ones(down, run.from, run.to);
            if (length > 2) patch.core += ones(both, run.from + 1, run.to - 1);
            patch.first_row = std::min(patch.first_row, r), patch.last_row = r;
            patch.first_col = std::min(patch.first_col, run.from), patch.last_col = std::max(patch.last_col, run.to - 1);
        }
    }

    size_t words;
    Row above, here;
    Bits both = Bits(words);
    std::vector<uint32_t> parent;
    std::vector<Patch> patches;
};

// Collects bytes, and writes them to standard output.
class Output {
public:
    template <typename Number> void put(Number number) {
        std::memcpy(&block[size], &number, sizeof number);
        size += sizeof number;
    }

    void put(const char *letters) {
        while (*letters != 0) put(*letters++);
    }

    void put(const Patch &patch) {
        if (size + 100 > sizeof block) write();
        put(int32_t(patch.category));
        put(uint64_t(patch.cells)), put(uint64_t(patch.ends)), put(uint64_t(patch.flanks)), put(uint64_t(patch.core));
        put(uint64_t(patch.first_row)), put(uint64_t(patch.last_row));
        put(uint64_t(patch.first_col)), put(uint64_t(patch.last_col));
    }

    void write() {
        std::fwrite(block, 1, size, stdout);
        size = 0;
    }

private:
    uint8_t block[65536];
    size_t size = 0;
};

std::vector<uint8_t> take(size_t count) {
    std::vector<uint8_t> bytes(count);
    bytes.resize(std::fread(bytes.data(), 1, count, stdin));
    return bytes;
}

uint32_t take_number() {
    uint32_t number;
    std::memcpy(&number, take(sizeof number).data(), sizeof number);
    return number;
}

} // namespace

int main() {
    take(8);
    for (int edges = 0; edges < 4; edges++) take(take(1)[0]);
    const uint32_t rows = take_number(), cols = take_number();
    take(4);
    take(take(1)[0]);
    take(14);
    Measuring measuring(cols);
    std::vector<uint8_t> cells(cols);
    for (uint32_t r = 0; r < rows; r++) {
        if (std::fread(cells.data(), 1, cols, stdin) != cols) return 1;
        measuring.row(cells.data(), cols, r);
    }
    const std::vector<Patch> &patches = measuring.end(rows);
    static Output out;
    out.put("RCELLA1\nPTCH");
    out.put(uint64_t(0)), out.put(uint8_t(4)), out.put(uint32_t(1)), out.put(uint8_t(0)), out.put(uint64_t(patches.size()));
    for (const Patch &patch : patches) out.put(patch);
    out.put("DONE");
    for (int zeros = 0; zeros < 6; zeros++) out.put(uint64_t(0));
    out.write();
}
