// Writes a grid to standard output: make_grid KIND[@SPELLING] ROWS COLS [SEED]. The same words give the same grid.
//
//   patchy       land cover of 15 categories in areas of some hundred cells, one patch in 40 null
//   cover        the same without null
//   noise        1 to 12 at random, each cell null with 5 %
//   apart        1 to 12 at random, no cell equal to the one on its left: each run has one cell
//   negative     -120 to -1 at random, 5 % null, and null is written as -9999
//   cold         patchy with each category below zero, and null is written as -9999
//   random:N     1 to N at random
//   blocks:N     blocks of N by N cells, each with a category of its own, in no order
//   comb         teeth of 1 that meet in the last row, with 2 between them
//   spiral       one way of 1 to the middle, with 2 between its turns
//   checkerboard 1 and 2 by turns
//   zones        a coarse zoning: 900 zones in runs of some hundred and fifty cells
//   heights      numbers of four digits: a surface of hills with a little noise
//   heights:N    the same with hills N times as high; of 5 about 11,000 numbers, most of five digits
//   mask         1 where such a surface is above its middle, and 0 elsewhere
//
// Cells are apart by one blank, or as SPELLING says: `two` blanks, `tabs`, a cell a line (`lines`), or each word set right in
// five places and a blank after it (`padded`).
#include <algorithm>
#include <charconv>
#include <cstdint>
#include <cstdio>
#include <cstdlib>
#include <string>
#include <string_view>
#include <utility>
#include <vector>

namespace {

using Row = std::vector<int32_t>;

constexpr int32_t NULL_CELL = INT32_MIN;
constexpr int32_t COVERS[] = {11, 21, 22, 23, 24, 31, 41, 42, 43, 52, 71, 81, 82, 90, 95};
constexpr uint64_t NULL_PATCH_IN = 40;
constexpr uint64_t LONGEST_PATCH = 59;
constexpr size_t COLS_OF_A_NEW_PATCH = 200;
constexpr uint64_t ZONES = 900;
constexpr uint64_t LONGEST_ZONE = 600;
constexpr size_t COLS_OF_A_NEW_ZONE = 2000;
constexpr int32_t LOWEST = 900;
// Hills of three sizes: the cells from one summit or hollow to the next, and how much they differ at most.
constexpr std::pair<size_t, uint64_t> HILLS[] = {{256, 2200}, {64, 700}, {16, 150}};
constexpr int32_t MIDDLE = 2425;
constexpr size_t PLACES = 5;

// Numbers at random: splitmix64.
class Random {
public:
    explicit Random(uint64_t seed) : state(seed * 0x9E3779B97F4A7C15u + 20261122) {}

    uint64_t below(uint64_t bound) {
        state += 0x9E3779B97F4A7C15u;
        uint64_t mixed = (state ^ (state >> 30)) * 0xBF58476D1CE4E5B9u;
        mixed = (mixed ^ (mixed >> 27)) * 0x94D049BB133111EBu;
        return ((mixed ^ (mixed >> 31)) >> 32) * bound >> 32;
    }

private:
    uint64_t state;
};

struct Size {
    size_t rows, cols;
};

// What each kind knows from one row to the next, and how it fills a row.
class Maker {
public:
    Maker(std::string_view kind, Size size, uint64_t seed) : size(size), random(seed), row(size.cols) {
        const size_t colon = kind.find(':');
        name = kind.substr(0, colon);
        number = colon == std::string_view::npos ? 0 : std::strtoull(kind.substr(colon + 1).data(), nullptr, 10);
        if (name == "patchy" || name == "cover" || name == "cold") {
            std::generate(row.begin(), row.end(), [this] { return COVERS[random.below(std::size(COVERS))]; });
            for (int rows_before = 0; rows_before < 40; rows_before++) patches();
        }
    }

    std::string_view null_text() const { return name == "negative" || name == "cold" ? "-9999" : "*"; }

    const Row &next(size_t r) {
        if (name == "patchy" || name == "cover" || name == "cold") patches();
        else if (name == "noise") each([this](size_t) { return null_or(random.below(12) + 1); });
        else if (name == "negative") each([this](size_t) { return null_or(-int32_t(random.below(120)) - 1); });
        else if (name == "random") each([this](size_t) { return random.below(number) + 1; });
        else if (name == "apart") each([this](size_t c) { return unlike(c == 0 ? 0 : row[c - 1]); });
        else if (name == "blocks") each([this, r](size_t c) { return block(r / number, c / number); });
        else if (name == "comb") each([this, r](size_t c) { return r + 1 < size.rows && c % 2 == 1 ? 2 : 1; });
        else if (name == "spiral") each([this, r](size_t c) { return turn(r, c); });
        else if (name == "zones") zones(r);
        else if (name == "heights") each([this, r](size_t c) { return height(r, c); });
        else if (name == "mask") each([this, r](size_t c) { return height(r, c) > MIDDLE; });
        else if (name == "checkerboard") each([r](size_t c) { return (r + c) % 2 + 1; });
        else std::exit((std::fprintf(stderr, "make_grid: unknown kind\n"), 2));
        return row;
    }

private:
    template <typename Value> void each(Value value) {
        for (size_t c = 0; c < size.cols; c++) row[c] = int32_t(value(c));
    }

    int32_t null_or(int32_t category) { return random.below(20) == 0 ? NULL_CELL : category; }

    // One of 12 that is not this one.
    int32_t unlike(int32_t left) {
        const int32_t other = int32_t(random.below(left == 0 ? 12 : 11)) + 1;
        return left != 0 && other >= left ? other + 1 : other;
    }

    // A row of patches keeps what the row above has, and here and there begins a new patch.
    void patches() {
        for (size_t n = std::max<size_t>(1, size.cols / COLS_OF_A_NEW_PATCH); n > 0; n--) {
            const size_t from = random.below(size.cols);
            const size_t to = std::min<size_t>(size.cols, from + 1 + random.below(LONGEST_PATCH));
            const int32_t cover = COVERS[random.below(std::size(COVERS))] * (name == "cold" ? -1 : 1);
            const bool is_null = name != "cover" && random.below(NULL_PATCH_IN) == 0;
            std::fill(row.begin() + from, row.begin() + to, is_null ? NULL_CELL : cover);
        }
    }

    // The first row is zones throughout, and each row begins some new ones over those above.
    void zones(size_t r) {
        for (size_t n = r == 0 ? size.cols / 20 + 1 : std::max<size_t>(1, size.cols / COLS_OF_A_NEW_ZONE); n > 0; n--) {
            const size_t from = random.below(size.cols), to = std::min<size_t>(size.cols, from + 1 + random.below(LONGEST_ZONE));
            std::fill(row.begin() + from, row.begin() + to, int32_t(random.below(ZONES)) + 1);
        }
    }

    // A corner of a square of hills: a number of its place.
    static uint64_t corner(size_t down, size_t right, size_t side) {
        return Random(down * 65536 + right + side * 1000003).below(65536);
    }

    // What is between the four corners of its square for each size of hills, and a little noise.
    int32_t height(size_t r, size_t c) {
        uint64_t sum = LOWEST + random.below(4);
        for (const auto &[side, most] : HILLS) {
            const uint64_t down = r % side, right = c % side;
            const auto between = [side = side, c, right](size_t row) {
                return corner(row, c / side, side) * (side - right) + corner(row, c / side + 1, side) * right;
            };
            sum += (between(r / side) * (side - down) + between(r / side + 1) * down) / side * most * std::max<uint64_t>(number, 1) / side / 65536;
        }
        return int32_t(sum);
    }

    // A category for a block: its place times a prime, so that neighbours are far apart.
    uint64_t block(size_t down, size_t right) const {
        const uint64_t across = (size.cols + number - 1) / number, blocks = across * ((size.rows + number - 1) / number);
        return (down * across + right) * 999983 % blocks + 1;
    }

    // Rings by turns of 1 and 2, each ring of 1 opened on its left side towards the next one.
    int32_t turn(size_t r, size_t c) const {
        const size_t ring = std::min(std::min(r, size.rows - 1 - r), std::min(c, size.cols - 1 - c));
        const bool is_gate = r == ring + 1 && c == ring && ring < std::min(size.rows, size.cols) / 2 - 1;
        return (ring + (is_gate ? 1 : 0)) % 2 == 0 ? 1 : 2;
    }

    Size size;
    Random random;
    std::string_view name;
    uint64_t number;
    Row row;
};

}  // namespace

int main(int count, char **words) {
    if (count < 4) return std::fprintf(stderr, "usage: make_grid KIND[@SPELLING] ROWS COLS [SEED]\n"), 2;
    const std::string_view word = words[1], kind = word.substr(0, word.find('@')), spelling = word.substr(std::min(word.size(), kind.size() + 1));
    const std::string gap = spelling == "two" ? "  " : spelling == "tabs" ? "\t" : spelling == "lines" ? "\n" : " ";
    const Size size{std::strtoull(words[2], nullptr, 10), std::strtoull(words[3], nullptr, 10)};
    Maker maker(kind, size, count > 4 ? std::strtoull(words[4], nullptr, 10) : 1);
    const std::string null_text(maker.null_text());
    std::printf("north: %zu\nsouth: 0\neast: %zu\nwest: 0\nrows: %zu\ncols: %zu\n", size.rows * 30, size.cols * 30, size.rows, size.cols);
    if (null_text != "*") std::printf("null: %s\n", null_text.c_str());
    std::string line;
    for (size_t r = 0; r < size.rows; r++) {
        line.clear();
        for (const int32_t cell : maker.next(r)) {
            char text[12];
            const std::string word = cell == NULL_CELL ? null_text : std::string(text, std::to_chars(text, text + 12, cell).ptr);
            if (spelling == "padded" && word.size() < PLACES) line.append(PLACES - word.size(), ' ');
            line.append(word).append(gap);
        }
        line.resize(line.size() - gap.size());
        line.push_back('\n');
        std::fwrite(line.data(), 1, line.size(), stdout);
    }
    return std::fflush(stdout) == 0 ? 0 : 1;
}
