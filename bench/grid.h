// Grids as they are read and written.
#pragma once

#include <algorithm>
#include <array>
#include <cstdint>
#include <cstdio>
#include <cstdlib>
#include <cstring>
#include <fcntl.h>
#include <memory>
#include <string>
#include <unistd.h>
#include <vector>

constexpr int32_t NULL_CELL = INT32_MIN;
constexpr size_t BLOCK = 262144;
constexpr size_t LONGEST_TOKEN = 64;

[[noreturn]] inline void fail(const char *text) {
    std::fprintf(stderr, "yardstick: %s\n", text);
    std::exit(1);
}

// Cells that nobody has set to anything yet.
inline std::unique_ptr<int32_t[]> new_cells(size_t count) {
    return std::unique_ptr<int32_t[]>(new int32_t[count]);
}

struct Map {
    std::array<std::string, 4> edges;
    size_t rows = 0, cols = 0;
    std::unique_ptr<int32_t[]> cells;

    size_t size() const { return rows * cols; }
};

// The smallest and the largest category of a map.
struct CategoryRange {
    int32_t least = INT32_MAX, greatest = -INT32_MAX;

    // How many categories lie from the one to the other; less than 1 where all cells are null.
    int64_t length() const { return int64_t(greatest) - least + 1; }
};

inline CategoryRange category_range(const Map &map) {
    CategoryRange range;
    for (size_t i = 0; i < map.size(); i++) {
        const int32_t cell = map.cells[i];
        range.least = std::min(range.least, cell == NULL_CELL ? INT32_MAX : cell);
        range.greatest = std::max(range.greatest, cell);
    }
    return range;
}

inline bool is_blank(char byte) { return byte == ' ' || byte == '\n' || byte == '\r' || byte == '\t'; }

// The bytes of a file, a block at a time. Before the block there is room for a token that the block before cut, and
// the byte at `end` is 0, so that no loop over blanks or digits has to ask whether the block ends.
class Input {
public:
    explicit Input(const char *path) : file(open(path, O_RDONLY)), bytes(new char[LONGEST_TOKEN + BLOCK + 1]) {
        if (file < 0) fail("cannot open");
        at = end = bytes.get() + LONGEST_TOKEN;
        *end = 0;
    }
    Input(const Input &) = delete;
    ~Input() { close(file); }

    // Moves the bytes from `at` on before the next block; false at the end of the file.
    bool fill() {
        const size_t kept = size_t(end - at);
        if (kept > LONGEST_TOKEN) fail("token too long");
        char *block = bytes.get() + LONGEST_TOKEN;
        std::memmove(block - kept, at, kept);
        const ssize_t got = read(file, block, BLOCK);
        if (got < 0) fail("read failed");
        at = block - kept;
        end = block + got;
        *end = 0;
        return got > 0;
    }

    // The next token, empty at the end of the file. It lies in the block until the next call.
    std::string_view token() {
        for (;;) {
            while (is_blank(*at)) at++;
            if (at < end || !fill()) break;
        }
        char *stop = at;
        for (;;) {
            while (stop < end && !is_blank(*stop)) stop++;
            if (stop < end) break;
            const size_t length = size_t(stop - at);
            const bool more = fill();
            stop = at + length;
            if (!more) break;
        }
        const std::string_view found(at, size_t(stop - at));
        at = stop;
        return found;
    }

    char *at, *end;

private:
    int file;
    std::unique_ptr<char[]> bytes;
};

// A cell spelled in any way, or null.
inline int32_t any_cell(std::string_view token, std::string_view null_text) {
    if (token == null_text) return NULL_CELL;
    const bool minus = !token.empty() && token[0] == '-';
    if (token.size() == size_t(minus)) fail(token.empty() ? "too few cells" : "bad cell");
    int64_t number = 0;
    for (const char byte : token.substr(minus)) {
        if (byte < '0' || byte > '9') fail("bad cell");
        number = number * 10 + (byte - '0');
        if (number > INT32_MAX) fail("cell out of range");
    }
    return int32_t(minus ? -number : number);
}

// The cells of the data. A cell of at most nine digits that lies whole in the block is made where it lies, with or without
// a minus sign; all others are left to `any_cell`.
inline void read_cells(Input &input, std::string_view null_text, int32_t *cell, const int32_t *last) {
    const bool null_has_one_byte = null_text.size() == 1;
    const char null_byte = null_text[0];
    const bool null_is_number = null_byte >= '0' && null_byte <= '9';
    char *at = input.at;
    while (cell < last) {
        while (is_blank(*at)) at++;
        char *const begin = at;
        uint32_t number = uint32_t(*at) - '0', digit;
        if (number < 10) {
            while ((digit = uint32_t(*++at) - '0') < 10) number = number * 10 + digit;
            if (is_blank(*at) && at - begin < 10 && !null_is_number) {
                *cell++ = int32_t(number);
                at++;
                continue;
            }
        } else if (*at == null_byte && null_has_one_byte && is_blank(at[1])) {
            *cell++ = NULL_CELL;
            at += 2;
            continue;
        } else if (*at == '-' && (number = uint32_t(*++at) - '0') < 10) {
            while ((digit = uint32_t(*++at) - '0') < 10) number = number * 10 + digit;
            if (is_blank(*at) && at - begin < 11) {
                *cell++ = null_byte == '-' && std::string_view(begin, size_t(at - begin)) == null_text ? NULL_CELL : -int32_t(number);
                at++;
                continue;
            }
        }
        input.at = begin;
        *cell++ = any_cell(input.token(), null_text);
        at = input.at;
    }
    input.at = at;
}

// The map of a grid.
inline Map read_map(const char *path) {
    static const std::array<std::string_view, 6> KEYS = {"north:", "south:", "east:", "west:", "rows:", "cols:"};
    Input input(path);
    Map map;
    std::array<std::string, 6> values;
    std::string null_text = "*", first;
    for (;;) {
        first = input.token();
        if (first.empty() || first.back() != ':') break;
        const std::string value(input.token());
        if (first == "null:") null_text = value;
        size_t key = 0;
        while (key < KEYS.size() && KEYS[key] != first) key++;
        if (key < KEYS.size()) values[key] = value;
        else if (first != "null:") fail("bad header line");
    }
    for (size_t key = 0; key < 4; key++) map.edges[key] = values[key];
    map.rows = std::strtoull(values[4].c_str(), nullptr, 10);
    map.cols = std::strtoull(values[5].c_str(), nullptr, 10);
    if (map.rows == 0 || map.cols == 0 || map.rows > 65535 || map.cols > 65535) fail("bad region");
    map.cells = new_cells(map.size());
    map.cells[0] = any_cell(first, null_text);
    read_cells(input, null_text, &map.cells[1], &map.cells[map.size()]);
    if (!input.token().empty()) fail("too many cells");
    return map;
}

// Standard output through a block. Who writes holds the place where the next byte goes, and so may the compiler.
class Output {
public:
    Output() : bytes(new char[BLOCK]), written(bytes.get()), limit(bytes.get() + BLOCK - LONGEST_TOKEN - 1) {}

    char *start() const { return written; }

    // Where writing continues after `at`: there is room for a token and a byte.
    char *room(char *at) {
        if (at <= limit) return at;
        wrote_to(at);
        flush();
        return written;
    }

    void wrote_to(char *at) { written = at; }

    void text(std::string_view text) {
        char *at = room(written);
        if (text.size() > LONGEST_TOKEN) fail("token too long");
        std::memcpy(at, text.data(), text.size());
        written = at + text.size();
    }

    void flush() {
        for (const char *from = bytes.get(); from < written;) {
            const ssize_t put = write(STDOUT_FILENO, from, size_t(written - from));
            if (put < 0) fail("write failed");
            from += put;
        }
        written = bytes.get();
    }

private:
    std::unique_ptr<char[]> bytes;
    char *written, *limit;
};

// 00 to 99, and a byte more, so that two bytes can be copied from each place.
constexpr std::array<char, 201> PAIRS = [] {
    std::array<char, 201> pairs{};
    for (size_t n = 0; n < 100; n++) {
        pairs[2 * n] = char('0' + n / 10);
        pairs[2 * n + 1] = char('0' + n % 10);
    }
    return pairs;
}();

// The decimal text of a number, written from the right by pairs of digits; the end of it.
inline char *put_number(char *at, uint64_t number) {
    if (number < 100) {
        // No branch on one digit or two: nobody foretells it if categories are random.
        const bool two = number >= 10;
        std::memcpy(at, &PAIRS[2 * number + (two ? 0 : 1)], 2);
        return at + (two ? 2 : 1);
    }
    size_t length = 2;
    for (uint64_t rest = number / 100; rest > 0; rest /= 10) length++;
    char *to = at + length;
    for (; number >= 100; number /= 100) std::memcpy(to -= 2, &PAIRS[2 * (number % 100)], 2);
    if (number >= 10) std::memcpy(to - 2, &PAIRS[2 * number], 2);
    else to[-1] = char('0' + number);
    return at + length;
}

inline char *put_cell(char *at, int32_t cell) {
    if (cell == NULL_CELL) {
        *at = '*';
        return at + 1;
    }
    if (cell < 0) *at++ = '-';
    return put_number(at, uint32_t(cell < 0 ? -int64_t(cell) : cell));
}

// The cell's text and a space `times` times, from `at` on. Where the cell is alone its digits go straight into the block;
// else they are made once and copied.
inline char *put_run(char *at, int32_t cell, size_t times, Output &output) {
    at = output.room(at);
    char *end = put_cell(at, cell);
    *end++ = ' ';
    if (times == 1) return end;
    std::array<char, 16> text;
    const size_t length = size_t(end - at);
    std::memcpy(text.data(), at, text.size());
    for (at = end; times > 1; times--) {
        at = output.room(at);
        std::memcpy(at, text.data(), text.size());
        at += length;
    }
    return at;
}

// r.out.ascii.
inline void write_map(const Map &map, Output &output) {
    static const std::array<std::string, 4> KEYS = {"north: ", "south: ", "east: ", "west: "};
    for (size_t key = 0; key < 4; key++) output.text(KEYS[key] + map.edges[key] + "\n");
    output.text("rows: " + std::to_string(map.rows) + "\ncols: " + std::to_string(map.cols) + "\n");
    char *at = output.start();
    for (size_t r = 0; r < map.rows; r++) {
        const int32_t *cell = &map.cells[r * map.cols], *const last = cell + map.cols;
        while (cell < last) {
            const int32_t *end = cell + 1;
            while (end < last && *end == *cell) end++;
            at = put_run(at, *cell, size_t(end - cell), output);
            cell = end;
        }
        at[-1] = '\n';
    }
    output.wrote_to(at);
}
