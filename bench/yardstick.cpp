// The tasks of rcell by hand, as fast as a careful programmer makes them by plain means on one thread: the measure that
// bench/run.py holds rcell against. It reads large blocks, gathers digits in place while it looks for the end of a cell,
// keeps a map as an array of int32_t, and writes through a block.
//
//   yardstick MAKER WRITER GRID..
//
// MAKER makes a map of the first grid: none (the grid itself), clump, clump-d, sum, choice, reclass. WRITER is nothing,
// ascii (r.out.ascii of that map) or stats (r.stats -c of that map and the other grids).
#include "areas.h"
#include "expressions.h"
#include "grid.h"
#include "table.h"

#include <string_view>

namespace {

void make(std::string_view maker, Map &map) {
    if (maker == "clump") clump<false>(map);
    else if (maker == "clump-d") clump<true>(map);
    else if (maker == "sum") sum_of_nine(map);
    else if (maker == "choice") choose(map);
    else if (maker == "reclass") reclass(map);
    else if (maker != "none") fail("unknown maker");
}

}  // namespace

int main(int count, char **words) {
    if (count < 4) fail("usage: yardstick MAKER WRITER GRID..");
    std::vector<Map> maps;
    for (int i = 3; i < count; i++) maps.push_back(read_map(words[i]));
    make(words[1], maps[0]);
    const std::string_view writer = words[2];
    Output output;
    if (writer == "ascii") write_map(maps[0], output);
    else if (writer == "stats") write_table(maps, output);
    else if (writer != "nothing") fail("unknown writer");
    output.flush();
    return 0;
}
