// A program with a named range, "smooth", which also an exception ends: rounds N.
#include <papi.h>

#include <array>
#include <cstdlib>
#include <stdexcept>

class Region {
public:
    explicit Region(const char *name) : name(name) {
        if (PAPI_hl_region_begin(name) != PAPI_OK) throw std::runtime_error(name);
    }
    ~Region() { PAPI_hl_region_end(name); }
    Region(const Region &) = delete;
    Region &operator=(const Region &) = delete;

private:
    const char *name;
};

static std::array<double, 4096> cells;

static void smooth(int rounds) {
    const Region region("smooth");
    for (int round = 0; round < rounds; round++)
        for (std::size_t i = 1; i + 1 < cells.size(); i++)
            cells[i] = (cells[i - 1] + cells[i] + cells[i + 1]) / 3;
    if (cells[1] > 1) throw std::runtime_error("no mean is over all of its values");
}

int main(int count, char **words) {
    cells[cells.size() / 2] = 1;
    smooth(count > 1 ? std::atoi(words[1]) : 100);
}
