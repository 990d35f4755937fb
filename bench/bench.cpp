/* bench [REPETITIONS]: our library, the Rust and OpenVDB on the same grids, in one run. Prints tables in markdown.

   For each operation the contenders come in turn, once in each repetition, so that what else the machine does meets all of them alike. A figure is the median, in
   nanoseconds of the thread's CPU time; a ratio is the median of the ratios of each turn. Before each turn the grids are built anew, which is not timed. In the
   first turn the answers are compared: if a contender's differ from ours, where they mean the same, the benchmark ends. */
#include <malloc.h>
#include <time.h>

#include <array>
#include <map>

#include "inputs.hpp"

namespace {

enum { MOST_CELLS = 65535 };
enum Family : unsigned { OURS = 0, RUST = 1, VDB = 2 };

struct Column {
    const char *name;
    Family family;
    Contender *contender;
    /* It differs from another column in the calls on one voxel alone. */
    bool voxels_only;
};

/* An operation. With whom its answers, the active contents of a seat after it, and all signs of that seat are compared is a set of families. */
struct Row {
    const char *name, *per;
    bool on_voxels;
    size_t (*count)(const Input &);
    void (*before)(Contender &, const Input &);
    uint64_t (*timed)(Contender &, const Input &);
    unsigned answers, contents, signs;
    uint32_t result = 0;
};

/* How the grids are before an operation. */
void empty(Contender &c, const Input &) { c.fresh(); }

void built(Contender &c, const Input &input) {
    c.fresh();
    c.insert(0, input.a);
}

void filled(Contender &c, const Input &input) {
    built(c, input);
    c.fill_signs(0);
}

void both_filled(Contender &c, const Input &input) {
    filled(c, input);
    c.insert(1, input.b);
    c.fill_signs(1);
}

/* By what a time is divided. */
size_t once(const Input &) { return 1; }
size_t everywhere(const Input &) { return SIDE * SIDE * SIDE; }
size_t half(const Input &input) { return input.half.size(); }
size_t active(const Input &input) { return input.a.size(); }
size_t active_of_both(const Input &input) { return input.a.size() + input.b.size(); }

/* What is timed. */
template <Points Input::*points> uint64_t lookup(Contender &c, const Input &input) { return c.lookup(0, input.*points); }
template <Points Input::*points> uint64_t insert(Contender &c, const Input &input) { return c.insert(0, input.*points), 0; }
template <Operation operation> uint64_t combine(Contender &c, const Input &) { return c.combine(operation, 0, 1), 0; }
uint64_t remove_half(Contender &c, const Input &input) { return c.remove(0, input.half), 0; }
uint64_t read_signs(Contender &c, const Input &) { return c.signs(0); }
uint64_t fill_signs(Contender &c, const Input &) { return c.fill_signs(0), 0; }
uint64_t copy(Contender &c, const Input &) { return c.copy(0, 1), 0; }
uint64_t flip(Contender &c, const Input &) { return c.flip(0), 0; }
uint64_t cut_below(Contender &c, const Input &) { return c.cut_below(0, 0), 0; }
uint64_t test(Contender &c, const Input &) { return dynamic_cast<Ours &>(c).free_cells(); }

constexpr unsigned ALL = RUST | VDB;

/* Hidden slots have no sign of ours in the Rust after a flip or a combination, and a combination leaves other voxels active in OpenVDB. */
const Row lookup_hit{"lookup, random hit", "call", true, active, built, lookup<&Input::shuffled>, ALL, 0, 0};
const Row lookup_miss{"lookup, random miss", "call", true, active, built, lookup<&Input::misses>, ALL, 0, 0};
const Row lookup_order{"lookup, in order", "call", true, active, built, lookup<&Input::a>, ALL, 0, 0};
const Row insert_order{"insert, in order", "call", true, active, empty, insert<&Input::a>, 0, ALL, 0};
const Row insert_random{"insert, random order", "call", true, active, empty, insert<&Input::shuffled>, 0, ALL, 0};
const Row remove_some{"remove, a random half", "call", true, half, built, remove_half, 0, ALL, 0};
const Row sign_everywhere{"sign, at every voxel", "call", true, everywhere, filled, read_signs, 0, 0, ALL};
const Row sign_fill{"sign fill", "active voxel", false, active, built, fill_signs, 0, ALL, ALL};
const Row copying{"copy", "active voxel", false, active, built, copy, 0, ALL, 0, 1};
const Row flipping{"flip", "active voxel", false, active, filled, flip, 0, ALL, VDB};
const Row cutting{"cut below 0", "active voxel", false, active, built, cut_below, 0, ALL, 0};
const Row uniting{"union", "active voxel of both", false, active_of_both, both_filled, combine<UNION>, 0, RUST, VDB};
const Row subtracting{"subtract", "active voxel of both", false, active_of_both, both_filled, combine<SUBTRACT>, 0, RUST, VDB};
const Row intersecting{"intersect", "active voxel of both", false, active_of_both, both_filled, combine<INTERSECT>, 0, RUST, VDB};
const Row testing{"test of soundness", "pool", false, once, built, test, 0, 0, 0};

const std::array voxel_rows{&lookup_hit, &lookup_miss, &lookup_order, &insert_order, &insert_random, &remove_some, &sign_everywhere};
const std::array seat_rows{&sign_fill, &copying, &flipping, &cutting, &uniting, &subtracting, &intersecting};

double now() {
    timespec t;
    clock_gettime(CLOCK_THREAD_CPUTIME_ID, &t);
    return t.tv_sec * 1e9 + t.tv_nsec;
}

double median(std::vector<double> values) {
    std::sort(values.begin(), values.end());
    return (values[(values.size() - 1) / 2] + values[values.size() / 2]) / 2;
}

/* The times of one operation, a list for each column; an empty one where the column has no such operation. */
struct Times {
    size_t count;
    std::vector<std::vector<double>> turns;

    bool has(size_t column) const { return column < turns.size() && !turns[column].empty(); }
    double figure(size_t column) const { return median(turns[column]) / count; }

    double ratio(size_t column, size_t other) const {
        std::vector<double> ratios;
        for (size_t turn = 0; turn < turns[column].size(); turn++)
            ratios.push_back(turns[column][turn] / turns[other][turn]);
        return median(ratios);
    }
};

/* Every voxel of a grid, to look at all that is active. */
const Points &every_voxel() {
    static Points points;
    while (points.size() < SIDE * SIDE * SIDE)
        points.push_back(Input::at(points.size(), 0));
    return points;
}

struct Sums {
    uint64_t answers, contents, signs;
};

Sums sums_after(const Row &row, Contender &c, uint64_t answers) {
    return {answers, row.contents ? c.lookup(row.result, every_voxel()) : 0, row.signs ? c.signs(row.result) : 0};
}

void compare(const Row &row, const Input &input, const Column &column, const Sums &ours, const Sums &theirs) {
    const unsigned signs = input.surfaces ? row.signs : row.signs & ~VDB;
    const char *differs = (row.answers & column.family) && ours.answers != theirs.answers      ? "the answers"
                          : (row.contents & column.family) && ours.contents != theirs.contents ? "the active contents after it"
                          : (signs & column.family) && ours.signs != theirs.signs              ? "the signs after it"
                                                                                               : nullptr;
    if (!differs)
        return;
    std::fprintf(stderr, "bench: %s, %s: %s of %s are not ours\n", input.name.c_str(), row.name, differs, column.name);
    stop("what is timed is not the same");
}

/* The first column is ours. */
Times measure(const std::vector<Column> &columns, const Row &row, const Input &input, int repetitions) {
    Times times{row.count(input), std::vector<std::vector<double>>(columns.size())};
    Sums ours{};
    for (int turn = 0; turn < repetitions; turn++)
        for (size_t i = 0; i < columns.size(); i++) {
            const Column &column = columns[i];
            if (column.voxels_only && !row.on_voxels)
                continue;
            row.before(*column.contender, input);
            const double start = now();
            const uint64_t answers = row.timed(*column.contender, input);
            times.turns[i].push_back(now() - start);
            if (turn > 0)
                continue;
            const Sums sums = sums_after(row, *column.contender, answers);
            if (i == 0)
                ours = sums;
            compare(row, input, column, ours, sums);
        }
    std::fprintf(stderr, "bench: %s: %s\n", input.name.c_str(), row.name);
    return times;
}

/* A cell of a table: a figure with three digits. */
std::string shown(double figure) {
    char text[32];
    std::snprintf(text, sizeof text, figure < 10 ? "%.2f" : figure < 100 ? "%.1f" : "%.0f", figure);
    return text;
}

using Line = std::vector<std::string>;

void print(const Line &line) {
    std::printf("|");
    for (const std::string &cell : line)
        std::printf(" %s |", cell.c_str());
    std::printf("\n");
}

void print_head(const Line &line) {
    print(line);
    print(Line(line.size(), "---"));
}

/* What is wanted of an operation: at most so many times another's time. */
struct Target {
    const Row *row;
    const char *other;
    double most;
};

constexpr const char *RUST_CALLS = "Rust, C calls", *LEAN_RUST = "Rust, lean C calls", *RUST_INLINED = "Rust inlined", *PLAIN_VDB = "OpenVDB", *ACCESSOR = "OpenVDB, accessor";
constexpr double LONGEST_TEST = 200e3;

std::vector<Target> targets() {
    std::vector<Target> all;
    for (const Row *row : voxel_rows) {
        all.push_back({row, RUST_CALLS, 1});
        all.push_back({row, ACCESSOR, 1});
    }
    for (const Row *row : {&sign_fill, &copying, &flipping})
        all.push_back({row, RUST_CALLS, 1});
    for (const Row *row : {&cutting, &uniting, &subtracting, &intersecting}) {
        all.push_back({row, PLAIN_VDB, 1});
        all.push_back({row, RUST_CALLS, 1.5});
    }
    return all;
}

/* All that is compared, on one input. */
struct Compared {
    const std::vector<Column> &columns;
    const Input &input;
    std::map<const Row *, Times> times;
    std::vector<double> bytes;

    Compared(const std::vector<Column> &columns, const Input &input, int repetitions) : columns(columns), input(input) {
        for (const Row *row : voxel_rows)
            times[row] = measure(columns, *row, input, repetitions);
        for (const Row *row : seat_rows)
            times[row] = measure(columns, *row, input, repetitions);
        times[&testing] = measure({columns[0]}, testing, input, repetitions);
        for (const Column &column : columns) {
            column.contender->fresh();
            column.contender->insert(0, input.a);
            bytes.push_back((double)column.contender->bytes() / input.a.size());
            column.contender->fresh();
        }
    }

    size_t place(const char *name) const {
        for (size_t i = 0; i < columns.size(); i++)
            if (columns[i].name == name)
                return i;
        return columns.size();
    }

    bool has(const char *name) const { return place(name) < columns.size(); }

    void print_table(size_t cells) const {
        std::printf("\n### %s: %zu active voxels, and %zu of a second one to combine it with; %zu cells used of %d\n\n", input.name.c_str(), input.a.size(), input.b.size(), cells, MOST_CELLS);
        const std::array against{RUST_CALLS, RUST_INLINED, PLAIN_VDB, ACCESSOR};
        Line head{"operation", "ns per"};
        for (const Column &column : columns)
            head.push_back(column.name);
        for (const char *other : against)
            if (has(other))
                head.push_back(std::string("ours / ") + other);
        print_head(head);
        for (const Row *row : voxel_rows)
            print_row(*row, against);
        for (const Row *row : seat_rows)
            print_row(*row, against);
        print_row(testing, against);
        print_bytes(against);
    }

  private:
    template <class Against> void print_row(const Row &row, const Against &against) const {
        const Times &t = times.at(&row);
        Line line{row.name, row.per};
        for (size_t i = 0; i < columns.size(); i++)
            line.push_back(t.has(i) ? shown(t.figure(i)) : "");
        for (const char *other : against)
            if (has(other))
                line.push_back(t.has(place(other)) ? shown(t.ratio(0, place(other))) : "");
        print(line);
    }

    template <class Against> void print_bytes(const Against &against) const {
        Line line{"memory, in bytes", "active voxel"};
        for (size_t i = 0; i < columns.size(); i++)
            line.push_back(columns[i].voxels_only ? "" : shown(bytes[i]));
        for (const char *other : against)
            if (has(other))
                line.push_back(columns[place(other)].voxels_only ? "" : shown(bytes[0] / bytes[place(other)]));
        print(line);
    }

};

std::string verdict(double is, double most) { return shown(is) + (is <= most ? "" : " MISSED"); }

/* Each target, with what it came to on each input. */
void print_targets(const std::vector<Compared> &all) {
    std::printf("\n### Targets\n\n");
    Line head{"operation", "at most"};
    for (const Compared &compared : all)
        head.push_back(compared.input.name);
    print_head(head);
    for (const Target &target : targets()) {
        Line line{target.row->name, shown(target.most) + " times " + target.other};
        for (const Compared &compared : all)
            if (compared.has(target.other))
                line.push_back(verdict(compared.times.at(target.row).ratio(0, compared.place(target.other)), target.most));
        if (line.size() == head.size())
            print(line);
    }
    Line line{testing.name, shown(LONGEST_TEST) + " ns"};
    for (const Compared &compared : all)
        line.push_back(verdict(compared.times.at(&testing).figure(0), LONGEST_TEST));
    print(line);
    for (const char *other : {RUST_CALLS, PLAIN_VDB}) {
        Line line{"memory", std::string("that of ") + other};
        for (const Compared &compared : all)
            if (compared.has(other))
                line.push_back(verdict(compared.bytes[0] / compared.bytes[compared.place(other)], 1));
        if (line.size() == head.size())
            print(line);
    }
}

/* The cells that an operation needs, and those in use after the step before it. */
size_t cells_used(const Input &input, void (*before)(Contender &, const Input &)) {
    Ours whole(MOST_CELLS);
    before(whole, input);
    return whole.used_cells();
}

size_t cells_needed(const Input &input, const Row &row) { return cells_used(input, row.before) * (&row == &copying ? 2 : 1) + (row.before == empty ? cells_used(input, built) : 0); }

/* The same grids in pools of several sizes: just enough cells for each operation, 8192 if that is enough, and as many as there can be. */
void print_pools(const Input &input, int repetitions) {
    std::printf("\n### %s, in pools of several sizes\n\n", input.name.c_str());
    print_head({"operation", "ns per", "just enough cells", "so many are", "8192", "65535", "Rust", "just enough / Rust", "8192 / Rust", "65535 / Rust"});
    Rust rust;
    for (const Row *row : {&testing, &lookup_hit, &insert_order, &insert_random, &remove_some, &sign_fill, &copying, &flipping, &cutting, &uniting, &subtracting, &intersecting}) {
        const size_t least = cells_needed(input, *row);
        Ours enough(least), some(std::max<size_t>(least, 8192)), whole(MOST_CELLS);
        std::vector<Column> columns{{"just enough", OURS, &enough, false}, {"8192", OURS, &some, false}, {"65535", OURS, &whole, false}};
        if (row != &testing)
            columns.push_back({"Rust", RUST, &rust, false});
        const Times t = measure(columns, *row, input, repetitions);
        const auto figure = [&](size_t i) { return t.has(i) && (i != 1 || least <= 8192) ? shown(t.figure(i)) : ""; };
        const auto ratio = [&](size_t i) { return t.has(3) && (i != 1 || least <= 8192) ? shown(t.ratio(i, 3)) : ""; };
        print({row->name, row->per, figure(0), std::to_string(least), figure(1), figure(2), figure(3), ratio(0), ratio(1), ratio(2)});
    }
}

/* Spheres of several sizes in the largest pool: microseconds of a whole call. */
void print_sizes(int repetitions) {
    const std::array rows{&testing, &sign_fill, &flipping, &cutting, &copying, &uniting};
    std::printf("\n### Spheres of several sizes in a pool of %d cells: microseconds a call, and beside it the Rust's\n\n", MOST_CELLS);
    Line head{"radius", "active voxels", "cells used", lookup_hit.name + std::string(", ns")};
    for (const Row *row : rows)
        head.push_back(row->name);
    print_head(head);
    Ours ours(MOST_CELLS);
    Rust rust;
    for (const float radius : {10, 20, 30, 40, 50}) {
        const Input input = two_spheres(radius);
        const std::vector<Column> both{{"ours", OURS, &ours, false}, {"Rust", RUST, &rust, false}};
        const Times found = measure(both, lookup_hit, input, repetitions);
        Line line{shown(radius), std::to_string(input.a.size()), std::to_string(cells_used(input, built)), shown(found.figure(0)) + " / " + shown(found.figure(1))};
        for (const Row *row : rows) {
            const bool alone = row == &testing;
            const Times t = measure(alone ? std::vector<Column>{both[0]} : both, *row, input, repetitions);
            const double micro = t.count / 1e3;
            line.push_back(shown(t.figure(0) * micro) + (alone ? "" : " / " + shown(t.figure(1) * micro)));
        }
        print(line);
    }
}

} // namespace

int main(int count, char **words) {
    const int repetitions = count > 1 ? std::atoi(words[1]) : 15;
    if (repetitions < 1)
        stop("usage: bench [REPETITIONS]");

    /* The heap keeps what it was given back, so that no contender pays for asking the system again. */
    mallopt(M_TRIM_THRESHOLD, 1 << 30);
    mallopt(M_MMAP_THRESHOLD, 1 << 30);
    mallopt(M_TOP_PAD, 1 << 26);

    Ours ours(MOST_CELLS);
    Rust rust;
    LeanRust lean;
    InlinedRust inlined;
    std::vector<Column> columns{{"ours", OURS, &ours, false}, {RUST_CALLS, RUST, &rust, false}, {LEAN_RUST, RUST, &lean, true}, {RUST_INLINED, RUST, &inlined, true}};
#ifdef WITH_OPENVDB
    const auto vdb = make_vdb(), accessor = make_vdb_with_accessor();
    columns.push_back({PLAIN_VDB, VDB, vdb.get(), false});
    columns.push_back({ACCESSOR, VDB, accessor.get(), true});
#endif

    std::printf("%d repetitions.\n", repetitions);
    const std::vector<Input> inputs{two_spheres(50), two_tubes(), two_random()};
    std::vector<Compared> all;
    for (const Input &input : inputs) {
        all.emplace_back(columns, input, repetitions);
        all.back().print_table(cells_used(input, built));
    }
    print_targets(all);
    print_pools(inputs[0], repetitions);
    print_sizes(repetitions);
    return 0;
}
