/* OpenVDB with a tree of the same three levels, on one thread. */
#include <malloc.h>

#include <openvdb/openvdb.h>
#include <openvdb/tools/Composite.h>
#include <openvdb/tools/Prune.h>
#include <openvdb/tools/SignedFloodFill.h>
#include <openvdb/tree/NodeManager.h>
#include <tbb/global_control.h>

#include <array>
#include <cmath>

#include "contender.hpp"

namespace {

using namespace openvdb;
using Leaf = tree::LeafNode<float, 2>;
using Middle = tree::InternalNode<Leaf, 2>;
using Top = tree::InternalNode<Middle, 3>;
using Grid = tree::Tree<tree::RootNode<Top>>;

/* The value outside: any positive one. */
constexpr float background = 3.0f;

/* Every value of a node, active or not, has the other sign. */
struct Negate {
    void operator()(Grid::RootNodeType &) const {}

    void operator()(Leaf &leaf) const {
        float *values = leaf.buffer().data();
        for (Index i = 0; i < Leaf::SIZE; i++)
            values[i] = -values[i];
    }

    template <class Node> void operator()(Node &node) const {
        for (auto value = node.beginValueAll(); value; ++value)
            value.setValue(-*value);
    }
};

/* Active values of a node below a bound are no longer active. */
struct Hide {
    float high;

    template <class Node> void operator()(Node &node) const {
        for (auto value = node.beginValueOn(); value; ++value)
            if (*value < high)
                value.setValueOff();
    }
};

struct Vdb : Contender {
    std::array<std::unique_ptr<Grid>, SEATS> grids;

    void fresh() override {
        for (auto &grid : grids)
            grid = std::make_unique<Grid>(background);
    }

    void insert(uint32_t seat, const Points &points) override {
        Grid &grid = *grids[seat];
        for (const Point &p : points)
            grid.setValue(Coord(p.x, p.y, p.z), p.value);
    }

    /* Its leaves stay, also where nothing is active any more. */
    void remove(uint32_t seat, const Points &points) override {
        Grid &grid = *grids[seat];
        for (const Point &p : points)
            grid.setActiveState(Coord(p.x, p.y, p.z), false);
    }

    uint64_t lookup(uint32_t seat, const Points &points) override {
        const Grid &grid = *grids[seat];
        uint64_t sum = 0;
        for (const Point &p : points) {
            float value;
            sum = add(sum, grid.probeValue(Coord(p.x, p.y, p.z), value) ? bits_of(value) : NOTHING_THERE);
        }
        return sum;
    }

    uint64_t signs(uint32_t seat) override { return signs_of(*grids[seat]); }

    void fill_signs(uint32_t seat) override { tools::signedFloodFill(*grids[seat], false); }

    void flip(uint32_t seat) override { tree::NodeManager<Grid>(*grids[seat]).foreachTopDown(Negate{}, false); }

    void cut_below(uint32_t seat, float high) override {
        tree::NodeManager<Grid>(*grids[seat]).foreachBottomUp(Hide{high}, false);
        tools::pruneInactive(*grids[seat], false);
    }

    void copy(uint32_t from, uint32_t to) override { grids[to] = std::make_unique<Grid>(*grids[from]); }

    void combine(Operation operation, uint32_t a, uint32_t b) override {
        switch (operation) {
        case UNION: tools::csgUnion(*grids[a], *grids[b], false); break;
        case SUBTRACT: tools::csgDifference(*grids[a], *grids[b], false); break;
        case INTERSECT: tools::csgIntersection(*grids[a], *grids[b], false); break;
        }
        grids[b] = std::make_unique<Grid>(background);
    }

    /* The heap in use, as the allocator counts it, less that of eight empty grids. */
    size_t bytes() override {
        const size_t all = mallinfo2().uordblks;
        fresh();
        return all - mallinfo2().uordblks;
    }

  protected:
    template <class Read> static uint64_t signs_of(Read &read) {
        uint64_t sum = 0;
        for (int32_t x = 0; x < SIDE; x++)
            for (int32_t y = 0; y < SIDE; y++)
                for (int32_t z = 0; z < SIDE; z++)
                    sum = add(sum, std::signbit(read.getValue(Coord(x, y, z))));
        return sum;
    }
};

/* The same grids, but each loop over voxels goes through an accessor, which remembers the nodes of the last one. */
struct VdbWithAccessor : Vdb {
    void insert(uint32_t seat, const Points &points) override {
        tree::ValueAccessor<Grid> access(*grids[seat]);
        for (const Point &p : points)
            access.setValue(Coord(p.x, p.y, p.z), p.value);
    }

    void remove(uint32_t seat, const Points &points) override {
        tree::ValueAccessor<Grid> access(*grids[seat]);
        for (const Point &p : points)
            access.setActiveState(Coord(p.x, p.y, p.z), false);
    }

    uint64_t lookup(uint32_t seat, const Points &points) override {
        tree::ValueAccessor<const Grid> access(*grids[seat]);
        uint64_t sum = 0;
        for (const Point &p : points) {
            float value;
            sum = add(sum, access.probeValue(Coord(p.x, p.y, p.z), value) ? bits_of(value) : NOTHING_THERE);
        }
        return sum;
    }

    uint64_t signs(uint32_t seat) override {
        tree::ValueAccessor<const Grid> access(*grids[seat]);
        return signs_of(access);
    }
};

template <class Kind> std::unique_ptr<Contender> make() {
    static tbb::global_control one_thread(tbb::global_control::max_allowed_parallelism, 1);
    static const bool ready = (openvdb::initialize(), true);
    (void)ready;
    return std::make_unique<Kind>();
}

} // namespace

std::unique_ptr<Contender> make_vdb() { return make<Vdb>(); }
std::unique_ptr<Contender> make_vdb_with_accessor() { return make<VdbWithAccessor>(); }
