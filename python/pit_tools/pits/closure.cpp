// The ultimate pit as a closure of greatest value, by pseudoflow with lowest labels first (Hochbaum 2008). It needs no library:
// closure.py compiles it as a shared one, and calls the functions at the end.
//
// Blocks stand in trees. What a block is worth, in whole units, flows along the arcs to those that it waits for, and is gathered at the
// root of its tree. A tree whose root has some left is strong: it looks for an arc from one of its blocks to a weak tree, and hangs
// itself there. Strong trees that find no such arc are the pit.
//
// Blocks are added from the last one on, if each waits for later ones alone: what is in the pit then stays there, and is not looked at again.
#include <algorithm>
#include <cstdint>
#include <new>
#include <vector>

namespace {

using Block = std::int32_t;
using Units = std::int64_t;
constexpr Block NONE = -1;
constexpr std::int32_t SETTLED = 1 << 30;  // the label of a block that is in the pit for good
constexpr std::size_t PARTS = 256;

// The blocks that block b waits for: above[starts[b]] up to above[starts[b + 1]]. With several periods, node t * blocks + b is block b by
// the end of period t. It waits for these blocks by the end of the same period and, if periods are joined, for itself by the end of the
// next one.
struct Arcs {
    const std::int64_t *starts;
    const Block *above;
    Block blocks = 0;
    std::int32_t periods = 1;
    bool joined = false;

    struct List {
        std::int64_t first, own_end, end;  // arcs of the block, and one more to the next period
        Block shift;                       // from a block to its node
    };

    List of(Block node) const {
        if (periods == 1) return {starts[node], starts[node + 1], starts[node + 1], 0};
        const Block block = node % blocks;
        const std::int64_t end = starts[block + 1];
        return {starts[block], end, end + (joined && node / blocks < periods - 1), node - block};
    }

    Block target(Block node, const List &list, std::int64_t arc) const {
        return arc < list.own_end ? above[arc] + list.shift : node + blocks;
    }
};

struct Node {
    Units excess;              // of a root: what is left of its tree
    Units flow = 0;            // on the arc between a block and its parent
    Block parent = NONE;
    Block first_child = NONE, older = NONE, younger = NONE;  // siblings are a list in both directions
    Block to_scan = NONE;      // the next child to look at
    std::int32_t label;
    std::int64_t next_arc;     // the next predecessor to look at
    bool waits_for_parent = false;
};

class Forest {
public:
    Forest(std::size_t count, const Units *values, Arcs arcs) : arcs(arcs), nodes(count) {
        for (std::size_t block = 0; block < count; block++) {
            Node &node = nodes[block];
            node.excess = values[block];
            node.label = values[block] > 0;
            const Arcs::List list = arcs.of(block);
            node.next_arc = list.first;
            for (std::int64_t arc = list.first; arc < list.end; arc++) rising &= arcs.target(block, list, arc) > Block(block);
        }
    }

    // Grows the trees of the nodes from `first` up to `last`, each a node alone, which wait for no others.
    void grow_all(std::size_t first, std::size_t last) {
        at_label.assign(2, 0);
        for (const std::size_t step = rising ? (last - first) / PARTS + 1 : last - first; first < last;) {
            const std::size_t begin = last - std::min(step, last - first);
            grow_part(begin, last);
            last = begin;
        }
    }

    // Joins the periods, each of which has been grown: only the arc to the next period can lead from a strong tree to a weak one.
    void join(std::uint8_t *in_pit) {
        mark(in_pit);
        arcs.joined = true;
        for (std::size_t block = 0; block < nodes.size(); block++) {
            nodes[block].label = in_pit[block];
            nodes[block].next_arc = arcs.of(block).own_end;
        }
        at_label.assign(2, 0);
        grow_part(0, nodes.size());
    }

    // The flow between each node and its parent, 0 for a root, and its arc: -1 - t if it leads from period t to the next.
    void flows(std::int64_t *arc, Units *flow) const {
        for (std::size_t block = 0; block < nodes.size(); block++) {
            const Node &node = nodes[block];
            flow[block] = node.parent == NONE ? 0 : node.flow;
            arc[block] = 0;
            if (flow[block] == 0) continue;
            const Block from = node.waits_for_parent ? block : node.parent, to = node.waits_for_parent ? node.parent : block;
            const Arcs::List list = arcs.of(from);
            std::int64_t at = list.first;
            while (arcs.target(from, list, at) != to) at++;
            arc[block] = at < list.own_end ? at : -1 - from / arcs.blocks;
        }
    }

    void mark(std::uint8_t *in_pit) const {
        enum : std::uint8_t { OUT, IN, UNKNOWN };
        std::fill(in_pit, in_pit + nodes.size(), UNKNOWN);
        std::vector<Block> path;
        for (std::size_t from = 0; from < nodes.size(); from++) {
            Block at = from;
            while (in_pit[at] == UNKNOWN && nodes[at].parent != NONE) path.push_back(at), at = nodes[at].parent;
            if (in_pit[at] == UNKNOWN) in_pit[at] = nodes[at].excess > 0 ? IN : OUT;
            for (const Block block : path) in_pit[block] = in_pit[at];
            path.clear();
        }
    }

private:
    Arcs arcs;
    std::vector<Node> nodes;
    std::vector<std::int64_t> at_label;       // how many blocks have a label
    std::vector<std::vector<Block>> strong;   // strong roots by label
    std::size_t lowest = 1;
    bool rising = true;  // whether each node waits for later ones alone

    void grow_part(std::size_t first, std::size_t last) {
        strong.assign(2, {}), lowest = 1;
        for (std::size_t block = first; block < last; block++) {
            at_label[nodes[block].label]++;
            if (nodes[block].parent == NONE && nodes[block].excess > 0) strong[1].push_back(block);
        }
        for (Block root = next_strong(); root != NONE; root = next_strong()) grow(root);
        for (const std::vector<Block> &roots : strong) {
            for (const Block root : roots) settle(root);
        }
    }

    void settle(Block root) {
        std::vector<Block> waiting{root};
        while (!waiting.empty()) {
            const Block block = waiting.back();
            waiting.pop_back();
            set_label(block, SETTLED);
            for (Block child = nodes[block].first_child; child != NONE; child = nodes[child].younger) waiting.push_back(child);
        }
    }

    void put_strong(Block root) {
        const std::size_t label = nodes[root].label;
        if (strong.size() <= label) strong.resize(label + 1);
        strong[label].push_back(root);
        lowest = std::min(lowest, label);
    }

    // A strong root of the lowest label; NONE where none can reach a weak block any more.
    Block next_strong() {
        if (lowest == 0) {
            // Blocks of the label 0 in a tree that became strong have to be above the weak ones.
            std::vector<Block> roots;
            roots.swap(strong[0]);
            lowest = 1;
            for (const Block root : roots) grow(root);
        }
        while (lowest < strong.size() && strong[lowest].empty()) lowest++;
        if (lowest >= strong.size() || at_label[lowest - 1] == 0) return NONE;
        const Block root = strong[lowest].back();
        strong[lowest].pop_back();
        return root;
    }

    void set_label(Block block, std::int32_t label) {
        Node &node = nodes[block];
        at_label[node.label]--;
        node.label = label, node.next_arc = arcs.of(block).first;
        if (label == SETTLED) return;
        if (at_label.size() <= std::size_t(label)) at_label.resize(label + 1);
        at_label[label]++;
    }

    // Raises a root without children to where it can be hung next. It is settled if all that it waits for is.
    void raise_alone(Block root) {
        const Arcs::List list = arcs.of(root);
        std::int32_t least = SETTLED;
        for (std::int64_t arc = list.first; arc < list.end && least > nodes[root].label; arc++) {
            least = std::min(least, nodes[arcs.target(root, list, arc)].label);
        }
        set_label(root, least == SETTLED ? SETTLED : least + 1);
        if (least != SETTLED) put_strong(root);
    }

    // Raises a block, unless one of its children still has its label.
    void raise_behind_children(Block block) {
        Node &node = nodes[block];
        for (; node.to_scan != NONE; node.to_scan = nodes[node.to_scan].younger) {
            if (nodes[node.to_scan].label == node.label) return;
        }
        set_label(block, node.label + 1);
    }

    void attach(Block child, Block parent) {
        Node &node = nodes[child];
        node.parent = parent, node.older = NONE, node.younger = nodes[parent].first_child;
        if (node.younger != NONE) nodes[node.younger].older = child;
        nodes[parent].first_child = child;
    }

    void detach(Block child) {
        Node &node = nodes[child];
        (node.older == NONE ? nodes[node.parent].first_child : nodes[node.older].younger) = node.younger;
        if (node.younger != NONE) nodes[node.younger].older = node.older;
        node.parent = NONE;
    }

    // A block that this one waits for whose label is one below, or NONE.
    Block weak_above(Block block) {
        Node &node = nodes[block];
        for (const Arcs::List list = arcs.of(block); node.next_arc < list.end; node.next_arc++) {
            const Block above = arcs.target(block, list, node.next_arc);
            if (nodes[above].label == node.label - 1) return above;
        }
        return NONE;
    }

    // Makes `block` the root of its tree, and hangs it under `weak`, for which it waits.
    void hang(Block block, Block weak) {
        Block child = block, parent = weak;
        Units flow = 0;
        bool waits = true;
        while (child != NONE) {
            const Block above = nodes[child].parent;
            if (above != NONE) detach(child);
            attach(child, parent);
            std::swap(nodes[child].flow, flow);
            std::swap(nodes[child].waits_for_parent, waits);
            waits = !waits;
            parent = child, child = above;
        }
    }

    // Lets the excess of an old root flow to the new one. Where an arc cannot take it all back, its lower end is a root again.
    void push_from(Block block) {
        while (nodes[block].parent != NONE && nodes[block].excess > 0) {
            Node &node = nodes[block];
            Node &parent = nodes[node.parent];
            const Block above = node.parent;
            const Units goes = node.waits_for_parent ? node.excess : std::min(node.excess, node.flow);
            node.flow += node.waits_for_parent ? goes : -goes;
            node.excess -= goes;
            const bool was_strong = parent.excess > 0;
            parent.excess += goes;
            if (node.excess > 0) detach(block), put_strong(block);
            if (nodes[above].parent == NONE && parent.excess > 0 && !was_strong) put_strong(above);
            block = above;
        }
    }

    bool merge_from(Block root, Block block) {
        const Block weak = weak_above(block);
        if (weak == NONE) return false;
        hang(block, weak);
        push_from(root);
        return true;
    }

    // Looks through the tree, depth first, for a block that can be hung to a weak one; raises what has none.
    void grow(Block root) {
        nodes[root].to_scan = nodes[root].first_child;
        if (merge_from(root, root)) return;
        if (nodes[root].first_child == NONE) return raise_alone(root);
        raise_behind_children(root);
        for (Block at = root; at != NONE;) {
            while (nodes[at].to_scan != NONE) {
                const Block child = nodes[at].to_scan;
                nodes[at].to_scan = nodes[child].younger;
                at = child;
                nodes[at].to_scan = nodes[at].first_child;
                if (merge_from(root, at)) return;
                raise_behind_children(at);
            }
            at = nodes[at].parent;
            if (at != NONE) raise_behind_children(at);
        }
        put_strong(root);
    }
};

struct Offset {
    std::int32_t dx, dy, dz;
};

// A zone's cone as a table of which offsets are in it.
class Cone {
public:
    Cone(const Offset *first, const Offset *last) : offsets(first, last) {
        for (const Offset &one : offsets) {
            wide = std::max({wide, std::abs(one.dx), std::abs(one.dy)});
            high = std::max(high, one.dz);
        }
        table.assign(std::size_t(high) * (2 * wide + 1) * (2 * wide + 1), 0);
        for (const Offset &one : offsets) table[index(one)] = 1;
        split();
    }

    bool has(Offset one) const {
        return one.dz >= 1 && one.dz <= high && std::abs(one.dx) <= wide && std::abs(one.dy) <= wide && table[index(one)];
    }

    std::vector<Offset> offsets;
    std::vector<std::vector<Offset>> ways;  // of each offset, first steps that it can be made of; none where it stands alone

private:
    std::int32_t wide = 0, high = 0;
    std::vector<char> table;

    std::size_t index(Offset one) const {
        return (std::size_t(one.dz - 1) * (2 * wide + 1) + (one.dy + wide)) * (2 * wide + 1) + (one.dx + wide);
    }

    static Offset rest(Offset whole, Offset step) {
        return {whole.dx - step.dx, whole.dy - step.dy, whole.dz - step.dz};
    }

    // Finds the offsets that are no two steps within the cone, and for the others which of these may be the first step.
    void split() {
        std::vector<Offset> alone;
        ways.resize(offsets.size());
        for (std::size_t at = 0; at < offsets.size(); at++) {
            for (const Offset &step : alone) {
                if (has(rest(offsets[at], step))) ways[at].push_back(step);
            }
            if (ways[at].empty()) alone.push_back(offsets[at]);
        }
    }
};

// The arcs of blocks in a box, without those that others imply.
class Box {
public:
    Box(const std::int32_t *shape, const Block *places, const std::int32_t *zones) : shape(shape), places(places), zones(zones) {}

    void arcs_of(const std::vector<Cone> &cones, std::size_t count, const std::int32_t *xyz) {
        starts.push_back(0);
        for (std::size_t block = 0; block < count; block++) {
            const std::int32_t *at = xyz + 3 * block;
            const Cone &cone = cones[zones[block]];
            for (std::size_t offset = 0; offset < cone.offsets.size(); offset++) {
                const Block other = there(at, cone.offsets[offset]);
                if (other != NONE && !is_implied(cones, at, cone.offsets[offset], cone.ways[offset])) above.push_back(other);
            }
            starts.push_back(above.size());
        }
    }

    std::vector<std::int64_t> starts;
    std::vector<Block> above;

private:
    const std::int32_t *shape;
    const Block *places;
    const std::int32_t *zones;

    Block there(const std::int32_t *at, Offset offset) const {
        const std::int32_t x = at[0] + offset.dx, y = at[1] + offset.dy, z = at[2] + offset.dz;
        if (x < 0 || y < 0 || x >= shape[0] || y >= shape[1] || z >= shape[2]) return NONE;
        return places[(std::size_t(z) * shape[1] + y) * shape[0] + x];
    }

    bool is_implied(const std::vector<Cone> &cones, const std::int32_t *at, Offset whole, const std::vector<Offset> &ways) const {
        for (const Offset &step : ways) {
            const Block between = there(at, step);
            if (between == NONE) continue;
            if (cones[zones[between]].has({whole.dx - step.dx, whole.dy - step.dy, whole.dz - step.dz})) return true;
        }
        return false;
    }
};

int find(std::int64_t count, const Units *values, Arcs arcs, std::uint8_t *in_pit) {
    Forest forest(count, values, arcs);
    forest.grow_all(0, count);
    forest.mark(in_pit);
    return 0;
}

}  // namespace

// Each answers 0, or 1 where memory was refused.
extern "C" {

// The pit of blocks by their values in whole units and by all arcs: in_pit[b] is 1 or 0.
int closure(std::int64_t count, const Units *values, const std::int64_t *starts, const Block *above, std::uint8_t *in_pit) try {
    return find(count, values, {starts, above}, in_pit);
} catch (const std::bad_alloc &) {
    return 1;
}

// The closure of greatest value of blocks by the ends of periods: values[t * blocks + b] counts if block b is mined by the end of period
// t, with all that it waits for; what is mined by then is mined by the end of the next one. in_pit[t * blocks + b] is 1 or 0. The flow
// that proves it is between node i and its parent, in arc[i], or from period t to the next where that is -1 - t; 0 where there is none.
int closure_of_periods(std::int64_t blocks, std::int32_t periods, const Units *values, const std::int64_t *starts, const Block *above,
                       std::uint8_t *in_pit, std::int64_t *arc, Units *flow) try {
    Forest forest(blocks * periods, values, {starts, above, Block(blocks), periods});
    for (std::int32_t period = 0; period < periods; period++) forest.grow_all(blocks * period, blocks * (period + 1));
    if (periods > 1) forest.join(in_pit);
    forest.mark(in_pit);
    if (arc) forest.flows(arc, flow);
    return 0;
} catch (const std::bad_alloc &) {
    return 1;
}

// The pit of blocks at places of a box, whose arcs follow from the cones of their zones. shape is that of the box along x, y and z;
// places has the block of each place, x fastest, or -1; xyz the place of each block. Offsets of zone a are those from bounds[a] up to
// bounds[a + 1]. *arcs is how many arcs were left that no others imply.
int closure_of_cones(std::int64_t count, const Units *values, const std::int32_t *shape, const Block *places, const std::int32_t *xyz,
                     const std::int32_t *zones, std::int32_t zone_count, const std::int64_t *bounds, const std::int32_t *offsets,
                     std::uint8_t *in_pit, std::int64_t *arcs) try {
    std::vector<Cone> cones;
    const Offset *all = reinterpret_cast<const Offset *>(offsets);
    for (std::int32_t zone = 0; zone < zone_count; zone++) cones.emplace_back(all + bounds[zone], all + bounds[zone + 1]);
    Box box(shape, places, zones);
    box.arcs_of(cones, count, xyz);
    *arcs = box.above.size();
    return find(count, values, {box.starts.data(), box.above.data()}, in_pit);
} catch (const std::bad_alloc &) {
    return 1;
}

// Marks the arcs that stay: kept[a] is 0 where the predecessor is one of another predecessor of the block too, else 1. The predecessors
// of a block have to rise, and a block's identifier to be less than theirs.
//
// The lists of predecessors that stay so far are gone through whole, and drop most others. In the lists of these only the few that still
// stay are looked for.
int immediate(std::int64_t count, const std::int64_t *starts, const Block *above, std::uint8_t *kept) try {
    std::vector<Block> implied_by(count, NONE);
    std::vector<std::int64_t> staying;
    for (Block block = 0; block < count; block++) {
        staying.clear();
        for (std::int64_t arc = starts[block]; arc < starts[block + 1]; arc++) {
            const Block next = above[arc];
            kept[arc] = implied_by[next] != block;
            if (!kept[arc]) continue;
            staying.push_back(arc);
            for (std::int64_t far = starts[next]; far < starts[next + 1]; far++) implied_by[above[far]] = block;
        }
        for (std::int64_t arc = starts[block]; arc < starts[block + 1]; arc++) {
            if (kept[arc]) continue;
            const Block *first = above + starts[above[arc]], *end = above + starts[above[arc] + 1];
            for (auto at = staying.rbegin(); at != staying.rend() && first != end && above[*at] >= *first; ++at) {
                if (kept[*at] && std::binary_search(first, end, above[*at])) kept[*at] = 0;
            }
        }
    }
    return 0;
} catch (const std::bad_alloc &) {
    return 1;
}

}  // extern "C"
