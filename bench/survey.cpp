// The survey of the planner again, in plain C++17 with no proof, for comparing speed.
//
//   survey REPEATS FILE.sheet...
//
// reads each sheet, surveys it by length from site 0, prints what the survey comes to and, where
// REPEATS is above 0, the milliseconds of one survey. Both runs do the work of the proved code: every
// link is looked at for every site that is settled, ties are the same, and the tables have the same
// entries. One thing differs: the queue here keeps the place of each site, and the proved one looks
// for it among its entries.
#include <array>
#include <chrono>
#include <cstdint>
#include <cstdio>
#include <cstdlib>
#include <filesystem>
#include <fstream>
#include <iterator>
#include <stdexcept>
#include <string>
#include <utility>
#include <vector>

namespace {

constexpr std::size_t kMostSites = 256;
constexpr std::size_t kMostLinks = 2048;
constexpr std::uint16_t kNone = 65535;

using Cost = std::int64_t;
template <typename T>
using BySite = std::array<T, kMostSites>;

struct Link {
    std::uint16_t start;
    std::uint16_t end;
    std::uint32_t metres;
    std::uint32_t poles;
    std::uint16_t channels;
    std::uint16_t taken;
    bool lit;

    bool usable() const { return lit && taken < channels; }
};

struct Network {
    std::uint16_t sites = 0;
    std::vector<Link> links;
};

// ---- sheets ----

class Reader {
public:
    explicit Reader(const std::vector<std::uint8_t>& bytes) : bytes_(bytes) {}

    bool done() const { return at_ == bytes_.size(); }
    void skip(std::size_t count) { need(count), at_ += count; }
    std::uint16_t two() { return static_cast<std::uint16_t>(number(2)); }
    std::uint32_t four() { return number(4); }

private:
    void need(std::size_t count) const {
        if (bytes_.size() - at_ < count) throw std::runtime_error("the sheet is cut short");
    }

    std::uint32_t number(std::size_t count) {
        need(count);
        std::uint32_t value = 0;
        for (std::size_t i = 0; i < count; ++i) value |= std::uint32_t{bytes_[at_ + i]} << (8 * i);
        at_ += count;
        return value;
    }

    const std::vector<std::uint8_t>& bytes_;
    std::size_t at_ = 0;
};

Link read_link(Reader& reader, std::uint16_t sites) {
    Link link{};
    link.start = reader.two();
    link.end = reader.two();
    link.metres = reader.four();
    link.poles = reader.four();
    link.channels = reader.two();
    link.lit = true;
    if (link.start >= sites || link.end >= sites) throw std::runtime_error("a link ends nowhere");
    return link;
}

Network read_network(const std::vector<std::uint8_t>& bytes) {
    Reader reader(bytes);
    Network network;
    std::size_t count = 0;
    while (!reader.done()) {
        const std::uint16_t length = reader.two();
        const std::uint16_t kind = reader.two();
        if (kind == 1) {
            network.sites = reader.two();
            count = reader.two();
        } else if (kind == 3) {
            network.links.push_back(read_link(reader, network.sites));
        } else {
            reader.skip(length);
        }
    }
    const bool sound = 2 <= network.sites && network.sites <= kMostSites && count <= kMostLinks;
    if (!sound || network.links.size() != count) throw std::runtime_error("the sheet is not sound");
    return network;
}

// ---- the queue: a binary heap that knows the place of each site ----

class Queue {
public:
    Queue() { place_.fill(kNone); }

    bool empty() const { return count_ == 0; }

    // Takes a site in, or lowers the cost that it has.
    void offer(std::uint16_t site, Cost cost) {
        std::size_t at = place_[site];
        if (at == kNone) at = count_++;
        put(at, {cost, site});
        rise(at);
    }

    std::pair<Cost, std::uint16_t> take_least() {
        const Entry least = entries_[0];
        place_[least.site] = kNone;
        --count_;
        if (count_ > 0) {
            put(0, entries_[count_]);
            sink(0);
        }
        return {least.cost, least.site};
    }

private:
    struct Entry {
        Cost cost;
        std::uint16_t site;
    };

    static bool before(const Entry& x, const Entry& y) {
        return x.cost < y.cost || (x.cost == y.cost && x.site < y.site);
    }

    void put(std::size_t at, Entry entry) {
        entries_[at] = entry;
        place_[entry.site] = static_cast<std::uint16_t>(at);
    }

    void swap(std::size_t one, std::size_t other) {
        const Entry kept = entries_[one];
        put(one, entries_[other]);
        put(other, kept);
    }

    void rise(std::size_t at) {
        while (at > 0) {
            const std::size_t above = (at - 1) / 2;
            if (!before(entries_[at], entries_[above])) return;
            swap(at, above);
            at = above;
        }
    }

    void sink(std::size_t at) {
        for (;;) {
            std::size_t below = 2 * at + 1;
            if (below >= count_) return;
            if (below + 1 < count_ && before(entries_[below + 1], entries_[below])) ++below;
            if (!before(entries_[below], entries_[at])) return;
            swap(at, below);
            at = below;
        }
    }

    BySite<Entry> entries_;
    BySite<std::uint16_t> place_;
    std::size_t count_ = 0;
};

// ---- both runs ----

// What a run leaves: each site's cost, the link that gave it and the site that was settled then.
struct Run {
    BySite<Cost> cost;
    BySite<std::uint16_t> link;
    BySite<std::uint16_t> turn;
    BySite<std::uint16_t> order;
    std::size_t count = 0;
    Queue queue;

    explicit Run(std::uint16_t root) {
        link.fill(kNone);
        cost[root] = 0;
        link[root] = 0;
        turn[root] = root;
        queue.offer(root, 0);
    }

    void offer(std::uint16_t site, Cost offered, std::uint16_t over, std::uint16_t from) {
        if (link[site] != kNone && offered >= cost[site]) return;
        cost[site] = offered;
        link[site] = over;
        turn[site] = from;
        queue.offer(site, offered);
    }
};

Run first_run(const Network& network, std::uint16_t root) {
    Run run(root);
    while (!run.queue.empty()) {
        const auto [cost, site] = run.queue.take_least();
        run.order[run.count++] = site;
        for (std::size_t k = 0; k < network.links.size(); ++k) {
            const Link& link = network.links[k];
            if (!link.usable() || link.start != site) continue;
            run.offer(link.end, cost + link.metres, static_cast<std::uint16_t>(k), site);
        }
    }
    return run;
}

// The pieces of the tree before the last strike, and the parts since: each site's mark is the top.
struct Pieces {
    BySite<std::uint16_t> piece;
    BySite<std::uint16_t> part;

    Pieces(const Run& first, std::uint16_t root, std::uint16_t sites) {
        for (std::size_t w = 0; w < sites; ++w) part[w] = first.link[w] == kNone ? kNone : root;
    }

    void strike(const Run& first, std::uint16_t root, std::uint16_t struck, std::uint16_t sites) {
        for (std::size_t w = 0; w < sites; ++w) piece[w] = part[w];
        for (std::size_t i = 0; i < first.count; ++i) {
            const std::uint16_t site = first.order[i];
            part[site] = mark(first, root, struck, site);
        }
    }

    static bool together(const BySite<std::uint16_t>& marks, std::uint16_t u, std::uint16_t v) {
        return marks[u] != kNone && marks[u] == marks[v];
    }

private:
    std::uint16_t mark(const Run& first, std::uint16_t root, std::uint16_t struck,
                       std::uint16_t site) const {
        if (site == struck || part[site] == kNone) return kNone;
        if (site == root) return site;
        const std::uint16_t above = part[first.turn[site]];
        return above == kNone ? site : above;
    }
};

bool considers(const Run& first, const Pieces& pieces, std::uint16_t root, std::uint16_t struck,
               const Link& link, std::size_t number) {
    if (first.link[link.end] == number && link.end != root) return false;
    if (!Pieces::together(pieces.piece, struck, link.start)) return false;
    if (!Pieces::together(pieces.piece, struck, link.end)) return false;
    if (link.end == struck) return false;
    return link.start == struck || !Pieces::together(pieces.part, link.start, link.end);
}

Run second_run(const Network& network, const Run& first, std::uint16_t root) {
    Run run(root);
    Pieces pieces(first, root, network.sites);
    while (!run.queue.empty()) {
        const auto [cost, site] = run.queue.take_least();
        run.order[run.count++] = site;
        pieces.strike(first, root, site, network.sites);
        for (std::size_t k = 0; k < network.links.size(); ++k) {
            const Link& link = network.links[k];
            if (!link.usable() || !considers(first, pieces, root, site, link, k)) continue;
            const Cost reduced = link.metres + first.cost[link.start] - first.cost[link.end];
            run.offer(link.end, cost + reduced, static_cast<std::uint16_t>(k), site);
        }
    }
    return run;
}

// ---- the survey ----

enum class Kind : std::uint8_t { Root, Total, NoRoute, OneLink };

struct Outcome {
    Kind kind;
    Cost total;
    std::uint16_t link;
};

// The tree link into the top of the site's last piece.
std::uint16_t cutting_link(const Network& network, const Run& first, const Run& second,
                           std::uint16_t site) {
    for (;;) {
        const std::uint16_t link = first.link[site];
        site = network.links[link].start;
        if (second.link[site] != kNone) return link;
    }
}

void survey(const Network& network, std::uint16_t root, BySite<Outcome>& outcomes) {
    const Run first = first_run(network, root);
    const Run second = second_run(network, first, root);
    for (std::uint16_t site = 0; site < network.sites; ++site) {
        if (site == root) {
            outcomes[site] = {Kind::Root, 0, 0};
        } else if (first.link[site] == kNone) {
            outcomes[site] = {Kind::NoRoute, 0, 0};
        } else if (second.link[site] == kNone) {
            outcomes[site] = {Kind::OneLink, 0, cutting_link(network, first, second, site)};
        } else {
            outcomes[site] = {Kind::Total, second.cost[site] + 2 * first.cost[site], 0};
        }
    }
}

// ---- what is printed ----

struct Tally {
    unsigned pairs = 0;
    unsigned cuts = 0;
    unsigned none = 0;
    std::uint64_t checksum = 0xcbf29ce484222325;

    void join(std::uint64_t number) { checksum = (checksum ^ number) * 0x100000001b3; }

    void add(const Outcome& outcome) {
        join(static_cast<std::uint64_t>(outcome.kind));
        switch (outcome.kind) {
            case Kind::Root: break;
            case Kind::Total: ++pairs, join(static_cast<std::uint64_t>(outcome.total)); break;
            case Kind::NoRoute: ++none; break;
            case Kind::OneLink: ++cuts, join(outcome.link); break;
        }
    }

    bool operator!=(const Tally& other) const {
        return pairs != other.pairs || cuts != other.cuts || none != other.none ||
               checksum != other.checksum;
    }
};

Tally tally(const Network& network) {
    BySite<Outcome> outcomes;
    survey(network, 0, outcomes);
    Tally tally;
    for (std::size_t site = 0; site < network.sites; ++site) tally.add(outcomes[site]);
    return tally;
}

std::vector<std::uint8_t> bytes_of(const std::filesystem::path& path) {
    std::ifstream file(path, std::ios::binary);
    if (!file) throw std::runtime_error("no such file: " + path.string());
    return {std::istreambuf_iterator<char>(file), std::istreambuf_iterator<char>()};
}

void measure(const std::filesystem::path& path, unsigned long repeats) {
    const Network network = read_network(bytes_of(path));
    const std::string name = path.stem().string();
    const Tally expected = tally(network);
    std::printf("%s: sites %u links %zu pairs %u cuts %u none %u checksum %016llx\n", name.c_str(),
                unsigned{network.sites}, network.links.size(), expected.pairs, expected.cuts,
                expected.none, static_cast<unsigned long long>(expected.checksum));
    if (repeats == 0) return;
    using Clock = std::chrono::steady_clock;
    const Clock::time_point start = Clock::now();
    for (unsigned long i = 0; i < repeats; ++i) {
        if (tally(network) != expected) throw std::runtime_error("a survey differs from the one before");
    }
    const std::chrono::duration<double, std::milli> span = Clock::now() - start;
    std::printf("%s: %.4f ms for one survey\n", name.c_str(), span.count() / repeats);
}

}  // namespace

int main(int argc, char** argv) {
    try {
        if (argc < 3) throw std::runtime_error("usage: survey REPEATS FILE.sheet...");
        const unsigned long repeats = std::stoul(argv[1]);
        for (int i = 2; i < argc; ++i) measure(argv[i], repeats);
        return 0;
    } catch (const std::exception& failure) {
        std::fprintf(stderr, "survey: %s\n", failure.what());
        return 1;
    }
}
