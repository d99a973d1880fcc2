// The same calls on a container of Boost.MultiIndex, which threads share under one std::shared_mutex. `sh bench/embed.sh`
// builds and runs it where Boost is.
//
//     multi_index NODES CALLS
#include "mixes.h"

#include <boost/multi_index/composite_key.hpp>
#include <boost/multi_index/hashed_index.hpp>
#include <boost/multi_index/member.hpp>
#include <boost/multi_index_container.hpp>
#include <mutex>
#include <shared_mutex>
#include <thread>
#include <vector>

namespace {

struct Edge {
    uint64_t source, target, weight;
};

using boost::multi_index::composite_key;
using boost::multi_index::hashed_non_unique;
using boost::multi_index::hashed_unique;
using boost::multi_index::indexed_by;
using boost::multi_index::tag;
using Source = boost::multi_index::member<Edge, uint64_t, &Edge::source>;
using Target = boost::multi_index::member<Edge, uint64_t, &Edge::target>;
struct Ends {};
struct Leaving {};
struct Entering {};
using Edges = boost::multi_index_container<Edge,
    indexed_by<hashed_unique<tag<Ends>, composite_key<Edge, Source, Target>>, hashed_non_unique<tag<Leaving>, Source>,
        hashed_non_unique<tag<Entering>, Target>>>;

struct Store {
    Edges edges;
    std::shared_mutex lock;
};

/* the rows of a node, read under the lock, as those of a reply are */
template <class Index> uint64_t rows_of(const Index &index, uint64_t node, uint64_t Edge::*end)
{
    uint64_t read = 0;
    auto [first, last] = index.equal_range(node);
    for (; first != last; ++first)
        read += (*first).*end;
    return read;
}

uint64_t make(Store &store, const call &call)
{
    switch (call.operation) {
    case SUCC: {
        std::shared_lock lock(store.lock);
        return rows_of(store.edges.get<Leaving>(), call.source, &Edge::target);
    }
    case PRED: {
        std::shared_lock lock(store.lock);
        return rows_of(store.edges.get<Entering>(), call.target, &Edge::source);
    }
    case INS: {
        std::unique_lock lock(store.lock);
        return store.edges.insert({call.source, call.target, call.weight}).second;
    }
    default: {
        std::unique_lock lock(store.lock);
        auto &ends = store.edges.get<Ends>();
        auto found = ends.find(std::make_tuple(call.source, call.target));
        if (found == ends.end())
            return 0;
        uint64_t weight = found->weight;
        ends.erase(found);
        return weight;
    }
    }
}

double measure(const call *calls, int threads, size_t each)
{
    Store store;
    std::vector<uint64_t> read(4);
    std::vector<std::thread> sides;
    double begun = now();
    for (int side = 0; side < threads; side++) {
        const call *first = calls + (size_t)side * each;
        sides.emplace_back([&store, &read, first, side, each] {
            uint64_t sum = 0;
            for (size_t at = 0; at < each; at++)
                sum += make(store, first[at]);
            read[side] = sum;
        });
    }
    for (std::thread &side : sides)
        side.join();
    return (now() - begun) / (double)each;
}

} // namespace

int main(int count, char **words)
{
    WANT(count == 3);
    measure_mixes(measure, "MultiIndex", strtoull(words[1], nullptr, 10), strtoull(words[2], nullptr, 10));
    return 0;
}
