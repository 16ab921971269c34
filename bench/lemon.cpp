// Solves jobs with LEMON's EdmondsKarp and Preflow, and prints for each the total fed and the nanoseconds of a run.
// The jobs are those that `bench_engine jobs` and `bench_rivals jobs` print: a line with a name, a number and the count of links,
// the four cabinets, the four limits, and a line for each link.
#include <lemon/smart_graph.h>
// The solvers' headers rely on the graph's.
#include <lemon/edmonds_karp.h>
#include <lemon/preflow.h>

#include <chrono>
#include <iostream>
#include <string>

using lemon::SmartDigraph;
using Capacities = SmartDigraph::ArcMap<long long>;

// A flow network with a source before the feeds and a sink behind the drains; a link is an arc each way.
struct Network {
    SmartDigraph graph;
    Capacities capacity{graph};
    SmartDigraph::Node cabinets[64];
    SmartDigraph::Node source, sink;

    Network() {
        for (auto &cabinet : cabinets) cabinet = graph.addNode();
        source = graph.addNode();
        sink = graph.addNode();
    }

    void add(SmartDigraph::Node from, SmartDigraph::Node to, long long limit) {
        capacity[graph.addArc(from, to)] = limit;
    }

    void read(int links) {
        int at[4];
        long long most[4];
        for (int &cabinet : at) std::cin >> cabinet;
        for (long long &limit : most) std::cin >> limit;
        for (int feed = 0; feed < 2; ++feed) add(source, cabinets[at[feed]], most[feed]);
        for (int drain = 2; drain < 4; ++drain) add(cabinets[at[drain]], sink, most[drain]);
        for (int link = 0; link < links; ++link) {
            int tail, head;
            long long limit;
            std::cin >> tail >> head >> limit;
            add(cabinets[tail], cabinets[head], limit);
            add(cabinets[head], cabinets[tail], limit);
        }
    }
};

// Runs a solver `times` times over, and gives the nanoseconds of one run.
template <class Solver>
long long measure(Network &network, int times, long long &fed) {
    auto start = std::chrono::steady_clock::now();
    for (int i = 0; i < times; ++i) {
        Solver solver(network.graph, network.capacity, network.source, network.sink);
        solver.run();
        fed = solver.flowValue();
    }
    auto spent = std::chrono::steady_clock::now() - start;
    return std::chrono::duration_cast<std::chrono::nanoseconds>(spent).count() / times;
}

int main() {
    std::string kind;
    int number, links;
    while (std::cin >> kind >> number >> links) {
        Network network;
        network.read(links);
        long long karp_fed, preflow_fed;
        long long karp = measure<lemon::EdmondsKarp<SmartDigraph, Capacities>>(network, 100, karp_fed);
        long long preflow = measure<lemon::Preflow<SmartDigraph, Capacities>>(network, 100, preflow_fed);
        if (karp_fed != preflow_fed) return 1;
        std::cout << kind << ' ' << number << ' ' << karp_fed << ' ' << karp << ' ' << preflow << '\n';
    }
}
