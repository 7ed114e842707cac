// Finds the strongly connected components of a graph of pairs of names by Boost's `strong_components`, and prints the members of each.
#include <boost/graph/compressed_sparse_row_graph.hpp>
#include <boost/graph/strong_components.hpp>
#include <cstdint>
#include <cstdio>
#include <fstream>
#include <iostream>
#include <string>
#include <unordered_map>
#include <vector>

int main(int, char **words) {
    std::ios::sync_with_stdio(false);
    std::ifstream text(words[1]);
    std::unordered_map<std::string, uint32_t> places;
    std::vector<const std::string *> names;
    std::vector<std::pair<uint32_t, uint32_t>> edges;
    auto place = [&](const std::string &name) {
        auto [at, is_new] = places.emplace(name, names.size());
        if (is_new) names.push_back(&at->first);
        return at->second;
    };
    std::string from, to;
    while (text >> from >> to) {
        uint32_t caller = place(from);
        edges.emplace_back(caller, place(to));
    }
    using Graph = boost::compressed_sparse_row_graph<boost::directedS, boost::no_property, boost::no_property, boost::no_property, uint32_t, uint32_t>;
    Graph graph(boost::edges_are_unsorted, edges.begin(), edges.end(), names.size());
    std::vector<uint32_t> component(names.size());
    auto index = boost::get(boost::vertex_index, graph);
    uint32_t count = boost::strong_components(graph, boost::make_iterator_property_map(component.begin(), index));
    std::vector<std::vector<uint32_t>> groups(count);
    for (uint32_t node = 0; node < names.size(); node++) groups[component[node]].push_back(node);
    std::string out;
    for (const auto &group : groups) {
        for (uint32_t node : group) out += *names[node], out += ' ';
        out += '\n';
    }
    fwrite(out.data(), 1, out.size(), stdout);
}
