// LEMON's Preflow on the flow problem that withdrawing solves: the source feeds each overflowing
// row up to its excess, a critical pair carries up to its demand from its row to its column, and
// each overflowing column drains up to its excess. A greatest flow is a greatest withdrawn matrix.
//
// Lines that do not overflow and pairs that ask for nothing get no node and no arc. Of LEMON's
// graphs StaticDigraph is used, on which Preflow was quicker than on SmartDigraph or ListDigraph.
// Its time depends on the order in which it meets the arcs of a row. Here the last column comes
// first, as it does in those two graphs when arcs are added in row order. The other way round
// banded demands were quicker, most others slower, and a staircase took many times as long.

// Nothing of LEMON is then linked: what is used stands in its headers.
#define LEMON_ONLY_TEMPLATES

#include <cstddef>
#include <cstdint>
#include <utility>
#include <vector>

#include <lemon/preflow.h>
#include <lemon/static_graph.h>

namespace {

using Graph = lemon::StaticDigraph;
// An int holds every sum: 64 × 64 demands below 2^16 are together below 2^28.
using Capacities = Graph::ArcMap<int>;

const int SOURCE = 0;
const int SINK = 1;

// Row `line`, or column `line` - n.
int line_sum(std::size_t n, const std::uint32_t *demand, std::size_t line) {
  std::uint32_t sum = 0;
  for (std::size_t t = 0; t < n; ++t)
    sum += demand[line < n ? line * n + t : t * n + line - n];
  return static_cast<int>(sum);
}

} // namespace

// The graph of one demand, and the flow that Preflow finds in it.
class Network {
  int node_count = 2;
  // The node of each line that overflows; of any other 0, which is no line's.
  std::vector<int> nodes;
  std::vector<int> excesses;
  // Of each arc, the nodes it joins and what it can carry.
  std::vector<std::pair<int, int>> ends;
  std::vector<int> most;
  // The first arc of a pair, and the cell of that pair and of each that follows.
  int first_pair = 0;
  std::vector<std::size_t> cells;

  Graph graph;
  Capacities capacities{graph};

  void add_nodes(std::size_t n, const std::uint32_t *capacity, const std::uint32_t *demand) {
    for (std::size_t line = 0; line < 2 * n; ++line) {
      excesses.push_back(line_sum(n, demand, line) - static_cast<int>(capacity[line]));
      nodes.push_back(excesses[line] > 0 ? node_count++ : 0);
    }
  }

  void add_arc(int from, int to, int capacity) {
    ends.push_back({from, to});
    most.push_back(capacity);
  }

  void add_row(std::size_t n, std::size_t i, const std::uint32_t *demand) {
    for (std::size_t j = n; j-- > 0;) {
      const std::size_t cell = i * n + j;
      if (nodes[i] != 0 && nodes[n + j] != 0 && demand[cell] > 0) {
        add_arc(nodes[i], nodes[n + j], static_cast<int>(demand[cell]));
        cells.push_back(cell);
      }
    }
  }

  // In the order of the nodes they leave, as StaticDigraph asks.
  void add_arcs(std::size_t n, const std::uint32_t *demand) {
    ends.reserve(n * n + 2 * n);
    most.reserve(n * n + 2 * n);
    cells.reserve(n * n);
    for (std::size_t i = 0; i < n; ++i)
      if (nodes[i] != 0)
        add_arc(SOURCE, nodes[i], excesses[i]);
    first_pair = static_cast<int>(ends.size());
    for (std::size_t i = 0; i < n; ++i)
      add_row(n, i, demand);
    for (std::size_t line = n; line < 2 * n; ++line)
      if (nodes[line] != 0)
        add_arc(nodes[line], SINK, excesses[line]);
  }

public:
  lemon::Preflow<Graph, Capacities> preflow{graph, capacities, Graph::node(SOURCE),
                                            Graph::node(SINK)};

  Network(std::size_t n, const std::uint32_t *capacity, const std::uint32_t *demand) {
    add_nodes(n, capacity, demand);
    add_arcs(n, demand);
    graph.build(node_count, ends.begin(), ends.end());
    for (std::size_t arc = 0; arc < most.size(); ++arc)
      capacities[Graph::arc(static_cast<int>(arc))] = most[arc];
  }

  void carried(std::uint32_t *withdrawn) const {
    for (std::size_t pair = 0; pair < cells.size(); ++pair) {
      const Graph::Arc arc = Graph::arc(first_pair + static_cast<int>(pair));
      withdrawn[cells[pair]] = static_cast<std::uint32_t>(preflow.flow(arc));
    }
  }
};

extern "C" {

// The graph of these n × n demands and 2n line capacities; no flow yet.
Network *lemon_network(std::size_t n, const std::uint32_t *capacity,
                       const std::uint32_t *demand) noexcept {
  return new Network(n, capacity, demand);
}

// Finds a greatest flow, with both phases of Preflow: not its value alone, but what each pair
// carries.
void lemon_run(Network *network) noexcept { network->preflow.run(); }

// After a run, what each pair carries goes to its cell; the cells of other pairs stay as they are.
void lemon_carried(const Network *network, std::uint32_t *withdrawn) noexcept {
  network->carried(withdrawn);
}

void lemon_free(Network *network) noexcept { delete network; }
}
