// What bench/questions asks of Dedale, over the polyhedra of the Parma Polyhedra Library: it reads maps, networks and questions as
// question_maps.py and question_events.py make them, and replies as Dedale does. Pairs whose bounding boxes don't meet are told apart by
// them, and what regions leave of a window is found in halves of it while many of them are near.
#include "polyhedra.h"

#include <algorithm>
#include <cmath>
#include <map>
#include <set>
#include <sstream>

using namespace IO_Operators;
using std::cout;
using std::string;

typedef vector<const Region *> Near;
typedef BD_Shape<mpq_class> Network;
const size_t FEW = 6;  // regions near a window that isn't cut

struct Named {
  string name;
  Region region;
};

// Regions with names, and their order by left ends.
struct Map {
  vector<Named> regions;
  vector<const Named *> sorted;
  double widest = 0;

  void sort() {
    for (const Named &one : regions) {
      sorted.push_back(&one);
      widest = std::max(widest, one.region.bounds.high[0] - one.region.bounds.low[0]);
    }
    std::sort(sorted.begin(), sorted.end(), [](auto a, auto b) { return a->region.bounds.low[0] < b->region.bounds.low[0]; });
  }

  vector<const Named *> near(const Bounds &bounds) const {
    vector<const Named *> found;
    auto one = std::lower_bound(sorted.begin(), sorted.end(), bounds.low[0] - widest,
                                [](auto a, double left) { return a->region.bounds.low[0] < left; });
    for (; one != sorted.end() && (*one)->region.bounds.low[0] <= bounds.high[0]; ++one)
      if ((*one)->region.bounds.meets(bounds)) found.push_back(*one);
    return found;
  }

  Near of(const string &name) const {
    Near found;
    for (const Named &one : regions)
      if (one.name == name) found.push_back(&one.region);
    return found;
  }
};

struct Point {
  string name;
  long at[2];
};

std::map<string, Map> maps;
vector<Point> points;
vector<Network> networks;

// ---- Reading and replying ------------------------------------------------------------------------------------------

string word() {
  string text;
  cin >> text;
  return text;
}

void read_regions() {
  Map &map = maps[word()];
  size_t count;
  cin >> count;
  map.regions.reserve(count);
  for (size_t k = 0; k < count; ++k) {
    string name = word();
    map.regions.push_back({name, Region(poly_of(read_rows(2), 2))});
  }
  map.sort();
}

void read_points() {
  size_t count;
  cin >> count;
  points.resize(count);
  for (Point &point : points) cin >> point.name >> point.at[0] >> point.at[1];
}

// The first event is at 0.
void read_network() {
  size_t events, limits, i, j;
  long most;
  cin >> events >> limits;
  Network network(events);
  network.add_constraint(Variable(0) == 0);
  for (size_t k = 0; k < limits && cin >> i >> j >> most; ++k) network.add_constraint(Variable(i) - Variable(j) <= most);
  networks.push_back(network);
}

string tuple(const string &names, const Poly &poly) {
  std::ostringstream out;
  out << "{ " << names << poly.minimized_constraints() << " }";
  return out.str();
}

void reply(const vector<string> &tuples) {
  cout << "answer " << tuples.size() << "\n";
  for (const string &one : tuples) cout << one << "\n";
  cout << "end\n";
}

void reply(const vector<Region> &pieces) {
  vector<string> tuples;
  for (const Region &piece : pieces) tuples.push_back(tuple("", piece.poly));
  reply(tuples);
}

// ---- What regions leave --------------------------------------------------------------------------------------------

Near pointers(const vector<Region> &regions) {
  Near all;
  for (const Region &region : regions) all.push_back(&region);
  return all;
}

Near meeting(const Near &regions, const Bounds &bounds) {
  Near found;
  for (const Region *region : regions)
    if (region->bounds.meets(bounds)) found.push_back(region);
  return found;
}

// What one region after another leaves of a piece.
vector<Region> rest_of(const Region &piece, const Near &taken) {
  vector<Region> left{piece};
  for (const Region *region : taken) {
    vector<Region> next;
    for (const Region &part : left) {
      if (!part.bounds.meets(region->bounds) || part.poly.is_disjoint_from(region->poly)) {
        next.push_back(part);
        continue;
      }
      Pieces rest = linear_partition(region->poly, part.poly).second;
      for (const auto &one : rest)
        if (!one.pointset().is_empty()) next.emplace_back(one.pointset());
    }
    left.swap(next);
  }
  return left;
}

Region half(const Region &window, const Constraint &constraint) {
  Poly poly(window.poly);
  poly.add_constraint(constraint);
  return Region(poly);
}

// What regions leave of a rectangle, which is cut in two while many of them are near and that tells them apart.
void leave(const Region &window, const Near &taken, vector<Region> &left) {
  const Bounds &at = window.bounds;
  Near near = meeting(taken, at);
  size_t k = at.high[0] - at.low[0] < at.high[1] - at.low[1];
  if (near.size() > FEW && at.high[k] - at.low[k] > 3) {
    long middle = std::lround((at.low[k] + at.high[k]) / 2);
    Region low = half(window, Variable(k) < middle), high = half(window, Variable(k) >= middle);
    size_t most = std::max(meeting(near, low.bounds).size(), meeting(near, high.bounds).size());
    if (4 * most <= 3 * near.size()) {
      leave(low, near, left);
      leave(high, near, left);
      return;
    }
  }
  for (const Region &rest : rest_of(window, near)) left.push_back(rest);
}

vector<Region> left_of(const Region &window, const Near &taken) {
  vector<Region> left;
  leave(window, taken, left);
  return left;
}

// A rectangle around regions, with room on all sides.
Region around(const Near &regions) {
  Poly poly(2);
  for (size_t k = 0; k < 2; ++k) {
    double low = 1e300, high = -1e300;
    for (const Region *region : regions) {
      low = std::min(low, region->bounds.low[k]);
      high = std::max(high, region->bounds.high[k]);
    }
    poly.add_constraint(Variable(k) >= std::lround(low) - 2);
    poly.add_constraint(Variable(k) <= std::lround(high) + 2);
  }
  return Region(poly);
}

// The closure of what is around regions, and not in them.
vector<Region> closed_outside(const Near &regions) {
  vector<Region> closed;
  for (const Region &piece : left_of(around(regions), regions)) {
    Poly poly(piece.poly);
    poly.topological_closure_assign();
    closed.emplace_back(poly);
  }
  return closed;
}

// ---- Questions of maps ---------------------------------------------------------------------------------------------

void overlay() {
  const Map &first = maps[word()], &second = maps[word()];
  vector<string> tuples;
  for (const Named &one : first.regions)
    for (const Named *other : second.near(one.region.bounds)) {
      Poly common(one.region.poly);
      common.intersection_assign(other->region.poly);
      if (!common.is_empty()) tuples.push_back(tuple(one.name + ", " + other->name + ", ", common));
    }
  reply(tuples);
}

void neighbours() {
  const Map &map = maps[word()];
  std::set<string> names;
  for (const Region *region : map.of(word()))
    for (const Named *other : map.near(region->bounds))
      if (!other->region.poly.is_disjoint_from(region->poly)) names.insert("{ " + other->name + " }");
  reply(vector<string>(names.begin(), names.end()));
}

void interior() {
  const Map &map = maps[word()];
  Near pieces = map.of(word());
  vector<Region> outside = closed_outside(pieces);
  reply(left_of(around(pieces), pointers(outside)));
}

void borders() {
  const Map &map = maps[word()];
  std::map<string, Near> by_name;
  for (const Named &one : map.regions) by_name[one.name].push_back(&one.region);
  vector<string> tuples;
  for (const auto &one : by_name) {
    vector<Region> outside = closed_outside(one.second);
    for (const Region *piece : one.second)
      for (const Region *other : meeting(pointers(outside), piece->bounds)) {
        Poly common(piece->poly);
        common.intersection_assign(other->poly);
        if (!common.is_empty()) tuples.push_back(tuple(one.first + ", ", common));
      }
  }
  reply(tuples);
}

void window() {
  const Map &map = maps[word()];
  Poly poly(2);
  long low, high;
  for (size_t k = 0; k < 2 && cin >> low >> high; ++k) {
    poly.add_constraint(Variable(k) >= low);
    poly.add_constraint(Variable(k) <= high);
  }
  Region bounds(poly);
  Near near;
  for (const Named *one : map.near(bounds.bounds)) near.push_back(&one->region);
  reply(left_of(bounds, near));
}

// What the regions of the second map leave of the one of the first.
vector<Region> left_of_district() {
  const Map &district = maps[word()], &zones = maps[word()];
  Near all;
  for (const Named &zone : zones.regions) all.push_back(&zone.region);
  return left_of(district.regions[0].region, all);
}

void gaps() { reply(left_of_district()); }

void covers() { cout << (left_of_district().empty() ? "yes\n" : "no\n"); }

double box_distance(const Bounds &bounds, const Point &point) {
  double most = 0;
  for (size_t k = 0; k < 2; ++k) most = std::max({most, bounds.low[k] - point.at[k], point.at[k] - bounds.high[k]});
  return most;
}

mpq_class distance(const Region &region, const Point &point) {
  Poly poly(region.poly);
  poly.add_space_dimensions_and_embed(1);
  for (size_t k = 0; k < 2; ++k) {
    poly.add_constraint(Variable(k) - point.at[k] <= Variable(2));
    poly.add_constraint(point.at[k] - Variable(k) <= Variable(2));
  }
  Coefficient over, under;
  bool attained;
  poly.minimize(Variable(2), over, under, attained);
  mpq_class least(over, under);
  least.canonicalize();
  return least;
}

// Zones in the order of the distances of their boxes, as long as one can be the nearest.
void nearest_of(const Map &zones, const Point &point, vector<string> &tuples) {
  vector<std::pair<double, const Named *>> order;
  for (const Named &zone : zones.regions) order.emplace_back(box_distance(zone.region.bounds, point), &zone);
  std::sort(order.begin(), order.end());
  mpq_class least;
  vector<string> names;
  for (const auto &next : order) {
    if (!names.empty() && next.first > least.get_d() + 1e-3) break;
    mpq_class at = distance(next.second->region, point);
    if (names.empty() || at < least) names.clear(), least = at;
    if (at == least) names.push_back(next.second->name);
  }
  for (const string &name : names) tuples.push_back("{ " + point.name + ", " + name + " }");
}

void nearest() {
  const Map &zones = maps[word()];
  vector<string> tuples;
  for (const Point &point : points) nearest_of(zones, point, tuples);
  reply(tuples);
}

// The sums of the corners span the sum of two polygons.
void sum() {
  const Poly &first = maps[word()].regions[0].region.poly, &second = maps[word()].regions[0].region.poly;
  Generator_System sums;
  for (const Generator &a : first.minimized_generators())
    for (const Generator &b : second.minimized_generators()) {
      if (!a.is_point() || !b.is_point()) continue;
      Linear_Expression at;
      for (size_t k = 0; k < 2; ++k)
        at += (a.coefficient(Variable(k)) * b.divisor() + b.coefficient(Variable(k)) * a.divisor()) * Variable(k);
      sums.insert(point(at, a.divisor() * b.divisor()));
    }
  reply({tuple("", Poly(sums))});
}

// ---- Networks of events --------------------------------------------------------------------------------------------

struct Times {
  mpq_class least, most;

  Times(const Network &network, size_t event) {
    Coefficient over, under;
    bool attained;
    network.minimize(Variable(event), over, under, attained);
    least = mpq_class(over, under);
    network.maximize(Variable(event), over, under, attained);
    most = mpq_class(over, under);
    least.canonicalize();
    most.canonicalize();
  }
};

void times() {
  for (size_t event = 1; event < networks[0].space_dimension(); ++event) {
    Times found(networks[0], event);
    std::ostringstream out;
    out << "{ " << found.least << " <= t <= " << found.most << " }";
    reply(vector<string>{out.str()});
  }
}

void box() {
  for (size_t event = 0; event < networks[0].space_dimension(); ++event) {
    Times all(networks[0], event);
    for (const Network &network : networks) {
      Times found(network, event);
      all.least = std::min(all.least, found.least);
      all.most = std::max(all.most, found.most);
    }
    cout << "e" << event << " in [" << all.least << ", " << all.most << "]\n";
  }
}

int main() {
  std::ios::sync_with_stdio(false);
  const std::map<string, void (*)()> heads{
      {"regions", read_regions}, {"points", read_points}, {"network", read_network}, {"overlay", overlay}, {"neighbours", neighbours},
      {"interior", interior},    {"borders", borders},    {"window", window},        {"gaps", gaps},       {"covers", covers},
      {"nearest", nearest},      {"sum", sum},            {"times", times},          {"box", box}};
  string head;
  while (cin >> head) heads.at(head)();
}
