// What bench/queries asks of Dedale, over the polyhedra of the Parma Polyhedra Library: it reads the data of one problem, as
// query_scripts.py makes it, and writes the count of answers. Pairs whose bounding boxes don't meet are told apart by them.
#include "polyhedra.h"

#include <unordered_map>

// All points within a distance of the points of a road.
Poly around(const Rows &road, long distance) {
  Poly poly(4);
  restrict_to(poly, road, {2, 3});
  for (size_t k = 0; k < 2; ++k) {
    poly.add_constraint(Variable(k) - Variable(k + 2) <= distance);
    poly.add_constraint(Variable(k + 2) - Variable(k) <= distance);
  }
  poly.remove_higher_space_dimensions(2);
  return poly;
}

void near() {
  long distance;
  cin >> distance;
  vector<Region> land = regions_of(read_list(2)), strips;
  for (const Rows &road : read_list(2)) strips.emplace_back(around(road, distance));
  size_t parts = 0;
  for (const Region &region : land)
    for (const Region &strip : strips)
      if (region.bounds.meets(strip.bounds)) {
        Poly part(region.poly);
        part.intersection_assign(strip.poly);
        if (!part.is_empty()) {
          part.minimized_constraints();
          ++parts;
        }
      }
  std::cout << parts << " tuples\n";
}

void look_ups() {
  size_t count, hits = 0;
  cin >> count;
  vector<Region> zones = regions_of(read_list(2));
  for (size_t k = 0; k < count; ++k) {
    long x, y;
    cin >> x >> y;
    Generator at = point(x * Variable(0) + y * Variable(1));
    for (const Region &zone : zones)
      if (zone.bounds.has(x, y) && zone.poly.relation_with(at) == Poly_Gen_Relation::subsumes()) {
        ++hits;
        break;
      }
  }
  std::cout << hits << " yes\n";
}

void changes() {
  long wait;
  cin >> wait;
  vector<Rows> trains = read_list(2);
  vector<Bounds> boxes;
  for (const Rows &train : trains) boxes.emplace_back(poly_of(train, 2));
  size_t pairs = 0;
  for (size_t a = 0; a < trains.size(); ++a)
    for (size_t b = 0; b < trains.size(); ++b) {
      Bounds waiting = boxes[a];
      waiting.high[0] += wait;
      if (a == b || !waiting.meets(boxes[b])) continue;
      Poly change(3);
      restrict_to(change, trains[a], {0, 2});
      restrict_to(change, trains[b], {1, 2});
      change.add_constraint(Variable(0) <= Variable(1));
      change.add_constraint(Variable(1) <= Variable(0) + wait);
      if (!change.is_empty()) ++pairs;
    }
  std::cout << pairs << " tuples\n";
}

// What one region after another leaves of the pieces.
vector<Region> left_of(vector<Region> left, const vector<Region> &taken) {
  for (const Region &region : taken) {
    vector<Region> next;
    for (const Region &piece : left) {
      if (!piece.bounds.meets(region.bounds)) {
        next.push_back(piece);
        continue;
      }
      Pieces rest = linear_partition(region.poly, piece.poly).second;
      for (const auto &part : rest)
        if (!part.pointset().is_empty()) next.emplace_back(part.pointset());
    }
    left.swap(next);
  }
  return left;
}

void coverage() {
  vector<Region> district = regions_of(read_list(2)), zones = regions_of(read_list(2));
  std::cout << (left_of(district, zones).empty() ? 1 : 0) << " yes\n";
}

void outside() { std::cout << left_of({Region(Poly(2))}, regions_of(read_list(2))).size() << " tuples\n"; }

// Pairs of tuples with one text, found by it.
void one_text() {
  size_t count, pairs = 0;
  std::unordered_multimap<std::string, long> prices;
  std::string text;
  long value;
  cin >> count;
  for (size_t k = 0; k < count && cin >> text >> value; ++k) prices.emplace(text, value);
  cin >> count;
  for (size_t k = 0; k < count && cin >> text >> value; ++k) {
    auto found = prices.equal_range(text);
    for (auto price = found.first; price != found.second; ++price) {
      Poly pair(2);
      pair.add_constraint(Variable(0) == price->second);
      pair.add_constraint(Variable(1) == value);
      if (!pair.is_empty()) ++pairs;
    }
  }
  std::cout << pairs << " tuples\n";
}

// Regions come, are asked whether a road crosses them, and go; what is known of one is kept.
void kept_changes() {
  vector<Region> roads = regions_of(read_list(2));
  vector<Rows> land = read_list(2);
  vector<bool> crossed(land.size(), false);
  size_t hits = 0, at;
  std::string change;
  while (cin >> change >> at) {
    if (change == "delete") crossed[at] = false;
    else if (change == "ask") hits += crossed[at];
    else {
      Region region(poly_of(land[at], 2));
      for (const Region &road : roads)
        if (!crossed[at] && region.bounds.meets(road.bounds)) {
          Poly part(region.poly);
          part.intersection_assign(road.poly);
          crossed[at] = !part.is_empty();
        }
    }
  }
  std::cout << hits << " yes\n";
}

Pieces complement(const Pieces &pieces, size_t variables) {
  Pieces all(variables, UNIVERSE);
  all.difference_assign(pieces);
  return all;
}

Pieces some_value(Pieces pieces, size_t variable, const Poly &domain) {
  pieces.intersection_assign(Pieces(domain));
  pieces.unconstrain(Variable(variable));
  pieces.omega_reduce();
  return pieces;
}

// The variables in turn: for all values of the first one in its domain there is a value of the second one, and so on.
void game() {
  size_t depth;
  cin >> depth;
  vector<Rows> domains = read_list(depth);
  Pieces won(depth, EMPTY);
  for (const Rows &rows : read_list(depth)) won.add_disjunct(poly_of(rows, depth));
  for (size_t k = depth; k-- > 0;) {
    Poly domain = poly_of(domains[k], depth);
    if (k % 2 == 1) won = some_value(won, k, domain);
    else won = complement(some_value(complement(won, depth), k, domain), depth);
  }
  std::cout << (won.is_empty() ? 0 : 1) << " yes\n";
}

int main() {
  std::string problem;
  cin >> problem;
  if (problem == "near") near();
  else if (problem == "look_ups") look_ups();
  else if (problem == "changes") changes();
  else if (problem == "coverage") coverage();
  else if (problem == "outside") outside();
  else if (problem == "one_text") one_text();
  else if (problem == "kept_changes") kept_changes();
  else if (problem == "game") game();
  else return 2;
}
