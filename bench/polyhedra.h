// Polyhedra of the Parma Polyhedra Library as the benches read them: rows, conjunctions of rows, regions of the plane with bounding boxes.
#pragma once
#include <ppl.hh>

#include <iostream>
#include <string>
#include <vector>

using namespace Parma_Polyhedra_Library;
using std::cin;
using std::vector;
typedef NNC_Polyhedron Poly;
typedef Pointset_Powerset<Poly> Pieces;

struct Row {
  vector<long> coefs;
  long constant;
  std::string sign;
};
typedef vector<Row> Rows;

inline Rows read_rows(size_t variables) {
  size_t count;
  cin >> count;
  Rows rows(count);
  for (Row &row : rows) {
    row.coefs.resize(variables);
    for (long &coef : row.coefs) cin >> coef;
    cin >> row.constant >> row.sign;
  }
  return rows;
}

inline vector<Rows> read_list(size_t variables) {
  size_t count;
  cin >> count;
  vector<Rows> list(count);
  for (Rows &conjunction : list) conjunction = read_rows(variables);
  return list;
}

// The conjunction's points among those of `poly`, its k-th variable being that of number `places[k]`.
inline void restrict_to(Poly &poly, const Rows &rows, const vector<size_t> &places) {
  for (const Row &row : rows) {
    Linear_Expression sum(row.constant);
    for (size_t k = 0; k < row.coefs.size(); ++k) sum += row.coefs[k] * Variable(places[k]);
    if (row.sign == "=") poly.add_constraint(sum == 0);
    else if (row.sign == "<=") poly.add_constraint(sum <= 0);
    else poly.add_constraint(sum < 0);
  }
}

inline vector<size_t> first_places(size_t count) {
  vector<size_t> places(count);
  for (size_t k = 0; k < count; ++k) places[k] = k;
  return places;
}

inline Poly poly_of(const Rows &rows, size_t variables) {
  Poly poly(variables);
  restrict_to(poly, rows, first_places(variables));
  return poly;
}

// A bounding box in floating point, a little too large.
struct Bounds {
  vector<double> low, high;

  explicit Bounds(const Poly &poly) {
    Coefficient over, under;
    bool attained;
    for (size_t k = 0; k < poly.space_dimension(); ++k) {
      bool below = poly.minimize(Variable(k), over, under, attained);
      low.push_back(below ? over.get_d() / under.get_d() - 1e-6 : -1e300);
      bool above = poly.maximize(Variable(k), over, under, attained);
      high.push_back(above ? over.get_d() / under.get_d() + 1e-6 : 1e300);
    }
  }

  bool meets(const Bounds &other) const {
    for (size_t k = 0; k < low.size(); ++k)
      if (low[k] > other.high[k] || other.low[k] > high[k]) return false;
    return true;
  }

  bool has(double x, double y) const { return low[0] <= x && x <= high[0] && low[1] <= y && y <= high[1]; }
};

struct Region {
  Poly poly;
  Bounds bounds;
  explicit Region(const Poly &points) : poly(points), bounds(points) {}
};

inline vector<Region> regions_of(const vector<Rows> &list) {
  vector<Region> regions;
  for (const Rows &rows : list) regions.emplace_back(poly_of(rows, 2));
  return regions;
}
