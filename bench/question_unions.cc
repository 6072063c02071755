// What bench/questions asks of Dedale about maps, over the polygons of GEOS, which computes in floating point: it reads maps and questions
// as question_maps.py makes them, and replies as Dedale does, with texts of GEOS as tuples.
#include <geos_c.h>

#include <iostream>
#include <map>
#include <set>
#include <string>
#include <vector>

using std::cin;
using std::cout;
using std::string;
using std::vector;

struct Named {
  string name;
  GEOSGeometry *shape;
};
typedef vector<const GEOSGeometry *> Near;

// Polygons with names, and a tree of their boxes.
struct Map {
  vector<Named> shapes;
  GEOSSTRtree *tree = nullptr;

  vector<const Named *> near(const GEOSGeometry *shape) const {
    vector<const Named *> found;
    auto add = [](void *item, void *list) { static_cast<vector<const Named *> *>(list)->push_back(static_cast<const Named *>(item)); };
    GEOSSTRtree_query(tree, shape, add, &found);
    return found;
  }
};

std::map<string, Map> maps;

string word() {
  string text;
  cin >> text;
  return text;
}

GEOSGeometry *polygon(const vector<double> &numbers) {
  unsigned count = numbers.size() / 2;
  GEOSCoordSequence *corners = GEOSCoordSeq_create(count + 1, 2);
  for (unsigned k = 0; k <= count; ++k) GEOSCoordSeq_setXY(corners, k, numbers[k % count * 2], numbers[k % count * 2 + 1]);
  return GEOSGeom_createPolygon(GEOSGeom_createLinearRing(corners), nullptr, 0);
}

void read_shapes() {
  Map &map = maps[word()];
  size_t count, corners;
  cin >> count;
  map.shapes.resize(count);
  map.tree = GEOSSTRtree_create(10);
  for (Named &one : map.shapes) {
    cin >> one.name >> corners;
    vector<double> numbers(2 * corners);
    for (double &number : numbers) cin >> number;
    one.shape = polygon(numbers);
    GEOSSTRtree_insert(map.tree, one.shape, &one);
  }
}

string text(const GEOSGeometry *shape) {
  GEOSWKTWriter *writer = GEOSWKTWriter_create();
  char *written = GEOSWKTWriter_write(writer, shape);
  string copy(written);
  GEOSFree(written);
  GEOSWKTWriter_destroy(writer);
  return copy;
}

void reply(const vector<string> &tuples) {
  cout << "answer " << tuples.size() << "\n";
  for (const string &one : tuples) cout << "{ " << one << " }\n";
  cout << "end\n";
}

void reply(const GEOSGeometry *shape) { reply(vector<string>{text(shape)}); }

GEOSGeometry *together(const Near &shapes) {
  vector<GEOSGeometry *> copies;
  for (const GEOSGeometry *shape : shapes) copies.push_back(GEOSGeom_clone(shape));
  GEOSGeometry *all = GEOSGeom_createCollection(GEOS_GEOMETRYCOLLECTION, copies.data(), copies.size());
  GEOSGeometry *one = GEOSUnaryUnion(all);
  GEOSGeom_destroy(all);
  return one;
}

Near named(const Map &map, const string &name) {
  Near found;
  for (const Named &one : map.shapes)
    if (one.name == name) found.push_back(one.shape);
  return found;
}

Near all_of(const Map &map) {
  Near all;
  for (const Named &one : map.shapes) all.push_back(one.shape);
  return all;
}

void overlay() {
  const Map &first = maps[word()], &second = maps[word()];
  vector<string> tuples;
  for (const Named &one : first.shapes) {
    const GEOSPreparedGeometry *prepared = GEOSPrepare(one.shape);
    for (const Named *other : second.near(one.shape)) {
      if (!GEOSPreparedIntersects(prepared, other->shape)) continue;
      GEOSGeometry *common = GEOSIntersection(one.shape, other->shape);
      tuples.push_back(one.name + ", " + other->name + ", " + text(common));
      GEOSGeom_destroy(common);
    }
    GEOSPreparedGeom_destroy(prepared);
  }
  reply(tuples);
}

void neighbours() {
  const Map &map = maps[word()];
  std::set<string> names;
  for (const GEOSGeometry *shape : named(map, word()))
    for (const Named *other : map.near(shape))
      if (GEOSIntersects(shape, other->shape)) names.insert(other->name);
  reply(vector<string>(names.begin(), names.end()));
}

void interior() {
  const Map &map = maps[word()];
  reply(together(named(map, word())));
}

void borders() {
  const Map &map = maps[word()];
  std::map<string, Near> by_name;
  for (const Named &one : map.shapes) by_name[one.name].push_back(one.shape);
  vector<string> tuples;
  for (const auto &one : by_name) tuples.push_back(one.first + ", " + text(GEOSBoundary(together(one.second))));
  reply(tuples);
}

void window() {
  const Map &map = maps[word()];
  double left, right, low, high;
  cin >> left >> right >> low >> high;
  GEOSGeometry *bounds = polygon({left, low, right, low, right, high, left, high});
  Near near;
  for (const Named *one : map.near(bounds)) near.push_back(one->shape);
  reply(GEOSDifference(bounds, together(near)));
}

void gaps() {
  const Map &district = maps[word()], &zones = maps[word()];
  reply(GEOSDifference(district.shapes[0].shape, together(all_of(zones))));
}

void covers() {
  const Map &district = maps[word()], &zones = maps[word()];
  cout << (GEOSCovers(together(all_of(zones)), district.shapes[0].shape) ? "yes\n" : "no\n");
}

int main() {
  std::ios::sync_with_stdio(false);
  initGEOS(nullptr, nullptr);
  const std::map<string, void (*)()> heads{{"shapes", read_shapes}, {"overlay", overlay}, {"neighbours", neighbours},
                                           {"interior", interior},  {"borders", borders}, {"window", window},
                                           {"gaps", gaps},          {"covers", covers}};
  string head;
  while (cin >> head) heads.at(head)();
}
