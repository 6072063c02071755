// What bench/conjunctions asks of Dedale about one conjunction of rows, over the polyhedra of the Parma Polyhedra Library. It reads
// how many variables there are and how many of them are left, none for the box, then the rows, and writes the count of constraints
// of the shadow, or of the sides of the box that are bounded.
#include <ppl.hh>

#include <iostream>
#include <string>

using namespace Parma_Polyhedra_Library;

int main() {
  size_t variables, left, rows;
  std::cin >> variables >> left >> rows;
  NNC_Polyhedron poly(variables);
  for (size_t i = 0; i < rows; ++i) {
    Linear_Expression sum;
    long number;
    std::string sign;
    for (size_t k = 0; k < variables; ++k) {
      long coef;
      std::cin >> coef;
      sum += coef * Variable(k);
    }
    std::cin >> sign >> number;
    if (sign == "<=") poly.add_constraint(sum <= number);
    else if (sign == ">=") poly.add_constraint(sum >= number);
    else if (sign == "<") poly.add_constraint(sum < number);
    else poly.add_constraint(sum > number);
  }
  size_t count = 0;
  if (left == 0) {
    Coefficient over, under;
    bool attained;
    for (size_t k = 0; k < variables; ++k)
      count += poly.minimize(Variable(k), over, under, attained) + poly.maximize(Variable(k), over, under, attained);
  } else {
    poly.remove_higher_space_dimensions(left);
    for (const Constraint &constraint : poly.minimized_constraints()) count += constraint.space_dimension() > 0;
  }
  std::cout << count << std::endl;
}
