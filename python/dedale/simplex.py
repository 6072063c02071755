"""Linear programs in exact arithmetic: greatest values, and the corners of projections to the plane.

The simplex method (Dantzig 1951) with the rule of Bland ("New finite pivoting rules for the simplex method", 1977), started
as by Dutertre and de Moura ("A fast linear-arithmetic solver for DPLL(T)", 2006). Numbers are of the form `a + b*d`, where d
is above 0 and smaller than any other number above 0; so a strict constraint `s < 0` is `s + d <= 0`, and a greatest value
that has some of d in it is approached, but not attained."""
from dataclasses import dataclass
from fractions import Fraction
from math import gcd
from typing import Callable, Iterable, Iterator, Mapping

Variable = str | int
"""A variable that may have any value goes by its name, one that isn't negative by a number."""

Equation = dict[Variable, int]
"""The sum of the coefficients times their variables is 0. The constant stands under ONE, and how much of d is in it under
TINY. An equation that is solved for a variable has a coefficient below 0 of it."""

Value = tuple[Fraction, Fraction]
"""A number a + b*d, as a and b."""

# no column has such a name
ONE, TINY, GOAL = "1", "+0", "?"


@dataclass(frozen=True)
class Demand:
    """The sum of the coefficients times their variables, the constant, and d times `tiny` is at most 0, or is 0 where
    `is_equal`."""

    coefficients: Mapping[str, int]
    constant: int
    tiny: int = 0
    is_equal: bool = False


class LinearProgram:
    """The points that meet all demands. At the point at hand the variables for which no equation is solved are 0."""

    def __init__(self, demands: Iterable[Demand]) -> None:
        self._solved: dict[str, Equation] = {}
        self._basic: dict[int, Equation] = {}
        for number, demand in enumerate(demands):
            self._add(number, demand)
        self.is_feasible = self._reach_feasible_point()

    def maximum(self, coefficients: Mapping[str, int]) -> Value | None:
        """The least upper bound of the sum of the coefficients times their variables, or none where there is none.
        The program has to be feasible."""
        goal = self._reduced({GOAL: -1, **coefficients})
        if _free_variable(goal, besides=GOAL) is not None:
            return None
        self._solved[GOAL] = goal
        is_bounded = self._raise(lambda variable: self._solved[GOAL].get(variable, 0))
        goal = self._solved.pop(GOAL)
        return _value(goal, GOAL) if is_bounded else None

    def outline(self, x: str, y: str) -> list[tuple[Value, Value]]:
        """The corners of the projection to two variables, counterclockwise, each once. The program has to be feasible, and
        both variables bounded by it.

        The direction in which the point is farthest turns once round, and the point goes along (Gass and Saaty, "The
        computational algorithm for the parametric objective function", 1955)."""
        directions = [(1, 0), (0, 1), (-1, 0), (0, -1)]
        self._raise(lambda variable: self._rate(variable, x, y, directions[0]))
        found: dict[tuple[Value, Value], None] = {}
        for start, end in zip(directions, directions[1:] + directions[:1]):
            for point in self._quarter(x, y, start, end):
                found[point] = None
        return list(found)

    def _quarter(self, x: str, y: str, start: tuple[int, int], end: tuple[int, int]) -> Iterator[tuple[Value, Value]]:
        """The corners that are farthest in directions from one to the other, a quarter of a turn. The point at hand is farthest
        in the first one, and then in the second one."""
        now = start

        def rate(variable: int) -> int:
            # what is farthest in the direction at hand stays so
            return 0 if self._rate(variable, x, y, now) else self._rate(variable, x, y, end)

        while True:
            self._raise(rate)
            yield _value(self._solved[x], x), _value(self._solved[y], y)
            turns = [
                (Fraction(-self._rate(variable, x, y, start), gain), -self._rate(variable, x, y, start), gain)
                for variable in self._candidates()
                if (gain := self._rate(variable, x, y, end)) > 0
            ]
            if not turns:
                return
            _, of_end, of_start = min(turns)
            now = start[0] * of_start + end[0] * of_end, start[1] * of_start + end[1] * of_end

    def _rate(self, variable: int, x: str, y: str, direction: tuple[int, int]) -> int:
        """How fast the point goes in the direction where the variable grows, times a number above 0 that is the same for all."""
        of_x, of_y = self._solved[x], self._solved[y]
        return -direction[0] * of_x.get(variable, 0) * of_y[y] - direction[1] * of_y.get(variable, 0) * of_x[x]

    def _add(self, number: int, demand: Demand) -> None:
        """Takes one more demand, for which the variable of the number says how far it is from being an equation."""
        total = self._reduced({**demand.coefficients, ONE: demand.constant, TINY: demand.tiny})
        free = _free_variable(total)
        if free is not None:
            equation = _solved_for(total if demand.is_equal else {**total, number: 1}, free)
            self._replace(free, equation)
            self._solved[free] = equation
            return
        self._basic[number] = _negative({**total, number: 1})
        if demand.is_equal:
            self._basic[-number - 1] = {**total, -number - 1: -1}

    def _reach_feasible_point(self) -> bool:
        """Pivots until no variable with a number is below 0, and returns whether that is possible."""
        while True:
            leaving = min((one for one, equation in self._basic.items() if _constant(equation) < (0, 0)), default=None)
            if leaving is None:
                return True
            raising = (one for one, times in self._basic[leaving].items() if isinstance(one, int) and times > 0)
            entering = min(raising, default=None)
            if entering is None:
                return False
            self._pivot(leaving, entering)

    def _raise(self, rate: Callable[[int], int]) -> bool:
        """Pivots until there is no variable with a rate above 0, and returns whether that is possible."""
        while True:
            entering = min((one for one in self._candidates() if rate(one) > 0), default=None)
            if entering is None:
                return True
            leaving = self._tightest(entering)
            if leaving is None:
                return False
            self._pivot(leaving, entering)

    def _candidates(self) -> set[int]:
        """The variables that are 0 at the point at hand, and on which a solved variable with a name depends."""
        return {one for equation in self._solved.values() for one in equation if isinstance(one, int)}

    def _tightest(self, entering: int) -> int | None:
        """The first variable to reach 0 where another one grows, or none."""
        ratios = []
        for one, equation in self._basic.items():
            times = equation.get(entering, 0)
            if times < 0:
                number, tiny = _constant(equation)
                ratios.append((Fraction(number, -times), Fraction(tiny, -times), one))
        return min(ratios)[2] if ratios else None

    def _pivot(self, leaving: int, entering: int) -> None:
        """Has an equation that is solved for one variable be solved for another one."""
        equation = _solved_for(self._basic.pop(leaving), entering)
        self._replace(entering, equation)
        self._basic[entering] = equation

    def _replace(self, variable: Variable, by: Equation) -> None:
        """Removes the variable, for which an equation is solved, from all other ones."""
        self._solved = {name: _without(equation, variable, by) for name, equation in self._solved.items()}
        self._basic = {name: _without(equation, variable, by) for name, equation in self._basic.items()}

    def _reduced(self, coefficients: Mapping[str, int]) -> Equation:
        """The sum without the solved variables, times a number above 0."""
        total: Equation = {name: times for name, times in coefficients.items() if times}
        for name in coefficients:
            if name in self._solved:
                total = _without(total, name, self._solved[name])
        return total


def _free_variable(equation: Equation, besides: str = ONE) -> str | None:
    """A variable of the equation that may have any value."""
    return next((one for one in equation if isinstance(one, str) and one not in (ONE, TINY, besides)), None)


def _constant(equation: Equation) -> tuple[int, int]:
    """The constant of an equation, and how much of d is in it."""
    return equation.get(ONE, 0), equation.get(TINY, 0)


def _value(equation: Equation, variable: Variable) -> Value:
    """The value of the variable for which the equation is solved, at the point at hand."""
    number, tiny = _constant(equation)
    return Fraction(number, -equation[variable]), Fraction(tiny, -equation[variable])


def _negative(equation: Equation) -> Equation:
    return {one: -times for one, times in equation.items()}


def _solved_for(equation: Equation, variable: Variable) -> Equation:
    """The equation, with a coefficient below 0 of one of its variables."""
    return equation if equation[variable] < 0 else _negative(equation)


def _without(equation: Equation, variable: Variable, by: Equation) -> Equation:
    """The equation times a number above 0, and a multiple of one that is solved for the variable, so that it cancels."""
    times = equation.get(variable)
    if not times:
        return equation
    keep = -by[variable]
    result = {one: keep * number for one, number in equation.items()}
    for one, number in by.items():
        result[one] = result.get(one, 0) + times * number
    divisor = gcd(*result.values())
    return {one: number // divisor for one, number in result.items() if number}
