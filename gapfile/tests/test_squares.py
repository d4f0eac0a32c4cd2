"""Basis 0 as whole rows, and multipliers as rows."""
import random
import unittest
from itertools import product

from gapfile.basis import monomials
from gapfile.commands import Monomial, add
from gapfile.multipliers import equality_rows, inequality_rows
from gapfile.peeling import Peeling
from gapfile.reading import Condition, Problem
from gapfile.squares import Factors, Limits, Matrix, RoundingError, TooManyRows, single


def monomial(*exponents: int) -> tuple[int, ...]:
    return exponents + (0,) * (8 - len(exponents))


class Squares(unittest.TestCase):
    def test_single(self) -> None:
        for unit in (1, 2):
            for value in (0, 1, 65535, 65536, 10 ** 9 + 7, 2 ** 40 + 12345):
                rows = single(value, Limits.of(False), unit)
                self.assertEqual(sum(w * l * l for w, l in rows), value // unit * unit)
                self.assertTrue(all(w % unit == 0 and 0 < w <= 65535 and l <= 32767 for w, l in rows))


class Peeled(unittest.TestCase):
    """Rows of basis 0: their weighted squares are the polynomial of the matrix, exactly."""

    def test_polynomials(self) -> None:
        """All monomials of two variables up to degree 2: some products are made by several pairs, some by one."""
        chance = random.Random(7)
        basis = monomials(2, 2)
        for wide in (False, True):
            for top in (10 ** 7, 10 ** 10, 10 ** 11):
                matrix = {(i, i): 2 * (top + chance.randrange(top)) for i in range(6)}
                for i in range(6):
                    for j in range(i + 1, 6):
                        matrix[i, j] = chance.randrange(-top // 12, top // 12)
                rows = Peeling(basis, [list(range(6))], matrix, Limits.of(wide), 4, 2).peel(128)
                most = 2 ** 31 if wide else 2 ** 15
                self.assertTrue(all(0 < w <= 65535 and all(0 < abs(v) < most for v in row.values()) for w, row in rows))
                self.assertEqual(polynomial(basis, rows), polynomial_of(basis, matrix))

    def test_no_room(self) -> None:
        with self.assertRaises(RoundingError):
            matrix = {(0, 0): 100, (0, 1): 200, (1, 1): 100}
            Peeling(monomials(1, 1), [[0, 1]], matrix, Limits.of(False), 4, 2).peel(128)

    def test_too_many_rows(self) -> None:
        """The limit is named, who took how much of it, and what is left."""
        with self.assertRaises(TooManyRows) as caught:
            Peeling(monomials(1, 1), [[0, 1]], {(0, 0): 100, (0, 1): 20, (1, 1): 100}, Limits.of(False), 4, 2).peel(2)
        self.assertEqual(str(caught.exception),
                         "128 rows are allowed, the conditions took 126, basis 0 needs more than 2")


def polynomial(basis: list[Monomial], rows: list[tuple[int, Factors]]) -> dict[Monomial, int]:
    """The weighted squares of rows, multiplied out."""
    out: dict[Monomial, int] = {}
    for weight, row in rows:
        for (i, a), (j, b) in product(row.items(), row.items()):
            s = add(basis[i], basis[j])
            out[s] = out.get(s, 0) + weight * a * b
    return {s: c for s, c in out.items() if c}


def polynomial_of(basis: list[Monomial], matrix: Matrix) -> dict[Monomial, int]:
    """The polynomial of a Gram matrix, given by its upper triangle."""
    out: dict[Monomial, int] = {}
    for (i, j), c in matrix.items():
        s = add(basis[i], basis[j])
        out[s] = out.get(s, 0) + (c if i == j else 2 * c)
    return {s: c for s, c in out.items() if c}


class Multipliers(unittest.TestCase):
    def test_inequality(self) -> None:
        """What the rows leave of the matrix is small."""
        base = [[3.0, 1.0, -0.5], [1.0, 2.0, 0.25], [-0.5, 0.25, 1.0]]
        gram = [[x * 1e11 for x in row] for row in base]
        for even in (False, True):
            rows = inequality_rows(gram, 100.0, Limits.of(False), even, 3)
            left = [list(row) for row in gram]
            for weight, row in rows:
                self.assertTrue(weight % 2 == 0 or not even)
                for i, a in row.items():
                    for j, b in row.items():
                        left[i][j] -= weight * a * b
            self.assertLess(max(abs(x) for row in left for x in row), 3e5)

    def test_equality(self) -> None:
        """Weights of both signs; every coefficient of the multiplier within 2."""
        problem = Problem(1, {}, [Condition(True, {monomial(1): 1})], [[], [monomial(), monomial(1)]])
        wanted = {monomial(): -3.1e11, monomial(1): 5.5e9, monomial(2): 1234.0}
        for wide in (False, True):
            rows = equality_rows(problem, 1, [[0, 1]], wanted, Limits.of(wide), 2.0)
            self.assertEqual({w > 0 for w, _ in rows}, {True, False})
            got = dict.fromkeys(wanted, 0)
            for weight, row in rows:
                for i, a in row.items():
                    for j, b in row.items():
                        got[monomial(i + j)] += weight * a * b
            for s, value in wanted.items():
                self.assertLessEqual(abs(got[s] - value), 2)


if __name__ == "__main__":
    unittest.main()
