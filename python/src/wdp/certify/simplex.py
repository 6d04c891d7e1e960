"""Linear programs in equations, solved by GLPK's simplex from the basis of the solve before."""
import weakref
from collections.abc import Iterable
from ctypes import memmove

import numpy as np
import swiglpk as glpk
from scipy.sparse import coo_matrix

from wdp.certify.layout import Array

MOST_STEPS = 2**31 - 1
_MOST_MILLISECONDS = 2**31 - 1
_NO_LIMIT = 1.7e308
_TRIES = 3
# it is solved, or stopped at a limit
_ENDED = (0, glpk.GLP_EOBJUL, glpk.GLP_EITLIM, glpk.GLP_ETMLIM)


def _fill(array: glpk.intArray | glpk.doubleArray, numbers: Array) -> None:
    """Copies numbers, of the type of an array of GLPK, to its places from 1 on."""
    memmove(int(array.cast()) + numbers.itemsize, numbers.ctypes.data, numbers.nbytes)


class Simplex:
    """A linear program that is minimised, whose columns are at least 0.

    The problem is made once; later only bounds change. Variables are numbered as GLPK has them: the
    rows from 1, and the columns after them.
    """

    def __init__(self, matrix: coo_matrix, right_sides: Array, *, first_slack: int) -> None:
        """Makes the problem of a sparse matrix, with a basis of slacks alone: the columns from this
        one on, one for each row.
        """
        self.height = matrix.shape[0]
        self._problem = glpk.glp_create_prob()
        weakref.finalize(self, glpk.glp_delete_prob, self._problem)
        self._control = glpk.glp_smcp()
        self._load(matrix)
        glpk.glp_init_smcp(self._control)
        self._control.msg_lev = glpk.GLP_MSG_OFF
        self._control.meth = glpk.GLP_DUALP
        glpk.glp_std_basis(self._problem)
        self._is_new = True
        for row, number in enumerate(right_sides.tolist(), 1):
            glpk.glp_set_row_bnds(self._problem, row, glpk.GLP_FX, number, number)
            glpk.glp_set_row_stat(self._problem, row, glpk.GLP_NS)
            glpk.glp_set_col_stat(self._problem, first_slack + row, glpk.GLP_BS)

    def _load(self, entries: coo_matrix) -> None:
        """Gives GLPK the entries of the matrix."""
        glpk.glp_add_rows(self._problem, entries.shape[0])
        glpk.glp_add_cols(self._problem, entries.shape[1])
        rows = glpk.intArray(entries.nnz + 1)
        columns = glpk.intArray(entries.nnz + 1)
        numbers = glpk.doubleArray(entries.nnz + 1)
        _fill(rows, (entries.row + 1).astype(np.intc))
        _fill(columns, (entries.col + 1).astype(np.intc))
        _fill(numbers, entries.data.astype(np.double))
        glpk.glp_load_matrix(self._problem, entries.nnz, rows, columns, numbers)

    def set_cost(self, column: int, cost: float) -> None:
        """Sets the cost of a column, which are numbered from 0."""
        glpk.glp_set_obj_coef(self._problem, column + 1, cost)

    def set_upper(self, column: int, upper: float) -> None:
        """Sets the upper bound of a column, which are numbered from 0."""
        kind = glpk.GLP_DB if upper else glpk.GLP_FX
        glpk.glp_set_col_bnds(self._problem, column + 1, kind, 0.0, upper)

    def find_basis(self) -> list[int] | None:
        """The basic variables, None if the basis can't be factorized."""
        problem = self._problem
        if not glpk.glp_bf_exists(problem) and glpk.glp_factorize(problem) != 0:
            return None
        get_variable = glpk.glp_get_bhead  # (this is asked so often that looking it up counts)
        return [get_variable(problem, row) for row in range(1, self.height + 1)]

    def set_basis(self, basis: Iterable[int]) -> None:
        """Makes these variables the basic ones; if the basis before is lost, those of it stay."""
        wanted = set(basis)
        for variable in wanted.symmetric_difference(self.find_basis() or ()):
            status = glpk.GLP_BS if variable in wanted else glpk.GLP_NL
            if variable <= self.height:
                glpk.glp_set_row_stat(self._problem, variable, status)
            else:
                glpk.glp_set_col_stat(self._problem, variable - self.height, status)

    def solve(
        self, *, limit: float = _NO_LIMIT, steps: int = MOST_STEPS, seconds: float = np.inf
    ) -> float | None:
        """The least objective, None if GLPK fails.

        It may stop above `limit`, after so many steps of the dual simplex, or after some seconds.
        """
        control = self._control
        control.obj_ul = limit
        control.it_lim = steps
        # slacks alone meet the rows, but some cost too much: the primal simplex is the way from
        # them
        control.meth = glpk.GLP_PRIMAL if self._is_new else glpk.GLP_DUALP
        control.tm_lim = int(max(1, min(_MOST_MILLISECONDS, 1000 * seconds)))
        self._is_new = False
        for _ in range(_TRIES):
            if glpk.glp_simplex(self._problem, control) in _ENDED:
                return float(glpk.glp_get_obj_val(self._problem))
            glpk.glp_adv_basis(self._problem, 0)
        return None

    def read_values(self, columns: range) -> list[float]:
        """The values of columns, which are numbered from 0."""
        return [glpk.glp_get_col_prim(self._problem, column + 1) for column in columns]

    def read_duals(self, rows: range) -> list[float]:
        """The dual values of rows, which are numbered from 0."""
        return [glpk.glp_get_row_dual(self._problem, row + 1) for row in rows]
