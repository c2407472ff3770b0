"""A grid of cells over the world, which finds the nodes in a bounding box without a walk over all nodes."""
from collections.abc import Iterator

from .documents import Bounds

# A cell is 2^16 ten-millionths of a degree wide, which is about 700 metres.
CELL_BITS = 16

Cell = tuple[int, int]


class Grid:
    """The positions of names."""

    def __init__(self) -> None:
        self._cells: dict[Cell, dict[str, tuple[int, int]]] = {}
        self._cell_of: dict[str, Cell] = {}

    def __len__(self) -> int:
        return len(self._cell_of)

    def put(self, name: str, latitude: int, longitude: int) -> None:
        """Places a name, or moves it."""
        cell = latitude >> CELL_BITS, longitude >> CELL_BITS
        if self._cell_of.get(name, cell) != cell:
            self.remove(name)
        self._cell_of[name] = cell
        self._cells.setdefault(cell, {})[name] = latitude, longitude

    def remove(self, name: str) -> None:
        """Forgets a name, if it is placed."""
        cell = self._cell_of.pop(name, None)
        if cell is not None:
            names = self._cells[cell]
            del names[name]
            if not names:
                del self._cells[cell]

    def within(self, bounds: Bounds) -> Iterator[str]:
        """Yields the names in a bounding box, in no particular order.

        A small box costs as much as its cells, and a large box as much as all occupied cells."""
        for cell in self._cells_within(bounds):
            names = self._cells.get(cell, {})
            if is_inside(cell, bounds):
                yield from names
                continue
            for name, (latitude, longitude) in names.items():
                if bounds.holds(latitude, longitude):
                    yield name

    def has_many_within(self, bounds: Bounds, most: int) -> bool:
        """Returns whether the cells that a bounding box meets have more than `most` names."""
        count = 0
        for cell in self._cells_within(bounds):
            count += len(self._cells.get(cell, ()))
            if count > most:
                return True
        return False

    def _cells_within(self, bounds: Bounds) -> Iterator[Cell]:
        """Yields the cells that a bounding box meets. If it has more cells than are occupied, yields only the occupied
        cells."""
        south, north = bounds.south >> CELL_BITS, bounds.north >> CELL_BITS
        west, east = bounds.west >> CELL_BITS, bounds.east >> CELL_BITS
        if (north - south + 1) * (east - west + 1) > len(self._cells):
            yield from (cell for cell in self._cells if south <= cell[0] <= north and west <= cell[1] <= east)
        else:
            yield from ((row, column) for row in range(south, north + 1) for column in range(west, east + 1))


def is_inside(cell: Cell, bounds: Bounds) -> bool:
    """Returns whether a bounding box has all positions of a cell."""
    south, west = (side << CELL_BITS for side in cell)
    most = (1 << CELL_BITS) - 1
    return bounds.holds(south, west) and bounds.holds(south + most, west + most)
