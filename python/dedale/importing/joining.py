"""Triangles joined to convex pieces.

After S. Hertel and K. Mehlhorn, "Fast triangulation of simple polygons", FCT 1983: a side between two pieces is taken away
where the angles at both of its ends stay convex. At most four times as many pieces are left as are necessary. Long sides are
tried first, since pieces become rounder so. Each try looks at four corners, however many a piece has."""
from dedale.importing.mesh import Mesh, length
from dedale.importing.sweep import Corner, turn


def _stays_convex(mesh: Mesh, side: int) -> bool:
    """Whether the angle at the beginning of a side stays convex without the side."""
    start = mesh.start
    return turn(start[mesh.previous[side]], start[side], mesh.end(mesh.next[mesh.opposite[side]])) >= 0


def _take_away(mesh: Mesh, side: int) -> None:
    """Makes the two pieces on both sides of a side one."""
    back = mesh.opposite[side]
    for one, other in ((side, back), (back, side)):
        before, behind = mesh.previous[one], mesh.next[other]
        mesh.next[before], mesh.previous[behind] = behind, before


def _pieces(mesh: Mesh, is_left: list[bool]) -> list[list[Corner]]:
    """The pieces of the sides that are left, without corners on straight lines."""
    found = []
    for first in range(len(mesh.start)):
        piece, side = [], first
        while is_left[side]:
            is_left[side] = False
            corner = mesh.start[side]
            if turn(mesh.start[mesh.previous[side]], corner, mesh.end(side)):
                piece.append(corner)
            side = mesh.next[side]
        if piece:
            found.append(piece)
    return found


def joined(mesh: Mesh) -> list[list[Corner]]:
    """Convex pieces, counterclockwise and each corner a real one, made of the triangles of a mesh by taking away sides that
    two of them share. The mesh is used up."""
    is_left = [True] * len(mesh.start)
    shared = [side for side, back in enumerate(mesh.opposite) if side < back]
    for side in sorted(shared, key=lambda one: length(mesh.start[one], mesh.end(one)), reverse=True):
        back = mesh.opposite[side]
        if _stays_convex(mesh, side) and _stays_convex(mesh, back):
            _take_away(mesh, side)
            is_left[side] = is_left[back] = False
    return _pieces(mesh, is_left)
