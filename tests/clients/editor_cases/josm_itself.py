"""JOSM's own classes."""
from __future__ import annotations

from lib import josm
from lib.cases import case_if, want
from editor_cases.shared import Served, folder, has_josm


@case_if(has_josm)
def josm_has_its_story() -> None:
    """JOSM's own classes download, upload, update, meet conflicts and understand refusals."""
    with folder() as home, Served(josm.ROWS) as served:
        josm.has_its_story(f"http://127.0.0.1:{served.port}/api", home)
        want(josm.left(served.room.elements), josm.LEFT)
