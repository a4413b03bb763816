"""The picture of a run: from top to bottom its heading, the whole run where a part is shown, the passes, a lane for
each task, the bandwidth figure, maybe responses, a lane for each core, and what each sign means."""
from __future__ import annotations

from .bands import MARGIN, Band, Scene
from .coarse import CoarseLanes, RevokedLane
from .cores import CoreLanes
from .heads import Heading, Passes, WholeRun, Words
from .legend import Legend
from .paper import Paper
from .responses import response_lanes
from .tables import count
from .tasks import BandwidthLane, TaskLane


def lanes_of(scene: Scene) -> list[Band]:
    """The lanes over the passes. What is 0 in all passes shown has none: the bandwidth figure, and revocations."""
    tasks = scene.tasks
    high = 34.0 if len(tasks) <= 4 else 25.0
    lanes: list[Band] = [Words("Tasks", "cores held"), *(TaskLane(scene, it, high) for it in tasks)]
    if any(it.bandwidth for it in scene.standings(0)):
        lanes.append(BandwidthLane(scene))
    lanes += response_lanes(scene)
    if not scene.is_coarse:
        return [*lanes, CoreLanes(scene)]
    revoked = RevokedLane(scene)
    return [*lanes, *([revoked] if revoked.most else []), CoarseLanes(scene)]


def bands_of(scene: Scene) -> list[Band]:
    """The parts of the picture."""
    bands: list[Band] = [Heading(scene)]
    if scene.window.is_cut:
        bands.append(WholeRun(scene))
    lanes = lanes_of(scene)
    return [*bands, Passes(scene, sum(it.height for it in lanes)), *lanes, Legend(scene)]


def draw_run(scene: Scene) -> Paper:
    """The picture of a run."""
    title = f"{count(len(scene.run.passes), 'pass', 'passes')} over {count(scene.run.table.cores, 'core')}"
    bands = bands_of(scene)
    paper = Paper(scene.width, sum(it.height for it in bands) + MARGIN, scene.palette, title)
    top = 0.0
    for band in bands:
        band.draw(paper, top)
        top += band.height
    return paper
