"""What is drawn of an anomaly: its edges, and for each transaction the operations that matter.

Long walks are one line, and of a cycle with many derived links the first ones are drawn.
"""
from dataclasses import dataclass, field
from typing import Dict, Iterable, List, Set

from tcc.judging.answers import Link, joined, place, session_of
from tcc.show.terms import Terms

MOST_STEPS = 6  # of a walk that are drawn one by one
MOST_DERIVED, MOST_COLUMNS = 6, 6  # derived links that are drawn, and columns, where there is more than one


@dataclass
class Edge:
    """A line of the picture: what it is, its ends, what is at it, and what is said of it."""

    kind: str  # session, reads, version, walk, derived, against, fault or breach
    source: str
    target: str
    label: str
    told: str
    number: int = 0


@dataclass
class Scene:
    """What of an anomaly is drawn: its edges, for each transaction the operations that matter, and its part in the anomaly."""

    edges: List[Edge] = field(default_factory=list)
    keys: Dict[str, Set[str]] = field(default_factory=dict)
    parts: Dict[str, str] = field(default_factory=dict)
    hidden: int = 0  # links of the cycle that aren't drawn

    def labels(self) -> List[str]:
        return sorted({name for one in self.edges for name in (one.source, one.target)}, key=place)

    def add(self, one: Edge, *keys: str) -> None:
        for name in (one.source, one.target):
            self.keys.setdefault(name, set()).update(keys)
        if not any((each.kind, each.source, each.target, each.label) == (one.kind, one.source, one.target, one.label)
                   for each in self.edges):
            one.number = len(self.edges) + 1
            self.edges.append(one)


def drawn(steps: Iterable[Link], scene: Scene, terms: Terms) -> None:
    """Draws a walk, as one line where it is long."""
    steps = list(steps)
    few = joined(steps)
    if len(few) > MOST_STEPS:
        scene.add(Edge("walk", steps[0].source, steps[-1].target, *terms.of_walk(steps)))
        return
    for one in few:
        told = {"session": terms.of_session, "version": terms.of_version}.get(one.kind, terms.of_read)(one)
        scene.add(Edge(one.kind, one.source, one.target, *told), *([one.key] if one.key else []))


def draw_derived(one: Link, scene: Scene, terms: Terms) -> None:
    """Draws a derived link: its walk, the read that it contradicts, and itself."""
    drawn(one.walk, scene, terms)
    scene.add(Edge("against", one.target, one.reader, *terms.of_contradicted(one)), one.key)
    scene.add(Edge("derived", one.source, one.target, *terms.of_derived(one)), one.key)


def columns_with(scene: Scene, one: Link) -> Set[str]:
    """The sessions of a scene to which a derived link is added."""
    names = {name for step in joined(one.walk)[:MOST_STEPS] for name in (step.source, step.target)}
    return {session_of(name) for name in [*scene.labels(), one.source, one.target, one.reader, *names] if name != "init"}


def scene_of(cycle: List[Link], terms: Terms) -> Scene:
    """What is drawn of an anomaly."""
    scene = Scene()
    derived = [one for one in cycle if one.kind == "derived"]
    run: List[Link] = []
    count = 0
    last = max((number for number, one in enumerate(cycle) if one.kind == "derived"), default=len(cycle) - 1)
    for one in [*cycle[last + 1:], *cycle[:last + 1]]:
        if one.kind != "derived":
            run.append(one)
            continue
        if count == MOST_DERIVED or count > 1 and len(columns_with(scene, one)) > MOST_COLUMNS:
            break
        if run:
            drawn(run, scene, terms)
        run = []
        count += 1
        draw_derived(one, scene, terms)
    if run and count == len(derived):
        drawn(run, scene, terms)
    scene.hidden = 0 if count == len(derived) else len(derived) - count
    if len(derived) == 1:
        scene.parts = terms.parts(derived[0])
    return scene
