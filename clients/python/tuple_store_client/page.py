"""A counted schema as one HTML page, which needs nothing else: an icicle, in which width is count and colour is kind."""

from __future__ import annotations

import html
from typing import Iterator, Optional

from .schemas import Node, Place, kinds_of, places, tree
from .wording import many

COLOURS = {
    "null": "#b9bec6",
    "boolean": "#f0b95b",
    "integer": "#7fb2e5",
    "text": "#8fcf9b",
    "array": "#d7a6e0",
    "object": "#e6d8b8",
}

_STYLE = """
body { font: 14px/1.4 system-ui, sans-serif; margin: 2em; color: #222; background: #fff }
h1 { font-size: 1.3em; margin: 0 0 .3em } p { margin: .2em 0 1em; max-width: 60em }
.icicle, .below { display: flex; align-items: flex-start }
.place { flex: 1 1 0; min-width: 0; container-type: inline-size }
.place.out { display: none }
.place > button { display: block; width: 100%; height: 4.6em; padding: .3em .4em; border: 1px solid #fff; border-radius: 3px;
  font: inherit; text-align: left; overflow: hidden; white-space: nowrap; text-overflow: ellipsis; cursor: pointer;
  color: #222 }
.place > button:hover, .place > button:focus-visible { outline: 2px solid #333; outline-offset: -2px }
.place b, .place span { display: block; overflow: hidden; text-overflow: ellipsis }
.place span { font-size: .85em; color: #333 }
@container (max-width: 70px) { .place > button > span { display: none } }
@container (max-width: 42px) { .place > button { writing-mode: vertical-rl; padding: .3em 0 } }
@container (max-width: 14px) { .place > button > b { display: none } }
.key { display: flex; flex-wrap: wrap; gap: .3em 1em; margin: 0 0 1em } .key i { display: inline-block; width: 1em; height: 1em;
  border-radius: 3px; vertical-align: -.15em; margin-right: .3em }
pre { overflow-x: auto; line-height: 1.25 } summary { cursor: pointer; margin-top: 1.5em }
""".strip()

_SCRIPT = """
const all = document.querySelectorAll('.place');
function show(place) {
  all.forEach(it => it.classList.remove('out'));
  for (let at = place; at.parentElement.closest('.place'); at = at.parentElement.closest('.place'))
    for (const beside of at.parentElement.children) if (beside !== at) beside.classList.add('out');
}
document.addEventListener('click', event => {
  const box = event.target.closest('.place > button');
  if (box) show(box.parentElement);
});
document.addEventListener('keydown', event => { if (event.key === 'Escape') show(all[0]); });
""".strip()


def page(schema: Optional[Node], title: str) -> str:
    """The page of a schema."""
    return "\n".join(_lines(schema, title)) + "\n"


def _lines(schema: Optional[Node], title: str) -> Iterator[str]:
    name = html.escape(title)
    yield f'<!DOCTYPE html>\n<html lang="en">\n<meta charset="utf-8">\n<title>{name}</title>\n<style>\n{_STYLE}\n</style>'
    yield f"<h1>{name}</h1>"
    if schema is None:
        yield "<p>no documents</p>\n</html>"
        return
    yield (
        f"<p>{many(schema['count'], 'document')}. A row down is a step into them: into a member, or into the items of an "
        "array. Of the places below one place, each is as wide as the count of its values. Point at a place to see its "
        "counts; click it to see it and what is below it in full width, and the topmost one to go back.</p>"
    )
    yield '<div class="key">' + "".join(_key(kind, colour) for kind, colour in COLOURS.items()) + "</div>"
    yield '<div class="icicle">'
    yield from _boxes(places(schema))
    yield "</div>"
    as_tree = html.escape("\n".join(tree(schema)))
    yield f"<details>\n<summary>The same as a tree</summary>\n<pre>{as_tree}</pre>\n</details>"
    yield f"<script>\n{_SCRIPT}\n</script>\n</html>"


def _key(kind: str, colour: str) -> str:
    return f'<span><i style="background:{colour}"></i>{kind}</span>'


def _boxes(place: Place) -> Iterator[str]:
    """A place as a box, and below it those of the places one step on."""
    title = html.escape(f"{place.path or 'documents'}\n{place.count:,} ({place.share})\n{place.kinds}", quote=True)
    counts = f"{place.count:,} · {place.share}" if place.depth else f"{place.count:,}"
    yield (
        f'<div class="place" style="flex-grow:{place.count}"><button title="{title}" style="background:{_background(place)}">'
        f"<b>{html.escape(place.label)}</b><span>{counts}</span><span>{html.escape(place.kinds)}</span></button>"
    )
    if place.below:
        yield '<div class="below">'
        for it in place.below:
            yield from _boxes(it)
        yield "</div>"
    yield "</div>"


def _background(place: Place) -> str:
    """The colour of a kind; of several kinds their colours side by side, each as wide as its count."""
    kinds = kinds_of(place.node)
    if len(kinds) == 1:
        return COLOURS[next(iter(kinds))]
    stops, begin = [], 0.0
    for kind, node in kinds.items():
        end = begin + 100 * node["count"] / place.count
        stops.append(f"{COLOURS[kind]} {begin:.2f}% {end:.2f}%")
        begin = end
    return f"linear-gradient(to right, {', '.join(stops)})"
