"""The picture of the crates as SVG, readable on light and dark pages."""

from __future__ import annotations

from parts.crate_graph import BOX_WIDTH, Layout, Node, lay_out
from parts.xml_text import xml_text

MARGIN = 24
HEADING = 130
BOX_HEIGHT = 28
LEVEL = 62  # from one level to the next

# What a crate is about. A crate that stands in none of these is drawn plain.
GROUPS = {
    "base": ("papi_base",),
    "tables, names, presets": (
        "table_rows", "event_tables", "name_encoder", "postfix_rules", "preset_csv", "user_events",
        "component_table",
    ),
    "counters and sets": (
        "counter_alloc", "counter_unit", "multiplex", "overflow_dispatch", "event_sets",
    ),
    "meaning of calls": ("session_model", "call_laws"),
    "threads and workers": (
        "stream_reader", "thread_slots", "thread_core", "thread_session", "reply_lists",
        "thread_registry", "papi_calls",
    ),
    "scripts, texts, reports": (
        "script_lines", "script_runner", "tool_output", "soak_input", "profil_hist",
        "region_report", "tool_words",
    ),
    "program": ("papi_tools", "papi", "papi_c"),
}
TESTS = ("crate_tests", "tool_tests")  # these are not drawn
LIGHT = ("#e8eaed", "#d6e6f5", "#d9efd8", "#f6e3c5", "#e6dcf3", "#d3eeea", "#f6d7d4")
DARK = ("#3a3f47", "#1f3f5c", "#23482a", "#5a4420", "#413060", "#1d4a45", "#5e2c29")


def _style() -> str:
    light = " ".join(f".g{place} {{ fill: {colour}; }}" for place, colour in enumerate(LIGHT))
    dark = " ".join(f".g{place} {{ fill: {colour}; }}" for place, colour in enumerate(DARK))
    return f"""
  .page {{ fill: #ffffff; }} .title, .name {{ fill: #1f2328; }} .quiet {{ fill: #59636e; }} .plain {{ fill: #ffffff; }}
  .box {{ stroke: #8c959f; stroke-width: 1; }} .line {{ fill: none; stroke: #8c959f; stroke-width: 1.1; }} {light}
  text {{ font-family: ui-sans-serif, system-ui, "DejaVu Sans", sans-serif; font-size: 12px; }}
  .name {{ font-family: ui-monospace, "DejaVu Sans Mono", monospace; font-size: 11.5px; }} .title {{ font-size: 17px; font-weight: 600; }}
  @media (prefers-color-scheme: dark) {{
    .page, .plain {{ fill: #0d1117; }} .title, .name {{ fill: #e6edf3; }} .quiet {{ fill: #9198a1; }} .box, .line {{ stroke: #656d78; }} {dark}
  }}
"""


def _kind(name: str) -> str:
    return next(
        (f"g{place}" for place, names in enumerate(GROUPS.values()) if name in names), "plain"
    )


def draw_crates(listed: dict[str, list[str]]) -> str:
    cited = {name: uses for name, uses in listed.items() if name not in TESTS}
    tests = [name for name in TESTS if name in listed]
    layout = lay_out(cited)
    width = round(layout.width + 2 * MARGIN)
    height = HEADING + LEVEL * len(layout.rows) - (LEVEL - BOX_HEIGHT) + MARGIN
    lines = [
        (
            f'<svg xmlns="http://www.w3.org/2000/svg" width="{width}" height="{height}" viewBox="0 '
            f'0 {width} {height}" role="img">'
        ),
        "<title>The crates of Kistalub</title>",
        "<!-- tools/draw_crates makes this file of crates.txt. -->",
        f"<style>{_style()}</style>",
        f'<rect class="page" width="{width}" height="{height}" rx="6"/>',
        (
            f'<text class="title" x="{MARGIN}" y="{MARGIN + 12}">The crates, each above all that '
            'it stands on</text>'
        ),
        f'<text class="quiet" x="{MARGIN}" y="{MARGIN + 32}">A line goes down to a crate that is '
        'cited. '
        "It is left out if another line leads there too.</text>",
        (
            f'<text class="quiet" x="{MARGIN}" '
            f'y="{MARGIN + 50}">'
            f'{"Not drawn are the tests: " + ", ".join(tests) + "." if tests else ""}</text>'
        ),
    ]
    lines += _legend(cited, layout.width)
    lines += [_line(chain, layout) for chain in layout.chains]
    for row in layout.rows:
        lines += [_box(node, layout) for node in row if node.name]
    return "\n".join(lines + ["</svg>"]) + "\n"


def _legend(cited: dict[str, list[str]], width: float) -> list[str]:
    """The groups that are there, in two lines at most."""
    lines: list[str] = []
    left: float = MARGIN
    top = MARGIN + 62
    for place, (group, names) in enumerate(GROUPS.items()):
        if not set(names) & set(cited):
            continue
        if left + 40 + 6.4 * len(group) > width:
            left, top = MARGIN, top + 20
        lines.append(
            f'<rect class="box g{place}" x="{left:g}" y="{top}" width="12" height="12" rx="2"/>'
        )
        lines.append(
            f'<text class="quiet" x="{left + 18:g}" y="{top + 10.5}">{xml_text(group)}</text>'
        )
        left += 40 + 6.4 * len(group)
    return lines


def _top(node: Node, layout: Layout) -> float:
    return HEADING + LEVEL * (len(layout.rows) - 1 - node.level)


def _line(chain: list[Node], layout: Layout) -> str:
    x, y = MARGIN + chain[0].x, _top(chain[0], layout) + BOX_HEIGHT
    path = [f"M{x:.1f} {y:.1f}"]
    for node in chain[1:]:
        to_x, to_y = MARGIN + node.x, _top(node, layout)
        middle = (y + to_y) / 2
        path.append(f"C{x:.1f} {middle:.1f} {to_x:.1f} {middle:.1f} {to_x:.1f} {to_y:.1f}")
        x, y = to_x, to_y + BOX_HEIGHT
        if not node.name:
            path.append(f"V{y:.1f}")
    return f'<path class="line" d="{" ".join(path)}"/>'


def _box(node: Node, layout: Layout) -> str:
    x, y = MARGIN + node.x, _top(node, layout)
    return (
        f'<rect class="box {_kind(node.name)}" x="{x - BOX_WIDTH / 2:.1f}" y="{y:g}" '
        f'width="{BOX_WIDTH}" height="{BOX_HEIGHT}" rx="5"/>'
        f'<text class="name" x="{x:.1f}" y="{y + BOX_HEIGHT / 2 + 4:g}" '
        f'text-anchor="middle">{xml_text(node.name)}</text>'
    )
