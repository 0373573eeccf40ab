"""What was found of all peers, as one page: a matrix of peers and groups, and below it what did not hold, peer by peer. What ended a
peer, or kept it from answering, is counted there, and not shown.

The picture in docs/CONFORMANCE.md is of its top, by Debian's chromium and cwebp:

    conformance/run --known all --page page.html
    chromium --headless --no-sandbox --hide-scrollbars --window-size=1430,1405 --screenshot=page.png page.html
    cwebp -near_lossless 40 page.png -o docs/pictures/conformance.webp"""

from html import escape

import vectors
from verdicts import NO_ANSWER, OUTCOMES, is_wrong, table

STYLE = """
:root { color-scheme: light dark; --ground: #f6f6f4; --panel: #fff; --ink: #1d1f23; --soft: #5c6169; --line: #dededa;
  --held: #cfe8d8; --held-ink: #114d2e; --loose: #fbe9b4; --loose-ink: #5d4300; --wrong: #f3c1bb; --wrong-ink: #7d150e; }
@media (prefers-color-scheme: dark) { :root { --ground: #15171a; --panel: #1c1f23; --ink: #e6e7e9; --soft: #a8aeb6; --line: #32373d;
  --held: #1c3d2b; --held-ink: #a4e0bd; --loose: #4a3b0e; --loose-ink: #f0d68a; --wrong: #5a2420; --wrong-ink: #ffb9b1; } }
* { box-sizing: border-box; }
body { margin: 0 auto; max-width: 100rem; padding: 2rem 1.2rem 4rem; background: var(--ground); color: var(--ink);
  font: 16px/1.5 system-ui, -apple-system, "Segoe UI", Roboto, "Liberation Sans", Arial, sans-serif; }
h1 { font-size: 1.7rem; margin: 0 0 .3rem; } h2 { font-size: 1.15rem; margin: 0; display: inline; }
p { max-width: 46rem; color: var(--soft); margin: .3rem 0 1rem; }
.scroll { overflow-x: auto; background: var(--panel); border: 1px solid var(--line); border-radius: 10px; padding: .6rem; }
table { border-collapse: separate; border-spacing: 2px; font-size: .82rem; font-variant-numeric: tabular-nums; }
th { font-weight: 500; text-align: left; white-space: nowrap; padding: .15rem .6rem .15rem .2rem; }
thead small { display: inline; }
thead th { writing-mode: vertical-rl; transform: rotate(180deg); padding: .2rem; color: var(--soft); vertical-align: top; }
thead th:first-child { writing-mode: horizontal-tb; transform: none; vertical-align: bottom; }
td { text-align: center; min-width: 2.3rem; padding: .3rem .12rem; border-radius: 5px; }
td small { display: block; font-size: .64rem; font-weight: 400; white-space: nowrap; line-height: 1.1; }
th small { display: block; font-size: .72rem; color: var(--soft); font-weight: 400; }
.held { background: var(--held); color: var(--held-ink); } .loose { background: var(--loose); color: var(--loose-ink); }
.wrong { background: var(--wrong); color: var(--wrong-ink); font-weight: 600; } .none { color: var(--soft); }
.key { max-width: none; } .key span { display: inline-block; border-radius: 5px; padding: .05rem .5rem; margin-right: .3rem; }
details { background: var(--panel); border: 1px solid var(--line); border-radius: 10px; padding: .7rem 1rem; margin: .7rem 0; }
summary { cursor: pointer; } summary span { color: var(--soft); margin-left: .6rem; }
code { font: .8rem/1.5 ui-monospace, "SF Mono", Menlo, Consolas, "DejaVu Sans Mono", monospace; overflow-wrap: anywhere; }
li { margin: .1rem 0; } h3 { font-size: .95rem; margin: .9rem 0 .2rem; }
a { color: inherit; }
"""
MOST = 60


def cell(row):
    """For a group: how many did not hold. The worst kind gives the colour, and the other stands small below it."""
    if not row:
        return '<td class="none">&ndash;</td>'
    others = {it: row[it] for it in OUTCOMES if row[it] and it != "held"}
    wrong, loose = (sum(count for it, count in others.items() if is_wrong(it) == kind) for kind in (True, False))
    colour = "wrong" if wrong else "loose" if loose else "held"
    said = ", ".join(f"{count:,} {it}" for it, count in others.items()) or "all held"
    shown = f"{wrong or loose:,}" if others else "&#10003;"
    below = f"<small>and {loose:,}</small>" if wrong and loose else ""
    return f'<td class="{colour}" title="{escape(said)}; of {sum(row.values()):,}">{shown}{below}</td>'


def matrix(results):
    groups = list(dict.fromkeys(group for it in results for group in table(it.judged)))
    tables = [table(it.judged) for it in results]
    totals = {group: max(sum(it[group].values()) for it in tables if group in it) for group in groups}
    heads = "".join(f'<th scope="col">{escape(group)} <small>{totals[group]:,}</small></th>' for group in groups)
    rows = ""
    for number, it in enumerate(results):
        found = table(it.judged)
        about = f'{escape(it.about.get("language", ""))} {escape(it.about.get("version", ""))}'
        rows += f'<tr><th scope="row"><a href="#peer-{number}">{escape(it.about["name"])}</a><small>{about}</small></th>'
        rows += "".join(cell(found.get(group)) for group in groups) + "</tr>\n"
    return f'<div class="scroll"><table><thead><tr><th scope="col">peer</th>{heads}</tr></thead><tbody>\n{rows}</tbody></table></div>'


def failures(result):
    text = ""
    for kind in reversed(OUTCOMES):
        found = [it for it in result.judged if it.outcome == kind]
        if kind in NO_ANSWER and found:
            text += f"<h3>{len(found):,} {kind}: {OUTCOMES[kind][1]}</h3>"
        elif kind != "held" and found:
            text += f"<h3>{len(found):,} {kind}: {OUTCOMES[kind][1]}</h3><ul>"
            text += "".join(f"<li><code>{escape(it.line())}</code></li>" for it in found[:MOST])
            text += f"<li>and {len(found) - MOST:,} more</li></ul>" if len(found) > MOST else "</ul>"
    return text or f"<p>{'Everything held' if result.judged else escape(result.about.get('lack', 'Not asked'))}.</p>"


def peer(number, result):
    counts = result.counts()
    commands = "<br>".join(f"<code>{escape(it)}</code>" for it in result.about.get("commands", ()))
    said = ", ".join(f"{counts[it]:,} {it}" for it in OUTCOMES if counts[it])
    about = result.about
    got = f" To have it: {escape(about['get'])}; and <code>conformance/run --known {escape(about['name'])}</code>." if "get" in about else ""
    return (
        f'<details id="peer-{number}"><summary><h2>{escape(about["name"])}</h2><span>{escape(said)}</span></summary>'
        f'<p>{escape(about.get("language", ""))} {escape(about.get("version", ""))}. It promises {escape(about["promises"])}.{got}'
        f"</p><p>{commands}</p>{failures(result)}</details>\n"
    )


def page(results, command):
    most = max((len(it.judged) for it in results), default=0)
    return f"""<!DOCTYPE html>
<html lang="en"><head><meta charset="utf-8"><meta name="viewport" content="width=device-width, initial-scale=1">
<title>DAG-CBOR conformance</title><style>{STYLE}</style></head><body>
<h1>DAG-CBOR conformance</h1>
<p>Up to {most:,} vectors a codec, each with a verdict that a sentence of a standard argues, and on which a second specification and a
proved codec agree. A cell says how many did not hold; a tick that all did. Who promises CBOR, and takes what DAG-CBOR forbids, keeps the
promise: what RFC 8949 says otherwise has a colour of its own.</p>
<p class="key"><span class="held">&#10003; all held</span><span class="loose">takes or writes what DAG-CBOR forbids</span>
<span class="wrong">not as RFC 8949 either, or no answer</span> and small, what DAG-CBOR alone forbids<span class="none">&ndash; not asked</span></p>
{matrix(results)}
<p>Beside a group stands how many vectors it has. Made by <code>{escape(command)}</code>
over the vectors <code>{vectors.digest()}</code>, with each codec in its strictest form.</p>
{"".join(peer(number, it) for number, it in enumerate(results))}</body></html>
"""
