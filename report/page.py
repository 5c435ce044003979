"""A report as a page: one file, of at most 1 MB, that loads nothing."""
import html
import re
from report import words
from report.picture import Picture

# How many further pairs of a cause are listed, of those that no cause was asked for, and links of one line of the kernel.
PAIRS, LEFT, LINKS = 24, 400, 8

STYLE = """
:root { color-scheme: light dark }
:root { --ink: #1c1e21; --paper: #fdfdfc; --soft: #595f69; --line: #868b94; --box: #7f93b5; --race: #b42318; --mark: #fde7e4 }
@media (prefers-color-scheme: dark) {
  :root { --ink: #e6e6e3; --paper: #17181a; --soft: #9aa1ab; --line: #666b73; --box: #5b7199; --race: #ff8a7a; --mark: #4a211c }
}
* { box-sizing: border-box }
body { margin: 0 auto; max-width: 72rem; padding: 1rem; font: 1rem/1.5 system-ui, sans-serif; color: var(--ink); background: var(--paper) }
h1 { font-size: 1.4rem; margin: .2rem 0 } h2, h3 { font-size: 1.1rem; margin: 1.6rem 0 .4rem } h3 { margin-top: .4rem }
pre, code { font: .85rem/1.55 ui-monospace, monospace }
pre { overflow-x: auto; border: 1px solid var(--line); padding: .5rem; margin: .6rem 0 .2rem }
pre b { font-weight: inherit; display: inline-block; min-width: 100%; background: var(--mark); color: inherit }
pre i { font-style: normal; color: var(--soft); user-select: none }
mark { background: var(--race); color: var(--paper); padding: 0 .15em }
a { color: var(--race) } :focus-visible { outline: 3px solid var(--ink); outline-offset: 2px }
.picture { overflow-x: auto; border: 1px solid var(--line) }
section { border-left: 3px solid var(--race); padding: .1rem .8rem; margin: .8rem 0 } section:target { background: var(--mark) }
section p { margin: .3rem 0 } .soft { color: var(--soft) } .warning { border: 3px solid var(--race); padding: .6rem }
input { font: inherit; width: 100%; max-width: 24rem; padding: .3rem }
svg { display: block } svg text { font: 12px system-ui, sans-serif; fill: var(--ink) }
svg .soft { fill: var(--soft) } svg .line { fill: var(--soft); text-anchor: middle }
.task { stroke: var(--line); stroke-width: 2 } .box { fill: var(--box) } .bar { stroke: var(--ink); stroke-width: 2 } .fork { stroke: var(--line) }
.record { fill: var(--race) } svg a text { fill: var(--paper); font-weight: bold; text-anchor: middle }
"""

FILTER = """
const field = document.querySelector('input');
if (field) field.addEventListener('input', () => {
  const words = field.value.trim().split(/\\s+/).filter(Boolean);
  for (const it of document.querySelectorAll('section'))
    it.hidden = !words.every(word => it.dataset.words.split(' ').includes(word));
});
"""


def marked_up(said):
    """A sentence with its code, between backquotes, as such."""
    return re.sub(r"`([^`]*)`", r"<code>\1</code>", html.escape(said))


def whole(title, body):
    return (
        '<!doctype html>\n<html lang="en"><head><meta charset="utf-8"><meta name="viewport" content="width=device-width, initial-scale=1">'
        f"<title>{html.escape(title)}</title><style>{STYLE}</style></head><body>\n{body}\n<script>{FILTER}</script></body></html>\n"
    )


def refused(what, said):
    return f"<h1>{html.escape(what)}</h1><pre>{html.escape(said)}</pre>"


def body(report, warning, name):
    folder, kernel = report.folder, report.kernel
    of = f"The run of {name} in {folder.place}" if kernel.is_known else f"The run in {folder.place}"
    parts = [
        f"<h1>{words.summary(report)}</h1>",
        f'<p class="warning" role="alert">{marked_up(warning)}</p>' if warning else "",
        f'<p class="soft">{html.escape(of)}: {words.count(len(folder.tasks), "task")}, {words.count(folder.records, "record")}. '
        "This page shows what the program found in it, and judges no other run.</p>",
    ]
    if kernel.is_known:
        parts.append(f"<h2>The kernel</h2><pre>{source(report)}</pre>")
    parts += [
        '<h2>The run</h2><p class="soft">Time goes from left to right. A box is a stretch of accesses of one task. A stroke across a team is a '
        "barrier, with its line below it; a fork has its line above it. The barrier intervals of a team are numbered from 1. "
        "A red number marks a record of that race.</p>",
        f'<div class="picture" tabindex="0" role="region" aria-label="the run as a picture">{Picture(report).svg()}</div>',
    ]
    return "\n".join(it for it in [*parts, *races(report)] if it)


def source(report):
    """The kernel's lines, those that race marked and with links to their causes."""
    by_line = {}
    for cause in report.causes:
        for line in {line for pair in cause.pairs for line in pair}:
            by_line.setdefault(line, []).append(cause.number)
    left = {line for pair in report.left for line in pair}
    lines, kernel = [], report.kernel
    for number, line in enumerate(kernel.lines[: len(kernel.lines) - (not kernel.lines[-1])], 1):
        shown = f"<i>{number:5} </i>{html.escape(line)}"
        links = " ".join(f'<a href="#race{it}">race {it}</a>' for it in by_line.get(number, [])[:LINKS])
        links = links or (number in left) * '<a href="#left">races, too</a>'
        lines.append(f'<b id="line{number}">{shown}  {links}</b>' if links else shown)
    return "\n".join(lines)


def races(report):
    if not report.pairs:
        return []
    parts = ["<h2>The races</h2>"]
    if len(report.causes) > 3:
        parts.append('<p><label>Only races with these words, such as a line or an array: <input type="search"></label></p>')
    parts += [section(it, report.folder, report.kernel) for it in report.causes]
    if report.left:
        parts.append(f'<p class="soft" id="left">{marked_up(words.left_words(report, LEFT))}</p>')
    return parts


def section(cause, folder, kernel):
    element = kernel.element(cause.byte)
    names = {str(line) for pair in cause.pairs for line in pair} | {element, element.split("[")[0], cause.one.kind, cause.other.kind}
    more = words.more_pairs(cause, PAIRS)
    return (
        f'<section id="race{cause.number}" data-words="{html.escape(" ".join(sorted(names)))}">'
        f"<h3>{cause.number}. {marked_up(words.title(cause, kernel))}</h3>"
        f"{access(cause.one, folder, kernel)}{access(cause.other, folder, kernel)}<p>{marked_up(words.order_words(cause, folder))}</p>"
        f"<p><strong>{marked_up(words.advice_words(cause, kernel))}</strong></p>{f'<p>{more}.</p>' if more else ''}</section>"
    )


def access(record, folder, kernel):
    """One record, with its line of code, its expression marked."""
    said, code, what, where = words.access_words(record, folder, kernel), "", f"Line {record.line}", ""
    if kernel.is_known:
        before, marked, after = map(html.escape, kernel.marked(record.line, record.site))
        code = f"<pre><i>{record.line:5} </i>{before}<mark>{marked}</mark>{after}</pre>"
        what, where = f"`{kernel.expression(record.site)}`", f"{record.size} bytes at {record.address}; "
    where += f"record {record.number:,} of {record.task.name}, row {record.row}"
    return f'{code}<p>{marked_up(f"{what} {said}")} <span class="soft">({where})</span>.</p>'
