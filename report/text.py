"""A report as text: five lines a cause."""
from report import words

PAIRS = 12


def text(report, warning):
    kernel, folder = report.kernel, report.folder
    lines = [warning] if warning else []
    lines.append(words.summary(report))
    for cause in report.causes:
        more = words.more_pairs(cause, PAIRS)
        lines.append(f"race {cause.number}: {words.title(cause, kernel)}{'; ' + more if more else ''}")
        lines += [f"  {access(it, folder, kernel)}" for it in (cause.one, cause.other)]
        lines += [f"  {words.order_words(cause, folder)}", f"  {words.advice_words(cause, kernel)}"]
    if report.left:
        lines.append(words.left_words(report, PAIRS))
    return "\n".join(lines) + "\n"


def access(record, folder, kernel):
    said = words.access_words(record, folder, kernel)
    if not kernel.is_known:
        return f"line {record.line}: {said}"
    before, marked, after = kernel.marked(record.line, record.site)
    return f"line {record.line}: {before}>>{marked}<<{after} -- {said}"
