"""The report of armc-check-folder as a page: a table of all protocols that sorts by a click, with a page of armc-explain for each beside it."""
import html
import os
import re
import shutil
import subprocess
import sys
import tempfile
import urllib.parse

from .pages import document

# How long a page may take to make.
SECONDS = 120


def folder_of(report):
    """The folder of the pages beside a report: that of `checked.html` is `checked-pages`."""
    return f"{os.path.splitext(report)[0]}-pages"


def written_page(words, case, certificate):
    """Writes the page of the certificate of a case of armc-check-folder; gives it by the name of the case, where it is there."""
    page = os.path.join(folder_of(words.html), f"{os.path.relpath(case.name, words.folder)}.html")
    tool = os.path.join(os.path.dirname(os.path.dirname(os.path.abspath(__file__))), "armc-explain")
    with tempfile.TemporaryDirectory(prefix="armc-") as folder:
        # (what a template wrote is shown by the name of the case)
        shown = os.path.join(folder, re.sub("[.]armct$", ".armc", os.path.basename(case.name)))
        shutil.copyfile(case.file, shown)
        try:
            os.makedirs(os.path.dirname(page), exist_ok=True)
            call = [sys.executable, tool, "--program", words.program, "--html", page, shown, "-"]
            done = subprocess.run(call, input=certificate, capture_output=True, timeout=SECONDS).returncode == 0
        except (OSError, subprocess.TimeoutExpired):
            done = False
    return {case.name: page} if done else {}


def row_html(report, folder, pages, row):
    path, wanted, answer, seconds, shown, right = row
    size, kind, shown = re.search(r"\d+", shown) if answer != "no answer" else None, html.escape(re.sub(r"\d+", "", shown)), html.escape(shown)
    # (a name breaks behind _ and . and / alone)
    name = re.sub(r"(?<=[_./])(?=\w)", "<wbr>", html.escape(os.path.relpath(path, folder)))
    if path in pages:
        link = urllib.parse.quote(os.path.relpath(pages[path], os.path.dirname(os.path.abspath(report))))
        name, shown = (f'<a href="{html.escape(link)}">{text}</a>' for text in (name, shown))
    rank = rank_of(row)
    found = f'<span class="{html.escape(answer)}">{html.escape(answer)}</span>{("<b>, not as expected</b>", "<b>, expects nothing</b>", "")[rank]}'
    times = f'class="number" data-value="{seconds.split()[0]}"'
    cells = [f"<td>{name}</td>", f"<td>{html.escape(wanted)}</td>", f'<td data-key="{rank} {html.escape(answer)}">{found}</td>', f"<td {times}>{html.escape(seconds)}</td>"]
    return f'<tr{(" class=wrong", " class=silent", "")[rank]}>{"".join(cells)}<td data-key="{kind} {size[0] if size else "":0>12}">{shown}</td></tr>'


def rank_of(row):
    """0 where the answer is not as expected, 1 where the file expects nothing, 2 else."""
    return 2 if row[5] else int(row[1] == "(nothing)")


def report(name, folder, pages, rows):
    """The page: `rows` are those of the table of armc-check-folder, and `pages` has the pages that are there, by the paths of the protocols."""
    silent = sum(1 for row in rows if row[1] == "(nothing)")
    wrong = sum(1 for row in rows if not row[5]) - silent
    said = f"{len(rows) - wrong - silent} as expected, {wrong} not, {silent} expect nothing"
    titles = ("protocol", "expected", "found", "time", "proof or run")
    head = "".join(f'<th scope="col">{title}</th>' for title in titles)
    title = os.path.basename(os.path.abspath(folder))
    body = ["<header>", f"<h1>{html.escape(title)}</h1>", f'<p class="verdict {"bad" if wrong else "good" if not silent else ""}">{said}</p>',
            f'<p class="soft">{len(rows)} protocols, each checked by <code>armc check</code>; each proof and run is judged again by <code>armc verify</code>.</p>', "</header>",
            f'<main><div class="wide"><table class="report"><thead><tr>{head}</tr></thead><tbody>', *(row_html(name, folder, pages, row) for row in sorted(rows, key=rank_of)),
            "</tbody></table></div></main>", '<footer class="soft">Written by <code>armc-check-folder</code>.</footer>']
    return document(f"{title}: {said}", body, "report.js", kind="folder")
