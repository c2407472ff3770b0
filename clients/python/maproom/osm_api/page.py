"""The page at the bridge's root: what others did lately, and an author's last uploads, to undo and redo."""
from collections.abc import Mapping, Sequence
from html import escape

from .documents import instant
from .room_map import Entry
from .uploads import Done

MOST_ENTRIES, MOST_UPLOADS, MOST_NAMES = 20, 10, 8

STYLE = (
    "body{font:16px sans-serif;max-width:50em;margin:2em auto;padding:0 1em}" "td,th{text-align:left;padding:0 1em 0 0}"
)


def page(
    room: str,
    author: str,
    base: str,
    count: int,
    others: Sequence[Entry],
    done: Sequence[Done],
    undone: Sequence[Done],
    comments: Mapping[int, str],
    message: str = "",
) -> str:
    """Returns the page. `comments` are those of the changesets, and `message` reports what a button did."""
    url = f"<code>{escape(base)}/api</code>" if base else "the address of this page with <code>api</code> after it"
    rows = [[f"{entry.seq}", entry.author, instant(entry.time), names_text(entry)] for entry in others[-MOST_ENTRIES:]]
    uploads = [
        [f"{each.changeset}", comments.get(each.changeset, ""), f"{each.count}", instant(each.time)]
        for each in done[-MOST_UPLOADS:]
    ]
    return "\n".join(
        [
            '<!doctype html><html lang="en"><head><meta charset="utf-8">',
            f"<title>maproom: {escape(room)}</title>",
            f"<style>{STYLE}</style></head><body>",
            f"<h1>Room {escape(room)}, as {escape(author)}</h1>",
            f"<p><strong>{escape(message)}</strong></p>" if message else "",
            f"<p>The map has {count:,} elements. The server URL for your editor is {url}.",
            "To see in JOSM what changed, choose <em>Update data</em> (Ctrl+U).</p>",
            "<h2>Your last uploads</h2>",
            table(["Changeset", "Comment", "Changes", "Time"], uploads[::-1], "There is no upload to undo."),
            '<form method="post">',
            button("undo", "Undo the last upload", bool(done)),
            button("redo", "Redo what you undid", bool(undone)),
            "</form>",
            "<h2>Changes of others</h2>",
            table(["Entry", "Author", "Time", "Elements"], rows[::-1], "The others have changed nothing."),
            "</body></html>",
            "",
        ]
    )


def names_text(entry: Entry) -> str:
    """Returns the elements of an entry, the first of many."""
    names = sorted(entry.versions)
    return " ".join(names[:MOST_NAMES]) + (f" and {len(names) - MOST_NAMES} more" if len(names) > MOST_NAMES else "")


def table(heads: Sequence[str], rows: Sequence[Sequence[str]], nothing: str) -> str:
    """Returns a table, or what is said if it has no rows."""
    if not rows:
        return f"<p>{nothing}</p>"
    lines = ["".join(f"<th>{head}</th>" for head in heads)]
    lines += ["".join(f"<td>{escape(cell)}</td>" for cell in row) for row in rows]
    return f"<table>{''.join(f'<tr>{line}</tr>' for line in lines)}</table>"


def button(word: str, text: str, is_enabled: bool) -> str:
    """Returns a button that posts to a word below the page."""
    return f'<button formaction="{word}"{"" if is_enabled else " disabled"}>{text}</button>'
