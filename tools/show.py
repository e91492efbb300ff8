"""Shows a fault as compilers do: the place, the line with a mark under the word, a sentence, and what to do."""

import unicodedata

from diagnose import escaped

COLUMNS = 120


def columns_of(text):
    """How many columns of a terminal a text takes."""
    return sum(0 if unicodedata.combining(it) else 1 + (unicodedata.east_asian_width(it) in "WF") for it in text)


def cut(where):
    """A line, escaped and cut to 120 columns around its mark: what stands before the mark, over it and behind it."""
    at, end, text = where.at, where.at + where.width, where.text
    front, word, rest = map(escaped, (text[max(0, at - 121) : at], text[at:end][:121], text[end : end + 121]))
    if len(front + word + rest) > COLUMNS:
        front = front if len(front) <= 50 else "..." + front[-47:]
        word = word if len(word) <= 40 else word[:37] + "..."
        room = COLUMNS - len(front + word)
        rest = rest if len(rest) <= room else rest[: room - 3] + "..."
    return front, word, rest


def shown(head, where, sentence, helps):
    """A message with its place, the line, a mark under the word, and what to do."""
    lines = [f"{head}: {sentence}"]
    if where:
        number, record = str(where.physical or where.line), f" (record {where.line})" if where.physical else ""
        front, word, rest = cut(where)
        blank, column = " " * len(number), f":{where.at + 1}" if where.width else ""
        lines.append(f"{blank}--> {escaped(where.document[:200])}:{number}{column}{record}")
        if where.text or where.width:
            lines += [f"{blank} |", f"{number} | {front}{word}{rest}".rstrip()]
            lines += [f"{blank} | {' ' * columns_of(front)}{'^' * max(1, columns_of(word))}"] if where.width else []
    return "\n".join(lines + [f"  = help: {it}" for it in helps]) + "\n"
