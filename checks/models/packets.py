"""Lines with packets after them, as `search` and `mirror` read them by docs/FORMATS.md."""
import re

MOST_LINE = 4_096


class Input:
    """The bytes of an input, which are taken from its start."""

    def __init__(self, data):
        self.data = data
        self.at = 0

    def line(self):
        """The next line that isn't empty, without its end, and whether it had one. None if there is none."""
        while self.at < len(self.data):
            end = self.data.find(b"\n", self.at)
            has_end = end >= 0
            line = self.data[self.at:end if has_end else len(self.data)]
            self.at = end + 1 if has_end else len(self.data)
            if has_end and line.endswith(b"\r"):
                line = line[:-1]
            if line:
                return line, has_end
        return None

    def packet(self, size):
        """The next bytes, or None if there are fewer. Then all that is left is taken."""
        data = self.data[self.at:self.at + size]
        self.at += len(data)
        return data if len(data) == size else None


def number_in(word, digits):
    """The number that a word is, with at most so many digits, and neither a sign nor a leading zero. None if it is none."""
    return int(word) if re.fullmatch(f"[1-9][0-9]{{0,{digits - 1}}}", word) else None


def answer_lines(data, routes):
    """The reply to each line of an input. A route is a function of the text of a line, of whether the line has its end, and
    of the input after it, by the line's first word."""
    source = Input(data)
    while found := source.line():
        line, has_end = found
        yield answer_line(line, has_end, source, routes) + b"\n"


def answer_line(line, has_end, source, routes):
    if len(line) > MOST_LINE:
        return b"413 TOO_LONG"
    route = routes.get(line.partition(b" ")[0])
    if route is None:
        return b"404 NO_ROUTE"
    try:
        text = line.decode()
    except UnicodeDecodeError:
        return b"400 PATH"
    return route(text, has_end, source)
