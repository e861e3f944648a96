"""Facts that a source has, and how they differ from those of the tables."""

import re


class Source:
    """A file whose facts are compared. It keeps what differs, as sentences with file and line."""

    def __init__(self, top, path):
        self.path = path
        self.text = (top / path).read_text(encoding="utf-8")
        self.faults = []

    def line_at(self, place):
        """The line of a place in the text."""
        return self.text.count("\n", 0, place) + 1

    def say(self, line, words):
        """Notes a fault."""
        self.faults.append(f"{self.path}:{line}: {words}")

    def found(self, pattern):
        """The groups of each match, with its line. A group that was not met is the empty text."""
        return [(self.line_at(it.start()), it.groups("")) for it in re.finditer(pattern, self.text, re.MULTILINE)]

    def same(self, what, facts, wanted):
        """The facts, each with its line, are those that are wanted, in any order."""
        known = set(wanted)
        for line, fact in facts:
            if fact not in known:
                self.say(line, f"{what} {' '.join(fact)} is not in interface/")
        for fact in wanted:
            if fact not in [it for _, it in facts]:
                self.say(1, f"{what} {' '.join(fact)} of interface/ is missing")

    def same_matches(self, what, pattern, wanted):
        """The same of the groups of each match."""
        self.same(what, self.found(pattern), wanted)

    def same_order(self, what, line, facts, wanted):
        """A list, which begins in the line, is the one that is wanted."""
        if facts != wanted:
            self.say(line, f"{what} is {', '.join(facts)}, and in interface/ {', '.join(wanted)}")

    def body(self, begin, end="\n}"):
        """The text after a line up to its end, and where it begins."""
        start = self.text.find(begin)
        if start < 0:
            self.say(1, f"there is no `{begin.strip()}`")
            return "", 1
        return self.text[start + len(begin) : self.text.find(end, start + len(begin) - 1)], self.line_at(start)
