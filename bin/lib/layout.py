"""Lays out a fragment anew: one field a line, tabs, values in columns. Comments stay where they are. What is right and what is
refused the program alone decides; a declaration with a comment in the middle of an expression stays as it is written."""
import re

from fragments import CLOSE, OPEN, TOKENS

BINARY = {"|", "&"}
WIDTH = 100  # characters, up to which a comment behind a line is moved into the column of its neighbours


class Odd(Exception):
    """A place where a comment can't be moved: the declaration stays as it is written."""


class Word:
    """A token, with the comments in front of it and how many line breaks there are."""

    def __init__(self, kind, text, start):
        self.kind, self.text, self.start, self.end = kind, text, start, start + len(text)
        self.breaks, self.comments, self.blank = 0, [], False

    def is_mark(self, *texts):
        return self.kind == "mark" and self.text in texts


class Comment:
    """A comment: whether it begins its line, and whether a blank line is in front of it."""

    def __init__(self, text, is_alone, blank):
        self.text, self.is_alone, self.blank = text.rstrip(), is_alone, blank


def words_of(text):
    """The tokens of a text, and an empty one at its end."""
    found, at, breaks, comments, blank, line_breaks = [], 0, 0, [], False, 0
    while at <= len(text):
        if at == len(text):
            kind, piece = "end", ""
        elif text.startswith("//", at):
            kind, piece = "comment", re.compile(r"[^\n]*").match(text, at)[0]
        elif text[at] in " \t\r\n":
            kind, piece = "space", re.compile(r"[ \t\r\n]+").match(text, at)[0]
        else:
            kind, piece = next((kind, match[0]) for kind, form in TOKENS if kind != "space" and (match := form.match(text, at)))
        if kind == "space":
            line_breaks = piece.count("\n")
            breaks += line_breaks
            blank = blank or line_breaks > 1
        elif kind == "comment":
            comments.append(Comment(piece, breaks > 0 or not found, line_breaks > 1))
            line_breaks = 0
        else:
            word = Word(kind, piece, at)
            word.breaks, word.comments, word.blank = breaks, comments, line_breaks > 1
            found.append(word)
            breaks, comments, blank, line_breaks = 0, [], False, 0
        at += max(1, len(piece)) if kind == "end" else len(piece)
    return found


class Item:
    """A declaration of a struct or an element of a list: its comments, its key and its value, each laid out."""

    def __init__(self):
        self.before, self.key, self.value, self.behind = [], "", "", ""
        # A blank line in front of all, and one between the comments and the declaration.
        self.blank = self.gap = self.comma = self.is_chain = False


def indented(text, depth):
    return "\n".join(("\t" * depth + line if line and i else line) for i, line in enumerate(text.split("\n")))


class Layout:
    """Reads the words of a fragment and writes them anew."""

    def __init__(self, text):
        self.text, self.words, self.at, self.depth, self.opening = text, words_of(text), 0, 0, ""

    def word(self, step=0):
        return self.words[min(self.at + step, len(self.words) - 1)]

    def next(self):
        word = self.word()
        self.at += 1
        return word

    def is_at_value_end(self):
        """Whether the value that is read ends here: at a comma, a closer, the end, or a line break that stands for a comma."""
        word, last = self.word(), self.words[self.at - 1]
        if word.kind == "end" or word.is_mark(",", *CLOSE):
            return True
        ends = last.kind not in ("mark", "other") or last.text in (")", "]", "}", "...", "?", "!")
        return bool(word.breaks) and ends

    def expression(self):
        """An expression on one line, or over the lines that it had behind its operators."""
        out = ""
        while not self.is_at_value_end() or not out:
            if self.word().kind == "end":
                raise Odd
            if out and self.word().comments:
                raise Odd
            is_broken = bool(self.word().breaks) and out.endswith((" |", " &"))
            word = self.next()
            if word.is_mark(*BINARY):
                out = out.rstrip() + f" {word.text}"
                continue
            piece = self.group(word) if word.is_mark(*OPEN) else word.text
            if is_broken:
                out += "\n\t" + indented(piece, 1)
            elif out.endswith((" |", " &")):
                out += f" {piece}"
            else:
                out += piece
        return out

    def group(self, opener):
        """What a bracket holds, with both brackets."""
        if opener.text == "(":
            if self.word().comments:
                raise Odd
            inside = self.expression()
            if self.word().is_mark(","):
                self.next()
            self.expect(")")
            return f"({inside})"
        return self.struct() if opener.text == "{" else self.list()

    def expect(self, text):
        word = self.next()
        if not word.is_mark(text) or word.comments:
            raise Odd

    def is_broken(self, opened):
        """Whether what was read from a word on has a line break or a comment."""
        return any(word.breaks or word.comments for word in self.words[opened:self.at])

    def struct(self):
        opened = self.at
        items, end = self.items("}", self.declaration)
        self.next()
        if not items and not end:
            return "{}"
        if not self.is_broken(opened):
            return "{" + ", ".join(f"{item.key}{' ' if item.key and item.value else ''}{item.value}" for item in items) + "}"
        return "{" + self.opening + "\n\t" + indented(laid_out(items, end), 1) + "\n}"

    def list(self):
        opened = self.at
        items, end = self.items("]", self.element)
        self.next()
        if not items and not end:
            return "[]"
        if not self.is_broken(opened):
            return "[" + ", ".join(item.value for item in items) + "]"
        for item in items:
            item.comma = True
        return "[" + self.opening + "\n\t" + indented(laid_out(items, end), 1) + "\n]"

    def items(self, closer, read):
        """The declarations or elements up to a closer, and the comments in front of it. A comment behind the opener on its
        line is left in `opening`."""
        opening, items = "", []
        self.depth += 1
        first = self.word()
        if first.comments and not first.comments[0].is_alone:
            opening = f" {first.comments.pop(0).text}"
        while not self.word().is_mark(closer) and self.word().kind != "end":
            items.append(self.item(read, not items))
        end = self.word().comments
        if items and end and not end[0].is_alone:
            items[-1].behind = end[0].text
            end = end[1:]
        self.depth -= 1
        self.opening = opening
        return items, end

    def item(self, read, is_first):
        item, word = Item(), self.word()
        item.before = word.comments
        item.blank = not is_first and (word.comments[0].blank if word.comments else word.blank)
        item.gap = bool(word.comments) and word.blank
        word.comments = []
        start, depth = self.at, self.depth
        try:
            read(item)
        except Odd:
            if depth > 1:
                raise
            self.depth = depth
            self.at, self.words = start, words_of(self.text)
            self.word().comments = []
            self.as_written(item)
        self.end_item(item)
        return item

    def end_item(self, item):
        """Passes the comma behind an item, and takes the comment behind it on its line."""
        if self.word().is_mark(","):
            if self.word().comments:
                # A comment between a value and its comma: it goes behind both.
                item.behind = self.word().comments[0].text
                self.word().comments = []
            self.next()
        word = self.word()
        if word.comments and not word.comments[0].is_alone and not item.behind:
            item.behind = word.comments.pop(0).text

    def as_written(self, item):
        """A declaration at the root with comments inside, as it is."""
        first, depth = self.word(), 0
        while self.word().kind != "end":
            word = self.word()
            if depth == 0 and self.at > 0 and word is not first and self.is_at_value_end():
                break
            depth += word.is_mark(*OPEN) - word.is_mark(*CLOSE)
            self.at += 1
        item.key, item.value = "", self.text[first.start:self.words[self.at - 1].end]

    def declaration(self, item):
        if self.word().is_mark("..."):
            item.value = self.next().text
            return
        item.key = self.label()
        chain = ""
        while self.is_label():
            if self.word().comments:
                raise Odd
            chain += self.label() + " "
        if self.word().comments:
            raise Odd
        item.value, item.is_chain = chain + self.expression(), bool(chain)

    def label(self):
        out = self.next().text
        while self.word().is_mark("?", "!"):
            if self.word().comments:
                raise Odd
            out += self.next().text
        self.expect(":")
        return f"{out}:"

    def is_label(self):
        step = 1
        while self.word(step).is_mark("?", "!"):
            step += 1
        return self.word().kind in ("name", "string") and self.word(step).is_mark(":")

    def element(self, item):
        if self.word().is_mark("..."):
            item.value = self.next().text
            if not self.is_at_value_end():
                item.value += self.expression()
            return
        item.value = self.expression()

    def file(self):
        """The whole fragment."""
        out = []
        if self.word().text == "package" and self.word(1).kind == "name" and not self.word(1).is_mark(":"):
            out += [comment.text for comment in self.word().comments]
            name = (self.next(), self.next())[1].text
            item = Item()
            self.end_item(item)
            out += [f"package {name}" + (f" {item.behind}" if item.behind else ""), ""]
            self.word().blank = False
        items, end = self.items("", self.declaration)
        text = laid_out(items, end, self.opening.strip())
        return "\n".join(out) + ("\n" if out and text else "") + text + ("\n" if text or out else "")


def stretches(items):
    """The items in stretches whose values share a column: neighbours of one line each, no blank line between them. A struct and
    a field of a field stand right behind their label."""
    stretch = []
    for item in items:
        if stretch and (item.blank or item.gap or stands_alone(item) or stands_alone(stretch[-1])):
            yield stretch
            stretch = []
        stretch.append(item)
    if stretch:
        yield stretch


def stands_alone(item):
    return "\n" in item.value or not item.key or item.is_chain or item.value.startswith("{")


def laid_out(items, end, opening=""):
    """The lines of items, each in its column, and the comments at their end."""
    lines = [opening] if opening else []
    for stretch in stretches(items):
        keys = max((len(item.key) for item in stretch), default=0) if len(stretch) > 1 else 0
        texts = [f"{item.key:<{keys}} {item.value}" if item.key else item.value for item in stretch]
        texts = [text + ("," if item.comma else "") for item, text in zip(stretch, texts)]
        column = max((len(text) for item, text in zip(stretch, texts) if item.behind and "\n" not in text), default=0)
        for item, text in zip(stretch, texts):
            lines += [""] * bool(item.blank and lines)
            for i, comment in enumerate(item.before):
                lines += [""] * bool(i and comment.blank) + [comment.text]
            lines += [""] * item.gap
            width = column if "\n" not in text and column <= WIDTH else 0
            lines.append(f"{text:<{width}} {item.behind}" if item.behind else text)
    for comment in end:
        if comment.blank and lines:
            lines.append("")
        lines.append(comment.text)
    return "\n".join(lines)


def laid_out_anew(text):
    """The text of a fragment, laid out."""
    return Layout(text).file()
