"""Reads fragments loosely, for the scripts in bin/: their tokens, with forms of CUE that the store leaves out among them,
and which declaration a place stands in. What is right and what is refused the program alone decides."""
import re

# A token's kind and form; the first that fits is taken.
TOKENS = [(kind, re.compile(form, re.DOTALL)) for kind, form in [
    ("space", r"[ \t\r\n]+|//[^\n]*"),
    ("lines", r'#*""".*?(?:"""#*|\Z)|#*' + r"'''.*?(?:'''#*|\Z)"),
    ("raw", r'#+"[^\n]*?"#+|#+' + r"'[^\n]*?'#+"),
    ("bytes", r"'(?:\\.|[^'\\\n])*'?"),
    ("string", r'"(?:\\\([^\n]*?\)|\\.|[^"\\\n])*"?'),
    ("number", r"\.?[0-9](?:[eE][+-]|[\w.])*"),
    ("bottom", r"_\|_"),
    ("name", r"(?:_#|#)?(?:[^\W\d]|\$)[\w$]*"),
    ("other", r"`[^`\n]*`?"),
    ("mark", r"\.\.\.|<=|>=|!=|=~|!~|==|&&|\|\||[{}\[\]():,?!|&*+<>=./@%;-]"),
    ("other", r"."),
]]
OPEN, CLOSE = set("([{"), set(")]}")
# After these a line break ends what stands before it.
ENDS = {")", "]", "}", "...", "?", "!"}


class Token:
    """A token: its kind and text, and where it begins and ends, in characters."""

    def __init__(self, kind, text, start):
        self.kind, self.text, self.start, self.end = kind, text, start, start + len(text)

    def ends_a_line(self):
        return self.kind not in ("mark", "other") or self.text in ENDS


def tokens_of(text):
    """All tokens but white space and comments; a comma where a line break stands for one."""
    found, at = [], 0
    while at < len(text):
        kind, match = next((kind, match) for kind, form in TOKENS if (match := form.match(text, at)))
        if kind != "space":
            found.append(Token(kind, match[0], at))
        elif "\n" in match[0] and found and found[-1].ends_a_line():
            found.append(Token("mark", "", found[-1].end))
        at = match.end()
    return found


def is_comma(token):
    return token.kind == "mark" and token.text in ("", ",")


class Declaration:
    """The tokens of the innermost declaration of a struct at a place, and the token there."""

    def __init__(self, tokens, place):
        self.tokens = tokens
        self.at = next((i for i, token in enumerate(tokens) if token.end > place), len(tokens))
        stack, self.first = [], 0
        for i, token in enumerate(tokens[:self.at]):
            if token.kind == "mark" and token.text in OPEN:
                stack.append((token.text, self.first))
                if token.text == "{":
                    self.first = i + 1
            elif token.kind == "mark" and token.text in CLOSE and stack:
                self.first = stack.pop()[1]
            elif is_comma(token) and not any(bracket != "{" for bracket, _ in stack[-1:]):
                self.first = i + 1
        self.inside = stack[-1][0] if stack else ""
        self.end = self.end_of()

    def end_of(self):
        """The token that ends the declaration. A `for` has commas of its own before its braces."""
        depth, i = 0, self.first
        while i < len(self.tokens):
            token = self.tokens[i]
            if depth == 0 and token.kind == "name" and token.text == "for":
                i = self.before_braces(i)
                continue
            if token.kind == "mark" and token.text in OPEN:
                depth += 1
            elif token.kind == "mark" and token.text in CLOSE:
                if depth == 0:
                    return i
                depth -= 1
            elif depth == 0 and is_comma(token) and i >= self.at:
                return i
            i += 1
        return i

    def before_braces(self, i):
        """The first brace behind a `for`, or the line's end or the end, where there is none."""
        i += 1
        while i < len(self.tokens) and self.tokens[i].text not in ("{", ""):
            i += 1
        return i

    def value(self):
        """The index of the first token of the value, behind the last colon of the labels before the place."""
        i = self.first
        found = None
        while i < self.at and self.tokens[i].kind in ("name", "string"):
            j = i + 1
            while j < self.at and self.tokens[j].text in ("?", "!"):
                j += 1
            if j >= self.at or self.tokens[j].text != ":":
                break
            i = found = j + 1
        return found

    def token(self, step=0):
        """The token at the place, or so many further on; an empty one outside the text."""
        i = self.at + step
        return self.tokens[i] if 0 <= i < len(self.tokens) else Token("end", "", 0)
