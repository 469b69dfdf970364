"""What each refusal of the program says in plain words, and what to write instead."""
import re

from fragments import CLOSE, OPEN, Declaration, tokens_of
from program import MAP, visible

# What each refusal says, and what to write instead.
SAID = {
    "TooLong": ("a fragment has at most 1,048,576 bytes", "divide it into several files"),
    "BadCharacter": ("a character that begins nothing", "names have letters, digits, _ and $; any other label is quoted"),
    "BadString": ("a string with an escape that isn't one, or without its closing quote on the line",
                  r'the escapes are \a \b \f \n \r \t \v \/ \\ \" \uXXXX and \UXXXXXXXX'),
    "BadNumber": ("an integer that isn't written as one", "write it without a leading zero, as 443, 1_000 or 0x1F"),
    "IntRange": ("an integer of more than 64 bits", "integers go from -9223372036854775808 to 9223372036854775807; "
                 "write a greater one as a string"),
    "TextTooLong": ("a name or a string of more than 65,535 bytes", "divide it into several fields"),
    "Syntax": ("no fragment goes on like this", "a field is `label: value`, one on a line or with commas between"),
    "Nesting": ("a 65th open bracket or chained label", "move the inner struct into a definition `#Name: {..}` at the top"),
    "LeftOut": ("a form of CUE that the store leaves out", "write the values themselves"),
    "UnknownName": ("a name that nothing declares", 'a text is written in quotes, as "localhost"; a definition is declared in '
                    "the same file, as `#Name: ..`"),
    "FieldReference": ("a name of a field, which is no value here", "repeat the value, or put it into a definition "
                       "`#Name: ..` at the top and use `#Name` in both places"),
    "Repeated": ("a definition that is declared a second time", "join both with &, in one declaration"),
    "Cycle": ("a definition that reaches itself", "a definition is finite: write out the levels that are needed"),
    "TooLarge": ("more than 65,536 expressions and fields, definitions counted at each use", "divide the file"),
    "TooDeep": ("a path of more than 64 steps", "a shallower configuration"),
    "NotScalar": ("a term of a disjunction that is no scalar", "disjunctions are of null, truth values, integers, "
                  "strings and their bounds; give each struct a field of its own"),
    "Version": ("a state of a version that this program doesn't know", "a program that is as new as the state's writer"),
    "NotState": ("bytes that begin as a state and are none", "get the state again; it may be cut off or changed"),
    "TurnsUsed": ("the end of the input isn't found in 65,536 reads", "a smaller input"),
    "NotLayers": ("bytes that begin as a map of layers and are none", "get the map again; it may be cut off or changed"),
    "ViewTooLarge": ("a view of more rows than the limit", "fewer names or narrower patterns; cuelayers has --limit ROWS"),
    "Memory": ("no memory is left", "a larger machine, CUESTORE_MEMORY, or fewer inputs at once"),
}
# The forms that the store leaves out, by the name that the parser has for each.
FORMS = {
    "HiddenLabel": ("a hidden label, which begins with _", 'quote it, as "_name"'),
    "NestedDefinition": ("a definition inside a struct", "move it to the top of the file"),
    "MarkedDefinition": ("a definition with ? or !", "a definition has no mark: `#Name: ..`"),
    "Embedding": ("a value in the place of a field", "give it a label; to add a definition to a struct write "
                  "`label: #Name & {..}`"),
    "DynamicLabel": ("a label that is computed, or a pattern of labels", "write a field for each label; a policy binds every label: cuelayers put --policy"),
    "TypedEllipsis": ("a type for the other fields of a struct", "`...` alone leaves the struct open; write the fields"),
    "Bound": ("a bound of something other than an integer, or for != a string", "`>=1 & <=9`, `!=\"x\"`"),
    "Call": ("a call", "the one function is `close({..})`; write the value itself"),
    "CloseArgument": ("close of something other than a struct in braces", "`close({..})`"),
    "Clause": ("let, for, if or import", "write the fields themselves; a value that is used often is a definition"),
}
MAP_OF_LAYERS = ("a map of layers, and no state", "cuelayers in place of cuestore, as in: cuelayers export FILE; or cuestore check FILE")
NO_NUMBER = ("a number with a fraction or an exponent", "integers alone, in a smaller unit, or a string")
LET = ("let", "a definition at the top, `#name: ..`, and `#name` where it is used")
HIDDEN = ("a hidden name", "a definition at the top, `#name: ..`, and `#name` where it is used; it isn't exported either")
HIDDEN_STRUCT = "a definition at the top with `...` in each struct inside, `#name: {.., ...}`, since it is closed without, and " \
    "`#name` where it is used; it isn't exported either"
UNKNOWN = {
    **{name: NO_NUMBER for name in ("number", "float", "float32", "float64")},
    "bytes": ("bytes", "a string, as base64 say"),
    **{name: (f"the name {name}: integers have 64 bits", "int, or uint for those from 0")
       for name in ("int128", "uint64", "uint128", "rune")},
    "byte": ("the name byte", "uint8"),
}
CHOICE = "write the allowed values, as `\"a\" | \"b\"`, `>=1 & <=9` or `!=\"x\"`"
OPERATORS = {
    "=~": ("a pattern that a string must match", CHOICE), "!~": ("a pattern that a string must not match", CHOICE),
    "==": ("a comparison", CHOICE), "&&": ("a condition", CHOICE), "||": ("a condition", CHOICE),
    "=": ("an alias", "repeat the value, or put it into a definition `#Name: ..`"),
    "@": ("an attribute", "leave it out, or write it as a comment, `// ..`"),
    "`": ("an identifier in backquotes", 'a label in double quotes, as "my-label"'),
    **{sign: ("arithmetic", "write what it comes to") for sign in "+-*/%"},
}
# A label with dashes and other signs, which stands without its quotes.
DASHED = re.compile(r"([\w$]+(?:[-./@][\w$]+)+)[?!]?:")


def form_of(found):
    """The form of CUE that is left out here, by the token and those about it."""
    here, after, before = found.token(), found.token(1), found.token(-1)
    mark = after.text in (":", "?", "!")
    starts = found.at == found.first or before.text in (":", "?", "!") and before.kind == "mark"
    if here.kind == "name" and starts and here.text.startswith("_") and mark:
        return "HiddenLabel"
    if here.kind == "name" and starts and here.text.startswith("#") and mark:
        return "NestedDefinition" if after.text == ":" else "MarkedDefinition"
    if before.text == "..." and before.kind == "mark" and found.inside != "[":
        return "TypedEllipsis"
    if before.text in ("<", "<=", ">", ">=", "!=") and before.kind == "mark":
        return "Bound"
    if before.text == "(" and found.token(-2).text == "close":
        return "CloseArgument"
    if found.at == found.first and here.text in ("let", "for", "if", "import") and here.kind == "name":
        return "Clause"
    if found.at == found.first and here.text in ("[", "("):
        return "DynamicLabel"
    if here.kind == "name" and after.text == "(" and found.at != found.first:
        return "Call"
    return "Embedding"


def pattern_of(found):
    """What is first met in practice among the CUE that is no token or no syntax here, or nothing."""
    here, before = found.token(), found.token(-1)
    first = found.tokens[found.first] if found.first < len(found.tokens) else here
    if first.text == "let" and first.kind == "name" and here.text in ("=", first.text):
        return LET
    if here.kind == "lines":
        return ("a string of several lines", r'one string, with \n for each line break')
    if here.kind in ("raw", "bytes"):
        return ("a string in another kind of quotes", r'"..", with \\ for a backslash')
    if here.kind == "string" and "\\(" in here.text:
        return ("a string that a value is put into", "write the whole string")
    if here.kind == "number" and re.search(r"[.eE]|[KMGTP]i?$", here.text) and not here.text.startswith(("0x", "0X")):
        return NO_NUMBER if not re.search(r"[KMGTP]i?$", here.text) else ("a number with a unit", "write it out")
    if here.text == "=" and found.inside == "[" and is_pattern(found):
        return ("a pattern of labels with an alias, as [Name=string]: ..", "write a field for each label; `{...}` allows all labels. A policy binds every label: cuelayers put --policy")
    if here.text == ":" and before.text == "]":
        return ("a pattern of labels, as [string]: ..", "write a field for each label; `{...}` allows all labels. A policy binds every label: cuelayers put --policy")
    if here.text == "." and before.kind in ("name", "string") or here.kind == "number" and here.text[:1] == ".":
        if found.token(1).kind == "name" and found.token(2).text == "(":
            return ("a call of a package's function", "write what it comes to")
        return ("a reference to a field of a field", "put the value into a definition `#Name: ..` and use `#Name`")
    if here.text == "[" and before.ends_a_line() and before.kind != "mark":
        return ("a reference to an element", "put the value into a definition `#Name: ..` and use `#Name`")
    if here.text in ("for", "if") and here.kind == "name":
        return ("a comprehension", "write the elements or fields themselves")
    if here.kind == "other" and here.text[:1] == "`" or here.kind == "mark" and here.text in OPERATORS:
        return OPERATORS[here.text if here.kind == "mark" else "`"]
    return None


def is_pattern(found):
    """Whether the bracket around a place is a label: a colon stands behind it."""
    depth, i = 0, found.at
    while i < len(found.tokens):
        token = found.tokens[i]
        depth += (token.text in OPEN) - (token.text in CLOSE) if token.kind == "mark" else 0
        i += 1
        if depth < 0:
            return i < len(found.tokens) and found.tokens[i].text == ":"
    return False


def assigns(found):
    """Whether an equals sign stands where a field has its colon: behind a label, and no colon follows, as an alias has one."""
    depth, label = 0, found.tokens[found.at - 1]
    for token in found.tokens[found.at:found.end]:
        depth += (token.text in OPEN) - (token.text in CLOSE) if token.kind == "mark" else 0
        if depth == 0 and token.text == ":":
            return False
    return label.kind in ("name", "string")


def is_struct(found):
    """Whether the value of the declaration here is a struct."""
    i = next((i for i in range(found.first, found.end) if found.tokens[i].text == ":"), found.end)
    return i + 1 < found.end and (found.tokens[i + 1].text == "{" or found.tokens[i + 2:i + 3] and found.tokens[i + 2].text == ":")


def declared(tokens, name):
    """The declaration of a hidden name; none, where there is none."""
    for i, token in enumerate(tokens[:-1]):
        if token.kind == "name" and token.text == name and tokens[i + 1].text == ":":
            return Declaration(tokens, token.start)
    return None


def special_of(fault):
    """The sentence and what to write instead, where the whole text or the label says more than the place."""
    found, here = fault.found, fault.found.token()
    if fault.name == "NotState" and fault.data[:len(MAP)] == MAP:
        return MAP_OF_LAYERS
    if fault.text.startswith("\ufeff") and fault.place == 0:
        return "a byte order mark", "save the file as UTF-8 without one"
    if fault.text.lstrip()[:1] in ("{", "[") and is_json(fault.text):
        return "this is JSON, and no fragment", "from-json makes a fragment of it: from-json FILE > FILE.cue"
    if here.text == "/" and found.token(1).text == "*" and found.token(1).start == here.end:
        return "a comment begins with // and ends with its line", "// at the head of each line"
    if here.text == "=" and found.at == found.first + 1 and found.inside != "[" and assigns(found):
        label = fault.text[found.tokens[found.first].start:found.token(-1).end]
        return "a field has a colon behind its label, and no equals sign", f"`{label}: ..`"
    label = DASHED.match(fault.text, found.tokens[found.first].start) if here.kind == "name" and found.at == found.first or \
        here.text == "." and found.at == found.first + 1 else None
    if label and not re.search(r"[-/@]", label[1]):
        path = label[1].replace(".", ": ")
        return "a label with dots", f'`{path}: ..` is the field at this path; a label that has dots is quoted, as "{label[1]}": ..'
    if label:
        return "a label with a character that names don't have", f'quote it, as "{label[1]}": ..'
    if fault.name == "UnknownName" and here.text.startswith("#"):
        return ("a definition that this file does not declare: a definition belongs to one file",
                f"declare `{here.text}: ..` in this file too, or write the fields into one file with it")
    if fault.name == "NotScalar" and re.search(r"\*\s*\[\s*\]", text_of(fault)):
        return ("a disjunction with a list: its terms are scalars", "the open list alone, as `[...string]`: it exports `[]` where "
                "nothing else is said")
    if fault.name == "Syntax" and found.at >= len(found.tokens) and found.inside:
        bracket, row = open_bracket(fault)
        return f"the text ends, and the `{bracket}` of line {row} is still open", f"close it, by `{closing(bracket)}`"
    if here.kind == "name" and here.text.startswith("_") and fault.name in ("LeftOut", "UnknownName") and here.text != "_":
        used = sum(token.kind == "name" and token.text == here.text for token in found.tokens)
        if fault.name == "UnknownName" or form_of(found) == "HiddenLabel" and used > 1:
            place = declared(tokens_of(fault.shown), here.text)
            return f"{HIDDEN[0]} is left out", HIDDEN_STRUCT if place and is_struct(place) else HIDDEN[1]
    return None


def text_of(fault):
    """The text of the declaration that the fault is in."""
    tokens = fault.found.tokens[fault.found.first:fault.found.end]
    return fault.text[tokens[0].start:tokens[-1].end] if tokens else ""


def open_bracket(fault):
    """The innermost bracket that is never closed, and its line."""
    stack = []
    for token in fault.found.tokens:
        if token.kind == "mark" and token.text in OPEN:
            stack.append(token)
        elif token.kind == "mark" and token.text in CLOSE and stack:
            stack.pop()
    return stack[-1].text, fault.text.count("\n", 0, stack[-1].start) + 1


def closing(bracket):
    return {"{": "}", "[": "]", "(": ")"}[bracket]


def is_json(text):
    import json
    try:
        json.loads(text)
        return True
    except ValueError:
        return False


def is_utf8(data):
    try:
        data.decode("utf-8")
        return True
    except UnicodeDecodeError:
        return False


class Fault:
    """A refusal: its number and name, the place in characters, and the text."""

    def __init__(self, number, name, place, data):
        self.number, self.name, self.data, self.byte = number, name, data, place
        self.text = data.decode("utf-8", "surrogateescape")
        self.place = len(data[:place].decode("utf-8", "surrogateescape"))
        self.found = Declaration(tokens_of(self.text), self.place)
        self.show(data)

    def show(self, data):
        """Takes the input as it is, of which a part may be left out in the text; places in both are the same, in bytes."""
        self.shown = data.decode("utf-8", "surrogateescape")
        self.shown_at = len(data[:self.byte].decode("utf-8", "surrogateescape"))

    def title(self):
        return f"LeftOut({form_of(self.found)})" if self.name == "LeftOut" else self.name

    def said(self):
        """The sentence, and what to write instead."""
        special = special_of(self) if self.number not in (1, 17) else None
        if special:
            return special
        if self.name == "LeftOut":
            first = self.found.tokens[self.found.first]
            return (f"{LET[0]} is left out", LET[1]) if first.text == "let" else FORMS[form_of(self.found)]
        if self.name == "UnknownName" and self.found.token().text in UNKNOWN:
            sentence, instead = UNKNOWN[self.found.token().text]
            return f"{sentence} is left out", instead
        if self.name in ("Syntax", "BadCharacter", "BadString", "BadNumber"):
            pattern = pattern_of(self.found)
            if pattern:
                return f"{pattern[0]} is a form of CUE that the store leaves out", pattern[1]
        if self.name == "BadCharacter" and not is_utf8(self.data):
            return "bytes that are not UTF-8", "save the file as UTF-8"
        return SAID.get(self.name, ("", ""))

    def where(self, lines_before=0):
        """The line and column, from 1."""
        if self.number in (17, 18):
            return 1, 1
        start = self.shown.rfind("\n", 0, self.shown_at) + 1
        return self.shown.count("\n", 0, self.shown_at) + 1 + lines_before, self.shown_at - start + 1

    def told(self, name, lines_before=0):
        row, column = self.where(lines_before)
        sentence, instead = self.said()
        if self.number in (17, 18):
            return f"{name}:1:1: {self.name}: {sentence}\n    instead: {instead}\n"
        line = self.shown[self.shown_at - column + 1:].split("\n", 1)[0]
        shown = line.replace("\t", " ").replace("\ufeff", " ").replace("\r", " ")[:200]
        return (f"{visible(name)}:{row}:{column}: {self.title()}: {visible(sentence)}\n"
                f"    {visible(shown)}\n    {' ' * len(visible(shown[:column - 1].ljust(column - 1)))}^\n    instead: {visible(instead)}\n")

    def as_json(self, name, lines_before=0):
        row, column = self.where(lines_before)
        sentence, instead = self.said()
        return {"file": name, "line": row, "column": column, "byte": self.byte, "number": self.number, "name": self.name,
                "form": form_of(self.found) if self.name == "LeftOut" else None, "says": sentence, "instead": instead}

    def without(self):
        """The text with the faulty declaration left out, its length kept; nothing where that is not safe."""
        if self.number in (1, 8, 13, 14, 15, 17, 18, 24) or self.text.startswith("\ufeff"):
            return None
        tokens, found = self.found.tokens, self.found
        if found.at >= len(tokens) or self.text.lstrip()[:1] in ("{", "[") and is_json(self.text):
            return None
        if self.name in ("UnknownName", "FieldReference"):
            return self.filled(found.token().start, found.token().end, "0")
        here, before = found.token(), found.token(-1)
        if found.end == found.at and found.at > found.first:  # a bracket that closes nothing
            return self.filled(here.start, here.end, "" if before.kind != "mark" else "0")
        value = found.value()
        ends = found.end - 1
        if ends < found.at or found.first > found.at:
            return None
        if value is None or value > ends:
            # A comma of its own goes with it.
            ends += found.end < len(tokens) and tokens[found.end].text == ","
            return self.filled(tokens[found.first].start, tokens[ends].end, "")
        return self.filled(tokens[value].start, tokens[ends].end, "0")

    def filled(self, start, end, word):
        """The text with a word in the place of a part. A scalar in it makes no other refusal: it fits each place."""
        kept = re.sub(r"[^\n]", " ", self.text[start:end])
        if len(word) > len(kept) or "\n" in kept[:len(word)]:
            return None
        text = self.text[:start] + word + kept[len(word):] + self.text[end:]
        # The bytes stay as many, so that places stay the same.
        cut = self.text[start:end]
        pad = len(cut.encode("utf-8", "surrogateescape")) - len(cut)
        return (text[:end] + " " * pad + text[end:]).encode("utf-8", "surrogateescape") if pad else \
            text.encode("utf-8", "surrogateescape")
