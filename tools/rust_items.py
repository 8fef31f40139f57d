"""The items of a file .rt that crates above can see."""
import pathlib
import re
import sys

sys.path.insert(0, str(pathlib.Path(__file__).resolve().parent))
from stand_ins import CLAUSES, OPENING, TOKEN, body_of, closing

NAME = re.compile(r"[A-Za-z_]\w*$")
# What stands in front of the name of a declaration, and the words of a head that name nothing.
DECLARES = ("struct", "enum", "trait", "type", "static", "union", "mod", "macro_rules", "const", "ghost")
IN_HEADS = ("impl", "trait", "for", "pub", "where", "unsafe", "derive")
COMMENTS = ("//", "/*")
# Names of std in the head of an impl, by which nobody finds it who doesn't have one of its other names, too.
OF_STD = {"AllocError", "AllocFailed", "AllocGlobal", "Clone", "Copy", "Debug", "Default", "Display", "Drop", "Eq", "Error", "From", "Global", "Hash",
          "IntoIterator", "Iterator", "Model", "Option", "Ord", "PartialEq", "PartialOrd", "Read", "Result", "String", "TryFrom", "Vec", "Write"}


def tokens_of(text):
    return [token for token in TOKEN.finditer(text) if not token.group().startswith(COMMENTS)]


def plain_rust(text):
    """A text without comments and layout."""
    return " ".join(token.group() for token in tokens_of(text))


def leaves(text):
    """The names that an import brings in, each with its path."""
    text = re.sub(r"\s+", " ", re.sub(r"^(ghost )?use ", "", text)).strip()
    return leaves_below("", text)


def leaves_below(prefix, text):
    text = text.strip()
    braced = re.match(r"(.*?)(?:::|\.)?\{(.*)\}$", text)
    if not braced:
        *path, name = text.split(" as ") if " as " in text else (text, re.split(r"::|\.", text)[-1])
        # (one name is the same with braces around it or without)
        whole = re.sub(r"^(Rattle\.[^/ ]*)\.([^./ ]+)( as .*)?$", r"\1/\2\3", (prefix + text).replace("::", "/"))
        return [(name.strip(), whole)] if name.strip() and path is not None else []
    return [leaf for part in parts_of(braced[2]) for leaf in leaves_below(f"{prefix}{braced[1]}/", part)]


def parts_of(text):
    """What stands between the commas of a list, but for those in braces."""
    depth, part, parts = 0, "", []
    for character in text:
        depth += (character == "{") - (character == "}")
        if character == "," and depth == 0:
            parts.append(part)
            part = ""
        else:
            part += character
    return [part for part in [*parts, part] if part.strip()]


def names_in_head(head):
    """The names of an impl or a trait: those that the repository may have declared, or all if there is none."""
    names = [word for word in head if NAME.match(word) and word not in IN_HEADS]
    own = [name for name in names if name[0].isupper() and len(name) > 1 and name not in OF_STD]
    return tuple(own or names)


class Reader:
    """Reads the items of a file: each a tuple of names and a text."""

    def __init__(self, text):
        self.text, self.tokens, self.found = text, tokens_of(text), []
        self.words = [token.group() for token in self.tokens]

    def read(self):
        self.walk(0, len(self.tokens), False, "")
        return self.found

    def walk(self, at, end, is_trait, owner):
        """Reads the items between two places; functions count if they are pub, or belong to a trait."""
        start, is_pub = at, False
        while at < end:
            word = self.words[at]
            if word == "pub":
                at, is_pub = self.visibility(at)
                continue
            if word == "#":
                at = closing(self.tokens, at + 1 + (self.words[at + 1] == "!"))
                continue
            if word in ("unsafe", "const") and self.leads_to_function(at, end):
                at += 1
                continue
            if word in (";", "}"):
                at += 1
            else:
                at = self.item(start, at, end, is_pub, is_trait, owner)
            start, is_pub = at, False

    def visibility(self, at):
        """Behind `pub`, and whether other crates see what follows."""
        if self.words[at + 1 : at + 2] == ["("]:
            return closing(self.tokens, at + 1), False
        return at + 1, True

    def leads_to_function(self, at, end):
        """Whether only words such as `unsafe` stand between a place and a function, an impl or a trait."""
        while at < end and self.words[at] in ("unsafe", "const"):
            at += 1
        return at < end and self.words[at] in ("fn", "impl", "trait")

    def item(self, start, at, end, is_pub, is_trait, owner):
        """Reads the item at a place, whose attributes begin at `start`, and returns the place behind it."""
        word, after = self.words[at], self.words[at + 1] if at + 1 < end else ""
        if word == "fn" and NAME.match(after):
            return self.function(start, at, end, is_pub or is_trait, owner)
        if word in ("impl", "trait"):
            return self.block(start, at)
        if word == "mod" and self.words[at + 2 : at + 3] == ["{"]:
            stop = closing(self.tokens, at + 2)
            self.walk(at + 3, stop - 1, False, owner)
            return stop
        if word == "use" or word == "ghost" and after == "use":
            return self.imports(at, is_pub)
        return self.declaration(start, at, end, is_pub, owner)

    def function(self, start, at, end, is_seen, owner):
        place = body_of(self.tokens, at)
        if place is None:
            # its body counts
            stop = self.end_of_function(at, end)
            shown = self.words[start:stop]
        else:
            opening, stop = place
            stop = stop if opening != stop else opening + 1
            shown = self.words[start : stop if "const" in self.words[max(start, at - 3) : at] else opening]
        if is_seen:
            self.found.append(((self.words[at + 1],), f"{owner} {' '.join(shown)}"))
        return stop

    def end_of_function(self, at, end):
        in_clause = False
        while at < end:
            word = self.words[at]
            if word == ";":
                return at + 1
            in_clause = in_clause or word in CLAUSES
            if word not in OPENING:
                at += 1
                continue
            stop = closing(self.tokens, at)
            if word == "{" and not in_clause:
                return stop
            in_clause = in_clause and word != "{"
            at = stop
        return end

    def block(self, start, at):
        """An impl or a trait: its head, and what is in it."""
        opening = at
        while self.words[opening] not in ("{", ";"):
            opening = closing(self.tokens, opening) if self.words[opening] in "([" else opening + 1
        head = self.words[start:opening]
        stop = closing(self.tokens, opening) if self.words[opening] == "{" else opening + 1
        self.found.append((names_in_head(head), " ".join(head)))
        if self.words[opening] == "{":
            self.walk(opening + 1, stop - 1, self.words[at] == "trait" or "for" in head, " ".join(head))
        return stop

    def imports(self, at, is_pub):
        """What a name in a head or a clause of this file means, or what others find here."""
        stop = self.words.index(";", at)
        text = self.text[self.tokens[at].start() : self.tokens[stop].start()]
        self.found += [((leaf,), f"{'pub use' if is_pub else 'import'} {path}") for leaf, path in leaves(text)]
        return stop + 1

    def declaration(self, start, at, end, is_pub, owner):
        """A type, a constant, a ghost item or a macro, up to its end."""
        stop = at
        while stop < end and self.words[stop] not in (";", "{"):
            stop = closing(self.tokens, stop) if self.words[stop] in "([" else stop + 1
        if stop < end and self.words[stop] == "{":
            stop = closing(self.tokens, stop)
            stop += self.words[stop : stop + 1] == [";"]
        else:
            stop = min(stop + 1, end)
        shown = self.words[start:stop]
        named = [shown[i + 1] for i, word in enumerate(shown[:-1]) if word in DECLARES and NAME.match(shown[i + 1])][:1]
        if is_pub or not (shown[-1:] == [";"] and "mod" in shown):
            self.found.append((tuple(named) or tuple(word for word in shown if NAME.match(word)), f"{owner} {' '.join(shown)}"))
        return stop


def items_of_rust(text):
    return Reader(text).read()
