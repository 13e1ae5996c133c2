#!/usr/bin/env python3
"""Runs random stylesheets, documents and scripts on the program, and compares what it writes with what a model of the editor says.

The model here is written from the rules of the editor alone and shares nothing with the program. The merge gate runs 200 seeds.
Usage: random_scripts.py [--program PATH] [--commands show,at,type] [--count N] [--seed SEED]; without a program it is built by
tests/build.sh. A command whose word is not among those named is expected to be refused as not built. The first difference is made
smaller, printed with its seed, and ends the run with status 1."""
import argparse, collections, pathlib, random, re, subprocess, sys

LONGEST_INPUT, DEEPEST = 16384, 120
REFUSED = (b"input refused 1 NotBuilt\n", 3)
NAME = re.compile(r"(?:([A-Za-z_][A-Za-z0-9_.-]*):)?([A-Za-z_][A-Za-z0-9_.-]*)")
PLAIN = re.compile(rb"[ -~]*")
TEXT = re.compile(r"(?:[^\\]|\\[\\nt])*")
AT = re.compile(rb"at ([0-9]{1,9}) ([0-9]{1,9}) ([0-9]{1,9})")
ALPHABET = "".join(chr(c) for c in range(32, 127)) + "\\\t\n"
MEANT = {"\\\\": "\\", "\\n": "\n", "\\t": "\t"}
XML = "http://www.w3.org/XML/1998/namespace"
XSL = "http://www.w3.org/1999/XSL/Transform"
FO = "http://www.w3.org/1999/XSL/Format"
STYLE = re.compile(rb"!style ([!-~]+)")
LINE_HEIGHT = 14400


def meant(text):
    """The characters that a text means, or None where an escape is wrong."""
    return re.sub(r"\\.", lambda found: MEANT[found[0]], text) if TEXT.fullmatch(text) else None


def escaped(text):
    return text.replace("\\", "\\\\").replace("\n", "\\n").replace("\t", "\\t")


# ---- The model. A place is a text and an offset, or an element without children and None.

class Node:
    """A node by its kind, "element", "text" or "comment"; the text is an element's name, or the characters of the others."""
    def __init__(self, number, kind, text):
        self.number, self.kind, self.text, self.children, self.attributes = number, kind, text, [], []
        self.expanded = None  # an element's URI and local name


def parted(line):
    """The name and the value of an attribute's line, both as they are written, or None where the space is missing."""
    name, space, value = line[1:].partition(" ")
    return (name, value) if space else None


def declared_prefix(name):
    """The prefix that an attribute of this name declares, or None where it declares none."""
    return "" if name == "xmlns" else name.partition(":")[2] if name.startswith("xmlns:") else None


def spaces_of(lines):
    """What the outermost element declares: the URI of each prefix, of two the first."""
    spaces, begun = {}, False
    for line in lines:
        if begun and line[:1] != "A":
            break
        if begun:
            name, _, value = line[1:].partition(" ")
            if declared_prefix(name) is not None:
                spaces.setdefault(declared_prefix(name), value)
        begun = begun or line[:1] == "("
    return spaces


class Refused(Exception):
    pass


def need(holds):
    if not holds:
        raise Refused


class Document:
    """A document that is read line by line: its outermost nodes, how many nodes there are, and what it declares, in order."""
    def __init__(self, lines):
        self.top, self.count, self.declared, self.open, self.has_element, self.spaces = [], 0, [], [], False, spaces_of(lines)
        before = ""
        for line in lines:
            need(line[:1] in ("(", "A", "-", "C", ")") and line)
            {"(": self.begin, "A": lambda rest: self.attribute(line, before), "-": self.text, "C": self.comment, ")": self.end}[line[0]](line[1:])
            before = line
        need(self.has_element and not self.open)

    def put(self, kind, text):
        self.count += 1
        node = Node(self.count, kind, text)
        (self.open[-1].children if self.open else self.top).append(node)
        return node

    def uri(self, prefix):
        return "" if prefix is None else XML if prefix == "xml" else self.spaces.get(prefix)

    def begin(self, name):
        found = NAME.fullmatch(name)
        need(found and len(self.open) < DEEPEST and (self.open or not self.has_element) and self.uri(found[1]) is not None)
        self.has_element = True
        self.open.append(self.put("element", name))
        self.open[-1].expanded = (self.spaces.get("", "") if found[1] is None else self.uri(found[1]), found[2])

    def attribute(self, line, before):
        need(parted(line) and before[:1] in ("(", "A"))
        name, value = parted(line)
        found, said, prefix = NAME.fullmatch(name), meant(value), declared_prefix(name)
        need(found and said is not None)
        if prefix is not None:
            need(len(self.open) == 1 and prefix not in [other for other, _ in self.declared] and (said or not prefix))
            self.declared.append((prefix, said))
        else:
            need(self.uri(found[1]) is not None)
            element = self.open[-1]
            expanded = (self.uri(found[1]), found[2])
            need(expanded not in [other for _, _, other in element.attributes])
            element.attributes.append((name, said, expanded))

    def text(self, text):
        said = meant(text)
        need(self.open and said is not None)
        siblings = self.open[-1].children
        if said and siblings and siblings[-1].kind == "text":
            siblings[-1].text += said
        elif said:
            self.put("text", said)

    def comment(self, text):
        need(meant(text) is not None)
        self.put("comment", meant(text))

    def end(self, name):
        need(self.open and self.open.pop().text == name)


# ---- Stylesheets: a rule is a pattern, "/" or an expanded name, and the steps of its body.

def is_blank(text):
    return not text.strip(" \t\r\n")


def named(node, local):
    return node.kind == "element" and node.expanded == (XSL, local)


def said(nodes):
    """The nodes but comments and texts of white space."""
    return [node for node in nodes if node.kind == "element" or node.kind == "text" and not is_blank(node.text)]


def pattern_of(match, document):
    """What a rule is for, where the pattern is one of the built form."""
    found = NAME.fullmatch(match)
    need(match == "/" or found and document.uri(found[1]) is not None)
    return match if match == "/" else (document.uri(found[1]), found[2])


def keeps(kept, attributes):
    """Whether white space is kept in an element with these attributes."""
    for _, value, name in attributes:
        if name == (XML, "space") and value in ("preserve", "default"):
            return value == "preserve"
    return kept


def body_of(nodes, kept):
    """The steps of a body, of the built form."""
    for node in nodes:
        if node.kind == "text" and (kept or not is_blank(node.text)):
            yield "text", node.text
        elif named(node, "text"):
            need(not node.attributes and all(child.kind != "element" for child in node.children))
            yield from (("text", child.text) for child in node.children if child.kind == "text")
        elif named(node, "apply-templates"):
            need(not node.attributes and not said(node.children))
            yield "apply", None
        elif node.kind == "element":
            need(node.expanded[0] != XSL and all(name[0] != XSL and not set("{}") & set(value) for _, value, name in node.attributes))
            yield "begin", node.expanded
            yield from (("attribute", value) for _, value, _ in node.attributes)
            yield from body_of(node.children, keeps(kept, node.attributes))
            yield "end", None


def rules_of(document):
    """The rules of a stylesheet that was read, in their order."""
    sheet, = (node for node in document.top if node.kind == "element")
    need(named(sheet, "stylesheet") or named(sheet, "transform"))
    need([name for _, _, name in sheet.attributes] == [("", "version")])
    templates = said(sheet.children)
    need(all(named(template, "template") and [name for _, _, name in template.attributes] == [("", "match")] for template in templates))
    return [(pattern_of(template.attributes[0][1], document), list(body_of(template.children, False))) for template in templates]


# ---- Inputs.

def read_lines(lines):
    need(all(PLAIN.fullmatch(line) for line in lines))
    return Document([line.decode() for line in lines])


def parse_input(data):
    """The rules, the document and the lines of the script, or None where the input is refused."""
    lines = data.split(b"\n")
    if lines[-1] == b"":
        lines.pop()
    try:
        need(len(data) <= LONGEST_INPUT and b"!script" in lines and b"!document" in lines[:lines.index(b"!script")])
        script, document, rules = lines.index(b"!script"), lines.index(b"!document"), []
        if document:
            need(STYLE.fullmatch(lines[0]))
            rules = rules_of(read_lines(lines[1:document]))
        return rules, read_lines(lines[document + 1:script]), lines[script + 1:]
    except Refused:
        return None


def printed(text):
    return text.replace("\t", " ").replace("\n", " ")


class Editor:
    def __init__(self, rules, document, words):
        self.rules, self.document, self.words = rules, document, words
        self.stops = None  # of the last view, in order: page, line, column, its place or None, and its number among those of the place
        self.changes = []  # since the last show: (text, offset, length), or (element, new text) for a first child
        self.caret = self.occurrence = None

    def answer(self, line):
        word, _, rest = line.decode("latin-1").partition(" ")
        if word not in self.words:
            return "refused not-built"
        if line in (b"show", b"where", b"source"):
            return {"show": self.show, "where": self.where, "source": self.source}[word]()
        if AT.fullmatch(line):
            return self.at(*map(int, AT.fullmatch(line).groups()))
        if word == "type" and rest and PLAIN.fullmatch(line) and meant(rest) is not None:
            return self.type(meant(rest))
        return "refused not-built"

    def applied(self, node, children):
        """What templates give that are applied to all children; an element without any gives a place to type at."""
        if node is not None and node.kind == "element" and not children:
            yield "run", "", (node, None)
        for child in children:
            yield from self.result(child, child.children)

    def result(self, node, children):
        """What a node gives, by the last rule for it or by a built-in one: runs with their places, starts, attributes and ends."""
        name = "/" if node is None else node.expanded
        body = [body for pattern, body in self.rules if pattern == name]
        if not body and node is not None and node.kind != "element":
            yield from [("run", node.text, (node, 0))] if node.kind == "text" else []
        elif not body:
            yield from self.applied(node, children)
        for step, value in body[-1] if body else []:
            if step == "apply":
                yield from self.applied(node, children)
            elif step == "text":
                yield from [("run", value, None)] if value else []
            elif step == "attribute":
                yield "attribute", None, None
            else:
                yield step, value, None

    def lines(self):
        """Whether the view has pages, and the lines of its one page, each of its runs."""
        marks = list(self.result(None, self.document.top))
        if not marks or marks[0][:2] != ("begin", (FO, "root")):
            return False, [[(text, place) for kind, text, place in marks if kind == "run"]]
        depth, groups = 0, [[]]
        for kind, text, place in marks[1:]:
            depth += {"begin": 1, "end": -1}.get(kind, 0)
            if depth < 0:
                break
            if kind == "run":
                groups[-1].append((text, place))
            else:
                groups.append([])
        return True, [group for group in groups if any(not is_blank(text) or place and place[1] is None for text, place in group)]

    def show(self):
        (pages, lines), self.stops, self.changes, counts = self.lines(), [], [], collections.Counter()
        for number, runs in enumerate(lines, 1):
            column = 0
            for text, place in runs:
                for i in range(len(text) + 1):
                    here = place and (place[0], None if place[1] is None else place[1] + i)
                    counts[here] += 1
                    self.stops.append((1, number, column + i, here, here and counts[here]))
                column += len(text)
        texts = [printed("".join(text for text, _ in runs)) for runs in lines]
        if not pages:
            return "plain " + texts[0]
        return "\n".join(["page 1"] + [f"line {i + 1} 0 {i * LINE_HEIGHT} {text}" for i, text in enumerate(texts)])

    def at(self, page, line, column):
        if self.stops is None:
            return "refused no-view"
        here = [stop[3:] for stop in self.stops if stop[:3] == (page, line, column)]
        places = [stop for stop in here if stop[0]]
        if not places:
            return "refused fixed" if here else "refused no-place"
        (node, offset), self.occurrence = places[0]
        for change in self.changes:
            if len(change) == 2 and (node, offset) == (change[0], None):
                node, offset = change[1], 0
            elif len(change) == 3 and node is change[0] and offset > change[1]:
                offset += change[2]
        self.caret = (node, offset)
        return "ok"

    def type(self, text):
        if self.caret is None:
            return "refused no-caret"
        node, offset = self.caret
        if offset is None:
            self.document.count += 1
            new = Node(self.document.count, "text", text)
            node.children.insert(0, new)
            self.changes.append((node, new))
            self.caret = (new, len(text))
        else:
            node.text = node.text[:offset] + text + node.text[offset:]
            self.changes.append((node, offset, len(text)))
            self.caret = (node, offset + len(text))
        return "ok"

    def where(self):
        if self.caret is None:
            return "refused no-caret"
        stops = [stop for stop in self.stops if stop[3] == self.caret]
        stops = [stop for stop in stops if stop[4] == self.occurrence] or stops
        seen = "stale" if self.changes else "{} {} {}".format(*stops[-1]) if stops else "hidden"
        node, offset = self.caret
        at = "into" if offset is None else offset
        return f"caret {node.number} {at} {seen}"

    def source(self):
        return "\n".join(line for node in self.document.top for line in self.tree_lines(node, self.document.declared))

    def tree_lines(self, node, declared=()):
        if node.kind != "element":
            return [("-" if node.kind == "text" else "C") + escaped(node.text)]
        names = [("xmlns:" + prefix if prefix else "xmlns", uri) for prefix, uri in declared] + [(name, value) for name, value, _ in node.attributes]
        inside = [line for child in node.children for line in self.tree_lines(child)]
        return ["(" + node.text, *("A" + name + " " + escaped(value) for name, value in names), *inside, ")" + node.text]


def expected(data, words):
    parsed = parse_input(data)
    if parsed is None:
        return REFUSED
    rules, document, script = parsed
    editor = Editor(rules, document, words)
    return "".join(editor.answer(line) + "\n" for line in script).encode(), 0


# ---- The generator.

def random_text(rng, longest):
    return "".join(rng.choice(ALPHABET if rng.random() < 0.3 else "abc ") for _ in range(rng.randint(0, longest)))


def random_name(rng, prefixes):
    local = rng.choice(["a", "p", "doc", "_", "Z9", "x-1._z"])
    return rng.choice(prefixes) + ":" + local if prefixes and rng.random() < 0.4 else local


def random_attributes(rng, prefixes):
    return [f"A{random_name(rng, prefixes)} {escaped(random_text(rng, 6))}" for _ in range(rng.choice([0, 0, 0, 1, 2]))]


def random_comment(rng):
    return "C" + escaped(random_text(rng, 8))


def random_element(rng, depth, budget, prefixes, declarations=()):
    """The lines of an element at most so deep, with about so many children in all."""
    name, attributes = random_name(rng, prefixes), list(declarations) + random_attributes(rng, prefixes)
    rng.shuffle(attributes)
    lines = ["(" + name] + attributes
    for _ in range(rng.randint(0, budget)):
        kind = rng.random()
        if depth > 1 and kind < 0.45:
            lines += random_element(rng, depth - 1, budget // 2, prefixes)
        elif kind < 0.6:
            lines.append(random_comment(rng))
        else:
            lines.append("-" + escaped(random_text(rng, 12)))
    return lines + [")" + name]


STRAYS = ["-text", "(e", ")e", "", "(a:b", "Aa b", "Ca", "(1", "-a\\b", "-\t", "-\x7f", "-\u00e9", "!script", "!document", ")", "Axmlns:q u", "Axmlns:q ", "Axmlns ", "Aq:x 1", "A1 x", "Aa", "-\\", "C\\q", "Aa \\q", "Aa:b:c x", "(a:b:c", "Axml:lang en", "Axmlns:xmlns u", "A x", "x"]


def random_document(rng):
    declared = rng.sample(["p", "q", "r.s"], rng.choice([0, 0, 1, 2, 3]))
    declarations = [f"Axmlns:{prefix} " + rng.choice(["u", "v", "urn:\\t"]) for prefix in declared] + rng.choice([[], [], ["Axmlns u"], ["Axmlns "]])
    lines = random_element(rng, rng.randint(1, 6), rng.randint(0, 6), declared + ["xml"] * bool(declared), declarations)
    if rng.random() < 0.05:  # near the limit of depth, on either side
        deep = rng.randint(DEEPEST - 4, DEEPEST + 1)
        lines = ["(e"] * deep + ["-x"] * rng.randint(0, 1) + [")e"] * deep
    lines = [random_comment(rng) for _ in range(rng.choice([0, 0, 1]))] + lines + [random_comment(rng) for _ in range(rng.choice([0, 0, 1]))]
    if rng.random() < 0.12:  # one line that may not belong there
        lines.insert(rng.randint(0, len(lines)), rng.choice(STRAYS))
    if rng.random() < 0.08:
        del lines[rng.randrange(len(lines))]
    return lines


def random_body(rng, depth, prefixes):
    """The lines of a rule's body, at most so deep."""
    lines = []
    for _ in range(rng.randint(0, 3)):
        kind = rng.random()
        if kind < 0.35:
            lines += ["(xsl:apply-templates", ")xsl:apply-templates"]
        elif kind < 0.5:
            lines.append("-" + escaped(rng.choice([random_text(rng, 4), " ", "x:"])))
        elif kind < 0.6:
            lines += ["(xsl:text", "-" + escaped(random_text(rng, 3)), ")xsl:text"]
        elif kind < 0.65:
            lines.append(random_comment(rng))
        elif depth:
            name = rng.choice(["fo:block", "fo:flow", "fo:root", "b", random_name(rng, prefixes)])
            attributes = rng.choices([[], ["Axml:space " + rng.choice(["preserve", "default", "x"])], ["Acolor red"], ["Aa {x}"], ["Axsl:a x"]], [60, 20, 18, 1, 1])[0]
            lines += ["(" + name, *attributes, *random_body(rng, depth - 1, prefixes), ")" + name]
    return lines


FAULTY_STYLES = ["(xsl:if", "(xsl:apply-templates", ")xsl:text", "(b", "-text", "Aname x", "Amode x", "(xsl:template", ")xsl:template", "Aselect x", "!style t", "!script"]


def random_style(rng):
    """The lines of a stylesheet with its head, mostly of the built form."""
    declared = rng.sample(["p", "q"], rng.choice([0, 1, 2]))
    lines = ["(xsl:stylesheet", "Aversion 1.0", "Axmlns:xsl " + XSL, "Axmlns:fo " + FO] + [f"Axmlns:{prefix} " + rng.choice(["u", "v"]) for prefix in declared]
    if rng.random() < 0.7:
        root = ["(fo:root", *random_body(rng, 1, declared), "(fo:flow", "(xsl:apply-templates", ")xsl:apply-templates", ")fo:flow", ")fo:root"]
        lines += ["(xsl:template", "Amatch /", *root, ")xsl:template"]
    for _ in range(rng.randint(0, 4)):
        lines += ["(xsl:template", "Amatch " + rng.choices([random_name(rng, declared), "/", "z:a", "a/b"], [95, 3, 1, 1])[0], *random_body(rng, 2, declared), ")xsl:template"]
    lines.append(")xsl:stylesheet")
    if rng.random() < 0.15:  # one line that may not belong there, or one that is missing
        if rng.random() < 0.5:
            lines.insert(rng.randint(0, len(lines)), rng.choice(FAULTY_STYLES + STRAYS))
        else:
            del lines[rng.randrange(len(lines))]
    return ["!style " + rng.choices(["t", "a/b.lines", "", "a b", "t "], [80, 17, 1, 1, 1])[0]] + lines


def random_command(rng, widest, lowest):
    column, line = rng.randint(0, widest + 1), rng.randint(1, lowest)
    usual = ["show", f"at 1 {line} {column}", "type " + (escaped(random_text(rng, 6)) or "x"), "where", "source", None]
    return rng.choices(usual, [15, 30, 25, 15, 5, 10])[0] or rng.choice([f"at 1 1 0{column}", f"at 01 001 {column:09}", f"at 1 1 {column:010}", f"at 2 1 {column}", f"at 1 0 {column}", f"at 1  1 {column}", f"at 1 1 {column} ", " show", "show ", "Show", "shown", "at", "at 1 1", "at 1 1 1 1", "at 1 1 -1", "at 1 1 a", "type", "type ", "type  ", "type\ta", "type a\\q", "type \\", "type \u00e9", "typea", "where ", "source x", "end", "undo", "left", "", "\x7f", "!script"])


def random_input(rng):
    document, style = random_document(rng), random_style(rng) if rng.random() < 0.5 else []
    widest = sum(len(line) - 1 for line in document if line.startswith("-"))
    if style:
        widest = min(widest, rng.choice([3, 8, 20, widest]))
    script = ["show"] * (rng.random() < 0.8) + [random_command(rng, widest, 4 if style else 1) for _ in range(rng.randint(0, 25))]
    head = rng.choices(["!document", "!style t", "document", ""], [97, 1, 1, 1])[0]
    lines = style + [head] + document + (["!script"] if rng.random() < 0.98 else []) + script
    if rng.random() < 0.03:  # near the limit of the whole input, on either side
        size = sum(len(line) + 1 for line in lines)
        lines.insert(len(style) + 2, "-" + "x" * (LONGEST_INPUT - size - 2 + rng.randint(-1, 1)))
    return "\n".join(lines).encode() + (b"\n" if rng.random() < 0.9 else b"")


# ---- The comparison.

def differs(program, data, words):
    """What the program writes and its status, where they are not those of the model; else None."""
    done = subprocess.run([program], input=data, capture_output=True, timeout=60)
    found = (done.stdout, done.returncode)
    return None if found == expected(data, words) else found


def smaller(program, data, words):
    """An input with as few lines as dropping them one by one leaves, that still shows a difference."""
    lines = data.split(b"\n")
    for at in reversed(range(len(lines))):
        fewer = lines[:at] + lines[at + 1:]
        if differs(program, b"\n".join(fewer), words):
            lines = fewer
    return b"\n".join(lines)


def main():
    parser = argparse.ArgumentParser(description=__doc__.split("\n")[0])
    parser.add_argument("--program")
    parser.add_argument("--commands", default="show,at,type,where,source")
    parser.add_argument("--count", type=int, default=500)
    parser.add_argument("--seed", type=int, default=random.randrange(10**9))
    options = parser.parse_args()
    program = options.program or subprocess.run([pathlib.Path(__file__).resolve().parent / "build.sh"], check=True, capture_output=True, text=True).stdout.strip()
    words = set(options.commands.split(","))
    refused = answers = 0
    for seed in range(options.seed, options.seed + options.count):
        data = random_input(random.Random(seed))
        if differs(program, data, words):
            data = smaller(program, data, words)
            print(f"seed {seed}: the program and the model differ on this input:\n{data!r}\nprogram: {differs(program, data, words)}\nmodel:   {expected(data, words)}")
            sys.exit(1)
        wanted = expected(data, words)
        refused, answers = refused + (wanted == REFUSED), answers + wanted[0].count(b"\n")
    print(f"random scripts: {options.count} from seed {options.seed}, no difference ({refused} inputs refused, {answers} lines compared)")


if __name__ == "__main__":
    main()
