"""What the pages quote of contracts, looked up in the sources word for word.

`check-names` runs it, and its head has the rule. A page is README.md, CALLING.md or a file of docs/; a source is a file
of crates/*/src. Blanks and line breaks do not count, nor does a comma before a closing bracket.
"""
import pathlib
import re
from collections import namedtuple

TOP = pathlib.Path(__file__).resolve().parent.parent
FENCE = "```"
# the name of a function with what it is qualified by, a clause up to its brace, a ghost member up to its brace
FUNCTION = re.compile(r"\bfn ((?:\w+::)*)(\w+)(?=[<(])")
CLAUSE = re.compile(r"\b(ensures|requires)\b\s*(\w*)\s*(\{?)")
GHOST = re.compile(r"\bghost (\w+)\s*=\s*(\{)")
TACTIC = re.compile(r"#!?\[tactic\(.*?\)\]")
SIGNATURE_ENDS = re.compile(r"[{;]|\b(?:ensures|requires)\b|\n\s*\n|\n\s*(?:pub )?fn |\Z")
OWNER = re.compile(r"(?:impl|pub trait|trait)\b[^{]*")
# what stands in clauses alone: what a value is before and after, a member of a type, a sign; and in a span what is answered
CLAUSE_SIGN = re.compile(r"(?<!\S)\(?(?:\w+\.(?:now|old)|self\.new|T\.\w+)\b(?!\()|[⟦λ≡→∷×]")
CLAUSE_WORD = re.compile(CLAUSE_SIGN.pattern + r"|(?<!\S)result\b")

Function = namedtuple("Function", "crate owner signature clauses place")
Clause = namedtuple("Clause", "keyword name text")
# of a page: the text of a block of code or of a span between backquotes, and the line that it begins on
Code = namedtuple("Code", "text line is_block")


def plain(text):
    """Answers a text without what does not count."""
    text = re.sub(r"\s+", " ", text).strip()
    return re.sub(r",? ([)\]])", r"\1", re.sub(r"([(\[]) ", r"\1", text))


def said(clause):
    name = clause.name + " " if clause.name else ""
    return f"{clause.keyword} {name}{{ {clause.text} }}"


def braced(text, at):
    """Answers where what a brace at an offset opens ends, behind its closing one; None where it does not."""
    depth = 0
    for brace in re.finditer(r"[{}]", text[at:]):
        depth += 1 if brace[0] == "{" else -1
        if depth == 0:
            return at + brace.end()
    return None


def clauses_from(text, at):
    """Answers the clauses that stand one after another from an offset on, each as (start, end, clause)."""
    found = []
    while True:
        at += len(text[at:]) - len(text[at:].lstrip())
        clause = CLAUSE.match(text, at)
        end = braced(text, clause.start(3)) if clause and clause[3] else None
        if end is None:
            return found
        found.append((at, end, Clause(clause[1], clause[2], plain(text[clause.start(3) + 1:end - 1]))))
        at = end


def signature_at(text, function):
    """Answers a signature without what its name is qualified by, and where it ends."""
    end = SIGNATURE_ENDS.search(text, function.end()).start()
    return plain("fn " + function[2] + text[function.end():end]), end


# ---- sources


class Sources:
    """The functions of the sources by their names, and their ghost members, attributes and clauses."""

    def __init__(self):
        self.functions, self.ghosts, self.tactics = {}, set(), set()
        for path in sorted(TOP.glob("crates/*/src/**/*.rt")):
            self.read(path)
        self.clauses = {clause for same in self.functions.values() for each in same for clause in each.clauses}
        self.names = {clause.name for clause in self.clauses}
        self.texts = {clause.text for clause in self.clauses}

    def read(self, path):
        text = re.sub(r"^ *//.*\n", "", path.read_text(encoding="utf-8"), flags=re.M)
        owners = [(found.start(), found[0]) for found in re.finditer(rf"^{OWNER.pattern}", text, re.M)]
        for function in FUNCTION.finditer(text):
            is_inner = text[text.rfind("\n", 0, function.start()) + 1] == " "
            owner = [header for at, header in owners if at < function.start()][-1:] if is_inner else []
            signature, end = signature_at(text, function)
            crate, place = path.relative_to(TOP).parts[1], str(path.relative_to(TOP))
            clauses = [clause for _, _, clause in clauses_from(text, end)]
            self.functions.setdefault(function[2], []).append(
                Function(crate, "".join(owner), signature, clauses, place))
        for ghost in GHOST.finditer(text):
            end = braced(text, ghost.start(2))
            self.ghosts.add((ghost[1], plain(text[ghost.start(2):end])))
        self.tactics.update(map(plain, TACTIC.findall(text)))

    def named(self, qualifiers, name):
        """Answers the functions of a name that stand in the crate or the type by which it is qualified."""
        return [each for each in self.functions.get(name, []) if all(
            part == each.crate or re.search(rf"\b{part}\b", each.owner) for part in qualifiers.split("::") if part)]

    def has_part(self, text):
        """Answers whether a text stands in a clause or a ghost member."""
        return any(plain(text) in whole for whole in self.texts | {text for _, text in self.ghosts})


# ---- pages


def spans_in(prose, line):
    """Yields each span between backquotes; it may go over the end of a line."""
    for span in re.finditer(r"(?<!`)(`+)(?!`)(.+?)(?<!`)\1(?!`)", prose, re.S):
        yield Code(span[2], line + prose.count("\n", 0, span.start()), False)


def parts(page):
    """Yields (line, text, is_code) of each block of code and of each block of prose."""
    kept, first, is_code, is_fenced = [], 1, False, False
    for number, line in enumerate([*page.splitlines(), ""], 1):
        if line.startswith(FENCE):
            yield first, "\n".join(kept), is_code
            kept, first, is_fenced = [], number + 1, not is_fenced
            is_code = is_fenced
            continue
        begins = line.startswith("    ") and (is_code or not kept or not kept[-1].strip())
        if not is_fenced and line.strip() and begins != is_code:
            yield first, "\n".join(kept), is_code
            kept, first, is_code = [], number, begins
        kept.append(line)
    yield first, "\n".join(kept), is_code


def code_in(page):
    """Yields the code of a page: its blocks, and its spans between backquotes."""
    for line, text, is_code in parts(page):
        if is_code:
            yield Code(text, line, True)
            continue
        at = line
        for paragraph in re.split(r"(\n[ \t]*\n)", text):
            yield from spans_in(paragraph, at)
            at += paragraph.count("\n")


def bare_words(page):
    """Yields the number of a line and a word of contracts that stands on it outside of code."""
    for line, text, is_code in parts(page):
        prose = re.sub(r"`+[^`]+`+", lambda span: "\n" * span[0].count("\n"), text)
        for word in [] if is_code else re.finditer(r"\b(?:ensures|requires)\b", prose):
            yield line + prose.count("\n", 0, word.start()), word[0]


# ---- what is not found


def missing_clauses(sources, function, signature, clauses):
    """Yields an offset and what no function of the sources has of a quoted signature with its clauses."""
    there = [each for each in sources.named(function[1], function[2]) if each.signature == signature]
    if not there:
        yield function.start(), f"no function has the signature `{signature}`"
        return
    quoted = [clause for _, _, clause in clauses]
    nearest = max(there, key=lambda each: sum(clause in each.clauses for clause in quoted))
    for at, _, clause in clauses:
        if clause not in nearest.clauses:
            yield at, f"`{function[2]}` of {nearest.place} has no clause `{said(clause)}`"
    for clause in nearest.clauses if clauses else []:
        if clause.keyword == "requires" and clause not in quoted:
            yield function.start(), f"`{function[2]}` of {nearest.place} asks for more: `{said(clause)}`"


def missing(sources, code):
    """Yields the offset in a piece of code and what of it is not in the sources."""
    text, owned, known = code.text, set(), []
    for function in FUNCTION.finditer(text):
        signature, end = signature_at(text, function)
        clauses = clauses_from(text, end)
        yield from missing_clauses(sources, function, signature, clauses)
        owned.update(start for start, _, _ in clauses)
    for found in CLAUSE.finditer(text):
        whole = clauses_from(text, found.start())[:1]
        known += [(start, end) for start, end, _ in whole]
        if not whole:
            yield found.start(), f"`{found[1]}` is not followed by a name, or none, and a text in braces"
        elif found.start() not in owned and whole[0][2] not in sources.clauses:
            yield found.start(), f"no function has the clause `{said(whole[0][2])}`"
    for ghost in GHOST.finditer(text):
        end = braced(text, ghost.start(2)) or len(text)
        known.append((ghost.start(), end))
        if (ghost[1], plain(text[ghost.start(2):end])) not in sources.ghosts:
            yield ghost.start(), f"no type has this ghost member `{ghost[1]}`"
    for tactic in TACTIC.finditer(text):
        if plain(tactic[0]) not in sources.tactics:
            yield tactic.start(), f"no function has the attribute `{tactic[0]}`"
    if code.is_block:
        yield from strays(text, known)
    elif not known and not CLAUSE.search(text) and not FUNCTION.search(text):
        yield from missing_part(sources, text)


def strays(text, known):
    """Yields each line of a block that has a sign of clauses outside of those that are known, between (start, end)."""
    for line in re.finditer(r".+", text):
        signs = [line.start() + sign.start() for sign in CLAUSE_SIGN.finditer(line[0])]
        if any(not any(start <= sign < end for start, end in known) for sign in signs):
            yield line.start(), f"`{line[0].strip()}` stands in no clause"


def missing_part(sources, text):
    """Yields it where a span is the text of a clause, or a part of one, and no clause has it."""
    if text.startswith("{ ") and text.endswith(" }"):
        if plain(text[1:-1]) not in sources.texts:
            yield 0, f"no clause has the text `{text}`"
    elif " " in text and CLAUSE_WORD.search(text) and not sources.has_part(text):
        yield 0, f"no clause and no ghost member has `{plain(text)}`"


def missing_names(sources, page):
    """Yields the number of a line and the name of a clause that no function has: one behind the word `clause`."""
    for named in re.finditer(r"\bclauses?((?:(?:,|\s+and)?\s+`\w+`)+)", page):
        for name in re.findall(r"`(\w+)`", named[1]):
            if name not in sources.names:
                yield 1 + page.count("\n", 0, named.start()), f"no function has a clause `{name}`"


def lost_quotes(pages):
    """Yields a line `page:line: ...` for each quote of the pages that is not in the sources."""
    sources = Sources()
    for path in pages:
        page, found = path.read_text(encoding="utf-8"), []
        for code in code_in(page):
            found += [(code.line + code.text.count("\n", 0, at), lost) for at, lost in missing(sources, code)]
        found += [(line, f"the word `{word}` stands outside of code") for line, word in bare_words(page)]
        for line, lost in sorted([*found, *missing_names(sources, page)]):
            yield f"{path.relative_to(TOP)}:{line}: {lost}"
