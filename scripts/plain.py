"""Words that pages and comments avoid, what to write instead (the table of CONTRIBUTING.md), and names that comments invent."""
import re

# `behind` is meant in an order, not behind a ray's origin or a pointer; `comes to` of a result, not of an event or an
# input that arrives; `is none` without `of`.
AVOIDED = (
    r"so many", r"so much", r"behind(?! (?:the ray|its pointer))", r"(?<!event )(?<!event that )(?<!input )(?<!it )comes? to",
    r"(?<!there )is none(?! of)", r"the same of", r"memory aside", r"slip of the pen", r"anew", r"hangs? on",
    r"goes by", r"lets? go", r"is told", r"worked out", r"whom", r"gives? back", r"in the place of", r"as it stands", r"as far as",
    r"nobody", r"what is left", r"of before", r"is met", r"aims at",
)
AVOIDS = re.compile(r"\b(" + "|".join(AVOIDED) + r")\b", re.I)
COMMENT = {".rt": re.compile(r"^\s*//[/!]? ?(.*)"), ".antt": re.compile(r"^\s*-- ?(.*)")}
CODE = {".rt": re.compile(r"//[^\n]*"), ".antt": re.compile(r"--[^\n]*"), ".c": re.compile(r"//[^\n]*"), ".h": re.compile(r"//[^\n]*")}
COMPOUND = re.compile(r"\b[A-Z]+[a-z0-9]+(?:[A-Z][a-z0-9]*)+\b")


def comments(path):
    """Each comment line of a source: its number and its words."""
    form = COMMENT.get(path.suffix)
    for number, line in enumerate(path.read_text(encoding="utf8").split("\n"), 1) if form else ():
        if found := form.match(line):
            yield number, found[1]


def avoided(pages, sources):
    """The places where a page or a comment of src/ or specs/ has a word to avoid. What stands in backticks doesn't count, nor a table of words."""
    for page in pages:
        fenced = False
        for number, line in enumerate(page.read_text(encoding="utf8").split("\n"), 1):
            fenced ^= line.lstrip().startswith("```")
            if not fenced and not re.match(r"\| *\(avoid\)", line):
                yield from ((page, number, word) for word in AVOIDS.findall(re.sub(r"`[^`]*`", "", line)))
    for source in sources:
        if "proofs" not in source.parts:
            for number, words in comments(source):
                yield from ((source, number, word) for word in AVOIDS.findall(re.sub(r"`[^`]*`", "", words)))


def code_words(sources):
    """All words of the sources outside comments, and of their names."""
    found = set()
    for path in sources:
        text = path.read_text(encoding="utf8", errors="replace")
        text = CODE[path.suffix].sub("", text) if path.suffix in CODE else text
        found.update(re.findall(r"[^\W\d][\w']*", text))
        found.update(re.findall(r"\w+", str(path)))
    return found


def invented(sources, known):
    """Names that a comment has and no code: what stands in backticks, and words of several capitals."""
    for source in sources:
        for number, words in comments(source):
            names = [name for said in re.findall(r"`([^`]+)`", words) for name in re.findall(r"[^\W\d]\w+", said)]
            names += COMPOUND.findall(re.sub(r"`[^`]*`", " ", words))
            for name in names:
                if name not in known and name.strip("_") == name:
                    yield source, number, name
