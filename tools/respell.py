#!/usr/bin/env python3
"""Respells this repository's own definitions and lemmas: words in snake case, types in camel case.

Run once at the top of the checkout, after the kit's port.py. Functions of src/, strings, inputs and
outputs keep their names: a name with a dash stands in clauses, specs/, proofs/ and docs/ alone.
"""
import pathlib
import re

# Facts and records are types.
TYPES = """
Figure-count IsFigureCount
Multiplier-count IsMultiplierCount
In-limit InLimit
In-range InRange
In-row-limit InRowLimit
No-greater NoGreater
Good-sample GoodSample
Sample-of SampleOf
Row-list IsRowList
Never-rises NeverRises
Ranking-shows RankingShows
Hands-back HandsBack
Worked-cases WorkedCases
Joins-rows JoinsRows
One-row OneRow
Cover-limits CoverLimits
"""

# A dash stays where it joins two names; a fact in a lemma's name keeps its capital.
JOINED = """
decides-admits Decides-admits
decides-in-range Decides-in_range
decides-keep Decides-keep
decides-keeps Decides-keeps
decides-le Decides-le
decides-le-at Decides-le_at
decides-leb Decides-leb
decides-never-rises Decides-never_rises
decides-no Decides-no
decides-none-negative Decides-none_negative
decides-nonneg Decides-nonneg
decides-ranked Decides-ranked
decides-ranking-shows Decides-ranking_shows
decides-shows Decides-shows
decides-yes Decides-yes
all-at All-at
all-front All-front
difference-at-suc difference_at-suc
first-sum-suc first_sum-suc
no-greater-drop no_greater-drop
set-too-drop set_too-drop
with-row-length with_row-length
"""

# Everything else: a dash becomes an underscore.
WORDS = """
all-in-range barn-16 barn-17 barn-5 barn-6 barn-row constraint-of constraints-count constraints-of
cover-better cover-figures cover-grounds cut-more difference-asked difference-at difference-at-more
difference-grounds difference-of difference-question difference-unopposed effective-of effective-weighed
either-better either-figures entries-count entries-of entries-ranged entry-is falls-weighed figures-at
figures-at-place figures-count figures-grounds figures-limits figures-of first-sum first-sum-nonneg
from-line front-each front-filled further-admits further-grounds further-judged further-lawful
further-meaning further-safe further-shows further-zeros joined-shows joins-rows judged-below
judged-not-shown judged-out judged-shown keep-first left-weighed lent-entries-few lent-few lent-range
lift-more lift-of lift-weighed lift-zeros limit-at list-word made-proper marks-set meaning-of
negative-size never-rises next-part no-greater no-greater-apart no-greater-holds no-step-rises
none-negative nothing-weighed ones-fall ones-good ones-limits ones-total pair-at parts-count
parts-limits parts-of parts-proper plain-figures product-size proper-made range-kept ranking-admits
ranking-alone ranking-falls ranking-grounds ranking-lawful ranking-meaning ranking-rises ranking-safe
ranking-shows ranking-zeros refused-later row-at-front row-weighed rows-at-front rows-grounds
rows-in-count rows-in-more rows-in-none rows-lawful rows-meaning rows-safe rows-zeros same-constraint
score-more score-of set-too set-too-fewer share-admits share-kept share-not-kept share-over-ranking
share-refuses share-row shown-holds shown-is shown-weighed some-part spread-add spread-alike
spread-nonneg spread-times sum-size swap-middle times-add times-nonneg times-nonpos times-swap top-word
total-more unopposed-end weighed-by weighed-more weight-asked weight-grounds weight-question width-and
with-row with-row-at with-row-filled with-row-none with-row-weighed zero-added
add-times all-keep at-most by-parts first-taken from-end front-read joined-at lent-limit one-more
part-limit read-mapped rest-more row-cut rows-in same-back same-kept same-sum spread-same stands-on
sum-fits true-of
"""

PART = r"[\w\-'·≡≤≢≣ℕℤ+*]"


def table():
    pairs = dict(line.split() for line in (TYPES + JOINED).split("\n") if line)
    pairs.update({word: word.replace("-", "_") for word in WORDS.split()})
    return pairs


def main():
    pairs = table()
    whole = re.compile(
        rf"(?<!{PART})(" + "|".join(re.escape(n) for n in sorted(pairs, key=len, reverse=True)) + rf")(?!{PART})"
    )
    top = pathlib.Path(".")
    files = [p for p in top.glob("crates/**/*") if p.suffix in (".rt", ".antt", ".edit") and "out" not in p.parts]
    files += [p for p in top.glob("docs/*.md") if not p.name.startswith("PORT")] + [top / "README.md"]
    for path in files:
        text = path.read_text()
        lines = []
        for line in text.split("\n"):
            if path.suffix == ".md":
                # In a page a name stands between backticks.
                line = re.sub(r"`[^`]*`", lambda m: whole.sub(lambda n: pairs[n[1]], m[0]), line)
            elif not (line.lstrip().startswith("--") or line.lstrip().startswith("//")):
                line = whole.sub(lambda n: pairs[n[1]], line)
            lines.append(line)
        new = "\n".join(lines)
        if new != text:
            path.write_text(new)
            print(path)


if __name__ == "__main__":
    main()
