"""The table of other tools' names as it is published, from packages/names/elsewhere.tsv: packages/names/names.json and
names.csv."""
import csv
import fnmatch
import io
import json
import re

JSON, CSV = "packages/names/names.json", "packages/names/names.csv"
COLUMNS = ["tool", "name", "triple", "read", "written", "other_names", "states_version_of", "reason", "note", "sources"]
# What the CSV has of the first source of a row.
OF_SOURCE = ["version", "where", "seen", "recalled"]


def sources_of(dialect, name, note, in_notes):
    """The names of the sources of a row: that of the first pattern that it has, or those of `in_notes` that its note
    names, or the dialect's own."""
    found = [source for source, patterns in dialect.sources.items()
             if any(fnmatch.fnmatchcase(name, it) for it in patterns)]
    if found:
        return found[:1]
    places = {source: re.search(rf"(?<![\w.@/]){re.escape(source)}(?![\w/-]|\.\w)", note) for source in in_notes}
    named = sorted((source for source in in_notes if places[source]), key=lambda source: places[source].start())
    return named or [source for source, patterns in dialect.sources.items() if not patterns]


def rows(tables, wrong):
    """A row for each name and, where a name is only written, for each triple that has it."""
    used, of_dialects = set(), {source for dialect in tables.dialects.values() for source in dialect.sources}
    in_notes = [it for it in tables.sources if it not in of_dialects]
    for dialect in tables.dialects.values():
        for name, triple, ways, *note in dialect.lines:
            note = "".join(note)
            others = [other for other, same, way, *_ in dialect.lines if same == triple and other != name
                      and way == "r"]
            ranges = [about for text, _, _, about in tables.versions if name.startswith(text) or name.endswith(text)]
            of = sources_of(dialect, name, note, in_notes)
            used |= {*of}
            has_triple = ways not in ("-", "several")
            if ways == "several":
                note = triple.replace("+", " and ")
            yield {"tool": dialect.name, "name": name, "triple": triple if has_triple else None,
                   "read": ways in ("r", "rw"), "written": "w" in ways,
                   "other_names": others if "w" in ways else [], "states_version_of": ranges[0] if ranges else None,
                   "reason": None if has_triple else "several machines" if ways == "several" else note,
                   "note": note if note and ways != "-" else None, "sources": of}
    wrong += [f"elsewhere.tsv: no row is from the source {it}" for it in tables.sources if it not in used]


def as_json(tables, version, of_rows):
    tools = [{"tool": it.name, "also": it.other_names, "about": it.about, "read": it.is_read, "written": it.is_written}
             for it in tables.dialects.values()]
    sources = {it.name: {"version": it.version or None, "debian_package": it.package or None, "where": it.where,
                         **it.days}
               for it in tables.sources.values()}
    parts = [{"place": place, "part": name, "read_as": meaning} for place, found in tables.parts.items()
             for name, meaning, _ in found]
    reasons = [{"reason": name, "text": text} for name, text in tables.reasons]
    head = {"$schema": "names.schema.json", "generated_by": "tools/names/write, from packages/names/elsewhere.tsv",
            "version": version,
            "licence": "Apache-2.0 WITH LLVM-exception"}
    lines = [f"  {dumped(name)}: {dumped(value)}" for name, value in head.items()]
    lines.append('  "sources": {\n' + ",\n".join(f"    {dumped(name)}: {dumped(it)}" for name, it in sources.items())
                 + "\n  }")
    lines += [f'  "{name}": [\n' + ",\n".join(f"    {dumped(it)}" for it in values) + "\n  ]"
              for name, values in (("tools", tools), ("reasons", reasons), ("parts", parts), ("names", of_rows))]
    return "{\n" + ",\n".join(lines) + "\n}\n"


def dumped(value):
    return json.dumps(value, ensure_ascii=False)


def as_csv(tables, of_rows):
    out = io.StringIO()
    writer = csv.writer(out, lineterminator="\n")
    writer.writerow([*COLUMNS, *OF_SOURCE])
    for row in of_rows:
        it = tables.sources[row["sources"][0]]
        cells = [", ".join(cell) if isinstance(cell, list) else cell for cell in (row[name] for name in COLUMNS)]
        cells += [it.version, it.where, *it.days.values()]
        writer.writerow(["" if cell is None else str(cell).lower() if isinstance(cell, bool) else cell
                         for cell in cells])
    return out.getvalue()


def files(tables, version, wrong):
    """The texts of both files, by their paths."""
    of_rows = [*rows(tables, wrong)]
    return {} if wrong else {JSON: as_json(tables, version, of_rows), CSV: as_csv(tables, of_rows)}
