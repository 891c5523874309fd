#!/usr/bin/env python3
"""Lists the places in src/ that docs/DESIGN-PASS.md counts: `tools/places.py POINT`, with POINT from 1 to 8, at the top of the
checkout. It goes by text, so a place that it lists may be fine as it stands, and the page says which; without POINT it prints the
counts alone."""
import collections
import glob
import os
import re
import sys

FILES = sorted(f for f in glob.glob("crates/*/src/**/*.rt", recursive=True))


def text(path):
    with open(path, encoding="utf-8") as file:
        return re.sub(r"//[^\n]*", lambda m: " " * len(m.group(0)), file.read())


def line_of(source, at):
    return source.count("\n", 0, at) + 1


def found(pattern, flags=re.M, only=None):
    for path in FILES:
        source = text(path)
        for match in re.finditer(pattern, source, flags):
            if only is None or only(match):
                yield path, line_of(source, match.start()), " ".join(match.group(0).split())


def enums():
    """Own enums of the shape of Option (a bare case and one with a value) or Result (two cases with a value)."""
    for path, line, body in found(r"enum \w+(?:<[^>]*>)? \{[^}]*\}", re.S):
        inside = body[body.index("{") + 1 : body.rindex("}")]
        depth, cases, here = 0, [], ""
        for c in inside:
            depth += c in "([{"
            depth -= c in ")]}"
            if c == "," and depth == 0:
                cases.append(here.strip())
                here = ""
            else:
                here += c
        cases += [here.strip()] if here.strip() else []
        if len(cases) == 2 and any("(" in c for c in cases):
            yield path, line, body


def signatures():
    for path in FILES:
        source = text(path)
        for match in re.finditer(r"\bfn (\w+)(?:<[^(]*>)?\(", source):
            depth, end = 1, match.end()
            while depth:
                depth += source[end] in "(["
                depth -= source[end] in ")]"
                end += 1
            parts, depth, here = [], 0, ""
            for c in source[match.end() : end - 1]:
                depth += c in "([<"
                depth -= c in ")]>"
                if c == "," and depth == 0:
                    parts.append(" ".join(here.split()))
                    here = ""
                else:
                    here += c
            parts += [" ".join(here.split())] if here.strip() else []
            yield path, line_of(source, match.start()), match.group(1), parts


def bodies():
    """Every function with its text from the parameters on, its own name aside."""
    for path in FILES:
        source = text(path)
        for match in re.finditer(r"\bfn (\w+)", source):
            brace = source.find("\n{", match.end())
            inner = re.search(r"\n\s*\{\n|\) (?:-> [^{;]*)?\{\n", source[match.end() :])
            if not inner:
                continue
            at = match.end() + inner.end() - 2
            if ";" in source[match.end() : at] and "[" not in source[match.end() : at]:
                continue
            depth, end = 1, at + 1
            while depth and end < len(source):
                depth += source[end] == "{"
                depth -= source[end] == "}"
                end += 1
            body = " ".join(source[match.end() : end].split())
            yield path, line_of(source, match.start()), match.group(1), body


def crate(path):
    return path.split("/")[1]


def point_1():
    yield "own enums of the shape of Option or Result", enums()
    yield "a refusal told by a case of the answer", found(r"Answer::Status\(StatusWord::\w+\)")
    yield "a let-else or match that only hands on or replaces a refusal", found(
        r"let (?:\w+::)?(?:Some|Ok)\([^=;]*\) = [^;{]*?else \{\s*return (?:Err\([^;]*\)|None|Ok\(None\)|Answer[^;]*);\s*\};"
        r"|None => None,|Err\((\w+)\) => Err\(\1\),|None => Err\([^,]*,|Some\((\w+)\) => Some\([^,]*\2[^,]*,|Ok\((\w+)\) => Ok\([^,]*\3[^,]*,"
        r"|Err\((\w+)\) => Err\(\w+::\w+\([^,]*\4\)\),",
        re.M | re.S,
    )
    yield "a call that changes something and answers true or false", found(r"fn \w+\(\s*&mut self[^{;]*-> bool")
    yield "a number in the place of a refusal", found(r"return 10;|-> u32\b[^{]*Chained")


def point_2():
    groups = collections.defaultdict(list)
    for path, line, name, body in bodies():
        if name != "main" and len(body) > 60:
            groups[(name, re.sub(r"Rattle\.\w+\.", "", body))].append((path, line))
    twins = [(k, v) for k, v in groups.items() if len(v) > 1]
    yield "functions that stand more than once to the letter", [
        (v[0][0], v[0][1], f"{name}: " + ", ".join(f"{p}:{l}" for p, l in v[1:])) for (name, _), v in twins
    ]
    names = collections.defaultdict(list)
    for path, line, name, parts in signatures():
        names[name].append((path, line, len(parts)))
    shared = {k: v for k, v in names.items() if len({crate(p) for p, _, _ in v}) > 1 and k not in ("main", "fmt")}
    yield "function names that stand in more than one crate", [
        (v[0][0], v[0][1], f"{k}: " + ", ".join(sorted({crate(p) for p, _, _ in v}))) for k, v in sorted(shared.items())
    ]
    types = collections.defaultdict(list)
    for path, line, decl in found(r"(?:struct|enum|trait) \w+"):
        types[decl.split()[1]].append((path, line))
    yield "types that stand more than once", [
        (v[0][0], v[0][1], f"{k}: " + ", ".join(f"{p}:{l}" for p, l in v[1:])) for k, v in sorted(types.items()) if len(v) > 1
    ]


def point_3():
    yield "a for over a range", found(r"for \w+ in [^{;]*\.\.[^{;]*\{")
    yield "a while", found(r"while [^{]*\{")
    yield "a counter that is moved by hand", found(r"^\s*\w+ \+= \w+;|^\s*\w+(?:\.\w+)+ \+= \w+;")
    yield "enumerate", found(r"\.enumerate\(\)")


def point_4():
    yield "comparison by hand", found(
        r"fn same_\w+|match [^{]*\{\s*[\w:| \n]+ => (?:true|false),\s*(?:_|[\w:| \n]+) => (?:true|false),\s*\}"
        r"|if let \w+::\w+ = [^{]*\{"
        r"|match \((\w+), [\w.]+\) \{\s*\(\w+::\w+, \w+::\w+\) => true",
        re.M | re.S,
    )
    yield "conversion by hand", found(r"fn (?:number|value|bytes|from_value|from_byte|identify|from_bytes)\b[^{;]*")
    yield "an array of a slice by hand", found(r"let mut \w+ = \[0; \w+\];\s*\w+\.copy_from_slice\([^;]*;", re.M | re.S)
    yield "printing by hand", found(r"fn (?:text|print_\w+|status_meaning|instruction_name|hex_digit)\b[^{;]*")


def point_5():
    groups = collections.defaultdict(list)
    for path in FILES:
        source = text(path)
        for match in re.finditer(r"^\s*(?:requires|ensures)(?: \w+)? \{(.*)\}$", source, re.M):
            for fact in re.split(r" × ", match.group(1)):
                fact = re.sub(r"^[\s(]+|[\s)]+$", "", fact)
                if len(fact) > 20:
                    groups[(crate(path), fact)].append((path, line_of(source, match.start())))
    yield "a fact that stands in three or more clauses of a crate", [
        (v[0][0], v[0][1], f"{len(v)} times: {fact}") for (_, fact), v in sorted(groups.items()) if len(v) >= 3
    ]
    together = collections.defaultdict(set)
    for path, line, name, parts in signatures():
        wanted = [p for p in parts if ":" in p]
        for i, a in enumerate(wanted):
            for b in wanted[i + 1 :]:
                together[(crate(path), a, b)].add((path, line, name))
    yield "two parameters that stand together in three or more signatures of a crate", [
        (sorted(v)[0][0], sorted(v)[0][1], f"{len(v)} times: {a}, {b}")
        for (_, a, b), v in sorted(together.items())
        if len(v) >= 3
    ]


def point_6():
    yield "an array or a slice with a length or a place beside it", found(
        r"^\s*(?:pub )?\w+: (?:\[[^\]]*\]|Vec<[^;]*>|&'a mut \[u8\]),\n(?:\s*//[^\n]*\n)*\s*(?:pub )?(?:len|count|drawn|at|used): \w+,"
    )
    yield "a place that goes from call to call", found(r"let (?:at|behind|start|end) = (?:put|write_all|put_\w+)\(")
    yield "the function that hands it on", found(r"fn (?:put|put_\w+|write_all)\b[^{;]*")


def point_7():
    yield "a match of which each arm is a call", found(
        r"match [\w.]+ \{(?:\s*[\w:|()&\" .]+ => (?:\w+(?:::<\w+>)?|self\.\w+|\w+::\w+(?:::<\w+>)?)\([^{}]*\)\??,)+(?:\s*_ => [^,]*,)?\s*\}",
        re.M | re.S,
    )
    yield "a function pointer or table of functions", found(r"\bfn\(|\[fn")


def point_8():
    for name in sorted({crate(f) for f in FILES}):
        answers = lemmas = 0
        for path in glob.glob(f"crates/{name}/proofs/**/*.antt", recursive=True):
            with open(path, encoding="utf-8") as file:
                source = file.read()
            if os.path.basename(path) in ("Answers.antt", "Invariants.antt"):
                answers += len(re.findall(r"^pub [\w'-]+ : goal\.|^abbrev pub [\w'-]+ : goal\.", source, re.M))
            else:
                lemmas += len(re.findall(r"^(?:pub )?[\w'-]+ :(?! goal)", source, re.M))
        yield f"{name}: {answers} answers and invariants, {lemmas} lemmas", []


POINTS = [point_1, point_2, point_3, point_4, point_5, point_6, point_7, point_8]


def main():
    asked = [int(a) for a in sys.argv[1:]]
    for number, point in enumerate(POINTS, 1):
        if asked and number not in asked:
            continue
        print(f"point {number}")
        for what, places in point():
            places = list(places)
            print(f"  {len(places):4} {what}" if number != 8 else f"       {what}")
            if asked:
                for path, line, said in places:
                    print(f"         {path}:{line}: {said[:150]}")


main()
