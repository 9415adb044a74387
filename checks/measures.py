#!/usr/bin/env python3
"""measures.py: sizes and shapes of the house, by crate and in all. The crates of tests (*_tests) count apart.

A function is counted with its clauses; its body is the lines between its braces. Repetition is told by another tool."""
import pathlib
import re
import sys

TOP = pathlib.Path(__file__).resolve().parent.parent
FN = re.compile(r"^(\s*)(?:pub(?:\([a-z]+\))? )?(?:const )?(?:unsafe )?fn (\w+)")


def files(crate, folder, ending):
    return sorted((TOP / "crates" / crate / folder).rglob(f"*{ending}"))


def lines(paths):
    return [line for path in paths for line in path.read_text().split("\n")[:-1]]


def parameters(text):
    """How many parameters a signature's text has; the brackets of types don't count, and self does."""
    depth, count, some = 0, 0, False
    for before, sign in zip(" " + text, text):
        if sign in "([{<":
            depth += 1
            if depth == 1:
                if sign == "<":
                    return parameters(behind_types(text))
                continue
        elif sign in ")]}" or (sign == ">" and before != "-"):
            depth -= 1
            if depth == 0:
                return count + some
        if depth == 1 and sign == ",":
            count, some = count + some, False
        elif depth >= 1 and not sign.isspace():
            some = True
    return count


def behind_types(text):
    depth = 0
    for place, sign in enumerate(text):
        if sign == "<":
            depth += 1
        elif sign == ">" and text[place - 1] != "-":
            depth -= 1
            if depth == 0:
                return text[place + 1 :]
    return text


def is_end(line, indent, is_first):
    """Whether a signature ends with this line: by the brace of a body, or by the semicolon of a declaration."""
    if is_first and line.endswith(("{", "{}")):
        return True
    return line == indent + "{" or line.endswith(";") or (line.startswith(indent + ")") and line.endswith("{"))


def functions(path):
    """Each function of a file: name, parameters, clauses, lines of its body and its deepest level."""
    text = path.read_text().split("\n")
    for start, line in enumerate(text):
        found = FN.match(line)
        if not found:
            continue
        indent = found[1]
        opens = next((at for at in range(start, len(text)) if is_end(text[at], indent, at == start)), start)
        head = "\n".join(text[start : opens + 1])
        clauses = len(re.findall(r"^\s*(?:requires|ensures)\b", head, re.M))
        signature = head[found.end() :]
        if text[opens].rstrip().endswith(";"):
            yield found[2], parameters(signature), clauses, 0, 0
            continue
        ends = next((n for n in range(opens + 1, len(text)) if text[n] == indent + "}"), opens)
        body = text[opens + 1 : ends]
        depth = max([(len(it) - len(it.lstrip()) - len(indent)) // 4 for it in body if it.strip() and it.strip()[0] not in "})]"], default=0)
        yield found[2], parameters(signature), clauses, len(body), depth


def main():
    names = [line.split(":")[0].split()[0] for line in (TOP / "crates.txt").read_text().split("\n") if line.strip() and line[0] != "#"]
    house = [name for name in names if not name.endswith("_tests")]
    sources = {name: files(name, "src", ".rt") for name in house}
    found = {name: [(path, *it) for path in sources[name] for it in functions(path)] for name in house}
    every = [it for name in house for it in found[name]]
    text = lines([path for name in house for path in sources[name]])
    bodies = [it[4] for it in every if it[4]]
    clauses = [line for line in text if re.match(r"^\s*(?:requires|ensures)\b", line)]
    specs = lines([path for name in house for path in files(name, "specs", ".antt")])
    proofs = lines([path for name in house for path in files(name, "proofs", ".antt")])
    print(f"crates {len(house)}, files {sum(map(len, sources.values()))}, lines {len(text)}, functions {len(every)}")
    print(f"bodies: mean {sum(bodies) / len(bodies):.1f}, longest {max(bodies)}, over 25 {sum(it > 25 for it in bodies)}, over 40 {sum(it > 40 for it in bodies)}")
    print(f"levels: deepest {max(it[5] for it in every)}, functions of 4 or more {sum(it[5] >= 4 for it in every)}")
    print(f"parameters: most {max(it[2] for it in every)}, functions of more than 8: {sum(it[2] > 8 for it in every)}")
    print(f"clauses: most {max(it[3] for it in every)}, functions of more than 12: {sum(it[3] > 12 for it in every)}; over 100 columns {sum(len(it) > 100 for it in clauses)} of {len(clauses)}, over 160: {sum(len(it) > 160 for it in clauses)}, widest {max(map(len, clauses))}")
    a_thousand = lambda pattern: f"{1000 * sum(len(re.findall(pattern, it)) for it in text) / len(text):.1f}"
    print(f"in 1,000 lines: clones {a_thousand(r'[.]clone[(][)]')}, loops over an index {a_thousand(r'for [a-z_]+ in [^ ]*[.][.]')}, casts {a_thousand(r' as [ui](?:8|16|32|64|128|size)')}")
    print(f"for 100 lines of source: {100 * len(specs) / len(text):.0f} of definitions, {100 * len(proofs) / len(text):.0f} of proofs")
    sizes = sorted(len(path.read_text().split("\n")) - 1 for name in house for path in sources[name])
    print(f"a file: median {sizes[len(sizes) // 2]}, nine of ten under {sizes[len(sizes) * 9 // 10]}, longest {sizes[-1]}")
    print(f"comments: {100 * sum(it.strip().startswith('//') for it in text) / len(text):.1f} % of the lines")
    for name in house:
        size = sum(len(path.read_text().split("\n")) - 1 for path in sources[name])
        if len(found[name]) > 100 or size > 1500:
            print(f"over 100 functions or 1,500 lines: {name}: {len(found[name])}, {size}")
    if "--over" in sys.argv:
        for path, name, count, clauses_of, body, _ in every:
            if count > 8 or clauses_of > 12 or body > 40:
                print(f"{path.relative_to(TOP)} {name}: parameters {count}, clauses {clauses_of}, body {body}")


if __name__ == "__main__":
    main()
