#!/usr/bin/env python3
"""Lists the lines of src/ in which an older form of code may stand.

usage: python3 tools/places.py FORM [COMMIT]      COMMIT is the working tree where it is not given

Each form has the patterns that find its lines. A line that is found is a place to read, not a verdict: docs/DESIGN-PASS.md says what became of it.
"""

import collections
import re
import subprocess
import sys

FORMS = {
    # an arm that hands an Option or a Result on, a bool for whether something was done, a flag among fields, a number for a kind
    "option": [
        r"^\s*(Ok\(.*\)|Err\(.*\)|Some\(.*\)|None) => (return )?(Ok|Err|Some|None)\b",
        r"^\s*(pub )?fn (put|replace|fill)\b.*-> bool",
        r"-> Result<(Result|Option)<|-> (anyhow::)?Result<Option<Outcome>>|-> Option<Outcome>",
        r"^\s*make: Make,$|^\s*(pub )?full: bool|\bslots: \[u\d+; 16\],|-> Result<i32",
        r"^\s*Refused\(Refusal\),$",
    ],
    # a loop over an index, and a place that is moved on by hand
    "loop": [r"^\s*(for .* in [^{]*(\.\.|enumerate\(\))|while |loop \{)", r"^\s*(at|end) [+-]= "],
    # conversion, comparison and printing by hand
    "convert": [
        r"\bfn (name|number|numbered|node_numbered|number_of|peer_of|way_from|role_of|role_number|at_node|told|done|refused|signed|yes_no|of)\b",
        r"=> (true|false),$",
        r"\bas (u8|u16|u32|u64|usize|char)\b|== 1[,;]?$",
    ],
    # an array, a length or a Vec held by a struct or handed on
    "buffer": [
        r"^\s*(pub )?\w+: (\[\w+; \w+\]|Vec<.*>),$",
        r"^\s*(pub )?(len|used|first): usize,$",
    ],
    # a macro, a function or a trait object as a value, a match on which thing to do
    "switch": [
        r"macro_rules!|\bdyn |: fn\(",
        r"^\s*(let \w+ = )?match (make|link|verb|placement|what|op|act|command|node_numbered\(.*)\b",
    ],
}


def files(commit):
    command = ["git", "ls-files"] if commit is None else ["git", "ls-tree", "-r", "--name-only", commit]
    names = subprocess.run(command, capture_output=True, text=True, check=True).stdout.split("\n")
    for name in names:
        if re.match(r"crates/\w+/src/.*\.rt$", name):
            if commit is None:
                yield name, open(name).read()
            else:
                show = ["git", "show", f"{commit}:{name}"]
                yield name, subprocess.run(show, capture_output=True, text=True, check=True).stdout


def by_lines(form, commit):
    found = 0
    for name, text in files(commit):
        for number, line in enumerate(text.split("\n"), 1):
            if not line.lstrip().startswith("//") and any(re.search(p, line) for p in FORMS[form]):
                print(f"{name}:{number}: {line.strip()}")
                found += 1
    print(f"{found} lines")


def twins(commit):
    """Functions, types and impls of four lines and more, clauses and comments apart, that are alike but for names, numbers and strings."""
    alike = collections.defaultdict(list)
    for name, text in files(commit):
        text = re.sub(r"^\s*//.*\n", "", text, flags=re.M)
        item = r"^(?=(( *)(?:pub(?:\(crate\))? )?(?:fn|struct|enum|impl)\b[^;{]*\n?(?:.*\n)*?\2\}$))"
        for match in re.finditer(item, text, re.M):
            whole = match.group(1)
            if whole.count("\n") < 3 or "=> " in whole and whole.count("=> ") > 6:
                continue
            code = re.sub(r"^\s*(requires|ensures|ghost)\b.*$", "", whole, flags=re.M)
            shape = re.sub(r'b?"[^"]*"|b?\'[^\']*\'|\b\d\w*\b', "0", code)
            shape = re.sub(r"\b(?!fn|struct|enum|impl|match|for|in|if|else|return|let|mut|pub|self|Ok|Err|Some|None)[A-Za-z_]\w*", "x", shape)
            alike[re.sub(r"\s+", " ", shape)].append(f"{name}: {whole.strip().splitlines()[0]}")
    groups = [where for where in alike.values() if len(where) > 1]
    for where in groups:
        print(f"{len(where)} alike: " + " | ".join(where))
    print(f"{len(groups)} groups")


def together(commit):
    """Three or more parameters by the same names and types in three or more functions; a clause, or a fact of a field, in three or more."""
    groups = collections.defaultdict(set)
    clauses = collections.defaultdict(set)
    for name, text in files(commit):
        for match in re.finditer(r"\bfn (\w+)(?:<[^(]*>)?\(([^{]*?)\)(?: ->|\s*\n|\s*\{|;)", text):
            parameters = re.findall(r"(\w+: [^,]+)", match.group(2))
            for start in range(len(parameters) - 2):
                groups[tuple(parameters[start : start + 3])].add(f"{name}: {match.group(1)}")
        for match in re.finditer(r"^\s*(requires|ensures|ghost)[ \w]*:? ?\{ (.*) \},?$", text, re.M):
            for part in re.split(r"\) × \(", match.group(2)):
                clauses[(match.group(1), re.sub(r"length \w+ ≡ \d+", "length _ ≡ _", part.strip("() ")))].add(f"{name}:{match.start()}")
    found = 0
    for group, where in sorted(groups.items()):
        if len(where) >= 3:
            found += 1
            print(f"{len(where)} functions: {', '.join(group)}: {', '.join(sorted(where))}")
    for (word, clause), where in sorted(clauses.items()):
        if len(where) >= 3:
            found += 1
            print(f"{len(where)} functions: {word} {clause}")
    print(f"{found} groups")


if __name__ == "__main__":
    form, commit = sys.argv[1], sys.argv[2] if len(sys.argv) > 2 else None
    {"together": together, "twins": twins}.get(form, lambda commit: by_lines(form, commit))(commit)
