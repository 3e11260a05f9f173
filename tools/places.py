#!/usr/bin/env python3
"""Counts the places of docs/DESIGN-PASS.md in src/.

    tools/places.py [COMMIT] [--list]

COMMIT  counts them as that commit has them; without it, as the files are
--list  prints each place
"""
import re
import subprocess
import sys
from collections import defaultdict


def sources(commit):
    if commit:
        names = subprocess.run(["git", "ls-tree", "-r", "--name-only", commit, "crates"], capture_output=True, text=True, check=True).stdout.split("\n")
    else:
        names = subprocess.run(["git", "ls-files", "crates"], capture_output=True, text=True, check=True).stdout.split("\n")
    for name in names:
        if "/src/" in name and name.endswith(".rt"):
            text = subprocess.run(["git", "show", f"{commit}:{name}"], capture_output=True, text=True, check=True).stdout if commit else open(name).read()
            yield name, text


def bare(text):
    return re.sub(r"//[^\n]*", "", text)


def enums(text):
    for match in re.finditer(r"enum (\w+)(?:<[^>]*>)? \{(.*?)\n\}", bare(text), re.S):
        variants = re.findall(r"(\w+)(\([^()]*(?:\([^()]*\)[^()]*)*\))?(?: = \d+)?,", match.group(2))
        yield match.group(1), variants


def is_option_or_result(variants):
    names = {name for name, _ in variants}
    with_fields = {name for name, fields in variants if fields}
    if len(variants) == 2 and with_fields:
        return True
    return bool(with_fields & {"Refused", "End"}) or names == {"Yes", "No", "WrongBookLength", "ScratchTooShort"}


def functions(text):
    text = bare(text)
    for match in re.finditer(r"\bfn (\w+)", text):
        start = match.start()
        open_brace = None
        at, brackets = match.end(), 0
        while at < len(text):
            char = text[at]
            brackets += {"[": 1, "]": -1}.get(char, 0)
            if char == "{" and text[:at].rstrip().endswith(("requires", "ensures")) or (char == "{" and re.search(r"(requires|ensures)( \w+)? $", text[max(0, at - 40):at])):
                depth, at = 1, at + 1
                while depth:
                    depth += {"{": 1, "}": -1}.get(text[at], 0)
                    at += 1
                continue
            if char == "{":
                open_brace = at
                break
            if char == ";" and brackets == 0:
                break
            at += 1
        if open_brace is None:
            continue
        depth, at = 1, open_brace + 1
        while depth and at < len(text):
            depth += {"{": 1, "}": -1}.get(text[at], 0)
            at += 1
        yield match.group(1), text[start:open_brace], text[open_brace:at]


def shape(body):
    """The body with each name and number replaced by the order in which it comes."""
    seen, out = {}, []
    keep = {"let", "mut", "while", "for", "in", "if", "else", "match", "return", "true", "false", "as", "self"}
    for token in re.findall(r"[A-Za-z_][\w:]*|\d+|[^\s\w]", body):
        if re.match(r"[A-Za-z_\d]", token) and token not in keep:
            token = f"#{seen.setdefault(token, len(seen))}"
        out.append(token)
    return tuple(out)


def facts(head):
    for match in re.finditer(r"requires(?: \w+)? \{ (.*?) \}\n", head):
        depth, part = 0, ""
        for char in match.group(1) + "×":
            depth += {"(": 1, ")": -1}.get(char, 0)
            if char == "×" and depth == 0:
                fact = part.strip()
                while fact.startswith("(") and fact.endswith(")"):
                    fact = fact[1:-1]
                yield re.sub(r"\b\w+\.(now|old)\b", r"_", re.sub(r"\s+", " ", fact))
                part = ""
            else:
                part += char


def main():
    commit = next((word for word in sys.argv[1:] if not word.startswith("--")), None)
    listed = "--list" in sys.argv
    found = defaultdict(list)
    bodies = defaultdict(list)
    stated = defaultdict(set)
    for name, text in sources(commit):
        crate = name.split("/")[1]
        plain = bare(text)
        for enum, variants in enums(text):
            if is_option_or_result(variants):
                found["1 enums of the shape of Option or Result"].append(f"{crate}::{enum}")
        for struct in re.finditer(r"struct (\w+)(?:<[^>]*>)? \{(.*?)\n\}", plain, re.S):
            for flag in re.findall(r"(\w+): bool,", struct.group(2)):
                found["1 flags with values beside"].append(f"{crate}::{struct.group(1)}.{flag}")
        for space in re.finditer(r"impl (Kind|AnswerKind|Refusal|Tag) \{(.*?)\n\}", plain, re.S):
            for constant in re.findall(r"const (\w+): \w+ = ", space.group(2)):
                found["1 numbers for kinds, refusals and tags"].append(f"{crate}::{space.group(1)}::{constant}")
        for line in re.findall(r"// [^\n]*\b0 where (?:it isn't|they aren't) whole[^\n]*", text):
            found["1 numbers that say none"].append(f"{crate}: {line[3:70]}")
        for line in re.findall(r"// [^\n]*No team's number[^\n]*", text):
            found["1 numbers that say none"].append(f"{crate}: {line[3:70]}")
        for line in re.findall(r"\n( *(?:while (?!let)|loop\b)[^\n]*)", plain):
            found["3 loops by while or loop"].append(f"{name}: {line.strip()}")
        for function, head, body in functions(text):
            if len(re.findall(r"\S", body)) > 40:
                bodies[shape(body)].append(f"{crate}::{function}")
            for fact in facts(head):
                stated[fact].add(f"{crate}::{function}")
            if re.search(r"while [^\n]*\{\n[^\n]*\[\w+\] = (?:\w+|\w+\[\w+(?: \+ \w+)?\]|\w+\[\w+\]);\n[^\n]* \+= 1;\n", body):
                found["4 copying and filling by hand"].append(f"{crate}::{function}")
            if re.search(r"match [a-z]\w* \{\s*0 => [^(\n]*,", body) and function != "try_from" or re.fullmatch(r"(signed|wide|digit|kind_of|read64|read16|read32|put16|put32|put64|tell_flag|tell_clino|tell_phase|byte)", function) and "from_le_bytes" not in body and "to_le_bytes" not in body:
                found["4 conversion and printing by hand"].append(f"{crate}::{function}")
    for group in bodies.values():
        if len(group) > 1:
            found["2 functions alike but for names and numbers"].append(", ".join(group))
    for fact, where in stated.items():
        if len(where) >= 3:
            found["5 facts required by three functions or more"].append(f"{fact}: {len(where)}")
    for point in sorted(found):
        print(f"{point}: {len(found[point])}")
        if listed:
            for place in sorted(found[point]):
                print(f"    {place}")


main()
