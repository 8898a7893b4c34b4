#!/usr/bin/env python3
"""Compares the public clauses of two commits: what each public call requires and ensures.

    clauses.py [--all] [--show] [--at REPOSITORY] BEFORE AFTER

A public call is a `pub fn`, a method of a `pub trait`, and a method that implements a trait and has clauses of its own. A call is known by
its type or trait and its name; the same call in another crate counts as moved. Prints how many calls and clauses each commit has, and each call
and clause that is removed, changed or added. A clause that only moved or got other spaces is the same; one whose name changed and whose text
is the same counts as renamed. --all takes every fn with clauses, --show prints the texts. Of a crate of generated or ghost methods nothing is known.

BEFORE and AFTER are commits, or `.` for the working tree. Ends with 1 where a clause was removed or changed.
"""

import argparse
import collections
import re
import subprocess
import sys

WORD = re.compile(r"[A-Za-z_][A-Za-z_0-9]*")


def git(at, *words):
    return subprocess.run(["git", "-C", at, *words], capture_output=True, text=True, check=True).stdout


def files(at, commit):
    """The sources of a commit, by their paths."""
    if commit == ".":
        names = git(at, "ls-files", "-co", "--exclude-standard", "crates/*.rt").split("\n")
        found = {}
        for name in filter(None, names):
            try:
                found[name] = open(f"{at}/{name}", encoding="utf-8").read()
            except FileNotFoundError:
                pass
        return found
    names = [name for name in git(at, "ls-tree", "-r", "--name-only", commit, "crates").split("\n") if name.endswith(".rt")]
    batch = subprocess.run(
        ["git", "-C", at, "cat-file", "--batch"], input="".join(f"{commit}:{name}\n" for name in names).encode(), capture_output=True, check=True
    ).stdout
    found, place = {}, 0
    for name in names:
        end = batch.index(b"\n", place)
        size = int(batch[place:end].split()[2])
        found[name] = batch[end + 1 : end + 1 + size].decode()
        place = end + 2 + size
    return found


def bare(text):
    """The text without comments; strings and characters are kept where they can't hold a brace, and blanked where they do."""
    out, at = [], 0
    while at < len(text):
        if text.startswith("//", at):
            end = text.find("\n", at)
            at = len(text) if end < 0 else end
        elif text.startswith("/*", at):
            at = text.index("*/", at) + 2
        elif text[at] == '"':
            end = at + 1
            while text[end] != '"':
                end += 2 if text[end] == "\\" else 1
            out.append(re.sub(r"[{}();]", "_", text[at : end + 1]))
            at = end + 1
        elif re.match(r"b?'(\\.[^']*|[^\\'])'", text[at : at + 12]):
            found = re.match(r"b?'(\\.[^']*|[^\\'])'", text[at : at + 12]).group(0)
            out.append(re.sub(r"[{}();]", "_", found))
            at += len(found)
        else:
            out.append(text[at])
            at += 1
    return "".join(out)


def balanced(text, at):
    """The place after the brace that closes the one at `at`."""
    depth = 0
    while True:
        if text[at] == "{":
            depth += 1
        elif text[at] == "}":
            depth -= 1
            if not depth:
                return at + 1
        at += 1


def plain(text):
    return " ".join(text.split())


def header(text):
    """What an `impl` or a `trait` is of: the words that name it."""
    text = re.sub(r"\bwhere\b.*", "", plain(text))
    return re.sub(r"^(pub(\([a-z]+\))? )?(unsafe )?(trait (\w+).*|impl\s*(<.*?>)?\s*(?=\w|&|\[|\())", lambda m: m.group(5) or "", text).strip()


def calls(path, text, every):
    """Each call of a file, its name beside its clauses by kind and name."""
    crate = path.split("/")[1]
    text = bare(text)
    found, stack, start, at = [], [], 0, 0
    while at < len(text):
        letter = text[at]
        word = WORD.match(text, at) if (letter.isalpha() or letter == "_") and not (at and (text[at - 1].isalnum() or text[at - 1] == "_")) else None
        if word and word.group(0) == "fn" and WORD.match(text, word.end() + 1):
            before = text[start:at]
            name = WORD.match(text, word.end() + 1)
            clauses, at, body = signature(text, name.end())
            held = next((head for head in reversed(stack) if head is not None), None)
            public = bool(re.search(r"\bpub\s*(?:(?:const|unsafe)\s+)*$", before))
            of_trait = held is not None and (held[0] == "pub trait" or (held[0] == "impl for" and clauses))
            if public or of_trait or (every and clauses):
                found.append(((crate, held[1] if held else "", name.group(0)), clauses))
            at = balanced(text, at) if body else at + 1
            start = at
        elif word:
            at = word.end()
        elif letter == "{":
            head = plain(text[start:at])
            kind = None
            if re.search(r"(^|\s)trait \w", head):
                kind = ("pub trait" if re.search(r"(^|\s)pub (unsafe )?trait ", head) else "trait", header(head[head.index("trait ") :]))
            elif re.search(r"(^|\s|\])impl\b", head):
                head = head[re.search(r"\bimpl\b", head).start() :]
                kind = ("impl for" if " for " in head else "impl", header(head))
            if kind or re.search(r"(^|\s)mod \w+$", head):
                stack.append(kind)
                at += 1
            else:
                at = balanced(text, at)
            start = at
        elif letter == "}":
            stack and stack.pop()
            at += 1
            start = at
        else:
            at += 1
            if letter == ";":
                start = at
    return found


def signature(text, at):
    """The clauses of a signature, the place where its body begins, and whether it has one."""
    clauses = collections.OrderedDict()
    unnamed = collections.Counter()
    depth = 0
    while True:
        letter = text[at]
        word = WORD.match(text, at) if (letter.isalpha() or letter == "_") else None
        if word and word.group(0) in ("requires", "ensures") and not depth:
            kind = word.group(0)
            opened = text.index("{", word.end())
            name = plain(text[word.end() : opened])
            closed = balanced(text, opened)
            if not name:
                unnamed[kind] += 1
                name = f"({unnamed[kind]})"
            clauses[kind, name] = plain(text[opened + 1 : closed - 1])
            at = closed
        elif word:
            at = word.end()
        elif letter in "([":
            depth += 1
            at += 1
        elif letter in ")]":
            depth -= 1
            at += 1
        elif letter == "{" and not depth:
            return clauses, at, True
        elif letter == ";" and not depth:
            return clauses, at, False
        else:
            at += 1


def all_calls(at, commit, every):
    found = {}
    for path, text in files(at, commit).items():
        for key, clauses in calls(path, text, every):
            number = 2
            place = key
            while place in found:
                place = (*key, number)
                number += 1
            found[place] = clauses
    return found


def said(key):
    crate, of, name, *rest = key
    return f"{crate} {of + '::' if of else ''}{name}" + (f" ({rest[0]})" if rest else "")


def pairs(before, after):
    """The calls of both, a call that moved to another crate beside itself."""
    both = [(key, key) for key in before if key in after]
    gone = [key for key in before if key not in after]
    new = [key for key in after if key not in before]
    moved = []
    for key in gone:
        same = [other for other in new if other[1:] == key[1:]]
        if len(same) == 1:
            moved.append((key, same[0]))
            new.remove(same[0])
    for old, _ in moved:
        gone.remove(old)
    return both, moved, gone, new


def main():
    parser = argparse.ArgumentParser(description=__doc__, formatter_class=argparse.RawDescriptionHelpFormatter)
    parser.add_argument("--all", action="store_true", help="every fn with clauses")
    parser.add_argument("--show", action="store_true", help="print the texts")
    parser.add_argument("--at", default=".", help="the repository")
    parser.add_argument("before")
    parser.add_argument("after")
    given = parser.parse_args()
    before, after = (all_calls(given.at, commit, given.all) for commit in (given.before, given.after))
    both, moved, gone, new = pairs(before, after)
    lines = {"removed": [], "changed": [], "renamed": [], "added": []}
    for old, now in both + moved:
        was, now_is = before[old], after[now]
        lost = [clause for clause in was if clause not in now_is]
        more = [clause for clause in now_is if clause not in was]
        for clause in was:
            if clause in now_is and was[clause] != now_is[clause]:
                lines["changed"].append((now, clause, was[clause], now_is[clause]))
        for clause in lost:
            same = [other for other in more if other[0] == clause[0] and now_is[other] == was[clause]]
            if same:
                more.remove(same[0])
                lines["renamed"].append((now, clause, "", f"{same[0][1]}"))
            else:
                lines["removed"].append((now, clause, was[clause], ""))
        lines["added"] += [(now, clause, "", now_is[clause]) for clause in more]
    for commit, found in ((given.before, before), (given.after, after)):
        print(f"{commit}: {len(found)} calls, {sum(map(len, found.values()))} clauses")
    print(f"calls: {len(gone)} removed, {len(moved)} moved, {len(new)} added")
    for word, keys in (("removed", gone), ("added", new)):
        for key in keys:
            print(f"  {word}  {said(key)}, {len((before if word == 'removed' else after)[key])} clauses")
    for old, now in moved:
        print(f"  moved  {said(old)} -> {said(now)}")
    print("clauses: " + ", ".join(f"{len(found)} {word}" for word, found in lines.items()))
    for word, found in lines.items():
        for key, (kind, name), was, now in found:
            print(f"  {word}  {said(key)}: {kind} {name}" + (f" -> {now}" if word == "renamed" else ""))
            if given.show and word != "renamed":
                was and print(f"      - {was}")
                now and print(f"      + {now}")
    sys.exit(bool(gone or lines["removed"] or lines["changed"]))


main()
