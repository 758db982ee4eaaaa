#!/usr/bin/env python3
"""Lists, old and new side by side, what of the repository's promises another commit says otherwise.

usage: tools/changed.py COMMIT     at the repository's root; prints Markdown

Of each public function: its head and each clause that differ. Of each definition, invariant and law in specs/: the definition, or the
law's statement, if it differs by more than the names in NAMES. What is gone or new is listed by name.
"""
import os
import re
import subprocess
import sys

CAUSES = ("wrong_kind too_long incomplete out_of_range wrong_queue not_rewritable bad_mark files_go_back group_absent bad_range entry_compacted "
          "entry_not_found below_first above_last append_left already_rewritten key_goes_back limit_passed list_too_short").split()
# Names of the rules that stand for std's and Cause's cases now.
NAMES = {c: "".join(w.capitalize() for w in c.split("_")) for c in CAUSES}
NAMES.update({"ok": "Ok", "refused": "Err", "none": "None", "some": "Some"})


def flat(text):
    return re.sub(r"\s+", " ", text).replace("( ", "(").replace(", )", ")").replace(" )", ")").strip()


def renamed(text):
    for old, new in NAMES.items():
        text = re.sub(r"(?<![\w'\-.])" + old + r"(?![\w'\-])", new, text)
    return text.replace("number = r.number", "cause = r.cause")


def sources(commit, folder, ending):
    """Path and text of each file of that kind, of a commit or, with none, of the working tree."""
    names = subprocess.run(["git", "ls-tree", "-r", "--name-only", commit or "HEAD", "crates"], capture_output=True, text=True, check=True).stdout.split()
    for name in names:
        if f"/{folder}/" not in name or not name.endswith(ending):
            continue
        if commit:
            yield name, subprocess.run(["git", "show", f"{commit}:{name}"], capture_output=True, text=True, check=True).stdout
        elif os.path.exists(name):
            yield name, open(name).read()


def functions(commit):
    """Each public function's head and clauses by its path."""
    out = {}
    for name, text in sources(commit, "src", ".rt"):
        crate, module, owner = name.split("/")[1], os.path.basename(name)[:-3], ""
        for m in re.finditer(r"^(impl[^\n{]*)\{|^( *)(?:#\[[^\n]*\]\n *)*pub (?:extern \"C\" )?fn (\w+)", text, re.M):
            if m.group(1):
                owner = re.sub(r"^impl(<[^>]*>)? ", "", m.group(1).strip()) + "::"
                continue
            lines = []
            for line in text[text.index("pub ", m.start()):].split("\n"):
                if line.strip() == "{":
                    break
                clause = re.match(r"\s*(requires|ensures|decreases)\b", line)
                if line.endswith("{") and not clause:
                    lines.append(line[:-1])
                    break
                lines.append("\0" + line if clause else line)
            parts = [flat(p) for p in "\n".join(lines).split("\0")]
            path = f"{crate}::" + ("" if module in ("lib", "main") else module + "::") + (owner if m.group(2) else "") + m.group(3)
            out[path] = parts
    return out


def statement(text, name):
    """A law's statement: what stands before its equations."""
    lines = text.split("\n")
    for i, line in enumerate(lines[1:], 1):
        if re.match(r"\s*(unfolding\b|" + re.escape(name) + r"(\s|$))", line):
            return "\n".join(lines[:i])
    return text


def declared(commit):
    """Each definition, and each law's statement, of specs/ by crate and name."""
    out = {}
    for path, text in sources(commit, "specs", ".antt"):
        crate = path.split("/")[1]
        for block in re.split(r"\n\s*\n", text):
            block = "\n".join(l for l in block.split("\n") if not re.match(r"\s*(--|(pub )?(use|mod)\b)", l)).strip("\n")
            m = re.match(r"\s*((?:abbrev |unfoldable |pub |record |data )*)([^\s(){}:]+)", block)
            if not m or not block:
                continue
            law = not re.search(r"abbrev|unfoldable|record|data", m.group(1))
            out.setdefault((crate, m.group(2)), flat(statement(block, m.group(2)) if law else block))
    return out


def sides(title, old, new):
    print(f"- `{title}`\n  - before: `{old}`\n  - now: `{new}`")


def main():
    commit = sys.argv[1]
    old, new = functions(commit), functions(None)
    print("### Public functions\n")
    print("Gone: " + ", ".join(f"`{k}`" for k in sorted(old) if k not in new) + ".\n")
    print("New: " + ", ".join(f"`{k}`" for k in sorted(new) if k not in old) + ".\n")
    for path in sorted(k for k in old if k in new):
        a, b = old[path], new[path]
        left = [p for p in a if p not in b and renamed(p) not in b]
        right = [p for p in b if p not in a and p not in map(renamed, a)]
        if left or right:
            sides(path, "` `".join(left) or " ", "` `".join(right) or " ")
    old, new = declared(commit), declared(None)
    print("\n### Definitions and the statements of laws in specs/\n")
    print("Gone: " + ", ".join(f"`{c}: {n}`" for c, n in sorted(old) if (c, n) not in new) + ".\n")
    print("New: " + ", ".join(f"`{c}: {n}`" for c, n in sorted(new) if (c, n) not in old) + ".\n")
    for crate, name in sorted(k for k in old if k in new):
        a, b = old[crate, name], new[crate, name]
        if a != b and renamed(a) != b:
            sides(f"{crate}: {name}", a, b)


if __name__ == "__main__":
    main()
