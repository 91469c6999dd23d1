#!/usr/bin/env python3
"""Turns a proof that walks the code, proofs/F/Proof.antt, into today's Invariants.antt and Answers.antt.

usage: python3 tools/answers.py CRATE-FOLDER NAMES [F ..]    NAMES is the names.json of `rt check --generated .. --old-names`

It goes by text. Answers that the check finds alone are dropped. What it cannot turn stays in the file behind a line `-- by hand: ..`, and is told.
"""

import json
import os
import re
import sys

NAME = r"[A-Za-z_ℕ⊎≢≡◌λ][A-Za-z0-9_'·₀-₉⁰-⁹⁻¹ℕ⊎-]*"
TOKEN = re.compile(rf"(?<![A-Za-z0-9_'·ℕ⊎₀-₉.-]){NAME}(?:\.[A-Za-z0-9_'·₀-₉-]+)*")
TRIVIAL = re.compile(r"\(?(?:λ\s+[\w\sκ']+\.\s*)?(?:search\s+(?:rules|needs)|omega\s+arith|tt|free|parts\.free|Shared\.free)\)?$")


# Names of calls that a script took for names of the library.
GARBLED = {"type_size": "size_of"}

READ_NOW = re.compile(rf"\(now ((?:{NAME})(?:\.[\w'-]+)*)\)|(?<![\w.])now ((?:{NAME})(?:\.[\w'-]+)*)")


def flat(word):
    word = GARBLED.get(word.replace("-", "_"), word.replace("-", "_"))
    return word[:-4] if word.endswith("_lem") else re.sub(r"_lem(\d+)$", r"\1", word)


def parts_of(text):
    """Splits the arguments of a call: words, and groups in brackets."""
    found, i = [], 0
    while i < len(text):
        if text[i].isspace():
            i += 1
            continue
        start, depth = i, 0
        while i < len(text) and (depth or not text[i].isspace()):
            if text[i] in "([{":
                depth += 1
            if text[i] in ")]}":
                depth -= 1
                if depth < 0:
                    return found + [text[start:i]] * (start < i)
            i += 1
        found.append(text[start:i])
    return found


def blocks_of(text):
    """Splits a file into its comment lines, use lines and declarations: (name, lines)."""
    blocks, waiting = [], []
    for line in text.rstrip("\n").split("\n"):
        if not line.strip():
            continue
        if line.startswith("--"):
            waiting.append(line)
            continue
        if line[0].isspace():
            blocks[-1][1].append(line)
            continue
        words = line.split()
        if words[0] == "use" or words[:2] == ["pub", "use"]:
            blocks.append(["use", [line], waiting])
        else:
            while words[0] in ("pub", "abbrev", "unfoldable"):
                words.pop(0)
            name = words[0]
            if name == "unfolding":
                blocks[-1][1].append(line)
                waiting = []
                continue
            if blocks and blocks[-1][0] == name:
                blocks[-1][1].append(line)
                waiting = []
                continue
            blocks.append([name, [line], waiting])
        waiting = []
    return blocks


def scopes(body, names):
    """Where the body binds a name: for each such name the stretches in which it is that variable."""
    found = {}
    for m in re.finditer(r"\(([^()\[\]{}λ.:,→=]+) :|λ( [^()\[\]{}λ.:,→=]+)\.(?=\s)", body):
        for p in (m[1] or m[2]).split():
            if names is not None and p not in names:
                continue
            depth, i = 0, m.start()
            if m[1]:
                # the group in brackets itself ends first
                while i < len(body):
                    depth += body[i] in "([{"
                    depth -= body[i] in ")]}"
                    i += 1
                    if not depth:
                        break
            while i < len(body):
                depth += body[i] in "([{"
                depth -= body[i] in ")]}"
                if depth < 0:
                    break
                i += 1
            found.setdefault(p, []).append((m.start(), i))
    return found


class Function:
    def __init__(self, crate, path, names):
        self.crate, self.path, self.names = crate, path, names
        self.told, self.lemmas = [], set()
        self.old_places = {it[0]: it for it in names["places"]}
        self.new_place = {it[0]: new for it, new in zip(names["places"], names["places_by_name"])}
        self.typed = {it[0]: dict((b, a) for a, b in t) for it, t in zip(names["places"], names["typed"])}
        self.args = {a: b.split(" .")[-1] for a, b in names["args"]}
        self.arms = {it[0]: arm for it, arm in zip(names["places"], names["arms"])}
        self.needs = names["needs"]
        self.at = [a for a, b in names["asked_at"]]

    def tell(self, text):
        self.told.append(text)

    def arm(self, place, words):
        """The path of what a step of an arm gives, as today's arms have it."""
        at, wanted = place, [flat(it) for it in words]
        while at:
            arm = self.arms.get(at)
            if arm:
                for new, old, path in arm[2]:
                    n = 1 + len(path)
                    if path and flat(old) == wanted[0] and [flat(it) for it in path] == wanted[1:n]:
                        return [arm[0], new, *words[n:]]
            at = self.old_places[at][1]
        return None

    def place(self, word):
        """The old place of this name."""
        if word in self.old_places:
            return word
        for it in self.old_places:
            if flat(it) == flat(word):
                return it
        return None

    def field(self, place, word):
        """The new name of a field that the old record of a place, or one before it, has, and whether it is a place's own."""
        at = place
        while at:
            it = self.old_places[at]
            if it[2][0] and flat(it[2][0]) == flat(word):
                return it[2][1], it[2][0]
            at = it[1]
        return None, None

    def resolve(self, words, place, is_view=True):
        """Walks `before` and the first field: returns ('place', P) or ('path', new words)."""
        words = list(words)
        top = place if is_view else None
        while words and words[0] == "before":
            parent = self.old_places[place][1]
            if parent is None:
                break
            place = parent
            words.pop(0)
        if not words:
            return "place", place
        if words[0] == "well-formed":
            words[0] = "well_formed"
        if words[0] in ("args", "ranges") and len(words) > 1:
            words[1] = self.args.get(f".{words[0]} .{words[1]}", words[1])
        arm = self.arm(place, words)
        if arm:
            return "path", arm
        new, old = self.field(place, words[0])
        if new:
            if old.startswith("shared_slice_known") or "known" in old:
                if words[1:2] == ["given"]:
                    var = self.typed.get(top, {}).get(old)
                    if var:
                        return "path", ["type_inv", var, *words[2:]]
            words[0] = new
        return "path", words

    def above(self, place, high):
        """How many steps the place `high` is above a place."""
        n = 0
        while place != high:
            place = self.old_places[place][1]
            n += 1
            if place is None:
                return None
        return n

    def body(self, text, place, base="c", is_view=True):
        """Rewrites the paths in a body whose variable `base` is of the place."""
        aliases, arguments = {base: (base, place)}, set()
        whole = lambda at: ".".join([base, *["before"] * (self.above(place, at) + is_view)])
        out, i = "", 0
        pattern = re.compile(rf"let ({NAME}) = ({NAME}(?:\.[A-Za-z0-9_'·₀-₉-]+)*) in\b[ ]?|{TOKEN.pattern}")
        hidden = scopes(text, None)
        if not is_view:
            hidden.pop(base, None)
        for m in pattern.finditer(text):
            first = (m[1] or m[0]).split(".")[0]
            if not m[1] and any(a <= m.start() < b for a, b in hidden.get(first, ())):
                out += text[i : m.end()]
                i = m.end()
                continue
            out += text[i : m.start()]
            i = m.end()
            if m[1]:
                words = m[2].split(".")
                if words[0] in aliases:
                    base_var, at = aliases[words[0]]
                    kind, got = self.resolve(words[1:], at, is_view)
                    if kind == "place":
                        aliases[m[1]] = (base_var, got)
                        continue
                    aliases.pop(m[1], None)
                    if got == ["args"]:
                        arguments.add(m[1])
                    out += f"let {m[1]} = {'.'.join([base_var, *got])} in" + (" " if m[0].endswith(" ") else "")
                    continue
                aliases.pop(m[1], None)
                out += m[0]
                continue
            words = m[0].split(".")
            if words[0] in arguments and len(words) > 1:
                words[1] = self.args.get(f".args .{words[1]}", words[1])
                out += ".".join(words)
                continue
            if words[0] in aliases:
                base_var, at = aliases[words[0]]
                if len(words) == 1:
                    out += whole(at)
                    continue
                kind, got = self.resolve(words[1:], at, is_view)
                if kind == "place":
                    out += whole(got)
                else:
                    out += ".".join([base_var, *got])
                continue
            out += m[0]
        out += text[i:]
        # A line that has only what a dropped let left.
        # The test of a negation says today what the call returned.
        out = re.sub(r"\(not-(?:true|false) _ ([\w']+\.if-not-[A-Za-z0-9_'-]+\.(?:true|false))\)", r"\1", out)
        lines = [it.rstrip() for it in out.split("\n")]
        return "\n".join(it for k, it in enumerate(lines) if it or not k)


def invariant(fn, name, lines):
    """Returns the new lines of an invariant or a measure, or None."""
    text = "\n".join(lines)
    m = re.search(rf"(?s)\n{re.escape(name)}((?: [^\s=]+)*) =(.*)", text)
    if not m:
        return None
    kind = "invariant" if name.startswith("invariant") else "decreases"
    tail = name.split("_", 1)[1] if "_" in name else name.split("-", 1)[1]
    loops = fn.names["loops"]
    index = None
    for k, (label, _) in enumerate(loops):
        if flat(label[0]) == flat(tail):
            index = k
    if index is None:
        index = 0 if len(loops) == 1 else None
    if index is None:
        return None
    (old, new), variables = loops[index]
    changed = fn.names["changed"][index]
    params = m[1].split()
    mapped = [("l.initial." if c else "l.") + v for v, c in zip(variables, changed)]
    mapped += ["l." + v for v, c in zip(variables, changed) if c]
    if len(mapped) != len(params):
        fn.tell(f"{name}: {len(params)} parameters for {len(mapped)} variables: {mapped}")
        return None
    to = {p: v for p, v in zip(params, mapped) if p != "_"}
    body = m[2]
    hidden = scopes(body, to)
    def turn(it):
        words = it[0].split(".")
        if not any(a <= it.start() < b for a, b in hidden.get(words[0], ())):
            words[0] = to.get(words[0], words[0])
        return ".".join(words)
    body = TOKEN.sub(turn, body)
    unfold = re.findall(r"(?m)^unfolding .*$", text)
    return [f"abbrev pub {kind}-{new} : goal.{kind}-{new}", *unfold, f"{kind}-{new} l ={body}"]


def opened(text, formulas):
    """Writes each use of an invariant or a measure with its arguments in place."""
    for name, (params, body) in formulas.items():
        while True:
            m = re.search(rf"(?<![\w.'-]){re.escape(name)} (?!:)", text)
            if not m:
                break
            rest, args, i = text[m.end() :], [], 0
            while len(args) < len(params) and i < len(rest):
                if rest[i].isspace():
                    i += 1
                    continue
                one = parts_of(rest[i:])
                if not one:
                    break
                args.append(one[0])
                i += len(one[0])
            if len(args) < len(params):
                break
            to = dict(zip(params, args))
            def put(it):
                words = it[0].split(".")
                if words[0] in to:
                    words[0] = to[words[0]]
                return ".".join(words)
            text = text[: m.start()] + "(" + TOKEN.sub(put, " ".join(body.split())) + ")" + rest[i:]
    return text


def turn(crate, folder, names):
    path = os.path.relpath(folder, os.path.join(crate, "proofs")).replace("/", ".")
    fn = Function(crate, path, names)
    name = os.path.basename(os.path.abspath(crate))
    with open(os.path.join(folder, "Proof.antt"), encoding="utf-8") as it:
        text = it.read()
    # The word `now`, which read what a reference refers to, is a field today.
    if re.search(r"use .*[{ ]now[,}]", text):
        text = re.sub(r"(?m)^(use .*[{ ])now(?:, |(?=\}))", r"\1", text)
        text = re.sub(r",? *\}$", "}", text, flags=re.M) if "{}" in text else text
        text = "\n".join(
            it if it.startswith(("--", "use")) else READ_NOW.sub(lambda m: f"{m[1] or m[2]}.now", it)
            for it in text.split("\n")
        )
    blocks = blocks_of(text)
    specs = [b for b in blocks if re.search(r"\btie\.spec\b", "\n".join(b[1]))]
    if len(specs) != 1:
        return None, None, ["no tie.spec"]
    spec = specs[0]
    whole = "\n".join(spec[1])
    args = parts_of(whole[whole.index("tie.spec") + len("tie.spec") :])
    loops = len(names["loops"])
    while args and re.match(r"(invariant|decreases)", args[0]):
        args.pop(0)
    invariants, answers, renamed, header = [], [], {}, []
    if len(args) != len(fn.needs):
        fn.tell(f"{len(args)} arguments for {len(fn.needs)} goals: {[a for a, b in fn.needs]}")
    by_old = {}
    for k, (old, new) in enumerate(fn.needs):
        by_old.setdefault(flat(old), k)
    # which declaration answers which goal
    answered, inline = {}, []
    for k, arg in enumerate(args[: len(fn.needs)]):
        bare = arg.strip()
        if TRIVIAL.match(bare):
            continue
        if re.fullmatch(NAME, bare):
            answered.setdefault(bare, []).append(k)
            continue
        m = re.match(r"(?s)\(λ\s+([^\s.]+)((?:\s+[^\s.]+)*)\.\s?(.*)\)$", bare)
        if m:
            inline.append((k, m[1], re.sub(r"^ κs", "", " ".join(["", *m[2].split()])), m[3]))
            continue
        m = re.match(rf"(?s)\(({NAME})( .*)\)$", bare)
        inline.append((k, "c", "", f"{bare} c"))
    for block, lines, above in blocks:
        m = re.search(r": tie\.Need-([A-Za-z0-9_'-]+)", lines[0])
        if m and block != "use":
            goals = lambda name: [k for k, (old, new) in enumerate(fn.needs) if flat(old) == flat(name)]
            ks = goals(m[1]) or goals(re.sub(r"^overflow[_-]", "", m[1]))
            if ks and block in answered:
                answered[block] = ks[:1] + [k for k in answered[block] if k not in ks and len(args) == len(fn.needs)]
            elif ks and not TRIVIAL.match(block):
                answered[block] = ks[:1]
            elif block not in answered:
                fn.tell(f"{block}: no goal {m[1]}")
    if len(args) != len(fn.needs) and inline:
        fn.tell(f"inline answers by place: {[fn.needs[k][1] for k, _, _, _ in inline]}")
    uses = []
    for block, lines, above in blocks:
        if block == "use":
            header += above
            for it in lines:
                it = re.sub(r",? *(?:[\w.]+\.)?Statement\.statement|,? *(?:Shared|Judged)\.free(?=[,}])", "", it)
                it = re.sub(r"(?<=\{), *", "", it)
                if re.search(r"\.Tie as tie$|Statement\.\{statement\}|\{free\}|\{\}", it):
                    continue
                it = re.sub(r"(?<=[{ ])needs(?=[,}])", "rules", it)
                uses.append(it)
    decl = [b for b in blocks if b[0] != "use" and b is not spec]
    formulas = {}
    for block, lines, above in decl:
        if re.match(r"(invariant|decreases)[_-]loop", block) and "tie." in lines[0]:
            m = re.search(rf"(?s)\n{re.escape(block)}((?: [^\s=]+)*) =(.*)", "\n".join(lines))
            if m:
                formulas[block] = m[1].split(), m[2]
    # the goals that declarations answer get their names
    goal_of = {}
    for block, lines, above in decl:
        if block in answered:
            goal_of[block] = [fn.needs[k][1] for k in answered[block]]
    made_names = {b: g[0] for b, g in goal_of.items()}
    ties = []
    extra = []
    for block, lines, above in decl:
        if re.match(r"(invariant|decreases)[_-]loop", block) and "tie." in lines[0]:
            got = invariant(fn, block, lines)
            if got is None:
                fn.tell(f"{block}: not turned")
                got = ["-- by hand: " + it for it in lines]
            invariants.append("\n".join(above + got))
            continue
        if block in answered and "tie.Need" in lines[0]:
            first = answered[block][0]
            for k in answered[block]:
                new = fn.needs[k][1]
                place = fn.at[k]
                unfold = [it for it in lines[1:] if it.startswith("unfolding")]
                clauses = [it for it in lines[1:] if not it.startswith("unfolding")]
                source = opened("\n".join(clauses), formulas)
                made = []
                for one in re.split(rf"(?m)^(?={re.escape(block)} )", source):
                    if not one.strip():
                        continue
                    m = re.match(rf"(?s){re.escape(block)} ([^\s=]+)((?: [^=\n]*?)?) =(.*)", one)
                    if not m:
                        m = re.match(rf"(?s){re.escape(block)} (=)()(.*)", one)
                        made += [f"-- by hand: {it}" for it in one.split("\n")]
                        fn.tell(f"{block}: not turned")
                        continue
                    done = fn.body(m[3].rstrip("\n"), place, m[1])
                    done = done if done.startswith("\n") else " " + done.lstrip()
                    rest = re.sub(r"^ κs", "", m[2])
                    made.append(f"{new} {m[1]}{rest} ={done}")
                answers.append("\n".join([*above, f"pub {new} : goal.{new}", *unfold, *made]))
            continue
        # a helper of its own
        source = "\n".join(lines)
        typed = re.findall(rf"\(({NAME}) : tie\.([A-Za-z0-9_'-]+)(?: invariant_\w+ decreases_\w+)*\)", source)
        if typed and len({v for v, _ in typed}) == 1:
            var, word = typed[0]
            place = fn.place(word)
            if place:
                more = "".join(f" goal.the-invariant-{new} goal.the-decreases-{new}" for (old, new), _ in fn.names["loops"])
                named = re.compile(r"tie\.[A-Za-z0-9_'-]+(?: invariant_\w+ decreases_\w+)*(?=\))")
                source = named.sub(lambda it: f"steps.{place} tie.the-claims reads.Pre reads.Post" + (more if " " in it[0] else ""), source)
                source = fn.body(source, place, var, is_view=False)
                ties.append(block)
            else:
                fn.tell(f"{block}: the place {word}")
        elif "tie." in source:
            fn.tell(f"{block}: names tie")
        answers.append("\n".join([*above, source]))
    for k, var, rest, text in inline:
        new = fn.needs[k][1]
        done = fn.body(opened(text, formulas), fn.at[k], var)
        answers.append(f"pub {new} : goal.{new}\n{new} {var}{rest} =" + (done if done.startswith("\n") else " " + done.lstrip()))
    def respell(it):
        return re.sub(rf"(?<![\w.'-])({'|'.join(map(re.escape, made_names))})(?![\w'-])", lambda m: made_names[m[1]], it) if made_names else it
    full = "\n\n".join(answers)
    if re.search(r"(?<![\w.-])invariant_loop", full):
        fn.tell("an answer names the invariant")
    modules = f"Rattle.{name}.proofs.{path}"
    answers_text = invariants_text = None
    if fn.lemmas:
        uses.append(f"use borrow.Author.Tests.{{{', '.join(sorted(fn.lemmas))}}}")
    if answers:
        more = [f"use {modules}.{it}" for it in ("Tie as tie", "Reads as reads", "Lts as steps")] * bool(ties)
        answers_text = "\n".join([*header, *uses, f"use {modules}.Goals as goal", *more]) + "\n\n" + full + "\n"
    if invariants:
        invariants_text = "\n".join([*header, *uses, f"use {modules}.Given as goal"]) + "\n\n" + "\n\n".join(invariants) + "\n"
    return answers_text, invariants_text, fn.told


def main(argv):
    crate, listed, only = argv[0], argv[1], argv[2:]
    with open(listed, encoding="utf-8") as it:
        names = json.load(it)
    name = os.path.basename(os.path.abspath(crate))
    for folder, dirs, files in sorted(os.walk(os.path.join(crate, "proofs"))):
        if "Proof.antt" not in files:
            continue
        path = os.path.relpath(folder, os.path.join(crate, "proofs")).replace("/", ".")
        if only and path not in only:
            continue
        key = f"Rattle-{name}-proofs.{path}.Lts"
        if key not in names:
            print(f"{path}: no names")
            continue
        try:
            answers, invariants, told = turn(crate, folder, names[key])
        except Exception as error:
            print(f"{path}: {type(error).__name__} {error}")
            continue
        if told == ["no tie.spec"]:
            print(f"{path}: no tie.spec")
            continue
        for text, to in ((answers, "Answers.antt"), (invariants, "Invariants.antt")):
            if text:
                with open(os.path.join(folder, to), "w", encoding="utf-8") as it:
                    it.write(text)
        os.remove(os.path.join(folder, "Proof.antt"))
        if not answers and not invariants:
            os.rmdir(folder)
        for it in told:
            print(f"{path}: {it}")
    return 0


if __name__ == "__main__":
    raise SystemExit(main(sys.argv[1:]))
