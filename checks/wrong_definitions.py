#!/usr/bin/env python3
"""Tries wrong definitions against the laws of runs. A law has no body that could be wrong, so this makes a definition of a
book wrong and sees that the law is no longer proved. The books stay as they are: every module that rests on the definition is
copied into the crate of the law, in a scratch clone of the repository, and the definition is changed in the copy. Not part of
the gate. usage: checks/wrong_definitions.py [NAME..], at the top, after 'bash .ci/run' (it keeps what this needs)."""
import os, re, subprocess, sys, tempfile

# name: the crate of laws, the module, the definition as it stands, and the wrong one
WRONG = {
    "unedited": ("event_laws", "sse_base.specs.Choice", "is_above s None = true", "is_above s None = true"),
    "an_arrow_too_many": ("event_laws", "sse_base.specs.Arrows", "arrow state mv = None",
                          "arrow Running Enable = Some Enabled\narrow state mv = None"),
    "completion_keeps_the_frame": ("event_laws", "sse_base.specs.Calls", "  stack = complete r.stack;",
                                   "  stack = record (complete r.stack) { frames = r.stack.frames };"),
    "equal_urgency_goes_first": ("event_laws", "sse_base.specs.Choice",
                                 "is_above s (Some top) = is_more_urgent (urgency_of s) top",
                                 "is_above s (Some top) = if is_more_urgent top (urgency_of s) then false else true"),
    "amended_without_sret": ("context_laws", "board_plan.specs.Amend",
                             "amend_by note.Sret d ids k = if length ids == d then after_sret k else k",
                             "amend_by note.Sret d ids k = k"),
}

NAMED = re.compile(r"Rattle\.[A-Za-z_0-9]+\.(?:specs|proofs)(?:\.[A-Za-z_0-9]+)+")


def modules_of(crates):
    """The file of each module, by its name."""
    found = {}
    for crate in os.listdir(crates):
        for kind in ("specs", "proofs"):
            base = f"{crates}/{crate}/{kind}"
            for folder, _, files in os.walk(base):
                for name in files:
                    if name.endswith(".antt"):
                        place = os.path.relpath(f"{folder}/{name}", base)[:-5].replace(os.sep, ".")
                        found[f"Rattle.{crate}.{kind}.{place}"] = f"{folder}/{name}"
    return found


def imports(path, modules):
    """The modules that a file imports."""
    found = set()
    with open(path) as lines:
        for line in lines:
            for name in NAMED.findall(line) if "use Rattle." in line else ():
                while name and name not in modules:
                    name = name.rpartition(".")[0]
                if name:
                    found.add(name)
    return found


def resting_on(changed, law, crates, modules):
    """The modules below a crate of laws that rest on one, itself among them."""
    graph = {name: imports(path, modules) for name, path in modules.items()}
    todo = [name for name in modules if name.startswith(f"Rattle.{law}.")]
    for name in os.listdir(f"{crates}/{law}/src"):
        todo += imports(f"{crates}/{law}/src/{name}", modules)
    reached = set()
    while todo:
        name = todo.pop()
        if name not in reached:
            reached.add(name)
            todo += graph[name]
    rests = {changed}
    while True:
        more = {name for name in reached - rests if graph[name] & rests}
        if not more:
            return rests
        rests |= more


def copy_book(crates, law, changed, old, new):
    """Copies what rests on a module into the crate of laws, with one definition changed there."""
    modules = modules_of(crates)
    copied = [name for name in resting_on(changed, law, crates, modules) if not name.startswith(f"Rattle.{law}.")]
    names = {name: "Copy" + "".join(part[:1].upper() + part[1:] for part in re.split(r"[._]", name)[1:]) for name in copied}

    def renamed(text):
        for name in sorted(copied, key=len, reverse=True):
            text = re.sub(re.escape(name) + r"(?![A-Za-z_0-9])", f"Rattle.{law}.specs.{names[name]}", text)
        return text

    for folder, _, files in os.walk(f"{crates}/{law}"):
        for name in files:
            if name.endswith((".antt", ".rt")) and "/out" not in folder:
                with open(f"{folder}/{name}") as file:
                    text = file.read()
                with open(f"{folder}/{name}", "w") as file:
                    file.write(renamed(text))
    os.makedirs(f"{crates}/{law}/specs", exist_ok=True)
    for name in copied:
        with open(modules[name]) as file:
            text = file.read()
        if name == changed:
            if text.count(old) != 1:
                sys.exit(f"{changed}: the definition to change stands there {text.count(old)} times")
            text = text.replace(old, new)
        with open(f"{crates}/{law}/specs/{names[name]}.antt", "w") as file:
            file.write(renamed(text))
    with open(f"{crates}/{law}/specs/Lib.antt", "a") as file:
        file.write("".join(f"pub mod {names[name]}\n" for name in copied))


def main():
    top = os.path.dirname(os.path.dirname(os.path.abspath(__file__)))
    failed = False
    with tempfile.TemporaryDirectory() as scratch:
        subprocess.run(["git", "clone", "-q", top, f"{scratch}/repo"], check=True)
        for name in sys.argv[1:] or WRONG:
            law, module, old, new = WRONG[name]
            crates = f"{scratch}/repo/crates"
            for words in (["checkout", "-q", "crates"], ["clean", "-fdq", "crates"]):
                subprocess.run(["git", "-C", f"{scratch}/repo", *words], check=True)
            copy_book(crates, law, f"Rattle.{module}", old, new)
            said = subprocess.run(["rt", "check"], cwd=f"{crates}/{law}", capture_output=True, text=True)
            lines = (said.stdout + said.stderr).splitlines()
            first = [line for line in lines if ": error:" in line and "that depend" not in line][:1]
            is_proved = said.returncode == 0
            failed |= is_proved != (name == "unedited")
            print(f"{name}: {'proved' if is_proved else 'refused'} {first[0][:150] if first else ''}", flush=True)
    sys.exit(failed)


if __name__ == "__main__":
    main()
