"""Document 02, P2: "no function it reaches calls itself, even through others", of the layout with a pending area.

Reads the calls from the code that the kit keeps of each proved library, the file toolchain/mir.json of its folder. `rust/build-library --code` has those folders made: of
the crates below lister_c in crates/*/out/rlib, of lister_c itself, which is a static library, elsewhere; those of the kit's own libraries are in the kit. A call of a
generic function, or one that is given a closure, counts as a call of each method of the impls that it names too: these are what it may come to call. The first layout,
which does call itself, shows that such a function is found. The last line is 'N passed, M failed'.
"""
import json
import os
import subprocess
import sys
import tempfile

# The kit's own libraries.
KIT = os.path.join(os.path.dirname(subprocess.run(["rt", "doc"], check=True, capture_output=True, text=True).stdout.strip()), "rlibs")
TOP = os.path.dirname(os.path.dirname(os.path.abspath(__file__)))
# A call, and the functions that it reaches and that call themselves.
CALLS = (
    ("lister::layout_pending", []),
    ("lister_c::tilusorgu_layout_pending", []),
    ("lister::layout", ["layout::rows::lay_out"]),
)
# What stands in a function's code beside calls.
NO_CALLS = {"Seq", "Skip", "Assign", "LendStatic", "If", "Switch", "Block", "Loop", "Exit", "Return", "Unreachable"}


def impls_in(said):
    """The impls that a call names, those inside the types and impls of others too."""
    if isinstance(said, dict):
        if "Impl" in said:
            yield said["Impl"][0]
        said = said.values()
    if not isinstance(said, str) and hasattr(said, "__iter__"):
        for part in said:
            yield from impls_in(part)


def calls_in(name, body):
    """The functions that a function calls, and the impls that it names."""
    found, impls = set(), set()
    for step in body:
        (head, said), = [(step, None)] if isinstance(step, str) else step.items()
        if head == "Call":
            # A method of a type parameter is one of an impl that some caller names.
            assert "Fn" in said[0] or "Method" in said[0], "%s: a call of another form: %s" % (name, step)
            found |= {said[0]["Fn"][0]} if "Fn" in said[0] else set()
            impls |= set(impls_in(said[0]))
        else:
            assert head in NO_CALLS, "%s: a step of another form: %s" % (name, step)
    return found, impls


class Code:
    """The code of lister_c, and of the crates and libraries that it calls: read when it is asked for."""

    def __init__(self, alone):
        self.alone, self.crates, self.found = alone, {}, {}

    def crate(self, crate):
        """The functions of a crate, each with its body."""
        if crate not in self.crates:
            own = os.path.join(TOP, "crates", crate)
            library = self.alone if crate == "lister_c" else os.path.join(own, "out", "rlib") if os.path.isdir(own) else KIT
            with open(os.path.join(library, "" if crate == "lister_c" else crate + ".rlib", "toolchain", "mir.json"), encoding="utf-8") as f:
                self.crates[crate] = {name: code["body"] for name, code in json.load(f)}
        return self.crates[crate]

    def calls(self, name):
        """The functions that a function may call."""
        if name not in self.found:
            direct, impls = calls_in(name, self.crate(name.split("::")[0])[name])
            methods = {f for impl in impls for f in self.crate(impl.split("::")[0]) if f.rpartition("::")[0] == impl}
            self.found[name] = direct | methods
        return self.found[name]

    def reached(self, name):
        """The functions that a call of one may come to; it is among them itself only if it calls itself, perhaps through others."""
        found, left = set(), [name]
        while left:
            for callee in self.calls(left.pop()) - found:
                found.add(callee)
                left.append(callee)
        return found

    def in_cycles(self, name):
        return sorted(f for f in self.reached(name) | {name} if f in self.reached(f))


def main():
    passed = failed = 0
    with tempfile.TemporaryDirectory() as folder:
        alone = os.path.join(folder, "lister_c")
        subprocess.run([os.path.join(TOP, "rust", "build-library"), "--code", alone], check=True)
        code = Code(alone)
        for name, expected in CALLS:
            found = code.in_cycles(name)
            print("%s reaches of functions that call themselves: %s" % (name, ", ".join(found) or "none"))
            passed, failed = (passed + 1, failed) if found == expected else (passed, failed + 1)
    print("%d passed, %d failed" % (passed, failed))
    sys.exit(failed > 0)


if __name__ == "__main__":
    main()
