#!/usr/bin/env python3
"""Runs bin/mailring over small sources, with a stand-in for rt that builds a program which says what its sources say."""

import os
import shutil
import signal
import subprocess
import sys
import tempfile
import time

TOP = os.path.dirname(os.path.dirname(os.path.abspath(__file__)))
# All that the script calls but rt: no test can reach the true one.
TOOLS = "cmp cp cut find flock grep head mkdir mv readlink rm sed setsid sh sha256sum sleep sort stat tail".split()
# All that it calls where nothing was touched.
FEW_TOOLS = "cmp sh stat".split()
BUILDS = "mailring: proving and building the program, which takes some minutes; later calls start at once\n"
AGAIN = "mailring: a source was changed meanwhile, so this is done once more\n"

# It reads the sources when it begins. While there is a file `hold` it doesn't end, and has a child as rt has the prover.
# Its program is renamed into place: after a killed call two of them end at once, and a file that is written can't be run.
STAND_IN = """#!/bin/sh
echo "$*" >>"$STAND_IN/calls"
text=$(cat src/*.rt specs/* proofs/*/* ../low/src/*.rt | tr '\\n' ' ')
if [ -e "$STAND_IN/hold" ]; then
    sleep 600 &
    echo "$$ $!" >"$STAND_IN/begun.new" && mv "$STAND_IN/begun.new" "$STAND_IN/begun"
    while [ -e "$STAND_IN/hold" ]; do sleep 0.02; done
    kill $!
fi
mkdir -p out
case $text in *wrong*) cat "$STAND_IN/failure" >&2; exit 1 ;; esac
cat >out/mailring.$$ <<END
#!/bin/sh
printf '%s' "$text"
for word; do printf '[%s]' "\\$word"; done
\\$ALSO
cat
exit "\\${STATUS:-0}"
END
chmod +x out/mailring.$$
mv out/mailring.$$ out/mailring
exec out/mailring x
"""

# The end of a true log is long, and has neither goal nor file.
FAILURE = (
    "fn mailring::note::push_text: proved\n"
    "note: src/note.rt:33:1: it is not proved that what the function ensures holds when it returns (`returns-in-Memory`)\n"
    "fn mailring::note::fixed_note: no proof: expected answers in ./proofs/note/fixed_note/Answers.antt; "
    "`search` did not prove `returns-in-Memory`\n"
    "fn mailring::note::write_note: no proof: it calls `mailring::note::fixed_note`, which is not proved\n"
    + "statements std: modules loaded=635 checked=0\n" * 30
    + "rattle build: nothing was built, since only a proved crate is built\n"
)

SOURCES = {
    "crates.txt": "# the crates\nlow:\nother: low\nmailring: low bstr\n",
    "README.md": "a program\n",
    "crates/mailring/src/main.rt": "main\n",
    "crates/mailring/src/note.rt": "note\n",
    "crates/mailring/specs/Notes.antt": "notes\n",
    "crates/mailring/proofs/note/Answers.antt": "answers\n",
    "crates/mailring/must-fail/other_note.edit": "file: src/note.rt\n",
    "crates/low/src/lib.rt": "low\n",
    "crates/other/src/lib.rt": "other\n",
}
SAYS = "main note notes answers low "

passed = 0
failed = 0


def check(name, got, wanted):
    global passed, failed
    if got == wanted:
        passed += 1
    else:
        failed += 1
        print(f"{name}: got {got!r}, wanted {wanted!r}")


def wait_for(name, holds):
    """Waits until something holds, ten seconds at most, and gives whether it does."""
    end = time.monotonic() + 10
    while not holds() and time.monotonic() < end:
        time.sleep(0.01)
    check(name, holds(), True)
    return holds()


def is_alive(process):
    """Whether a process is there, and not only its status."""
    try:
        with open(f"/proc/{process}/stat", encoding="utf-8") as file:
            return file.read().rpartition(")")[2].split()[0] != "Z"
    except FileNotFoundError:
        return False


class Checkout:
    """A checkout of its own, whose path has a blank, and the stand-in beside it."""

    def __init__(self, folder):
        self.top = os.path.join(folder, "a checkout")
        self.tools = os.path.join(folder, "tools")
        self.few_tools = os.path.join(folder, "few-tools")
        self.stand_in = os.path.join(folder, "stand-in")
        # The stand-in and its program call four more.
        for path, tools in (self.tools, [*TOOLS, "cat", "chmod", "tr"]), (self.few_tools, [*FEW_TOOLS, "cat"]):
            os.makedirs(path)
            for tool in tools:
                os.symlink(shutil.which(tool), os.path.join(path, tool))
        for path, text in SOURCES.items():
            self.write(path, text)
        self.write(os.path.join(self.stand_in, "rt"), STAND_IN)
        self.write(os.path.join(self.stand_in, "failure"), FAILURE)
        os.chmod(os.path.join(self.stand_in, "rt"), 0o755)
        os.makedirs(self.path("bin"))
        self.script = shutil.copy(os.path.join(TOP, "bin", "mailring"), self.path("bin"))

    def path(self, *names):
        return os.path.join(self.top, *names)

    def write(self, path, text):
        os.makedirs(os.path.dirname(self.path(path)), exist_ok=True)
        with open(self.path(path), "w", encoding="utf-8") as file:
            file.write(text)

    def start(self, *words, script=None, path=None, **options):
        path = path or f"{self.stand_in}:{self.tools}"
        environment = {"PATH": path, "STAND_IN": self.stand_in, **options.pop("environment", {})}
        streams = {"stdin": subprocess.PIPE, "stdout": subprocess.PIPE, "stderr": subprocess.PIPE, "text": True}
        return subprocess.Popen([script or self.script, *words], env=environment, **streams, **options)

    def call(self, *words, given="", **options):
        """The status, the output and the notes of one call."""
        call = self.start(*words, **options)
        output, notes = call.communicate(given, timeout=20)
        return call.returncode, output, notes

    def calls(self):
        """How often rt was called since this was last asked."""
        path = os.path.join(self.stand_in, "calls")
        if not os.path.exists(path):
            return 0
        with open(path, encoding="utf-8") as file:
            lines = file.read().splitlines()
        os.remove(path)
        check("how rt is called", set(lines), {"run -- x"})
        return len(lines)

    def hold(self):
        """From now on rt doesn't end."""
        self.write(os.path.join(self.stand_in, "hold"), "")

    def release(self):
        os.remove(os.path.join(self.stand_in, "hold"))

    def begun(self):
        """The processes of rt, once it has read the sources."""
        path = os.path.join(self.stand_in, "begun")
        if not wait_for("rt begins", lambda: os.path.exists(path)):
            return []
        with open(path, encoding="utf-8") as file:
            processes = file.read().split()
        os.remove(path)
        return processes

    def made(self):
        """What the script keeps, and the program's bytes."""
        names = sorted(os.listdir(self.path("bin", "out")))
        if "mailring" not in names:
            return names, None
        with open(self.path("bin", "out", "mailring"), "rb") as file:
            return names, file.read()


def test_passes_all_through(checkout):
    check("the first call builds", checkout.call("hello !ring", "a|b", given="mail"), (0, SAYS + "[hello !ring][a|b]mail", BUILDS))
    check("rt is called", checkout.calls(), 1)
    check("a later call starts at once", checkout.call("ring", given="mail"), (0, SAYS + "[ring]mail", ""))
    check("the status", checkout.call(environment={"STATUS": "5"}), (5, SAYS, ""))
    check("from another folder", checkout.call(cwd="/", environment={"ALSO": "pwd"}), (0, SAYS + "/\n", ""))
    check("from its own folder", checkout.call("mailring", script="sh", cwd=checkout.path("bin")), (0, SAYS, ""))
    check("from the folder above", checkout.call(script="bin/mailring", cwd=checkout.top, environment={"CDPATH": "/"}), (0, SAYS, ""))
    link = os.path.join(checkout.tools, "mailring")
    os.symlink(checkout.script, link)
    check("by a link", checkout.call(script=link), (0, SAYS, ""))
    check("from the PATH", checkout.call("-c", "mailring ring", script="sh", cwd="/"), (0, SAYS + "[ring]", ""))
    folder = os.path.join(checkout.tools, "folder")
    os.symlink(checkout.path("bin"), folder)
    check("by a link to its folder", checkout.call(script=os.path.join(folder, "mailring")), (0, SAYS, ""))
    check("rt isn't called again", checkout.calls(), 0)


def test_what_needs_no_build(checkout):
    checkout.call()
    checkout.calls()

    def stays(name):
        check(name, checkout.call(), (0, SAYS, ""))
        check(f"{name}: rt", checkout.calls(), 0)
        check(f"{name}: then without a look at the content", checkout.call(path=checkout.few_tools), (0, SAYS, ""))

    os.utime(checkout.path("crates/mailring/src/note.rt"))
    stays("a newer time of a source")
    checkout.write("crates/low/src/lib.rt", "low\n")
    stays("a source written anew as it was")
    checkout.write("README.md", "another text\n")
    stays("a newer README")
    checkout.write("crates/other/src/lib.rt", "wrong\n")
    stays("the code of a crate that the program doesn't stand on")
    checkout.write("crates/mailring/must-fail/other_note.edit", "file: src/main.rt\n")
    checkout.write("crates/mailring/README.md", "a crate\n")
    stays("files of the program's crate that are no sources")
    checkout.write("crates.txt", "low:\nother: mailring low\nnew:\nmailring: low bstr # and its library\n")
    stays("lines of other crates in crates.txt")
    checkout.write("crates/mailring/src/.note.rt.swp", "wrong\n")
    checkout.write("crates/mailring/src/it's note.rt", "wrong\n")
    stays("what an editor leaves")
    shutil.rmtree(checkout.path("crates/mailring/out"))
    stays("a folder out that was moved away")


def test_what_needs_a_build(checkout):
    checkout.call()
    checkout.calls()

    def is_built(name, says):
        check(name, checkout.call(), (0, says, BUILDS))
        check(f"{name}: rt", checkout.calls(), 1)
        check(f"{name}: then at once", checkout.call(), (0, says, ""))

    note = checkout.path("crates/mailring/src/note.rt")
    before = os.stat(note)
    checkout.write(note, "nose\n")
    os.utime(note, ns=(before.st_atime_ns, before.st_mtime_ns))
    is_built("an edit that keeps size and time", "main nose notes answers low ")
    checkout.write("crates/low/src/lib.rt", "lower\n")
    is_built("an edit of a crate below", "main nose notes answers lower ")
    checkout.write("crates/mailring/specs/Notes.antt", "nodes\n")
    is_built("an edit of a definition", "main nose nodes answers lower ")
    checkout.write("crates/mailring/proofs/note/Answers.antt", "proof\n")
    is_built("an edit of a proof", "main nose nodes proof lower ")
    checkout.write("crates/mailring/proofs/run/Answers.antt", "more\n")
    is_built("a new folder of proofs", "main nose nodes proof more lower ")
    checkout.write("crates/low/proofs/Lemmas.antt", "lemmas\n")
    is_built("the first proofs of a crate", "main nose nodes proof more lower ")
    os.remove(note)
    is_built("a deleted source", "main nodes proof more lower ")
    checkout.write("crates.txt", "low:\nmailring: low\n")
    is_built("a library less in crates.txt", "main nodes proof more lower ")
    checkout.write("crates.txt", "low: lowest\nlowest:\nmailring: low\n")
    checkout.write("crates/lowest/src/lib.rt", "lowest\n")
    is_built("a crate more below", "main nodes proof more lower ")
    checkout.write("crates/lowest/src/lib.rt", "another\n")
    is_built("an edit of that crate", "main nodes proof more lower ")
    checkout.write("bin/out/mailring", "#!/bin/sh\necho another program\n")
    is_built("another program in its place", "main nodes proof more lower ")
    os.remove(checkout.path("bin/out/mailring"))
    is_built("no program", "main nodes proof more lower ")


def test_edits_while_it_builds(checkout):
    def build(edit):
        checkout.hold()
        call = checkout.start()
        checkout.begun()
        edit()
        checkout.release()
        output, notes = call.communicate(timeout=20)
        return call.returncode, output, notes

    def edit_and_undo():
        checkout.write("crates/mailring/src/note.rt", "other\n")
        checkout.write("crates/mailring/src/note.rt", "note\n")

    edited = build(lambda: checkout.write("crates/mailring/src/note.rt", "newer\n"))
    check("an edit while it builds", edited, (0, "main newer notes answers low ", BUILDS + AGAIN))
    check("an edit while it builds: rt", checkout.calls(), 2)
    checkout.write("crates/mailring/src/note.rt", "note\n")
    check("an edit that is undone while it builds", build(edit_and_undo), (0, SAYS, BUILDS + AGAIN))
    check("an edit that is undone while it builds: rt", checkout.calls(), 2)
    check("then it starts at once", checkout.call(), (0, SAYS, ""))

    before = checkout.made()
    checkout.write("crates/mailring/src/main.rt", "first\n")
    status, output, notes = build(lambda: checkout.write("crates/mailring/src/note.rt", "wrong\n"))
    check("an edit while it builds that can't be proved", (status, output), (69, ""))
    check("it is said where", "src/note.rt:33:1" in notes, True)
    check("the program stays", checkout.made()[1], before[1])
    status, output, notes = checkout.call()
    check("the old program isn't run later", (status, output), (69, ""))
    check("what can't be proved is tried again: rt", checkout.calls(), 3)


def test_failed_build(checkout):
    checkout.write("crates/mailring/src/note.rt", "wrong\n")
    status, output, notes = checkout.call("ring")
    check("a failed first build", (status, output, "stays" in notes), (69, "", False))
    checkout.write("crates/mailring/src/note.rt", "note\n")
    check("a build after that", checkout.call(), (0, SAYS, BUILDS))
    names, program = checkout.made()
    check("no log is kept of it", "log" in names, False)

    checkout.write("crates/mailring/src/note.rt", "wrong\n")
    status, output, notes = checkout.call("ring")
    check("a failed build", (status, output), (69, ""))
    log = checkout.path("bin/out/log")
    lines = [
        f"mailring: the program wasn't built; the whole log is {log}",
        *FAILURE.splitlines()[1:3],
        f"mailring: the program that was built before, from other sources, stays: {checkout.path('bin/out/mailring')}",
    ]
    check("it says the goal, the file, the log and the program", notes, BUILDS + "\n".join(lines) + "\n")
    with open(log, encoding="utf-8") as file:
        check("the log is whole", file.read(), FAILURE)
    check("the old program stays", checkout.made(), (sorted([*names, "log"]), program))

    checkout.write(os.path.join(checkout.stand_in, "failure"), "rt: no space is left\n")
    status, output, notes = checkout.call("ring")
    check("a failure of another kind is shown too", (status, "rt: no space is left\n" in notes), (69, True))
    checkout.calls()
    checkout.write("crates/mailring/src/note.rt", "note\n")
    check("the old program serves its own sources", checkout.call(), (0, SAYS, ""))
    check("the old program serves its own sources: rt", checkout.calls(), 0)


def test_toolchain_away(checkout):
    away = "mailring: the program has to be built, and the toolchain's command rt isn't on the PATH\n"
    check("nothing built and no toolchain", checkout.call(path=checkout.tools), (69, "", away))
    checkout.call()
    check("no toolchain", checkout.call("ring", path=checkout.tools), (0, SAYS + "[ring]", ""))
    os.utime(checkout.path("crates/mailring/src/note.rt"))
    check("no toolchain, and a newer time of a source", checkout.call(path=checkout.tools), (0, SAYS, ""))
    before = checkout.made()
    checkout.write("crates/mailring/src/note.rt", "newer\n")
    status, output, notes = checkout.call(path=checkout.tools)
    check("no toolchain, and other sources", (status, output, notes.startswith(away), "stays" in notes), (69, "", True, True))
    check("no toolchain: the old program stays", checkout.made(), before)


def test_interrupts(checkout):
    def interrupted(name, by, number):
        checkout.hold()
        call = checkout.start(start_new_session=True)
        processes = checkout.begun()
        by(call.pid, number)
        call.communicate(timeout=20)
        check(f"{name}: the status", call.returncode, -number)
        wait_for(f"{name}: the children end", lambda: not any(map(is_alive, processes)))
        checkout.release()

    interrupted("an interrupt of the first build", os.killpg, signal.SIGINT)
    check("nothing is left of it", checkout.made(), (["lock"], None))
    check("then it is built", checkout.call(), (0, SAYS, BUILDS))
    before = checkout.made()
    checkout.write("crates/mailring/src/note.rt", "newer\n")
    interrupted("an interrupt from the terminal", os.killpg, signal.SIGINT)
    interrupted("an end from outside", os.kill, signal.SIGTERM)
    interrupted("the terminal is closed", os.killpg, signal.SIGHUP)
    check("all is as it was before", checkout.made(), before)
    check("then it is built anew", checkout.call(), (0, "main newer notes answers low ", BUILDS))

    checkout.write("crates/mailring/src/note.rt", "newest\n")
    checkout.hold()
    call = checkout.start()
    checkout.begun()
    call.kill()
    call.communicate(timeout=20)
    call = checkout.start()
    check("after a call that was killed rt begins again", len(checkout.begun()), 2)
    checkout.release()
    check("after a call that was killed", call.communicate(timeout=20), ("main newest notes answers low ", BUILDS))


def test_two_calls_at_once(checkout):
    checkout.hold()
    first = checkout.start("one")
    checkout.begun()
    second = checkout.start("two")
    note = second.stderr.readline()
    check("the second waits", note, "mailring: waiting for another call, which builds the program\n")
    checkout.release()
    check("the first answers", first.communicate("mail", timeout=20)[0], SAYS + "[one]mail")
    check("the second answers", second.communicate("mail", timeout=20), (SAYS + "[two]mail", ""))
    check("their statuses", (first.returncode, second.returncode), (0, 0))
    check("they build once", checkout.calls(), 1)

    checkout.write("crates/mailring/src/note.rt", "newer\n")
    calls = [checkout.start(str(number)) for number in range(8)]
    answers = [call.communicate(timeout=20)[0] for call in calls]
    check("eight calls answer", answers, [f"main newer notes answers low [{number}]" for number in range(8)])
    check("eight calls build once", checkout.calls(), 1)


def main():
    # Started in the background, this script is given signals that are ignored, and the calls would ignore them too.
    for number in (signal.SIGHUP, signal.SIGINT, signal.SIGTERM):
        signal.signal(number, signal.SIG_DFL)
    for test in [value for name, value in globals().items() if name.startswith("test_")]:
        with tempfile.TemporaryDirectory() as folder:
            test(Checkout(folder))
    print(f"{passed} passed, {failed} failed")
    return 1 if failed else 0


if __name__ == "__main__":
    sys.exit(main())
