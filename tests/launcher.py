"""Checks of the script sopcook, in a repository of its own and with a stand-in for rt that proves nothing."""
import os
import shutil
import stat
import subprocess
import tempfile
import time

# Counts its runs, and does as the file 'mode' says: leaves a program, fails, or ends well without making one.
STAND_IN = """#!/bin/sh
echo "$PWD $*" >>"$HOME/runs"
echo "what rt says"
case $(cat "$HOME/mode") in
fails) exit 1 ;;
makes-nothing) exit 0 ;;
esac
sleep 0.2
mkdir -p out
printf '%s\\n' '#!/bin/sh' 'echo "in $PWD"' 'for word; do echo "word $word"; done' 'exit 4' >out/sopcook
chmod +x out/sopcook
"""


class Repository:
    """A small repository with the script, and the stand-in on its PATH."""

    def __init__(self, top, folder):
        self.top, self.home = os.path.join(folder, "here"), folder
        for part in ("src", "specs", "proofs"):
            os.makedirs(f"{self.top}/crates/sopcook/{part}")
        self.write("here/crates.txt", "sopcook:\n")
        self.write("here/crates/sopcook/src/main.rt", "\n")
        self.write("here/crates/sopcook/proofs/Lib.antt", "\n")
        os.makedirs(f"{folder}/bin")
        self.write("bin/rt", STAND_IN)
        os.chmod(f"{folder}/bin/rt", stat.S_IRWXU)
        self.mode("makes")
        shutil.copy(f"{top}/sopcook", f"{self.top}/sopcook")

    def write(self, path, text):
        with open(f"{self.home}/{path}", "w", encoding="utf-8") as file:
            file.write(text)

    def mode(self, mode):
        self.write("mode", mode)

    def runs(self):
        """How many times rt was called."""
        if not os.path.exists(f"{self.home}/runs"):
            return 0
        with open(f"{self.home}/runs", encoding="utf-8") as file:
            return len(file.readlines())

    def start(self, *words, folder="", script="here/sopcook"):
        streams = {"stdin": subprocess.DEVNULL, "stdout": subprocess.PIPE, "stderr": subprocess.PIPE}
        variables = {"PATH": f"{self.home}/bin:/usr/bin:/bin", "HOME": self.home}
        words = [f"{self.home}/{script}", *words]
        return subprocess.Popen(words, cwd=folder or self.home, env=variables, text=True, **streams)

    def call(self, *words, **where):
        """Status, standard output and standard error of one call."""
        started = self.start(*words, **where)
        try:
            out, err = started.communicate(timeout=30)
        except subprocess.TimeoutExpired:
            started.kill()
            return "no answer in 30 s"
        return started.returncode, out, err


def builds_once(repository):
    first, second = repository.call("a b", "*"), repository.call()
    folder = os.path.realpath(repository.home)
    if first[:2] != (4, f"in {folder}\nword a b\nword *\n") or "built in" not in first[2]:
        return f"the first call gave {first}"
    if second != (4, f"in {folder}\n", "") or repository.runs() != 1:
        return f"the second call gave {second}, and rt ran {repository.runs()} times"
    return ""


def builds_after_a_change(repository):
    repository.call()
    for count, path in enumerate(("crates.txt", "crates/sopcook/src/main.rt", "crates/sopcook/proofs/Lib.antt"), 2):
        time.sleep(0.02)
        os.utime(f"{repository.top}/{path}")
        answer = repository.call()
        if answer[0] != 4 or repository.runs() != count:
            return f"after a change of {path}: {answer}, and rt ran {repository.runs()} times"
    os.remove(f"{repository.top}/crates/sopcook/proofs/Lib.antt")
    repository.call()
    return "" if repository.runs() == 5 else "a file that was removed is not seen"


def ends_with_70(repository):
    repository.call()
    for mode in ("fails", "makes-nothing"):
        repository.mode(mode)
        os.utime(f"{repository.top}/crates.txt")
        status, out, err = repository.call()
        if (status, out) != (70, "") or "what rt says" not in err:
            return f"where rt {mode}: status {status}, out {out!r}, err {err!r}"
    return ""


def is_found_through_a_link(repository):
    os.symlink("here/sopcook", f"{repository.home}/link")
    os.makedirs(f"{repository.home}/else where")
    answer = repository.call("x", folder=f"{repository.home}/else where", script="link")
    folder = os.path.realpath(f"{repository.home}/else where")
    return "" if answer[:2] == (4, f"in {folder}\nword x\n") else f"got {answer}"


def lets_a_second_build_wait(repository):
    one, other = repository.start(), repository.start()
    said = [it.communicate(timeout=60) for it in (one, other)]
    statuses = one.returncode, other.returncode
    if statuses != (4, 4) or repository.runs() != 1:
        return f"statuses {statuses}, rt ran {repository.runs()} times, {said}"
    return ""


def checks(top):
    """Gives each check as its name and a function that says why it fails, or nothing."""
    for name, check in [
        ("builds once, and keeps folder and words", builds_once),
        ("builds after a change", builds_after_a_change),
        ("a failed build ends with 70", ends_with_70),
        ("works through a link, from elsewhere", is_found_through_a_link),
        ("a second build waits", lets_a_second_build_wait),
    ]:
        yield name, lambda check=check: in_repository(top, check)


def in_repository(top, check):
    with tempfile.TemporaryDirectory() as folder:
        return check(Repository(top, folder))
