"""What crates.txt and tools/weights say, and how long rt works on each crate: for tools/build and tools/weight."""
import os

TOP = os.path.dirname(os.path.dirname(os.path.realpath(__file__)))
PROGRAM = "nm_cmd"


def rows(file):
    """The lines of a text file but blank ones and comments."""
    with open(f"{TOP}/{file}", encoding="utf-8") as text:
        return [it.rstrip("\n") for it in text if it.strip() and not it.startswith("#")]


def lines_of_crates():
    """The line of each crate in crates.txt, lowest first."""
    return {line.split(":")[0].split()[0]: line for line in rows("crates.txt")}


def crates_below():
    """Of each crate the crates of this repository that it names, lowest first."""
    lines = lines_of_crates()
    return {name: [it for it in line.partition(":")[2].split() if it in lines] for name, line in lines.items()}


def chain_of(name):
    """The crates that a crate stands on, and itself, lowest first."""
    below, found = crates_below(), {name}
    for it in reversed(below):
        if it in found:
            found.update(below[it])
    return [it for it in below if it in found]


class Weight:
    """Processor seconds of a crate, its proof and its edits: the lines of the budget, and what was measured or None."""

    def __init__(self, proof_line, edits_line, proof=None, edits=None):
        self.proof_line, self.edits_line, self.proof, self.edits = proof_line, edits_line, proof, edits

    def of_proof(self):
        return self.proof_line if self.proof is None else self.proof


def weights():
    """The weight of each crate that tools/weights names."""
    found = {}
    for line in rows("tools/weights"):
        name, *numbers = line.split()
        found[name] = Weight(*[None if it == "-" else int(it) for it in numbers])
    return found


def processes():
    """Of each process its start, its parent, and the processor seconds of itself and of the children that it waited for."""
    found, tick = {}, os.sysconf("SC_CLK_TCK")
    for pid in filter(str.isdigit, os.listdir("/proc")):
        try:
            with open(f"/proc/{pid}/stat", encoding="utf-8", errors="replace") as file:
                fields = file.read().rpartition(")")[2].split()
        except OSError:
            continue  # it has ended
        found[int(pid)] = fields[19], int(fields[1]), sum(map(int, fields[11:15])) / tick
    return found


def work_of(pid):
    """Which crate a process works on, and at what: its proof (with that of its tests) or its edits. Of others None."""
    try:
        with open(f"/proc/{pid}/cmdline", "rb") as file:
            words = file.read().decode(errors="replace").split("\0")
        folder = os.readlink(f"/proc/{pid}/cwd")
    except OSError:
        return None
    if os.path.basename(words[0]) != "rattle" or "--crate-name" not in words[:-1]:
        return None
    return words[words.index("--crate-name") + 1], "edits" if "/rt-edit-" in folder else "proof"


class Meter:
    """The processor seconds of a command by crate, seen from outside: rt starts a process `rattle` for each check or build of a
    crate. What a process does after the last look at it is missed, so look often."""

    def __init__(self, pid):
        self.pid, self.seen = pid, {}

    def look(self):
        every, below = processes(), {}
        for pid, (_, parent, _) in every.items():
            below.setdefault(parent, []).append(pid)
        left = [(self.pid, None)]
        now = {}
        while left:
            pid, key = left.pop()
            if key is None and pid != self.pid and work_of(pid):
                key = pid, every[pid][0], *work_of(pid)
            if key:
                now[key] = now.get(key, 0) + every[pid][2]
            left += [(it, key) for it in below.get(pid, [])]
        for key, seconds in now.items():
            self.seen[key] = max(seconds, self.seen.get(key, 0))

    def seconds(self):
        """The seconds so far of each crate and work."""
        found = {}
        for (_, _, name, work), seconds in self.seen.items():
            found[name, work] = found.get((name, work), 0) + seconds
        return found
