"""What bench/gate.sh prints. It looks five times a second at the processes of rt: a process counts for the crate that it was called
for, with those that it started itself. A crate of rows that is a program counts as tests. What LLVM takes of a program counts with its
proof, as ./build waits for both; what the second compiler takes, for which nothing waits, stands by itself. What a process did behind the
last look isn't seen: the last line tells how much of all that ran it saw, beside which rt itself, the tests and the programs run.
Interrupted, it prints what it saw until then."""
import os
import re
import resource
import shutil
import signal
import subprocess
import sys
import tempfile
import threading
import time

TICKS = os.sysconf("SC_CLK_TCK")
PARTS = ("library", "tests", "edits", "second")
LOG = "bench/out/gate.log"


def below():
    """Returns the libraries that each crate names in crates.txt, lowest first."""
    found = {}
    with open("crates.txt") as lines:
        for line in lines:
            name, colon, deps = line.split("#")[0].partition(":")
            if colon:
                found[name.split()[0]] = deps.split()
    return found


def is_rows(crate):
    """Returns whether a crate is a program that reads rows of tests."""
    return crate.endswith("_rows") and os.path.exists(f"crates/{crate}/src/main.rt")


def read(path):
    try:
        with open(path, "rb") as file:
            return file.read()
    except OSError:
        return b""


def proofs():
    """Yields each proof of this call that runs now: its process and when that began, its crate, which part of it, and the ticks so far, with those
    of the processes that it started, as long as they run and when it has waited for them."""
    stats, roots = {}, {}
    for pid in filter(str.isdigit, os.listdir("/proc")):
        stat = read(f"/proc/{pid}/stat").rpartition(b")")[2].split()
        if stat:
            stats[pid] = stat
    ours = {str(os.getpid())}
    for pid in sorted(stats, key=lambda it: int(stats[it][19])):
        if stats[pid][1].decode() in ours:
            ours.add(pid)
            words = read(f"/proc/{pid}/cmdline").decode(errors="replace").split("\0")
            if words[0].endswith("/rattle") and "--crate-name" in words:
                roots[pid] = words
    ticks = {pid: sum(map(int, stat[11:15])) for pid, stat in stats.items() if pid in roots}
    for pid in sorted(ticks, key=lambda it: int(stats[it][19]), reverse=True):
        parent = stats[pid][1].decode()
        if parent in roots:
            ticks[parent] = ticks.get(parent, 0) + ticks.pop(pid)
    for pid, used in ticks.items():
        words = roots[pid]
        try:
            is_edit = os.path.basename(os.readlink(f"/proc/{pid}/cwd")).startswith("rt-edit-")
        except OSError:
            continue
        crate = words[words.index("--crate-name") + 1]
        is_second = "--crate-checked" in words and words[words.index("--backend") + 1] == "rattle"
        part = "edits" if is_edit else "second" if is_second else "tests" if "--test" in words or is_rows(crate) else "library"
        yield (pid, stats[pid][19]), crate, part, used


class Watch(threading.Thread):
    def __init__(self):
        super().__init__(daemon=True)
        self.seen, self.is_over = {}, False

    def run(self):
        while not self.is_over:
            for process, crate, part, ticks in proofs():
                ticks = max(ticks, self.seen.get(process, (crate, part, 0))[2])
                self.seen[process] = crate, part, ticks
            time.sleep(0.2)

    def seconds(self):
        sums = {}
        for crate, part, ticks in self.seen.values():
            row = sums.setdefault(crate, dict.fromkeys(PARTS, 0.0))
            row[part] += ticks / TICKS
        return sums


def call(words, folder, log):
    """Runs a command, and lets it end in its own way where this is interrupted."""
    ran = subprocess.Popen(words, cwd=folder, stdin=subprocess.DEVNULL, stdout=log, stderr=subprocess.STDOUT)
    try:
        return ran.wait()
    except KeyboardInterrupt:
        ran.send_signal(signal.SIGINT)
        try:
            ran.wait(60)
        except (subprocess.TimeoutExpired, KeyboardInterrupt):
            ran.kill()
            ran.wait()
        raise


def anew():
    """Returns the word by which rt uses nothing that earlier runs kept; a kit whose rt keeps nothing has none."""
    told = subprocess.run(["rt", "help"], stdout=subprocess.PIPE, stderr=subprocess.STDOUT, text=True, errors="replace").stdout
    return ["--anew"] if "--anew" in told else []


def copy_of(crate, deps, room):
    """Copies a crate and those that it stands on to a folder, without what was made of them, lowest first."""
    needed = {crate}
    for it in reversed(deps):
        if it in needed:
            needed.update(below for below in deps[it] if below in deps)
    needed = [it for it in deps if it in needed]
    for it in needed:
        shutil.copytree(f"crates/{it}", f"{room}/crates/{it}", ignore=shutil.ignore_patterns("out"))
    with open(f"{room}/crates.txt", "w") as lines:
        lines.writelines(f"{it}: {' '.join(deps[it])}\n" for it in needed)
    shutil.copy("HANDLES", room)
    return needed[:-1]


def prove_alone(crate, deps, log):
    """Proves a crate, its tests and its edits from nothing, over built libraries, in a copy whose text is no other's by a line: rt
    begins with what any copy keeps of the same text, else with what stands in out/incremental, which is empty here."""
    with tempfile.TemporaryDirectory(prefix="gate-") as room:
        folder = f"{room}/crates/{crate}"
        status = max([call(["rt", "lib"], f"{room}/crates/{it}", log) for it in copy_of(crate, deps, room)], default=0)
        sources = [f"{at}/{name}" for at, _, names in os.walk(f"{folder}/src") for name in names]
        root = next(it for it in sources if it.endswith(("/src/lib.rt", "/src/main.rt")))
        with open(root, "a") as text:
            text.write(f"// Measured at {time.time()}.\n")
        for words in ([], ["--test"]) if any(b"#[test]" in read(it) for it in sources) else ([],):
            shutil.rmtree(f"{folder}/out", ignore_errors=True)
            os.makedirs(f"{folder}/out/incremental")
            status = status or call(["rt", "check", *words, "--jobs", "1"], folder, log)
        return status or call(["rt", "must-fail", *anew(), crate], room, log)


def longest(deps, sums):
    """Returns the chain of libraries that takes longest, one after the other, and its seconds."""
    chains = {}
    for crate, under in deps.items():
        best = max([chains[it] for it in under if it in chains], default=(0.0, []))
        chains[crate] = best[0] + sums.get(crate, {}).get("library", 0.0), [*best[1], crate]
    return max(chains.values())


def reckoned(deps, sums, lanes, is_gate):
    """Returns the seconds that so many processors would take by the clock, one proof on each, in rt's order: first what the longest chain of
    proofs waits for, and edits where nothing else can run. Without is_gate it is the libraries of the programs alone, as ./build proves them."""
    tasks, behind = {}, {}
    needed = {it for it in deps if os.path.exists(f"crates/{it}/src/main.rt") and not is_rows(it)}
    for crate in reversed(deps):
        if crate in needed:
            needed.update(deps[crate])
    for crate in deps:
        row = sums.get(crate, dict.fromkeys(PARTS, 0.0))
        under = [(it, "library") for it in deps[crate] if it in deps]
        if is_gate or crate in needed:
            tasks[crate, "library"] = row["library"], under
        if is_gate and row["tests"]:
            tasks[crate, "tests"] = row["tests"], under
        if is_gate and row["second"]:
            tasks[crate, "second"] = row["second"], [(crate, "tests" if is_rows(crate) else "library")]
        if is_gate and row["edits"]:
            # the crate once more, over which they are tried, and then they
            first = min(row["library"], row["edits"])
            tasks[crate, "seed"] = first, under
            tasks[crate, "edits"] = row["edits"] - first, [(crate, "seed"), (crate, "library")]
    for key in reversed(tasks):
        behind[key] = behind.get(key, 0.0) + tasks[key][0]
        for it in tasks[key][1]:
            behind[it] = max(behind.get(it, 0.0), behind[key] if key[1] in ("library", "tests") else 0.0)
    left = sorted(tasks, key=lambda it: (it[1] in ("second", "seed", "edits"), -behind[it]))
    now, running, done = 0.0, [], set()
    while left or running:
        for key in [it for it in left if done.issuperset(tasks[it][1])][: lanes - len(running)]:
            left.remove(key)
            running.append((now + tasks[key][0], key))
        running.sort()
        now, key = running.pop(0)
        done.add(key)
    return now


def main(names):
    deps = below()
    unknown = [it for it in names if it not in deps]
    if unknown:
        sys.exit(f"gate.sh: crates.txt has no {unknown[0]}")
    os.makedirs("bench/out", exist_ok=True)
    watch, begun = Watch(), time.time()
    signal.signal(signal.SIGTERM, signal.default_int_handler)
    signal.signal(signal.SIGINT, signal.default_int_handler)
    watch.start()
    try:
        with open(LOG, "w") as log:
            status = max([prove_alone(it, deps, log) for it in names]) if names else call(["rt", "ci", *anew()], ".", log)
    except KeyboardInterrupt:
        status = 130
        print("# interrupted: what was seen until then")
    watch.is_over = True
    watch.join()
    used = resource.getrusage(resource.RUSAGE_CHILDREN)
    sums = watch.seconds()
    seen = sum(sum(row.values()) for row in sums.values())
    print(f"# {'crate':<16} " + " ".join(f"{part:>8}" for part in PARTS))
    rows = [it for it in deps if it in (names or sums)]
    for crate in rows:
        row = sums.get(crate, dict.fromkeys(PARTS, 0.0))
        print(f"{crate:<18} " + " ".join(f"{row[part]:8.0f}" for part in PARTS))
    of = {part: sum(sums.get(it, {}).get(part, 0.0) for it in rows) for part in PARTS}
    print(f"# {'all, minutes':<16} " + " ".join(f"{of[part] / 60:8.1f}" for part in PARTS) + f", together {sum(of.values()) / 60:.1f}")
    if not names:
        seconds, chain = longest(deps, sums)
        print(f"# longest chain of libraries: {seconds / 60:.1f} minutes, {' > '.join(chain)}")
        for lanes in (2, 4):
            whole, build = (reckoned(deps, sums, lanes, is_gate) / 60 for is_gate in (True, False))
            print(f"# reckoned from these for {lanes} processors: the gate {whole:.0f} minutes, ./build {build:.0f}")
    last = re.sub(r"\s+", " ", read(LOG).decode(errors="replace").strip().rpartition("\n")[2])
    print(f"# by the clock {(time.time() - begun) / 60:.1f} minutes on {len(os.sched_getaffinity(0))} processors; {last[:90]} (all of it: {LOG})")
    if status != 130:
        print(f"# all that ran took {(used.ru_utime + used.ru_stime) / 60:.1f} minutes, of which {seen / 60:.1f} were proofs that were looked at")
    return status


if __name__ == "__main__":
    os.chdir(os.path.join(os.path.dirname(os.path.abspath(__file__)), ".."))
    sys.exit(main(sys.argv[1:]))
