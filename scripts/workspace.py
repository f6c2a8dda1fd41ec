"""The crates of this workspace, and how they are proved and built side by side."""
import filecmp
import hashlib
import os
import re
import shutil
import subprocess
import tempfile
from concurrent.futures import FIRST_COMPLETED, ThreadPoolExecutor, wait

EACH = 3_000_000_000
"""The memory that the check of one crate may take, in bytes."""

LONG = 180
"""From how many seconds on two jobs may share the proof of a crate, where a processor is idle."""

PROGRAM = "quads_main"
"""The crate of the program."""


def program_path(root):
    """Returns where the program stands that is built in this checkout, by ./quads or by the gate."""
    return f"{root}/crates/{PROGRAM}/out/{PROGRAM}"


def lines_of(root):
    """Returns the line of each crate in crates.txt."""
    with open(f"{root}/crates.txt", encoding="utf-8") as file:
        lines = [line for line in file if ":" in line.partition("#")[0]]
    return {line.partition(":")[0].split()[0]: line for line in lines}


def crates_of(root):
    """Returns the crates of crates.txt, each with the crates of the repository that it names."""
    lines = lines_of(root)
    return {crate: [part for part in line.partition("#")[0].partition(":")[2].split() if part in lines] for crate, line in lines.items()}


def below(root, *names):
    """Returns these crates and all that they stand on, each behind those that it names."""
    crates, found = crates_of(root), {}

    def take(crate):
        if crate not in found:
            for item in crates[crate]:
                take(item)
            found[crate] = crates[crate]

    for name in names:
        take(name)
    return found


def texts_of(root, crate):
    """Returns the files that a crate is proved and built from."""
    found = []
    for part in ("src", "specs", "proofs"):
        for at, folders, files in os.walk(f"{root}/crates/{crate}/{part}"):
            folders.sort()
            found += [f"{at}/{file}" for file in sorted(files) if file.endswith((".rt", ".antt"))]
    return found


LITERAL = re.compile(
    r"""(?P<literal> b?r(?P<marks>\#*)".*?"(?P=marks) | b?"(?:[^"\\]|\\.)*" | (?<!\w)b?'(?:[^'\\\n]|\\(?:u\{\w+\}|x\w\w|.))' )
    | //[^\n]* | /\*.*?\*/""",
    re.VERBOSE | re.DOTALL,
)
"""A literal of Rattle code, or a comment."""
LAYOUT = re.compile(r"\s+(?=[,;.(){}\[\]])|(?<=[(){}\[\],;])\s+")
"""White space that depends on how lines are broken."""
LAST_COMMA = re.compile(r",(?=[)\]}])")
"""A comma after the last of a list, which stands where the list has lines of its own."""


def bare(code):
    """Returns the parts of Rattle code without comments and without what depends on how its lines are broken: the text before the first literal, the
    literal, and so on. Where two files have the same parts they build the same program."""
    parts, plain, at = [], "", 0
    for found in LITERAL.finditer(code):
        plain += code[at : found.start()] + " "
        at = found.end()
        if found["literal"]:
            parts += [plain, found["literal"]]
            plain = ""
    parts.append(plain + code[at:])
    return [LAST_COMMA.sub("", LAYOUT.sub("", " ".join(part.split()))) if number % 2 == 0 else part for number, part in enumerate(parts)]


def sources_sum(root, crates, is_bare=False):
    """Returns a sum of the sources of these crates and of their lines in crates.txt. It is the same wherever the checkout stands. A bare one leaves out the
    comments, blank lines and layout of `.rt` files, which change no program."""
    total, lines = hashlib.sha256(), lines_of(root)
    for crate in sorted(crates):
        total.update(repr(lines[crate].partition("#")[0].split()).encode())
        for file in texts_of(root, crate):
            with open(file, "rb") as stream:
                data = stream.read()
            if is_bare and file.endswith(".rt"):
                data = repr(bare(data.decode(errors="surrogateescape"))).encode()
            total.update(repr((os.path.relpath(file, root), hashlib.sha256(data).hexdigest())).encode())
    return total.hexdigest()


def made_of(root, crates):
    """Returns a sum of all that these crates are made from on this machine: their sources, and the kit."""
    rt = os.path.realpath(shutil.which("rt") or "rt")
    time = os.stat(rt).st_mtime_ns if os.path.isfile(rt) else None
    return hashlib.sha256(repr((rt, time, sources_sum(root, crates))).encode()).hexdigest()


def seconds(root, crate):
    """Returns about how many seconds the check of a crate takes, as scripts/seconds.txt has it, or else by its code."""
    with open(f"{os.path.dirname(os.path.abspath(__file__))}/seconds.txt", encoding="utf-8") as stream:
        for line in stream:
            name, _, count = line.partition(" ")
            if name == crate:
                return int(count)
    return 10 + sum(os.path.getsize(file) for file in texts_of(root, crate) if file.endswith(".rt")) // 150


def free_memory():
    """Returns how many bytes of memory can still be taken."""
    with open("/proc/meminfo", encoding="utf-8") as file:
        return next(1024 * int(line.split()[1]) for line in file if line.startswith("MemAvailable"))


def lanes():
    """Returns how many checks run side by side: one a processor, as many as memory holds."""
    return max(1, min(len(os.sched_getaffinity(0)), free_memory() // EACH))


def refresh(source, to, link):
    """Makes a folder the same as another, without touching what is the same already."""
    if not os.path.isdir(source):
        shutil.rmtree(to, ignore_errors=True)
        return
    os.makedirs(to, exist_ok=True)
    wanted = set(os.listdir(source))
    for name in set(os.listdir(to)) - wanted:
        shutil.rmtree(f"{to}/{name}") if os.path.isdir(f"{to}/{name}") else os.remove(f"{to}/{name}")
    for name in wanted:
        one, other = f"{source}/{name}", f"{to}/{name}"
        if os.path.isdir(one):
            refresh(one, other, link)
        elif not os.path.exists(other) or not filecmp.cmp(one, other):
            if os.path.exists(other):
                os.remove(other)
            linked(one, other) if link else shutil.copy2(one, other)


def linked(one, other):
    try:
        os.link(one, other)
    except OSError:
        shutil.copy2(one, other)


def trees(root):
    """Returns the folder of the crates' own trees: where git keeps its own files, which rt ci doesn't read, or else a temporary one."""
    ran = subprocess.run(["git", "-C", root, "rev-parse", "--absolute-git-dir"], capture_output=True, text=True)
    name = hashlib.sha256(root.encode()).hexdigest()[:16]
    return f"{ran.stdout.strip()}/apart" if ran.returncode == 0 else f"{tempfile.gettempdir()}/apart-{os.getuid()}-{name}"


def put_lists(root, top, crates):
    """Gives a tree of these crates its crates.txt and its HANDLES."""
    with open(f"{top}/crates.txt", "w", encoding="utf-8") as file:
        file.writelines(line for name, line in lines_of(root).items() if name in crates)
    shutil.copy2(f"{root}/HANDLES", top)


def apart(root, crate):
    """Returns a tree of its own for work on a crate: one rt locks all crates below the one that it works in, so that in one tree
    no two work side by side. It holds the crates below with their libraries; the crate's own out/ stays there for the next time."""
    top = f"{trees(root)}/{crate}"
    os.makedirs(f"{top}/.git", exist_ok=True)
    # (rt ci looks for crates in all folders but those that have such a file)
    with open(f"{trees(root)}/MODULE.bazel", "a", encoding="utf-8"):
        pass
    needed = below(root, crate)
    put_lists(root, top, needed)
    for name in set(os.listdir(f"{top}/crates") if os.path.isdir(f"{top}/crates") else []) - set(needed):
        shutil.rmtree(f"{top}/crates/{name}")
    for name in needed:
        for part in ("src", "specs", "proofs", "data"):
            refresh(f"{root}/crates/{name}/{part}", f"{top}/crates/{name}/{part}", False)
        if name != crate or not os.path.isdir(f"{top}/crates/{name}/out/rlib"):
            refresh(f"{root}/crates/{name}/out/rlib", f"{top}/crates/{name}/out/rlib", True)
    for name in ("stdin", "stdout", "args", "status"):
        if os.path.isfile(f"{root}/crates/{crate}/{name}"):
            shutil.copy2(f"{root}/crates/{crate}/{name}", f"{top}/crates/{crate}")
    return top


def hand_over(root, crate):
    """Gives the repository what was built of a crate in its own tree: its library, or its program."""
    made, to = f"{trees(root)}/{crate}/crates/{crate}/out", f"{root}/crates/{crate}/out"
    os.makedirs(to, exist_ok=True)
    refresh(f"{made}/rlib", f"{to}/rlib", True)
    for name in (crate, f"{crate}_tests"):
        if os.path.isfile(f"{made}/{name}"):
            shutil.copy2(f"{made}/{name}", f"{to}/{name}.new")
            os.replace(f"{to}/{name}.new", f"{to}/{name}")


def build(root, crates, folder, words_of, tell):
    """Builds the crates, each after those that it names, and first those with the longest chain of others above them. A crate's
    command is words_of(crate), its log stands in the folder. Returns the first crate that was not built, or None.

    A long crate gets a second job where no crate that is left has a longer chain above it and a processor would be idle; each other crate gets one.
    A further job loads all that is below once more, which can take the processor nearly twice as long: where crates wait, their checks are worth more."""
    effort = {item: seconds(root, item) for item in crates}
    behind = dict.fromkeys(crates, 0)
    for crate in reversed([*crates]):
        behind[crate] += effort[crate]
        for entry in crates[crate]:
            behind[entry] = max(behind[entry], behind[crate])
    left, running, done, most = sorted(crates, key=lambda value: -behind[value]), {}, set(), lanes()

    def jobs_of(crate, idle):
        others = [behind[item] for item in left]
        return 2 if idle and effort[crate] >= LONG and behind[crate] >= max(others, default=0) else 1

    def prove(crate, jobs):
        with open(f"{folder}/{crate}.log", "wb") as log:
            at = f"{apart(root, crate)}/crates/{crate}"
            words = [*words_of(crate)[:2], "--jobs", str(jobs), *words_of(crate)[2:]]
            status = subprocess.run(words, cwd=at, stdin=subprocess.DEVNULL, stdout=log, stderr=log).returncode
        if not status:
            hand_over(root, crate)
        return status

    with ThreadPoolExecutor(most) as pool:
        while left or running:
            ready = [item for item in left if done.issuperset(crates[item])]
            free = most - sum(jobs for _, jobs in running.values())
            for at, crate in enumerate(ready):
                if free < 1:
                    break
                left.remove(crate)
                tell(crate, len(left))
                jobs = jobs_of(crate, free > len(ready) - at)
                running[pool.submit(prove, crate, jobs)] = crate, jobs
                free -= jobs
            for each in wait(running, return_when=FIRST_COMPLETED).done:
                crate, _ = running.pop(each)
                if each.result():
                    wait(running)
                    return crate
                done.add(crate)
    return None
