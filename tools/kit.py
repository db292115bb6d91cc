"""The kit as the scripts of this folder use it, by plain names. No other file knows how the command `rt` is made inside.

A script calls `opened` with its purposes. It loads `rt` as a module and tests that each name is there and takes the arguments that it gets. Where this
kit has made one otherwise, a line says so, and the script uses plain `rt`, where that does the same.
"""
import contextlib
import copy
import functools
import importlib.machinery
import importlib.util
import inspect
import os
import re
import shutil
import subprocess
import sys
import tempfile
import threading
import time
from concurrent.futures import ThreadPoolExecutor

TOP = os.path.dirname(os.path.dirname(os.path.realpath(__file__)))

# The flag by which `rt ci` takes nothing of what was proved on this machine before.
ANEW = "--anew"

# The processor that static libraries are compiled for: any of x86-64. A library does not test its processor, as a program does when it starts.
LIBRARY_PROCESSOR = "x86-64"

# The memory that a check may take, in bytes.
CHECK_MEMORY = 4_000_000_000

# What the scripts use of `rt`, by their purposes: each name, with how many arguments it gets by position, and which by name. None: a value.
USED = {
    "machine": {"processors": (0,), "free": (0,), "ci": None},
    "crates": {
        **{name: None for name in ("rtlib.KIT", "rtlib.RATTLE", "rtlib.KEPT", "rtlib.Crate", "Crate.cuts_libraries", "Crate.allowed")},
        **{"handles_of": (1,), "need": (1,), "rtlib.guarded": (0,), "rtlib.help_of": (1,), "rtlib.crates_below": (1,), "rtlib.lock": (1,)},
        **{"rtlib.files_of": (1,), "Crate.makes_rlib": (1,), "Crate.below": (1,), "Crate.words": (2, "tests", "keeps")},
        **{"Crate.ci": (3,), "Crate.prove": (2,), "Crate.link": (3,)},
    },
    "lanes": {"in_lanes": (1,), "rtlib.ThreadPoolExecutor": (0,)},
    "edits": {"read_edit": (2,)},
    "tries": {"must_fail": (3,), "checked": (4,)},
}

# The lanes of `rt` count a task with this word as one processor. A task with another one counts as its share of those that are idle.
AS_ONE_PROCESSOR = "edits"

# The line at which a function begins, and that at which a block of functions of a type does: with the trait, if it is one's, and the type.
FUNCTION = re.compile(r"( *)(?:pub(?:\([a-z]+\))? )?(?:const |unsafe |extern \"C\" )*fn (\w+)")
IMPL = re.compile(r"impl(?:<.*?>)? (?:(?:\w+::)*(\w+)(?:<[^{]*?>)? for )?&?(?:\w+::)*(\w+)")

# The last line of a check of some functions: how many, and how many of them are proved.
ONLY = re.compile(r"only=(\d+) proved=(\d+)")

# What each crate that `rt` has read must have.
OF_CRATES = ("name", "folder", "said", "rlib", "is_static", "is_program")


def load_rt():
    """The command `rt`, as a module."""
    sys.dont_write_bytecode = True
    path = os.path.realpath(shutil.which("rt") or sys.exit("there is no command rt: README.md says what you need, under Install"))
    sys.path.insert(0, os.path.dirname(path))
    loader = importlib.machinery.SourceFileLoader("rt", path)
    module = importlib.util.module_from_spec(importlib.util.spec_from_loader("rt", loader))
    loader.exec_module(module)
    return module


def has(rt, name, how):
    """Whether the module has a name, and it can be called so."""
    found = rt
    for part in name.split("."):
        found = getattr(found, part, None)
    if how is None or found is None:
        return found is not None
    try:
        inspect.signature(found).bind(*[None] * how[0], **dict.fromkeys(how[1:]))
    except (TypeError, ValueError):
        return False
    return True


def lacking_in(rt, purposes):
    """The names that these purposes need, and that the module has not so."""
    return [name for it in purposes for name, how in USED[it].items() if not has(rt, name, how)]


def opened(*purposes, instead):
    """The kit, for these purposes. None where its `rt` is made otherwise: then a line says what is lacking, and what is done instead."""
    try:
        rt = load_rt()
        lacking = lacking_in(rt, purposes)
    except (SyntaxError, ValueError, ImportError, AttributeError) as error:
        lacking = [f"a module in Python, {error}"]
    if not lacking:
        kit = Kit(rt)
        lacking = kit.read_crates() if "crates" in purposes else []
    if lacking:
        print(f"rt of this kit has not what {os.path.basename(sys.argv[0])} uses of it ({', '.join(lacking)}): {instead}", flush=True)
        return None
    return kit


def plain(*words, folder=TOP):
    """The status of a command of `rt`."""
    return subprocess.run(["rt", *words], cwd=folder).returncode


def crate_and_part(task):
    """The crate of a task of `rt ci`, and what the task is for: its proof, its tests, its edits, or the runs at the end."""
    name, part, *_ = task
    # a task that is none of the others tries edits, or makes ready for them
    return name, part if part in ("proof", "tests", "runs") else "edits"


def edit_of(task):
    """The place of the edit that a task tries in its folder, or None."""
    return task[2] if len(task) > 2 else None


def changed_function(folder, texts):
    """The path, below its crate, of the function that has the first changed line of an edit's first text, as the flag `--only` takes it; or None."""
    for file, text in texts.items():
        with open(f"{folder}/{file}", encoding="utf-8") as it:
            pairs = zip(it.read().split("\n"), text.split("\n"))
        at = next((number for number, (old, new) in enumerate(pairs) if old != new), None)
        if not file.startswith("src/") or at is None:
            return None
        if not (named := function_at(text.split("\n"), at)):
            return None
        place = declaring(folder, file, named[0]) if len(named) > 1 else file
        modules = [it for it in place[len("src/") : -len(".rt")].split("/") if it not in ("lib", "main")]
        return "::".join([*modules, *named])
    return None


def declaring(folder, file, name):
    """The file that declares a type: a check knows its functions by the module of the type. It is the given one unless exactly one file declares it."""
    found = []
    for at, _, names in os.walk(f"{folder}/src"):
        for path in (f"{at}/{it}" for it in names if it.endswith(".rt")):
            with open(path, encoding="utf-8") as source:
                found += [path] * len(re.findall(rf"^(?:pub(?:\([a-z]+\))? )?(?:struct|enum) {name}\b", source.read(), re.M))
    return os.path.relpath(found[0], folder) if len(found) == 1 else file


def function_at(lines, at):
    """The name of the function that has this line, after that of the type whose function it is, if one is. Empty: no function has it."""
    number = next((number for number in range(at, -1, -1) if FUNCTION.match(lines[number])), None)
    if number is None or any(line.startswith("}") for line in lines[number:at]):
        return []
    indent, name = FUNCTION.match(lines[number]).groups()
    # a method stands in the nearest block before it that begins at the first column
    block = next((line for line in reversed(lines[:number]) if line and line[0] not in " }/#"), "") if indent else ""
    owner = IMPL.match(block)
    return [name] if not indent else [f"{owner[2]}{owner[1] or ''}", name] if owner else []


def folder_of(name):
    return f"{TOP}/crates/{name}"


def uses():
    """The libraries of the repository that each crate of crates.txt uses, those below these too, by its name."""
    with open(f"{TOP}/crates.txt", encoding="utf-8") as file:
        rows = [re.match(r"(\w+)[^:#\n]*:([^#\n]*)", line) for line in file]
    named = {row[1]: row[2].split() for row in rows if row}

    @functools.cache
    def below(name):
        return {it for low in named[name] if low in named for it in (low, *below(low))}

    return {name: below(name) for name in named}


class Kit:
    """The command `rt`, as these scripts use it."""

    def __init__(self, rt):
        self.rt, self.rtlib = rt, rt.rtlib
        self.crates = {}

    # ---- The machine, and the gate

    def processors(self):
        """How many processors there are to use: no more than RT_JOBS says, if it is set."""
        most = os.environ.get("RT_JOBS", "")
        return min(self.rt.processors(), int(most)) if most.isdigit() and int(most) else self.rt.processors()

    def free_memory(self):
        return self.rt.free()

    def keeps_proofs(self):
        """Whether `rt ci` takes what was proved on this machine before, unless it is told to prove all anew."""
        return has(self.rt, "ci", (1,))

    def checks_at_once(self):
        """How many checks have processors and memory."""
        return max(1, min(self.processors(), int(self.free_memory()) // CHECK_MEMORY))

    def check_by_one_process(self):
        """Has `rt ci` check each crate by one process, and as many crates at once as there are processors and memory for.

        Two processes check a crate in about the same time as one, and take half as much processor time again."""
        os.environ.setdefault("RT_JOBS", str(self.checks_at_once()))

    def prove_all(self, anew):
        """Does what `rt ci` does, from nothing if `anew`, and returns its status."""
        return self.rt.ci(anew) if self.keeps_proofs() else self.rt.ci()

    # ---- Crates

    def read_crates(self):
        """Reads the crates of the repository, and returns what these scripts use of a crate and `rt` has not."""
        rtlib = self.rtlib
        os.chdir(TOP)
        # its first call sets a signal's handler, which only the main thread may
        rtlib.guarded()
        # crates above a library load its statements, and not its proofs
        self.rt.Crate.cuts_libraries, self.rt.Crate.allowed, rtlib.Crate = True, self.rt.handles_of(TOP), self.rt.Crate
        made = rtlib.crates_below(TOP)
        lacking = sorted({name for it in made for name in OF_CRATES if not hasattr(it, name)})
        if not lacking:
            self.crates = {it.name: Crate(self, it) for it in made}
        return [f"{it} of a crate" for it in lacking]

    def search_no_empty_contracts(self):
        """Has no contract searched for that no call can meet: `rt` passes a flag to `rattle` if its help names the flag."""
        help_of = self.rtlib.help_of
        self.rtlib.help_of = lambda verb: help_of(verb).replace("--empty-contracts", "")

    @contextlib.contextmanager
    def held(self, crates):
        """Waits until no other `rt` works in these crates' folders, and keeps others out."""
        held = self.rtlib.lock([it.made for it in crates])
        try:
            yield
        finally:
            for it in held:
                os.close(it)

    # ---- Tasks side by side

    def in_lanes(self, tasks):
        """Runs tasks side by side, those that most others wait for first, and returns what each gave, by its name. Each counts as one processor. A task is the
        names of those that it waits for, its size, its memory, and a call that gets what was given so far."""
        key = lambda name: (name, AS_ONE_PROCESSOR)
        by_name = lambda given: {name: it for (name, _), it in given.items()}
        called = lambda call: lambda given, jobs: call(by_name(given))
        made = {key(name): ([key(it) for it in waits], size, memory, called(call)) for name, (waits, size, memory, call) in tasks.items()}
        return by_name(self.rt.in_lanes(made))

    def count_tasks(self, times, idle):
        """Has each task that `rt` itself runs side by side count for its name."""
        in_lanes = self.rt.in_lanes
        self.rt.in_lanes = lambda tasks: in_lanes({key: (*task[:3], times.task(key, idle, task[3])) for key, task in tasks.items()})

    # ---- Edits, and files

    def edited(self, edit, folder):
        """The texts of the files that an edit changes, by their paths in the crate's folder, or None; and why it cannot be applied."""
        return self.rt.read_edit(edit, folder)

    def try_edits_by_function(self):
        """Has an edit tried by a check of the function alone that it changes. What is rejected there is rejected in a check of the whole crate, which takes
        ten times as long. An edit that is still proved so, or that changes no function, is tried by a check of the whole crate, as `rt` does. The crate has to
        be proved as it stands: `rt ci`, which is the gate, does not try edits so."""
        checked = self.rt.checked

        def by_function(crate, texts, flags, kept):
            path = changed_function(crate.folder, texts)
            if path:
                ran = checked(crate, texts, [*flags, "--only", path], None)
                said, _, last = ran.stdout.rstrip("\n").rpartition("\n")
                counts = ONLY.fullmatch(last)
                if ran.returncode == 1 and counts and int(counts[2]) < int(counts[1]):
                    # `rt` reads the last line of a whole check
                    ran.stdout = f"{said}\nlogic=not-proved\n"
                    return ran
            return checked(crate, texts, flags, kept)

        self.rt.checked = by_function

    def try_edit(self, crate, edit):
        """Tries an edit over the libraries below the crate. Returns whether the prover rejects it, as it must, and what is to say."""
        result, said = self.rt.must_fail(crate.made, edit, ["--jobs", "1"])
        # a kit that has no names for the results returns whether the edit is rejected
        rejected = [getattr(self.rt, name, True) for name in ("REFUSED", "AT_LIMIT")]
        return result in rejected, said.replace("NOT REFUSED", "NOT REJECTED")

    def check_functions(self, crate, texts, paths):
        """What a check of these functions alone prints of a copy of the crate, with these texts in place of its own."""
        flags = [word for path in paths for word in ("--only", path)]
        return self.rt.checked(crate.made, texts, ["--jobs", "1", *flags], None).stdout

    def files_of(self, folder):
        """The files of a crate that the prover reads."""
        return [*self.rtlib.files_of(folder)]


class Crate:
    """A crate of crates.txt, as `rt` has read it."""

    def __init__(self, kit, made):
        self.kit, self.made, self.name, self.folder = kit, made, made.name, made.folder
        # the folder of clang and the linker
        self.toolchain = f"{kit.rtlib.KIT}/toolchain"

    def below(self):
        """The libraries of the repository that it uses, and those below them, each after those that it uses."""
        return [self.kit.crates[it.name] for it in self.made.below()]

    def memory(self):
        """The most memory that a check is likely to take, in bytes."""
        return self.kit.rt.need(self.made)

    def inputs(self):
        """The files that it is proved from, but for the libraries below it: its own, and the one that says which kit this is."""
        return [f"{self.kit.rtlib.KIT}/WHAT", *self.kit.files_of(self.folder)]

    def settings(self):
        """What crates.txt and the files beside src/ say of it, and how it is compiled."""
        return repr(self.made.said) + (LIBRARY_PROCESSOR if self.made.is_static else "")

    def is_library(self):
        return self.made.makes_rlib()

    def product(self):
        """What it is built into: the folder of a library's statements, a program, or the archive of a static library."""
        static = f"lib{self.name}.a" if self.made.is_static else self.name
        return self.made.rlib if self.is_library() else f"{self.folder}/out/{static}"

    def prove(self, processes):
        """Proves it from nothing and builds it. Returns whether it is proved, and what was said."""
        made = copy.copy(self.made)
        os.makedirs(f"{self.folder}/out", exist_ok=True)
        with tempfile.TemporaryFile("a+", errors="replace") as made.out:
            jobs = ["--jobs", str(processes)]
            status = made.ci(jobs, False) if self.is_library() else self.compile(made, jobs)
            made.out.seek(0)
            return not status, made.out.read()

    def compile(self, made, jobs):
        """Proves a static library and makes its archive, or proves a program, compiles it by LLVM and links it, in one process."""
        to = f"out/{os.path.basename(self.product())}"
        words = [*made.words(jobs, keeps=False), "--toolchain", self.toolchain, "--backend", "llvm"]
        if made.is_static:
            return made.prove(["build", *words, "--cpu", LIBRARY_PROCESSOR, "-o", to])
        return made.prove(["build", *words, "-o", f"{to}.o"]) or made.link(f"{to}.o", to)

    def check(self, flags, tests=False):
        """Checks it by `rattle check` with these flags over what earlier checks kept, and returns the status."""
        os.makedirs(f"{self.folder}/out", exist_ok=True)
        rtlib = self.kit.rtlib
        words = [rtlib.RATTLE, "check", *self.made.words(flags, tests=tests, keeps=False), *rtlib.KEPT]
        return subprocess.run([*rtlib.guarded(), *words], cwd=self.folder).returncode


# ---- Times

class Times:
    """The processor seconds, user and system, and the seconds on the clock of each task of a run."""

    def __init__(self):
        self.of_thread = threading.local()
        self.lock = threading.Lock()
        self.processor, self.clock = {}, {}

    def count(self, kit, idle):
        """Has each process that is waited for count for its thread's task, or else for the task `idle`."""
        times = self

        class Process(subprocess.Popen):
            """A process whose time is counted when it has ended."""

            def wait(self, timeout=None):
                if timeout is None and self.returncode is None:
                    with contextlib.suppress(ChildProcessError):
                        _, status, used = os.wait4(self.pid, 0)
                        self.returncode = os.waitstatus_to_exitcode(status)
                        times.add(getattr(times.of_thread, "key", idle), used.ru_utime + used.ru_stime)
                return super().wait(timeout)

        class Pool(ThreadPoolExecutor):
            """A pool whose threads count for the task of the thread that submits their work."""

            def submit(self, call, *given, **named):
                key = getattr(times.of_thread, "key", idle)

                def run(*given, **named):
                    times.of_thread.key = key
                    return call(*given, **named)

                return super().submit(run, *given, **named)

        subprocess.Popen = Process
        kit.rtlib.ThreadPoolExecutor = Pool

    def add(self, key, seconds):
        with self.lock:
            self.processor[key] = self.processor.get(key, 0.0) + seconds

    def task(self, key, idle, call):
        """The call of a task, whose thread counts for it while it runs."""

        def run(*given):
            self.of_thread.key, begun = key, time.time()
            try:
                return call(*given)
            finally:
                self.clock[key] = time.time() - begun
                self.of_thread.key = idle

        return run


# ---- What a check keeps

# The parts of a function that `rattle` checks as modules of their own, by the beginnings of their names.
PARTS = "Lts Tie Proof Answers Code Reads Layout Kinds Named Goals Statement Met TheLink Symbol Given Carried Invariants".split()


def checked_modules(crate):
    """Each module that the last check of a crate kept, in their order: the function, the part of it, and the seconds since the one before."""
    kept = f"{folder_of(crate)}/out/incremental"
    folders = [f"{kept}/{it}" for it in os.listdir(kept)] if os.path.isdir(kept) else []
    if not folders:
        sys.exit(f"{kept} is empty: run tools/check.py {crate} first")
    folder = max(folders, key=os.path.getmtime)
    files = sorted((os.stat(f"{folder}/{it}").st_mtime, it) for it in os.listdir(folder) if it.endswith(".oantt"))
    if not files:
        sys.exit(f"{folder} has no .oantt file: this kit keeps what it checked otherwise")
    for (begun, _), (ended, name) in zip(files, files[1:]):
        words = name.removesuffix(".oantt").split(".")
        at = next((i for i, it in enumerate(words) if it.partition("-")[0] in PARTS), len(words))
        function = ".".join(words[:at]).partition("-proofs.")[2] or ".".join(words[:at])
        yield function, words[-1].partition("-")[0], ended - begun
