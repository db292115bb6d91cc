"""`bindings/c/include/uca.h` declares what the crates for C export: calls, members and numbers. And `bindings/c/calls.c` makes these calls.

No contract has the order of parameters and of members, nor the number of a status: a clause says `result ≡ UTF8`. So they are compared here.
"""
import glob
import os
import re
import shutil
import subprocess
import tempfile
import unittest

from program import TOP

C = f"{TOP}/bindings/c"
ARCHIVES = [f"{TOP}/crates/{it}/out/lib{it}.a" for it in ("uca_c", "uca_command_in_memory")]

# Types of the crates and of C. A `Global` stands for the allocator, of which C knows nothing.
NUMBERS = {"u8": "uint8_t", "u32": "uint32_t", "i32": "int32_t", "usize": "size_t", "bool": "bool", "*mut u8": "void *"}
STRUCTS = {
    "Slot": "uca_collator",
    "UpgradeSlot": "uca_upgrade",
    "FileError": "uca_error",
    "UpgradeError": "uca_upgrade_error",
    "Comparison": "uca_comparison",
    "Lengths": "uca_lengths",
}

# Names that C has in place of those of the crates.
RENAMED = {"data_file": "data", "Slot.full": "is_open", "UpgradeSlot.full": "is_open", "full": "is_kept", "ptr": "inside"}

# Functions that give or take numbers, and the enumeration of each, with the beginning of its names.
NUMBERED = {
    "asked_weighting": ("uca_weighting", "UCA_"),
    "asked_range": ("uca_range_of", "UCA_"),
    "asked_end": ("uca_end", "UCA_"),
    "number_of_kind": ("uca_kind", "UCA_KIND_"),
    "number_of_certificate_kind": ("uca_kind", "UCA_KIND_"),
    "number_of_map_kind": ("uca_kind", "UCA_KIND_MAP_"),
    "number_of_condition": ("uca_condition", "UCA_"),
    "numbers_of_place": ("uca_place", "UCA_AT_"),
    "error_of": ("uca_upgrade_file", "UCA_"),
}


def text_of(path):
    with open(path, encoding="utf-8") as file:
        return file.read()


def spaced(text):
    return " ".join(text.split())


def header():
    """What the header declares before its own functions, without comments and with single blanks."""
    return spaced(re.sub(r"/\*.*?\*/", " ", text_of(f"{C}/include/uca.h").partition("/* ----")[0], flags=re.S))


def sources(*crates):
    return "\n".join(text_of(it) for crate in crates for it in sorted(glob.glob(f"{TOP}/crates/{crate}/src/*.rt")))


def fields_of(code, name):
    """The members of a struct of the crates as C declares them."""
    inside = re.search(rf"#\[repr\(C\)\]\n(?:#\[derive.*\n)?pub struct {name} \{{\n(.*?)^\}}", code, re.M | re.S)[1]
    found = []
    for field, of in re.findall(r"^    (?:pub(?:\(crate\))? )?(\w+) ?: (.+),$", inside, re.M):
        declared = NUMBERS.get(of) or (f"struct {{ {fields_of(code, of)} }}" if of.endswith("Handle") else of)
        if of != "Global":
            found.append(f"{declared} {RENAMED.get(f'{name}.{field}') or RENAMED.get(field, field)};".replace("* ", "*"))
    return " ".join(found)


def parameters_in_c(given):
    """The parameters of a call as C has to declare them. Bytes come with their length, which has one of several names."""
    found = []
    for name, of in re.findall(r"(\w+) ?: (&mut \[.*?\]|&\[.*?\]|&mut \w+|\w+)", given):
        name, constant = RENAMED.get(name, name), "" if "mut" in of else "const "
        if of.endswith("[u8]"):
            found += [f"{constant}uint8_t *{name}", rf"size_t ({name}_)?(length|room)"]
        elif of.endswith("[u8; 32]"):
            found.append(f"{constant}uint8_t *{name}")
        elif of.startswith("&mut "):
            found.append(f"{NUMBERS.get(of[5:]) or STRUCTS[of[5:]]} *{name}")
        elif of != "Global":
            found.append(f"{NUMBERS[of]} {name}")
    return [it if "(" in it else re.escape(it) for it in found] or ["void"]


def enumeration(name):
    inside = re.search(rf"typedef enum {name} {{ (.*?) }} {name};", header())[1]
    return {one: int(number) for one, number in re.findall(r"(\w+) = (\d+)", inside)}


def snake(name):
    return re.sub(r"(?<!^)(?=[A-Z])", "_", name).upper()


class Header(unittest.TestCase):
    def test_calls(self):
        """Names, results, and the names, types and order of the parameters."""
        code = sources("uca_c", "uca_command_in_memory")
        exported = re.findall(r'^#\[unsafe\(no_mangle\)\]\npub extern "C" fn (\w+)\((.*?)\)(?: -> (\w+))?\s+(?:ensures|\{)', code, re.M | re.S)
        declared = {name: (result, given.split(", ")) for result, name, given in re.findall(r"(\w+) (uca_\w+)\(([^()]*)\);", header())}
        self.assertEqual(len(exported), code.count("no_mangle"))
        self.assertEqual({it[0] for it in exported}, {*declared})
        for name, given, result in exported:
            with self.subTest(call=name):
                self.assertEqual(declared[name][0], NUMBERS[result] if result else "void")
                wanted = parameters_in_c(given)
                self.assertEqual(len(declared[name][1]), len(wanted))
                for one, pattern in zip(declared[name][1], wanted):
                    self.assertRegex(one, f"^{pattern}$")

    def test_structs(self):
        """The types and the order of the members."""
        code = sources("uca_c", "uca_command_in_memory")
        for name, in_c in STRUCTS.items():
            with self.subTest(struct=in_c):
                declared = re.search(rf"typedef struct {in_c} \{{ (.*?) \}} {in_c};", header())[1]
                self.assertEqual(declared, fields_of(code, name))

    def test_statuses(self):
        constants = {crate: re.findall(r"^pub const (\w+): u32 = (\d+);$", text_of(f"{TOP}/crates/{crate}/src/statuses.rt"), re.M) for crate in ("uca_c", "uca_command_in_memory")}
        self.assertEqual({f"UCA_{name}": int(it) for name, it in constants["uca_c"]}, enumeration("uca_status"))
        of_runs = enumeration("uca_run_status")
        # a status of the header's own functions, which no call returns
        self.assertGreater(of_runs.pop("UCA_RUN_SMALL"), max(of_runs.values()))
        self.assertEqual({f"UCA_RUN_{name}": int(it) for name, it in constants["uca_command_in_memory"]}, of_runs)
        self.assertIn(f"#define UCA_ABI {re.search(r'fn uca_abi.*?result ≡ (.*?) }', sources('uca_c'), re.S)[1]} ", header())

    def test_numbers(self):
        """What the numbers of weightings, ranges, ends, kinds, files, conditions and places mean."""
        code, met = sources("uca_c"), {"UCA_NO_ERROR"}
        for function, (name, begins) in NUMBERED.items():
            body = re.search(rf"^fn {function}\(.*?^}}|^pub fn {function}\(.*?^}}", code, re.M | re.S)[0]
            arms = re.findall(r"::(\w+)(?:\(\w+\))? => \{?\s*\w*?\(?(\d+)\b", body)
            arms += [(it, number) for number, it in re.findall(r"(\d+) => Some\((?:Some\()?(?:\w+::)?(\w+)\)", body)]
            numbers = {{"None": "UCA_BY_TABLE", "Nowhere": "UCA_NOWHERE"}.get(it, begins + snake(it)): int(number) for it, number in arms}
            with self.subTest(function=function):
                self.assertGreater(len(numbers), 1)
                self.assertEqual(numbers, {it: enumeration(name)[it] for it in numbers})
            met |= {*numbers}
        for name, _ in NUMBERED.values():
            self.assertEqual({*enumeration(name)} - met, set())

    def test_depths(self):
        depths = enumeration("uca_depth")
        arms = re.findall(r"(\d+) => Some\(\(Depth::(\w+), Numbers::(\w+)\)\)", sources("uca_c"))
        self.assertEqual(len(arms), 4)
        for number, depth, numbers in arms:
            self.assertEqual(int(number), depths[f"UCA_{depth.upper()}"] | (depths["UCA_NUMERIC"] if numbers == "ByValue" else 0))


def why_not():
    """Why `calls.c` cannot be run here, if it cannot."""
    if lacking := [it for it in ("cc", "make", "rt") if not shutil.which(it)]:
        return f"there is no {lacking[0]}"
    if not all(map(os.path.exists, ARCHIVES)):
        return "there is no archive: tools/build.py uca_c uca_command_in_memory makes it"
    newest = max(map(os.path.getmtime, glob.glob(f"{TOP}/crates/uca_*/src/**/*.rt", recursive=True)))
    return "the archive is older than a source: tools/build.py uca_c uca_command_in_memory" if newest > min(map(os.path.getmtime, ARCHIVES)) else None


class Calls(unittest.TestCase):
    @unittest.skipIf(why_not(), why_not())
    def test_calls(self):
        with tempfile.TemporaryDirectory(prefix="uca-") as folder:
            subprocess.run(["make", "-s", "-C", C, f"OUT={folder}", f"{folder}/calls"], check=True)
            ran = subprocess.run([f"{folder}/calls"], stdout=subprocess.PIPE, text=True, timeout=120, check=False)
            self.assertEqual(ran.returncode, 0, ran.stdout)
