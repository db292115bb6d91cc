"""What the three shells offer at the end of a command line, by the files of completions/: each shell is run for real.

A line is a text of arguments and blanks; the text after its last blank is completed. The result is the set of what is offered.
"""
import os
import pty
import re
import select
import subprocess
import tempfile
import time

from command_help import TOP

BASH = """
source "$1"; shift
COMP_WORDS=("$@"); COMP_CWORD=$(($# - 1)); COMP_LINE="$*"; COMP_POINT=${#COMP_LINE}
function=$(complete -p "$1" | sed 's/.*-F \\([^ ]*\\) .*/\\1/')
"$function" "$1" "${COMP_WORDS[COMP_CWORD]}" "${COMP_WORDS[COMP_CWORD - 1]}"
((${#COMPREPLY[@]})) && printf '%s\\n' "${COMPREPLY[@]}"
"""

FISH = 'source "$argv[1]"; complete -C "$argv[2]"'

# `compadd` is what each completion function ends in: what it finds is written to a file.
ZSH = """
PS1=; unsetopt beep; setopt no_list_beep
fpath=({folder} $fpath); autoload -Uz compinit; compinit -u -D
compadd() {{
    if [[ ${{@[1,(i)(-|--)]}} == *-(O|A|D)\\ * ]]; then builtin compadd "$@"; return; fi
    local -a found; builtin compadd -A found "$@"; print -rl -- $found >> {out}
    builtin compadd "$@"
}}
_offer() {{ _main_complete; compstate[insert]=; compstate[list]=; print -r -- {end} >> {out} }}
zle -C offer complete-word _offer; bindkey -e; bindkey '^T' offer
print -r -- {end} >> {out}
"""
END = "@end"


def names(text):
    return {line.rstrip("/").replace("\\ ", " ") for line in text.splitlines() if line}


def printed_by(arguments, room):
    """What a shell prints in a folder. It gets its own home folder, so that it reads no settings and leaves no files."""
    with tempfile.TemporaryDirectory(prefix="uca-home-") as home:
        ran = subprocess.run(arguments, cwd=room, stdout=subprocess.PIPE, text=True, check=False, env={**os.environ, "HOME": home})
    return ran.stdout


def bash_offers(line, room):
    """bash cuts a line at blanks, and at `=`, `<` and `>` too."""
    words = re.findall(r"[^\s=<>]+|[=<>]", line) + ([""] if line.endswith(" ") else [])
    return names(printed_by(["bash", "--norc", "-c", BASH, "bash", f"{TOP}/completions/{words[0]}.bash", *words], room))


def fish_offers(line, room):
    """fish offers a value together with the option before its `=`."""
    lines = printed_by(["fish", "--no-config", "-c", FISH, f"{TOP}/completions/{line.split()[0]}.fish", line], room).splitlines()
    return names("\n".join(re.sub(r"^--\w+=", "", offer.partition("\t")[0]) for offer in lines))


class Zsh:
    """An interactive zsh with its own terminal."""

    def __init__(self, room):
        self.folder = tempfile.TemporaryDirectory(prefix="uca-zsh-")
        self.out, self.read = f"{self.folder.name}/offers", 0
        setup = ZSH.format(folder=f"{TOP}/completions", out=self.out, end=END)
        with open(f"{self.folder.name}/.zshrc", "w", encoding="utf-8") as file:
            file.write(setup)
        self.process, self.terminal = pty.fork()
        if self.process == 0:
            os.chdir(room)
            os.execvpe("zsh", ["zsh", "-i", "-o", "no_global_rcs"], {**os.environ, "ZDOTDIR": self.folder.name, "TERM": "dumb"})
        self.wait()

    def wait(self):
        """What was offered since the last time. The terminal's own output is read and not used."""
        for _ in range(200):
            if select.select([self.terminal], [], [], 0.05)[0]:
                os.read(self.terminal, 65536)
            text = ""
            if os.path.exists(self.out):
                with open(self.out, encoding="utf-8") as file:
                    text = file.read()[self.read:]
            if text.endswith(f"{END}\n"):
                self.read += len(text)
                return names(text.replace(f"{END}\n", ""))
        raise TimeoutError("zsh offers nothing within ten seconds")

    def offers(self, line, _room):
        time.sleep(0.05)
        os.write(self.terminal, f"\x15{line}\x14".encode())
        return self.wait()

    def close(self):
        os.write(self.terminal, b"\x15exit\n")
        os.close(self.terminal)
        os.waitpid(self.process, 0)
        self.folder.cleanup()
