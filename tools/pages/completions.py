#!/usr/bin/env python3
"""Writes the completions of uca for bash, zsh and fish, made from the program's help texts, and those of uca-files, made from its help.

    tools/pages/completions.py            writes the six files of completions/
    tools/pages/completions.py --check    compares them with what it would write; the last line is `N passed, M failed`

The commands, their options and their arguments are those of tests/help, which tests/run.py compares with what the program prints. An argument is a file
unless TEXTS names it. A value of an option is one of the words that its help begins with, such as `non-ignorable or shifted`. Else nothing is
offered for it. tools/pages/packaging.py runs each completion in its shell.
"""
import re
import sys
from typing import NamedTuple

import files_completions
from command_help import TOP, files_items, stored_helps

import script_help  # command_help has put its folder on the path

# The arguments that are no files.
TEXTS = {"LEFT", "RIGHT"}

HEAD = """# Completion of the command uca for @SHELL@: commands, options, the two weightings, and files.
# Written by tools/pages/completions.py from the help of the program. Do not edit."""

BASH = """@HEAD@

_uca_files() {
    mapfile -t COMPREPLY < <(compgen -f -- "$1")
    compopt -o filenames 2> /dev/null
}

_uca_words() {
    mapfile -t COMPREPLY < <(compgen -W "$2" -- "$1")
}

# The options of a command. An option that takes part in the line is not offered twice.
_uca_options() {
    local command=$1 current=$2 line=$3 offered=() option
    for option in $(_uca_options_of "$command"); do
        [[ $line == *" $option "* ]] || offered+=("$option")
    done
    _uca_words "$current" "${offered[*]}"
}

_uca_options_of() {
    case $1 in
        '') echo "@TOP_OPTIONS@" ;;
@OPTIONS@
    esac
}

_uca_file_count() {
    case $1 in
@FILES@
        *) echo 0 ;;
    esac
}

# Reads the words before the current one: sets the command, how many arguments it has, and whether `--` is there.
_uca_read() {
    local at
    command='' count=0 ended=''
    for ((at = 1; at < COMP_CWORD; at++)); do
        case ${COMP_WORDS[at]} in
            *[\\<\\>]) ((at++)) ;;
            @WITH_VALUES@)
                [[ ${COMP_WORDS[at + 1]} == = ]] && ((at++))
                ((at++))
                ;;
            --) ended=1 ;;
            -?*) [[ $ended ]] && ((count++)) ;;
            *) if [[ $command ]]; then ((count++)); else command=${COMP_WORDS[at]}; fi ;;
        esac
    done
}

_uca() {
    local current=${COMP_WORDS[COMP_CWORD]} before=" ${COMP_WORDS[*]:0:COMP_CWORD} " command count ended
    local commands="@COMMANDS@"
    COMPREPLY=()
    _uca_read
    case $before in
        *[\\<\\>]' ') _uca_files "$current" ;;
@VALUES@
        *)
            if [[ $current == -* && ! $ended ]]; then
                _uca_options "$command" "$current" "$before"
            elif [[ ! $command || $command == help && $count -eq 0 ]]; then
                _uca_words "$current" "$commands"
            elif ((count < $(_uca_file_count "$command"))); then
                _uca_files "$current"
            fi
            ;;
    esac
}

complete -F _uca uca
"""

ZSH = """#compdef uca
@HEAD@

_uca_commands() {
    local -a commands=(
@COMMANDS@
    )
    _describe -t commands command commands
}

_uca_arguments() {
    case $words[1] in
@ARGUMENTS@
        help) _arguments ':command:_uca_commands' ;;
    esac
}

_uca() {
    _arguments \\
@TOP_OPTIONS@
        ':command:_uca_commands' \\
        '*:: :_uca_arguments'
}

_uca "$@"
"""

FISH = """@HEAD@

# The command and its arguments, without options. The file of a redirection counts too, since fish does not tell it apart.
function __uca_arguments
    set -l skip 0
    for word in (commandline -opc)[2..-1]
        if test $skip = 1
            set skip 0
        else if contains -- "$word" @WITH_VALUES@
            set skip 1
        else if not string match -q -- '-*' $word
            echo $word
        end
    end
end

# Whether the command is one of these.
function __uca_has_command
    set -l words (__uca_arguments)
    contains -- "$words[1]" $argv
end

# Whether the command is one of these, and has no option of this name yet.
function __uca_wants_option
    __uca_has_command $argv[2..-1]; and not __fish_contains_opt $argv[1]
end

# Whether the command is one of these, and has fewer than so many arguments.
function __uca_wants_file
    set -l words (__uca_arguments)
    test (count $words) -gt 0; and test (count $words) -le $argv[1]; and contains -- $words[1] $argv[2..-1]
end

complete -c uca -f
@TOP_OPTIONS@

@NAMES@
complete -c uca -n '__uca_wants_file 1 help' -a '@COMMANDS@'

@OPTIONS@

@FILES@
"""


class Option(NamedTuple):
    """An option: its names, the values that it takes (None: it takes none), and what it does."""

    names: tuple
    values: tuple
    text: str

    def long(self):
        return self.names[-1]

    def is_help(self):
        return self.long() == "--help"


class Command(NamedTuple):
    """A command: its options, its arguments with whether each is a file, and what it does."""

    name: str
    options: tuple
    arguments: tuple
    text: str

    def files(self):
        """How many files come first: no completion offers a file after a text."""
        return next((at for at, (_, is_file) in enumerate(self.arguments) if not is_file), len(self.arguments))


def option_of(item):
    name, text = item
    names, value = re.fullmatch(r"(.*?)(?: <([\w-]+)>)?", name).groups()
    words = re.match(r"[\w-]+(?: or [\w-]+)+(?![\w-])", text)
    values = tuple(words[0].split(" or ")) if value and words else ()
    # what stands in brackets is left out: a default, or how to see more
    return Option(tuple(names.split(", ")), values if value else None, re.sub(r" [\[(].*", "", text))


def commands_of(whole, helps):
    """The options without a command, and the commands; `help` has a name and a text alone."""
    commands = []
    for name, text in whole.lists["Commands"]:
        lists = helps[name].lists if name in helps else {"Options": [], "Arguments": []}
        arguments = tuple((it.strip("<>"), it.strip("<>") not in TEXTS) for it, _ in lists["Arguments"])
        commands.append(Command(name, tuple(map(option_of, lists["Options"])), arguments, text))
    return tuple(map(option_of, whole.lists["Options"])), commands


def filled(template, shell, **parts):
    """A template with its parts in place."""
    for name, text in {"HEAD": HEAD.replace("@SHELL@", shell), **parts}.items():
        template = template.replace(f"@{name}@", text)
    return template


def joined(words):
    return " ".join(words)


def lines(parts):
    return "\n".join(parts)


def with_values(commands):
    """Each option with a value, once."""
    return {option.long(): option for command in commands for option in command.options if option.values is not None}


def by_file_count(commands):
    """The commands that take so many files, by this number; `help` takes none."""
    counts = sorted({it.files() for it in commands} - {0})
    return {count: [it.name for it in commands if it.files() == count] for count in counts}


# ---- bash


def bash_values(name, values):
    """What is offered after an option, and after its `=`: bash cuts the line there."""
    if not values:
        return f"        *' {name} ' | *' {name} = ') ;;"
    return "\n".join(f"""        *' {name}{ended} ') _uca_words "{current}" "{joined(values)}" ;;""" for ended, current in [("", "${current#=}"), (" =", "$current")])


def bash(top, commands):
    listed = lambda options: joined(name for option in sorted(options, key=Option.is_help) for name in option.names)
    return filled(
        BASH,
        "bash",
        TOP_OPTIONS=joined(name for option in top for name in option.names),
        OPTIONS=lines(f'        {it.name}) echo "{listed(it.options)}" ;;' for it in commands if it.options),
        WITH_VALUES=" | ".join(with_values(commands)),
        VALUES=lines(bash_values(name, option.values) for name, option in with_values(commands).items()),
        FILES=lines(f"        {' | '.join(names)}) echo {count} ;;" for count, names in by_file_count(commands).items()),
        COMMANDS=joined(it.name for it in commands),
    )


# ---- zsh


def in_quotes(text):
    """A text in single quotes."""
    return "'" + text.replace("'", r"'\''") + "'"


def lowered(text):
    """The text with a small letter in front, unless its first word is in capitals."""
    return text[0].lower() + text[1:] if text[1:2].islower() else text


def zsh_option(option):
    says = re.sub(r"([\[\]\\])", r"\\\1", lowered(option.text))
    if len(option.names) > 1:
        # such an option is alone in its line
        return "'(- *)'{" + ",".join(option.names) + "}" + in_quotes(f"[{says}]")
    value = "" if option.values is None else f":{option.long().lstrip('-')}:" + (f"({joined(option.values)})" if option.values else " ")
    return in_quotes(f"{option.long()}{'=' if value else ''}[{says}]{value}")


def zsh_argument(argument):
    name, is_file = argument
    return in_quotes(f":{name.lower().replace('-', ' ')}:{'_files' if is_file else ' '}")


def zsh_command(command):
    words = [*map(zsh_option, sorted(command.options, key=Option.is_help)), *map(zsh_argument, command.arguments)]
    return lines([f"        {command.name})", "            _arguments -S \\", *(f"                {it} \\" for it in words[:-1]), f"                {words[-1]} ;;"])


def zsh(top, commands):
    return filled(
        ZSH,
        "zsh",
        COMMANDS=lines(f"        {in_quotes(f'{it.name}:{lowered(it.text)}')}" for it in commands),
        ARGUMENTS=lines(map(zsh_command, (it for it in commands if it.options))),
        TOP_OPTIONS=lines(f"        {zsh_option(it)} \\" for it in top),
    )


# ---- fish


def fish_quoted(text):
    return "'" + text.replace("\\", r"\\").replace("'", r"\'") + "'"


def fish_line(condition, *words, says):
    return joined(["complete -c uca -n", condition if condition.isidentifier() else f"'{condition}'", *words, "-d", fish_quoted(says)])


def fish_options(commands):
    """A line for each option and each text that it has, with the commands that have it so."""
    having = {}
    for command in commands:
        for option in command.options:
            if not option.is_help():
                having.setdefault(option, []).append(command.name)
    for option, names in having.items():
        name = option.long().lstrip("-")
        if option.values is None:
            yield fish_line(f"__uca_wants_option {name} {joined(names)}", "-l", name, says=option.text)
        else:
            values = ["-a", fish_quoted(joined(option.values))] if option.values else []
            yield fish_line(f"__uca_has_command {joined(names)}", "-l", name, "-x", *values, says=option.text)


def fish_top(option, commands):
    """An option that is there without a command; help is there with each of them too, but for `help`."""
    short, long = (it.lstrip("-") for it in option.names)
    names = "help" if option.is_help() else joined(it.name for it in commands)
    return fish_line(f"not __uca_has_command {names}", "-s", short, "-l", long, says=option.text)


def fish(top, commands):
    return filled(
        FISH,
        "fish",
        WITH_VALUES=joined(with_values(commands)),
        TOP_OPTIONS=lines(fish_top(it, commands) for it in top),
        NAMES=lines(fish_line("__fish_use_subcommand", "-a", it.name, says=it.text) for it in commands),
        COMMANDS=joined(it.name for it in commands),
        OPTIONS=lines(fish_options(commands)),
        FILES=lines(f"complete -c uca -n '__uca_wants_file {count} {joined(names)}' -F" for count, names in by_file_count(commands).items()),
    )


def main(words):
    if words not in ([], ["--check"]):
        script_help.stop(__doc__)
    failed, parts, items = 0, commands_of(*stored_helps()), files_items()
    made = {"uca.bash": bash(*parts), "_uca": zsh(*parts), "uca.fish": fish(*parts)}
    made |= {"uca-files.bash": files_completions.bash(items), "_uca-files": files_completions.zsh(items), "uca-files.fish": files_completions.fish(items)}
    for name, text in made.items():
        path = f"{TOP}/completions/{name}"
        if words:
            with open(path, encoding="utf-8") as file:
                is_same = file.read() == text
            failed += not is_same
            print("" if is_same else f"completions/{name} is not what tools/pages/completions.py writes\n", end="")
        else:
            with open(path, "w", encoding="utf-8") as file:
                file.write(text)
    if words:
        print(f"{len(made) - failed} passed, {failed} failed")
    return 1 if failed else 0


if __name__ == "__main__":
    if script_help.is_asked(__doc__, sys.argv[1:]):
        sys.exit()
    sys.exit(main(sys.argv[1:]))
