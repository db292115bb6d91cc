"""The completions of uca-files for bash, zsh and fish: options, folders, and the tags of all languages. Part of tools/pages/completions.py."""
HEAD = """# Completion of the command uca-files for @SHELL@: options, folders, and the tags of all languages with their names.
# Written by tools/pages/completions.py from the help of the script. Do not edit."""

BASH = """@HEAD@

_uca_files_command() {
    local current=${COMP_WORDS[COMP_CWORD]}
    COMPREPLY=()
    case ${COMP_WORDS[COMP_CWORD - 1]} in
        @FOLDERS@) mapfile -t COMPREPLY < <(compgen -d -- "$current") ;;
        @PROGRAMS@) mapfile -t COMPREPLY < <(compgen -c -- "$current") ;;
        @TEXTS@) ;;
        *)
            if [[ $current == -* ]]; then
                mapfile -t COMPREPLY < <(compgen -W "@OPTIONS@" -- "$current")
            else
                mapfile -t COMPREPLY < <(compgen -W "$(uca-files --names 2> /dev/null | sed 's/.*: //')" -- "$current")
            fi
            ;;
    esac
}

complete -F _uca_files_command uca-files
"""

ZSH = """#compdef uca-files
@HEAD@

_uca_files_tags() {
    local -a tags=(${(f)"$(uca-files --names 2> /dev/null | sed 's/\\(.*\\): \\(.*\\)/\\2:\\1/')"})
    _describe -t tags tag tags
}

_arguments \\
@OPTIONS@
    '*:tag:_uca_files_tags'
"""

FISH = """@HEAD@

complete -c uca-files -f
complete -c uca-files -a '(uca-files --names 2> /dev/null | string replace -r "(.*): (.*)" "\\$2\\t\\$1")'
@OPTIONS@
"""

# How an apostrophe stands between apostrophes, in zsh and in fish.
CLOSED, ESCAPED = "'\\''", "\\'"

# What the shells offer for a value: by its name in the help.
ZSH_VALUES = {"FOLDER": "_files -/", "PROGRAM": "_command_names -e"}
FISH_VALUES = {"FOLDER": " -a '(__fish_complete_directories)'", "PROGRAM": " -a '(__fish_complete_command)'"}


def options_of(items):
    """The options: the name of each, that of its value or nothing, and its text without what stands in brackets."""
    for name, text in items:
        option, _, value = name.partition(" ")
        if option.startswith("--"):
            yield option, value, text.partition(" (")[0]


def filled(template, shell, **parts):
    for name, text in {"HEAD": HEAD.replace("@SHELL@", shell), **parts}.items():
        template = template.replace(f"@{name}@", text)
    return template


def quoted(text, apostrophe):
    return "'" + text.replace("'", apostrophe) + "'"


def bash(items):
    options = [*options_of(items)]
    named = lambda *values: " | ".join(name for name, value, _ in options if value in values)
    others = {value for _, value, _ in options} - {"", "FOLDER", "PROGRAM"}
    return filled(BASH, "bash", FOLDERS=named("FOLDER"), PROGRAMS=named("PROGRAM"), TEXTS=named(*others), OPTIONS=" ".join(name for name, _, _ in options) + " --help")


def zsh(items):
    value_of = lambda value: f":{value}:{ZSH_VALUES.get(value, ' ')}" if value else ""
    rows = [f"{name}[{text}]{value_of(value)}" for name, value, text in options_of(items)]
    return filled(ZSH, "zsh", OPTIONS="\n".join(f"    {quoted(it, CLOSED)} \\" for it in rows))


def fish(items):
    value_of = lambda value: " -x" + FISH_VALUES.get(value, "") if value else ""
    rows = [f"complete -c uca-files -l {name[2:]}{value_of(value)} -d {quoted(text, ESCAPED)}" for name, value, text in options_of(items)]
    return filled(FISH, "fish", OPTIONS="\n".join(rows))
