"""Makes the completions of the command line for bash, zsh and fish, of what the program's `--help` says.

Some values are known too: words of which the help says all (`x86_64, i386, aarch64 or arm`), and what the installed
policies have, which are looked for when a line is completed: their files, and names of calls and of their sets.
"""
import re
from collections import namedtuple

from documenting.help_text import Help

# An option of a subcommand: its name with the dashes, its value (None: it takes none), and what is said of it.
Option = namedtuple("Option", "name value about")
OPTION = re.compile(r"(?:-\w, +)?(--[\w-]+)(?: \[?<([\w.,]+)>\]?)?(?:\.\.\.)?  +(.*)")

# All words that an option takes, at the end of what is said of it.
WORDS = re.compile(r": (\w+(?:, \w+)* or \w+)(?: \[default: \w+\])?")

# Options whose values stand in the installed policies, and what is looked for: names of sets, of calls, or files. A list
# of calls is joined by commas.
LOOKED_FOR = {"--arch": "sets", "--call": "calls", "--calls": "calls"}
LIST = "--calls"
FILES = {"--policy": "policies", "--control": "controls", "--names": "names", "--groups": "groups"}

# How the lines of the file of names are read: those that name a set, and those that name a call.
SETS = r"s/^\[\([a-z0-9_]*\)\]$/\1/p"
CALLS = r"s/^\([a-z0-9_]*\) = [0-9]*$/\1/p"


def words_of(option):
    """All words that an option takes, where the help says them."""
    found = WORDS.search(option.about)
    return re.split(r", | or ", found[1]) if option.value and found else []


def options_of(lines):
    return [Option(*OPTION.fullmatch(line).groups()) for line in lines]


def names(options):
    return " ".join(option.name for option in options)


def bash(told, options):
    """For bash: names of options where a word begins with a dash, and else files, or first of all the subcommands."""
    whole = [option for some in options.values() for option in some]
    cases = "\n".join(f'        {command}) options="{names(some)}" ;;' for command, some in options.items())
    known = {option.name: words_of(option) for option in whole if words_of(option)}
    numbers = "|".join(sorted({option.name for option in whole if option.value not in (None, "FILE")} - {*known, *LOOKED_FOR}))
    words = "\n".join(f"""        {name})
            mapfile -t COMPREPLY < <(compgen -W "{' '.join(some)}" -- "$word")
            return ;;""" for name, some in sorted(known.items()))
    named = "\n".join(f"""        {name}) COMPREPLY=($(compgen -W "$(_seccomp_audit_{what})" -- "$word")); return ;;"""
                      for name, what in LOOKED_FOR.items() if name != LIST)
    files = "\n".join(f"        {name}) installed=$(_seccomp_audit_installed {what}) ;;" for name, what in FILES.items())
    return f"""# Completions of seccomp_audit for bash, made by tools/documents.

# The folder of the policies that come with the program: those that are installed beside it, or those of its checkout.
_seccomp_audit_folder() {{
    local program folder
    program=$(type -P seccomp_audit) || return
    for folder in "${{program%/*}}"/../share/seccomp_audit/policies "${{program%/*}}"/../../policies; do
        if [[ -f $folder/names.toml ]]; then
            (cd -- "$folder" && pwd)
            return
        fi
    done
}}

# The names of all sets of calls, and those of all calls.
_seccomp_audit_sets() {{
    sed -n '{SETS}' "$(_seccomp_audit_folder)/names.toml" 2> /dev/null
}}

_seccomp_audit_calls() {{
    sed -n '{CALLS}' "$(_seccomp_audit_folder)/names.toml" 2> /dev/null | sort -u
}}

# The names of the files of a kind that come with the program.
_seccomp_audit_installed() {{
    local file name
    for file in "$(_seccomp_audit_folder)"/*.toml; do
        name=${{file##*/}}
        case $1:$name in
            controls:control-*|names:names.toml|groups:groups.toml) echo "${{name%.toml}}" ;;
            policies:control-*|policies:names.toml|policies:groups.toml) ;;
            policies:*.toml) [[ -f $file ]] && echo "${{name%.toml}}" ;;
        esac
    done
}}

_seccomp_audit() {{
    local installed name front is_name=
    local word=${{COMP_WORDS[COMP_CWORD]}} before=${{COMP_WORDS[COMP_CWORD - 1]}} options="{names(options_of(told.top['Options']))}"
    # An @ at the front of a word is a word of its own here.
    if [[ $before == @ ]]; then before=${{COMP_WORDS[COMP_CWORD - 2]}} is_name=1; fi
    if [[ $word == @ ]]; then word= is_name=1; fi
    case ${{COMP_WORDS[1]}} in
{cases}
    esac
    COMPREPLY=()
    case $before in
        {numbers}) return ;;
{words}
{named}
        {LIST})
            if [[ $word != -* ]]; then
                front=${{word%"${{word##*,}}"}}
                COMPREPLY=($(compgen -P "$front" -W "$(_seccomp_audit_calls)" -- "${{word##*,}}"))
                return
            fi ;;
{files}
    esac
    if [[ $word == -* ]]; then
        mapfile -t COMPREPLY < <(compgen -W "$options" -- "$word")
    elif ((COMP_CWORD == 1)); then
        mapfile -t COMPREPLY < <(compgen -W "{' '.join(told.abouts)}" -- "$word")
    elif [[ ${{COMP_WORDS[1]}} == help ]]; then
        mapfile -t COMPREPLY < <(compgen -W "{' '.join(options)}" -- "$word")
    else
        # The files that come with the program. As names of files they would be quoted, for their @.
        for name in $installed; do
            if [[ $name == "$word"* ]]; then COMPREPLY+=("@$name"); fi
        done
        if [[ ! $is_name ]]; then
            if ((${{#COMPREPLY[@]}} == 0)); then compopt -o filenames 2> /dev/null; fi
            mapfile -t -O ${{#COMPREPLY[@]}} COMPREPLY < <(compgen -f -- "$word")
        fi
    fi
}}

complete -F _seccomp_audit seccomp_audit
"""


def for_zsh(text):
    """A text within brackets and single quotes of zsh."""
    return re.sub(r"([][:])", r"\\\1", text).replace("'", "'\\''")


def zsh_value(option):
    """What `_arguments` is told of an option's value."""
    if option.value is None:
        return ""
    if option.value == "FILE":
        return f":file:_seccomp_audit_files {FILES[option.name]}" if option.name in FILES else ":file:_files"
    if option.name in LOOKED_FOR:
        # A list may be left out.
        colon, several = ("::", "_sequence ") if option.name == LIST else (":", "")
        return f"{colon}{option.value}:{several}_seccomp_audit_{LOOKED_FOR[option.name]}"
    words = words_of(option)
    return f":{option.value}:({' '.join(words)})" if words else f":{option.value}: "


def zsh(told, options):
    """For zsh, by its `_arguments`."""
    parts = []
    for command, some in options.items():
        lines = [f"'*{it.name}[{for_zsh(it.about)}]{zsh_value(it)}'" for it in some]
        parts.append(f"        {command})\n            _arguments \\\n" + "".join(f"                {line} \\\n" for line in lines) + "                '*:file:_files' ;;")
    abouts = "\n".join(f"        '{command}:{for_zsh(about)}'" for command, about in told.abouts.items())
    top = " ".join(f"'{it.name}[{for_zsh(it.about)}]'" for it in options_of(told.top["Options"]))
    cases = "\n".join(parts)
    return f"""#compdef seccomp_audit
# Completions of seccomp_audit for zsh, made by tools/documents.

# The folder of the policies that come with the program: those that are installed beside it, or those of its checkout.
_seccomp_audit_folder() {{
    local program folder
    program=$(whence -p seccomp_audit) || return
    for folder in ${{program:h}}/../share/seccomp_audit/policies ${{program:h}}/../../policies; do
        if [[ -f $folder/names.toml ]]; then
            print -r -- ${{folder:a}}
            return
        fi
    done
}}

# The names of all sets of calls, and those of all calls.
_seccomp_audit_sets() {{
    local -a found
    found=(${{(f)"$(sed -n '{SETS}' $(_seccomp_audit_folder)/names.toml 2> /dev/null)"}})
    compadd "$@" -a found
}}

_seccomp_audit_calls() {{
    local -a found
    found=(${{(fu)"$(sed -n '{CALLS}' $(_seccomp_audit_folder)/names.toml 2> /dev/null)"}})
    compadd "$@" -a found
}}

# Files, and those of a kind that come with the program, by their names with @ or without.
_seccomp_audit_files() {{
    local file kind=$@[-1] folder=$(_seccomp_audit_folder)
    local -a found
    for file in $folder/*.toml(N); do
        [[ ${{file:t}} == ${{PREFIX#@}}* ]] || continue
        case $kind:${{file:t}} in
            (controls:control-*|names:names.toml|groups:groups.toml) found+=(@${{file:t:r}}) ;;
            (policies:control-*|policies:names.toml|policies:groups.toml) ;;
            (policies:*) found+=(@${{file:t:r}}) ;;
        esac
    done
    compadd -U -a found
    _files
}}

_seccomp_audit() {{
    local -a commands
    commands=(
{abouts}
    )
    if ((CURRENT == 2)); then
        _describe -t commands command commands
        _arguments {top}
        return
    fi
    shift words
    ((CURRENT--))
    case $words[1] in
{cases}
        help)
            _describe -t commands command commands ;;
    esac
}}

if [[ $funcstack[1] = _seccomp_audit ]]; then
    _seccomp_audit "$@"
else
    compdef _seccomp_audit seccomp_audit
fi
"""


def for_fish(text):
    """A text within single quotes of fish."""
    return text.replace("\\", "\\\\").replace("'", "\\'")


def fish_value(option):
    """What `complete` is told of an option's value."""
    if option.value is None:
        return ""
    if option.value == "FILE":
        return " -r -F" + (f" -a '(__seccomp_audit_installed {FILES[option.name]})'" if option.name in FILES else "")
    if option.name in LOOKED_FOR:
        several = "__fish_complete_list , " * (option.name == LIST)
        return f" -x -a '({several}__seccomp_audit_{LOOKED_FOR[option.name]})'"
    words = words_of(option)
    return f" -x -a '{' '.join(words)}'" if words else " -x"


# What completions for fish look up.
FISH_FUNCTIONS = f"""
# The folder of the policies that come with the program: those that are installed beside it, or those of its checkout.
function __seccomp_audit_folder
    set -l program (command -v seccomp_audit | string replace -r '[^/]*$' '')
    for folder in {{$program}}../share/seccomp_audit/policies {{$program}}../../policies
        if test -f $folder/names.toml
            path resolve $folder 2> /dev/null; or realpath $folder
            return
        end
    end
end

# The names of all sets of calls, and those of all calls.
function __seccomp_audit_sets
    sed -n '{SETS}' (__seccomp_audit_folder)/names.toml 2> /dev/null
end

function __seccomp_audit_calls
    sed -n '{CALLS}' (__seccomp_audit_folder)/names.toml 2> /dev/null | sort -u
end

# The files of a kind that come with the program.
function __seccomp_audit_installed
    for file in (__seccomp_audit_folder)/*.toml
        switch $argv[1]:(basename $file)
            case 'controls:control-*' names:names.toml groups:groups.toml
                echo @(basename $file .toml)
            case 'policies:control-*' policies:names.toml policies:groups.toml
            case 'policies:*'
                echo @(basename $file .toml)
        end
    end
end
"""


def fish(told, options):
    """For fish: a line for each subcommand and for each option."""
    lines = ["# Completions of seccomp_audit for fish, made by tools/documents.", FISH_FUNCTIONS, "complete -c seccomp_audit -f"]
    for it in options_of(told.top["Options"]):
        lines.append(f"complete -c seccomp_audit -n __fish_use_subcommand -l {it.name[2:]} -d '{for_fish(it.about)}'")
    for command, about in told.abouts.items():
        lines.append(f"complete -c seccomp_audit -n __fish_use_subcommand -a {command} -d '{for_fish(about)}'")
    lines.append(f"complete -c seccomp_audit -n '__fish_seen_subcommand_from help' -a '{' '.join(options)}'")
    for command, some in options.items():
        seen = f"complete -c seccomp_audit -n '__fish_seen_subcommand_from {command}'"
        lines.append(f"{seen} -F")
        for it in some:
            lines.append(f"{seen} -l {it.name[2:]}{fish_value(it)} -d '{for_fish(it.about)}'")
    return "\n".join(lines) + "\n"


def texts(program):
    """The three texts, by the names of their files."""
    told = Help(program)
    options = {command: options_of(parts["Options"]) for command, parts in told.commands.items()}
    makers = {"seccomp_audit.bash": bash, "_seccomp_audit": zsh, "seccomp_audit.fish": fish}
    return {f"docs/completions/{name}": make(told, options) for name, make in makers.items()}
