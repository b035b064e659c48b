# Completions of seccomp_audit for bash, made by tools/documents.

# The folder of the policies that come with the program: those that are installed beside it, or those of its checkout.
_seccomp_audit_folder() {
    local program folder
    program=$(type -P seccomp_audit) || return
    for folder in "${program%/*}"/../share/seccomp_audit/policies "${program%/*}"/../../policies; do
        if [[ -f $folder/names.toml ]]; then
            (cd -- "$folder" && pwd)
            return
        fi
    done
}

# The names of all sets of calls, and those of all calls.
_seccomp_audit_sets() {
    sed -n 's/^\[\([a-z0-9_]*\)\]$/\1/p' "$(_seccomp_audit_folder)/names.toml" 2> /dev/null
}

_seccomp_audit_calls() {
    sed -n 's/^\([a-z0-9_]*\) = [0-9]*$/\1/p' "$(_seccomp_audit_folder)/names.toml" 2> /dev/null | sort -u
}

# The names of the files of a kind that come with the program.
_seccomp_audit_installed() {
    local file name
    for file in "$(_seccomp_audit_folder)"/*.toml; do
        name=${file##*/}
        case $1:$name in
            controls:control-*|names:names.toml|groups:groups.toml) echo "${name%.toml}" ;;
            policies:control-*|policies:names.toml|policies:groups.toml) ;;
            policies:*.toml) [[ -f $file ]] && echo "${name%.toml}" ;;
        esac
    done
}

_seccomp_audit() {
    local installed name front is_name=
    local word=${COMP_WORDS[COMP_CWORD]} before=${COMP_WORDS[COMP_CWORD - 1]} options="--help --version"
    # An @ at the front of a word is a word of its own here.
    if [[ $before == @ ]]; then before=${COMP_WORDS[COMP_CWORD - 2]} is_name=1; fi
    if [[ $word == @ ]]; then word= is_name=1; fi
    case ${COMP_WORDS[1]} in
        audit) options="--policy --control --accept --budget --workers --regions --why --summary --summary-all --groups --names --json --progress --quiet --explain-errors --help" ;;
        check) options="--instructions --json --quiet --explain-errors --help" ;;
        eval) options="--input --call --nr --arch --args --trace --trace-true --names --json --explain-errors --help" ;;
        compare) options="--old --new --nodes --same --rows --only --calls --names --json --quiet --explain-errors --help" ;;
        list) options="--nodes --names --calls --digest --json --quiet --explain-errors --help" ;;
        needed) options="--nodes --json --quiet --explain-errors --help" ;;
        profile) options="--machine --names --cap --kernel --conflicts --newer --skip-unknown --notes --quiet --explain-errors --help" ;;
    esac
    COMPREPLY=()
    case $before in
        --args|--budget|--cap|--input|--kernel|--nodes|--nr|--workers) return ;;
        --conflicts)
            mapfile -t COMPREPLY < <(compgen -W "strictest mildest first" -- "$word")
            return ;;
        --machine)
            mapfile -t COMPREPLY < <(compgen -W "x86_64 i386 aarch64 arm" -- "$word")
            return ;;
        --only)
            mapfile -t COMPREPLY < <(compgen -W "looser tighter different" -- "$word")
            return ;;
        --arch) COMPREPLY=($(compgen -W "$(_seccomp_audit_sets)" -- "$word")); return ;;
        --call) COMPREPLY=($(compgen -W "$(_seccomp_audit_calls)" -- "$word")); return ;;
        --calls)
            if [[ $word != -* ]]; then
                front=${word%"${word##*,}"}
                COMPREPLY=($(compgen -P "$front" -W "$(_seccomp_audit_calls)" -- "${word##*,}"))
                return
            fi ;;
        --policy) installed=$(_seccomp_audit_installed policies) ;;
        --control) installed=$(_seccomp_audit_installed controls) ;;
        --names) installed=$(_seccomp_audit_installed names) ;;
        --groups) installed=$(_seccomp_audit_installed groups) ;;
    esac
    if [[ $word == -* ]]; then
        mapfile -t COMPREPLY < <(compgen -W "$options" -- "$word")
    elif ((COMP_CWORD == 1)); then
        mapfile -t COMPREPLY < <(compgen -W "audit check eval compare list needed profile help" -- "$word")
    elif [[ ${COMP_WORDS[1]} == help ]]; then
        mapfile -t COMPREPLY < <(compgen -W "audit check eval compare list needed profile" -- "$word")
    else
        # The files that come with the program. As names of files they would be quoted, for their @.
        for name in $installed; do
            if [[ $name == "$word"* ]]; then COMPREPLY+=("@$name"); fi
        done
        if [[ ! $is_name ]]; then
            if ((${#COMPREPLY[@]} == 0)); then compopt -o filenames 2> /dev/null; fi
            mapfile -t -O ${#COMPREPLY[@]} COMPREPLY < <(compgen -f -- "$word")
        fi
    fi
}

complete -F _seccomp_audit seccomp_audit
