# Completion for bash of `tcrest` and of the tools beside it: source this file, for instance from ~/.bashrc.

_tcrest_commands="run bound persist asm mean pipe grid gen bench"

# `_tcrest_files WORD`: folders and files of TOML that begin so.
_tcrest_files() {
    compopt -o filenames 2> /dev/null
    mapfile -t COMPREPLY < <(compgen -d -- "$1"; compgen -f -X '!*.toml' -- "$1")
}

# `_tcrest_options TOOL WORD`: the options that the tool's own help has.
_tcrest_options() {
    local options
    options=$("$1" --help 2> /dev/null | grep -oE '(^|[^A-Za-z-])--[a-z]+' | grep -oE -- '--[a-z]+' | sort -u)
    mapfile -t COMPREPLY < <(compgen -W "$options" -- "$2")
}

# The first word of `tcrest` that is no option is a command, and all others are files.
_tcrest() {
    local word=${COMP_WORDS[COMP_CWORD]} command="" at
    for ((at = 1; at < COMP_CWORD; at++)); do
        [[ " $_tcrest_commands " == *" ${COMP_WORDS[at]} "* ]] && command=${COMP_WORDS[at]}
    done
    if [[ $word == -* ]]; then
        _tcrest_options "$1" "$word"
    elif [[ -z $command ]]; then
        mapfile -t COMPREPLY < <(compgen -W "$_tcrest_commands" -- "$word")
    else
        _tcrest_files "$word"
    fi
}

# All other tools take files of TOML and options.
_tcrest_tool() {
    local word=${COMP_WORDS[COMP_CWORD]}
    if [[ $word == -* ]]; then
        _tcrest_options "$1" "$word"
    else
        _tcrest_files "$word"
    fi
}

# bash looks a command up by the last part of its path, so this is for tools/NAME too.
complete -F _tcrest tcrest
complete -F _tcrest_tool bounds explain lint listing network page profile stages sweep tables timeline where worst
