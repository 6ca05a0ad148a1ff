# SPDX-License-Identifier: MIT OR Apache-2.0
# Completes the arguments of rrdi in bash. Run this line in a shell, or put the line into ~/.bashrc:
#
#     . examples/rrdi.bash
#
# The completion knows commands, options, files, types and functions. `rrdi info FILE` gives the names of sources and the
# numbers of archives. The completion does not understand words with quotes or escaped spaces.

# The settings of a file, without a wait for a lock or for a pipe.
_rrdi_info() {
    [[ ! -f $2 ]] || RRDI_WAIT=0 "$1" info "$2" 2>/dev/null
}

# The names of the sources of a file.
_rrdi_sources() {
    _rrdi_info "$@" | sed -n 's/^ds\[[0-9]*\]\.name = //p'
}

# The numbers of the archives of a file.
_rrdi_archives() {
    _rrdi_info "$@" | sed -n 's/^rra\[\([0-9]*\)\]\.cf = .*/\1/p'
}

# Puts the choices that begin with the first argument into COMPREPLY. Some choices begin with the typed word, and
# compgen -W would run a $(command) in it.
_rrdi_matching() {
    local typed=$1 choice
    shift
    COMPREPLY=()
    for choice; do
        [[ $choice != "$typed"* ]] || COMPREPLY+=("$choice")
    done
}

_rrdi() {
    local types=(GAUGE COUNTER DERIVE ABSOLUTE) functions=(AVERAGE MIN MAX LAST)
    local line=${COMP_LINE:0:COMP_POINT} words current previous command file choices=() names=() taken name

    # Bash itself cuts words at : and =, so the words are read from the line.
    read -ra words <<<"$line"
    case $line in *[[:space:]]) words+=('') ;; esac
    current=${words[${#words[@]} - 1]}
    previous=${words[${#words[@]} - 2]}
    command=${words[1]}
    file=${words[2]-}
    COMPREPLY=()

    # After < and > a file follows.
    if [[ $line =~ [\<\>][\&|]?[[:space:]]*([^[:space:]\<\>]*)$ ]]; then
        compopt -o filenames 2>/dev/null
        mapfile -t COMPREPLY < <(compgen -f -- "${BASH_REMATCH[1]}")
        return
    fi
    if ((${#words[@]} == 2)); then
        choices=(batch create fetch first info last lastupdate resize revert tune update)
    elif ((${#words[@]} == 3)); then
        compopt -o filenames 2>/dev/null
        mapfile -t COMPREPLY < <(compgen -f -- "$current")
        return
    else
        case $command:$previous in
            create:-s | create:--step | create:-b | create:--start | create:--journal) ;;
            fetch:-r | fetch:--resolution | fetch:-s | fetch:--start | fetch:-e | fetch:--end) ;;
            create:*)
                case $current in
                    DS:*:*:*:*:*) choices=("${current%:*}:U") ;;
                    DS:*:*:*:*) choices=("${current%:*}:U:") ;;
                    DS:*:*:*) ;;
                    DS:*:*) for name in "${types[@]}"; do choices+=("${current%:*}:$name:"); done ;;
                    RRA:*:*) ;;
                    RRA:*) for name in "${functions[@]}"; do choices+=("RRA:$name:"); done ;;
                    *) choices=(DS: RRA: --step --start --journal) ;;
                esac
                ;;
            update:-t | update:--template)
                case $current in *:*) taken=${current%:*}: ;; *) taken= ;; esac
                mapfile -t names < <(_rrdi_sources "${words[0]}" "$file")
                for name in "${names[@]}"; do choices+=("$taken$name"); done
                ;;
            update:*) choices=(N: --template) ;;
            tune:-d | tune:--data-source-type)
                mapfile -t names < <(_rrdi_sources "${words[0]}" "$file")
                for name in "${names[@]}"; do choices+=("${types[@]/#/$name:}"); done
                ;;
            tune:--heartbeat | tune:-r | tune:--data-source-rename)
                mapfile -t names < <(_rrdi_sources "${words[0]}" "$file")
                choices=("${names[@]/%/:}")
                ;;
            tune:-i | tune:--minimum | tune:-a | tune:--maximum)
                mapfile -t names < <(_rrdi_sources "${words[0]}" "$file")
                choices=("${names[@]/%/:}" "${names[@]/%/:U}")
                ;;
            tune:*)
                case $current in
                    RRA:*:*) ;;
                    RRA:*) for name in "${functions[@]}"; do choices+=("RRA:$name:"); done ;;
                    DELRRA:*)
                        mapfile -t names < <(_rrdi_archives "${words[0]}" "$file")
                        choices=("${names[@]/#/DELRRA:}")
                        ;;
                    *) choices=(--heartbeat --minimum --maximum --data-source-type --data-source-rename RRA: DELRRA:) ;;
                esac
                ;;
            resize:*)
                case ${#words[@]} in
                    4) mapfile -t choices < <(_rrdi_archives "${words[0]}" "$file") ;;
                    5) choices=(GROW SHRINK) ;;
                esac
                ;;
            fetch:*)
                choices=(--resolution --start --end)
                ((${#words[@]} > 4)) || choices=("${functions[@]}")
                ;;
            first:--rraindex) mapfile -t choices < <(_rrdi_archives "${words[0]}" "$file") ;;
            first:*) choices=(--rraindex) ;;
        esac
    fi
    _rrdi_matching "$current" "${choices[@]}"

    # A complete word gets a space after it; a word that ends in : does not.
    case ${COMPREPLY[0]-} in *:) compopt -o nospace 2>/dev/null ;; esac
    # Bash replaces only the part after the last : of the word.
    case $COMP_WORDBREAKS in
        *:*) COMPREPLY=("${COMPREPLY[@]#"${current%"${current##*:}"}"}") ;;
    esac
    return 0
}

complete -F _rrdi rrdi
