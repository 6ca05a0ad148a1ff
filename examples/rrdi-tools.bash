# SPDX-License-Identifier: MIT OR Apache-2.0
# Completes the arguments of rrdi's tools in bash. Run this line in a shell, or put the line into ~/.bashrc:
#
#     . examples/rrdi-tools.bash

# Completes options, or files whose names have one of the given endings, or directories.
_rrdi_tool() {
    local current=${COMP_WORDS[COMP_CWORD]} tool=${COMP_WORDS[0]##*/} options='--help --version' ends='' end
    COMPREPLY=()
    # Bash has the whole word, and wants what fits to the part before the cursor.
    while [[ ${COMP_LINE:0:COMP_POINT} != *"$current" ]]; do current=${current%?}; done
    case $tool in
        rrdi-import)
            options+=' --journal --into --in-place --jobs'
            case ${COMP_WORDS[COMP_CWORD - 1]} in
                --journal | --jobs) return 0 ;;
                --into)
                    compopt -o filenames 2>/dev/null
                    mapfile -t COMPREPLY < <(compgen -d -- "$current")
                    return 0
                    ;;
            esac
            ends='rrd wsp rrdi'
            ;;
        rrdi-carbon-cache)
            options+=' --config --debug --nodaemon --pidfile --logdir --instance'
            if [[ $current != -* ]]; then
                mapfile -t COMPREPLY < <(compgen -W 'start stop status' -- "$current")
                return 0
            fi
            ;;
        rrdi-check)
            options+=' --above --below --critical --warning --for --stale --changes'
            case ${COMP_WORDS[COMP_CWORD - 1]} in
                -w | -c | --above | --below | --critical | --warning | --for | --stale) return 0 ;;
                --changes)
                    compopt -o filenames 2>/dev/null
                    mapfile -t COMPREPLY < <(compgen -f -- "$current")
                    return 0
                    ;;
            esac
            ((COMP_CWORD > 1)) || ends='rrdi'
            ;;
        rrdi-export)
            options+=' --into --in-place --whisper --jobs'
            case ${COMP_WORDS[COMP_CWORD - 1]} in
                --jobs) return 0 ;;
                --into)
                    compopt -o filenames 2>/dev/null
                    mapfile -t COMPREPLY < <(compgen -d -- "$current")
                    return 0
                    ;;
            esac
            ends='rrdi rrd'
            ;;
        rrdi-compare) ends='rrd rrdi' ;;
        rrdi-plot)
            options+=' --html'
            if ((COMP_CWORD > 2)); then
                options='--resolution --start --end --source --area --stack --fit --unit --title --size --width --height'
                options+=' --min --max --rigid --cut-spikes --keep-spikes --jobs --dark --no-legend --no-band'
            fi
            case ${COMP_WORDS[COMP_CWORD - 1]} in
                -r | -s | -e | --resolution | --start | --end | --source | --unit | --title | --size) return 0 ;;
                --width | --height | --min | --max | --jobs) return 0 ;;
            esac
            if [[ ${COMP_WORDS[1]} == --html ]] && ((COMP_CWORD == 2 || COMP_CWORD == 3)); then
                compopt -o filenames 2>/dev/null
                mapfile -t COMPREPLY < <(compgen -d -- "$current")
                return 0
            fi
            case $COMP_CWORD in
                1) ends='rrdi' ;;
                2) ends='png svg' ;;
                3)
                    [[ $current == -* ]] || mapfile -t COMPREPLY < <(compgen -W 'AVERAGE MIN MAX LAST' -- "$current")
                    [[ $current == -* ]] || return 0
                    ;;
            esac
            ;;
        rrdi-record)
            options+=' --load --memory --disk --network --journal'
            case ${COMP_WORDS[COMP_CWORD - 1]} in
                --network | --journal) return 0 ;;
                --disk) ;;
                *) ends='rrdi' ;;
            esac
            ;;
        rrdi-feed)
            options='--seconds --jobs --held --patience --open-files --open-seconds --open-memory --backfill --graphite --rules'
            ((COMP_CWORD > 1)) || options="--help --version $options"
            case ${COMP_WORDS[COMP_CWORD - 1]} in
                --seconds | --jobs | --held | --patience | --open-*) return 0 ;;
                --graphite) ;;
                --rules)
                    compopt -o filenames 2>/dev/null
                    mapfile -t COMPREPLY < <(compgen -f -- "$current")
                    return 0
                    ;;
                *)
                    mapfile -t COMPREPLY < <(compgen -W "$options" -- "$current")
                    return 0
                    ;;
            esac
            ;;
        rrdi-fix)
            options+=' --source --samples'
            case ${COMP_WORDS[COMP_CWORD - 1]} in
                --source) return 0 ;;
                --samples)
                    compopt -o filenames 2>/dev/null
                    mapfile -t COMPREPLY < <(compgen -f -- "$current")
                    return 0
                    ;;
            esac
            ((COMP_CWORD > 1)) || ends='rrdi'
            ;;
        rrdi-graph)
            options='--help --version --start --end --title --vertical-label --width --height'
            ((COMP_CWORD > 1)) && ends='' || ends='png svg pdf'
            ;;
        rrdi-show)
            options+=' --start --end --resolution --archive --csv --json --openmetrics --journal'
            case ${COMP_WORDS[COMP_CWORD - 1]} in
                -s | -e | -r | -a | --start | --end | --resolution | --archive) return 0 ;;
                *.rrdi)
                    [[ $current == -* ]] || mapfile -t COMPREPLY < <(compgen -W 'AVERAGE MIN MAX LAST' -- "$current")
                    [[ $current == -* ]] || return 0
                    ;;
            esac
            ends='rrdi'
            ;;
        rrdi-rrdtool)
            options='--help --exact --lengths --rrdi --show --version'
            if [[ $COMP_CWORD == 1 || $COMP_CWORD == 2 && ${COMP_WORDS[1]} == --* ]]; then
                [[ $current == -* ]] || options='create update updatev tune resize fetch first last lastupdate info'
                [[ $current == -* ]] || options+=' graph graphv xport'
                mapfile -t COMPREPLY < <(compgen -W "$options" -- "$current")
                return 0
            fi
            ends='rrd rrdi'
            ;;
    esac
    if [[ $current == -* ]]; then
        mapfile -t COMPREPLY < <(compgen -W "$options" -- "$current")
        return 0
    fi
    compopt -o filenames 2>/dev/null
    for end in $ends; do
        mapfile -t -O "${#COMPREPLY[@]}" COMPREPLY < <(compgen -f -X "!*.$end" -- "$current")
    done
    mapfile -t -O "${#COMPREPLY[@]}" COMPREPLY < <(compgen -d -- "$current")
    return 0
}

complete -F _rrdi_tool rrdi-carbon-cache rrdi-check rrdi-import rrdi-export rrdi-compare rrdi-feed rrdi-fix rrdi-graph rrdi-plot rrdi-record rrdi-rrdtool rrdi-show
