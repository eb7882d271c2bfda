# Completion of xbrl-json for bash: source this file, or install it as /usr/share/bash-completion/completions/xbrl-json.

_xbrl_json() {
    local word=${COMP_WORDS[COMP_CWORD]} before=${COMP_WORDS[COMP_CWORD - 1]}
    # (bash takes `--layout=lines` as three words)
    if [[ $word == "=" ]]; then
        word=
    elif [[ $before == "=" ]]; then
        before=${COMP_WORDS[COMP_CWORD - 2]}
    fi
    COMPREPLY=()
    case $before in
        --layout)
            mapfile -t COMPREPLY < <(compgen -W "compact lines" -- "$word")
            return
            ;;
        --workers | --ring | --most-faults) return ;;
    esac
    if [[ $word == -* && $before != --types && $before != --out && $before != --faults && $before != --counts ]]; then
        mapfile -t COMPREPLY < <(compgen -W "--types --workers --ring --out --whole --layout --progress --explain --no-explain --faults --most-faults --counts -h --help -V --version" -- "$word")
    else
        compopt -o filenames 2>/dev/null
        mapfile -t COMPREPLY < <(compgen -f -- "$word")
    fi
}

complete -F _xbrl_json xbrl-json
