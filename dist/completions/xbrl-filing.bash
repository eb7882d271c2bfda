# Completion of xbrl-filing for bash: source this file, or install it as /usr/share/bash-completion/completions/xbrl-filing.

_xbrl_filing() {
    local word=${COMP_WORDS[COMP_CWORD]} before=${COMP_WORDS[COMP_CWORD - 1]}
    # (bash takes `--layout=lines` as three words)
    if [[ $word == "=" ]]; then
        word=
    elif [[ $before == "=" ]]; then
        before=${COMP_WORDS[COMP_CWORD - 2]}
    fi
    COMPREPLY=()
    case $before in
        --layout)
            mapfile -t COMPREPLY < <(compgen -W "compact lines" -- "$word")
            return
            ;;
        --prepare | --cache | --into)
            compopt -o filenames 2>/dev/null
            mapfile -t COMPREPLY < <(compgen -d -- "$word")
            return
            ;;
        --workers | --ring | --jobs | --time-limit | --memory-limit | --unpacked-limit) return ;;
    esac
    if [[ $word == -* && $before != --taxonomy && $before != --page && $before != --summary && $before != --out && $before != --outcomes && $before != --faults && $before != --counts ]]; then
        mapfile -t COMPREPLY < <(compgen -W "--taxonomy --prepare --parameters --page --summary --cache --unpacked-limit --into --jobs --outcomes --again --time-limit --memory-limit --out --whole --workers --ring --layout --explain --no-explain --faults --most-faults --counts --progress -h --help -V --version" -- "$word")
    else
        compopt -o filenames 2>/dev/null
        mapfile -t COMPREPLY < <(compgen -f -- "$word")
    fi
}

complete -F _xbrl_filing xbrl-filing
