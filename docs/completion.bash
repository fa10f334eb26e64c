# Completion for bash of the words of scram and of the programs beside it: source this file in ~/.bashrc.
# docs/check.py compares the options here with the table of docs/report.md.

_scram() {
    local word="${COMP_WORDS[COMP_CWORD]}" before="${COMP_WORDS[COMP_CWORD-1]}" program="${1##*/}" options
    COMPREPLY=()
    case "$program" in
        scram_shares)
            options="--bdd --zbdd --prime-implicants -l --limit-order --cut-off --mission-time --rare-event --ccf --sample" ;;
        *)
            options="--bdd --zbdd --prime-implicants -l --limit-order --cut-off --mission-time --rare-event --mcub --ccf
                --validate --node-limit --sample" ;;
    esac
    case "$before" in
        # (a value, which no list has)
        -l | --limit-order | --cut-off | --mission-time | --node-limit | --sample) return ;;
    esac
    case "$word" in
        -*) mapfile -t COMPREPLY < <(compgen -W "$options" -- "$word") ;;
        *) mapfile -t COMPREPLY < <(compgen -f -X '!*.xml' -- "$word"; compgen -d -- "$word") ;;
    esac
}

complete -o filenames -F _scram scram scram_shares
