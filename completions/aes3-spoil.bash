# Completion of aes3-spoil in bash.
_aes3_spoil() {
    local words typed=${COMP_WORDS[COMP_CWORD]}
    case ${COMP_WORDS[COMP_CWORD - 1]} in
        *'<' | *'>') compopt -o default; return ;;
        --cell | --invert | --drop | --double | --parity | --biphase | --preamble | --check-byte | --every) return ;;
    esac
    [[ $typed == -* ]] || { compopt -o default; return; }
    words="--packed-in --packed-out --cell --invert --drop --double --parity --biphase --preamble --check-byte --every --help --version"
    mapfile -t COMPREPLY < <(compgen -W "$words" -- "$typed")
}
complete -F _aes3_spoil aes3-spoil
