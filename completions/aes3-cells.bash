# Completion of aes3-cells in bash.
_aes3_cells() {
    local words
    case ${COMP_WORDS[COMP_CWORD - 1]} in
        *'<' | *'>') compopt -o default; return ;;
        --rate) words="24000000 25000000 50000000 100000000" ;;
        --at) words="32000 44100 48000 88200 96000 176400 192000" ;;
        --unit) words="1 2" ;;
        --picture) compopt -o default; return ;;
        --bit) words="0 1 2 3 4 5 6 7 8 9 10 11 12 13 14 15" ;;
        *)
            [[ ${COMP_WORDS[COMP_CWORD]} == -* ]] || { compopt -o default; return; }
            words="--rate --at --unit --bit --packed-out --tell --places --picture --help --version" ;;
    esac
    mapfile -t COMPREPLY < <(compgen -W "$words" -- "${COMP_WORDS[COMP_CWORD]}")
}
complete -F _aes3_cells aes3-cells
