# Completes the words of pitc_thin in bash. Read it by `source`, or put it where bash-completion looks, as
# ~/.local/share/bash-completion/completions/pitc_thin

# Where it offers nothing, bash offers the names of files.
_pitc_thin() {
    local word=$2 before=$3 words=
    case $before,$word in
        --valuers,* | --capacity,*) words= ;;
        *,-*) words="--plan --out --valuers --capacity --help --version" ;;
    esac
    mapfile -t COMPREPLY < <(compgen -W "$words" -- "$word")
}

complete -o default -F _pitc_thin pitc_thin
