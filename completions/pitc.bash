# Completes the words of pitc in bash. Read it by `source`, or put it where bash-completion looks, as
# ~/.local/share/bash-completion/completions/pitc

# The paths that begin with a word and end so, without that ending.
_pitc_bases() {
    local path
    for path in "$1"*"$2"; do
        [ -e "$path" ] && printf '%s\n' "${path%"$2"}"
    done
}

# Where it offers nothing, bash offers the names of files.
_pitc() {
    local word=$2 before=$3 words=
    case $COMP_CWORD,${COMP_WORDS[1]} in
        1,-*) words="--help --version" ;;
        1,*) words="compile check help" ;;
        *,compile)
            case $before,$word in
                --valuers,* | --capacity,*) words= ;;
                *,-*) words="--plan --out --valuers --capacity --help" ;;
            esac ;;
        *,check)
            case $word in
                -*) words=--help ;;
                *) mapfile -t COMPREPLY < <(_pitc_bases "$word" .pcpsp) && return ;;
            esac ;;
        2,help) words="compile check help" ;;
    esac
    mapfile -t COMPREPLY < <(compgen -W "$words" -- "$word")
}

complete -o default -F _pitc pitc
