# Completion of iolb's words for bash.
_iolb() {
    local word=${COMP_WORDS[COMP_CWORD]} command=${COMP_WORDS[1]}
    if [ "$COMP_CWORD" = 1 ]; then
        COMPREPLY=($(compgen -W "check bound eval replay sample parallel traffic levels climb" -- "$word"))
        return
    fi
    local files=2
    [ "$command" = sample ] && return
    [ "$command" = bound ] && files=1
    [ "$command" = traffic ] && files=3
    if [ "$COMP_CWORD" -le $((files + 1)) ]; then
        COMPREPLY=($(compgen -f -- "$word"))
    fi
}
complete -o filenames -F _iolb iolb
