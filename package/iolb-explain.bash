# Completion of iolb-explain's words for bash.
_iolb_explain() {
    local word=${COMP_WORDS[COMP_CWORD]} command=${COMP_WORDS[1]}
    local commands="help version program vertex schedule compare refusal bound"
    if [ "$COMP_CWORD" = 1 ]; then
        COMPREPLY=($(compgen -W "$commands" -- "$word"))
        return
    fi
    local files=1
    case $command in
        help)
            [ "$COMP_CWORD" = 2 ] && COMPREPLY=($(compgen -W "$commands fault condition" -- "$word"))
            return ;;
        version) return ;;
        schedule|refusal|bound) files=2 ;;
        compare)
            files=$COMP_CWORD
            [ "$COMP_CWORD" = 2 ] && COMPREPLY=($(compgen -W "csv json" -- "$word")) ;;
    esac
    if [ "$COMP_CWORD" -le $((files + 1)) ]; then
        COMPREPLY+=($(compgen -f -- "$word"))
    fi
}
complete -o filenames -F _iolb_explain iolb-explain
