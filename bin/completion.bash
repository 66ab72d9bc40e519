# Completes the words of wflow, check-all and explain in bash: `. tools/wflow/bin/completion.bash`.

# The files that begin with what is typed.
_wflow_files() {
    local file
    COMPREPLY=()
    while IFS= read -r file; do COMPREPLY+=("$file"); done < <(compgen -f -- "$1")
}

# What of a list begins with what is typed.
_wflow_words() {
    local word
    COMPREPLY=()
    for word in $1; do
        [[ $word != "$2"* ]] || COMPREPLY+=("$word")
    done
}

_wflow() {
    if [ "$COMP_CWORD" -eq 1 ]; then
        _wflow_words "check run trace resubmit resubmit-set list drill session fires" "${COMP_WORDS[1]}"
    else
        _wflow_files "${COMP_WORDS[COMP_CWORD]}"
    fi
}

_wflow_check_all() {
    local typed=${COMP_WORDS[COMP_CWORD]}
    case ${COMP_WORDS[COMP_CWORD - 1]}:$typed in
    --format:*) _wflow_words "text github azure json sarif junit" "$typed" ;;
    --empty:*) _wflow_words "error ok" "$typed" ;;
    *:-*) _wflow_words "--format --name --empty --why --help" "$typed" ;;
    *) _wflow_files "$typed" ;;
    esac
}

complete -o filenames -F _wflow wflow
complete -o filenames -F _wflow_check_all check-all explain
