# Completions of shearcotter for bash; printed by: shearcotter completions bash

_shearcotter_words() {
    mapfile -t COMPREPLY < <(compgen -W "$1" -- "$2")
}

_shearcotter_files() {
    compopt -o filenames 2>/dev/null
    mapfile -t COMPREPLY < <(compgen -f -- "$1")
}

_shearcotter() {
    local cur=${COMP_WORDS[COMP_CWORD]} command='' option='' ended='' place=0 i word
    COMPREPLY=()
    # What stands before the cursor: the command, an option that waits for its value, the number of operands.
    for ((i = 1; i < COMP_CWORD; i++)); do
        word=${COMP_WORDS[i]}
        if [[ $option ]]; then
            [[ $word == = ]] || option=''
        elif [[ -z $ended && $word == -- ]]; then
            ended=1
        elif [[ -z $ended && $word == -?* ]]; then
            case $word in
                --format | --second | --jobs | --records | --marks) option=$word ;;
            esac
        elif [[ -z $command ]]; then
            command=$word
        else
            place=$((place + 1))
        fi
    done
    if [[ $option ]]; then
        [[ $cur == = ]] && cur=''
        case $command,$option in
            lock,--format) _shearcotter_words 'places hex raw json' "$cur" ;;
            open,--second) _shearcotter_files "$cur" ;;
            open,--format) _shearcotter_words 'places hex raw json' "$cur" ;;
            session,--format) _shearcotter_words 'hex raw json' "$cur" ;;
            report,--second) _shearcotter_files "$cur" ;;
            report,--records) _shearcotter_files "$cur" ;;
            read,--marks) _shearcotter_files "$cur" ;;
            read,--format) _shearcotter_words 'places hex raw json' "$cur" ;;
        esac
    elif [[ -z $command ]]; then
        _shearcotter_words 'check convert publish lock open session report read shapes help man completions --help --version' "$cur"
    elif [[ -z $ended && $cur == -* ]]; then
        case $command in
            check) _shearcotter_words '--quiet --help' "$cur" ;;
            convert) _shearcotter_words '--quiet --help' "$cur" ;;
            publish) _shearcotter_words '--small --quiet --help' "$cur" ;;
            lock) _shearcotter_words '--format --quiet --help' "$cur" ;;
            open) _shearcotter_words '--second --format --jobs --explain --quiet --help' "$cur" ;;
            session) _shearcotter_words '--format --jobs --explain --quiet --help' "$cur" ;;
            report) _shearcotter_words '--second --records --jobs --quiet --help' "$cur" ;;
            read) _shearcotter_words '--marks --format --jobs --explain --quiet --help' "$cur" ;;
            shapes) _shearcotter_words '--quiet --help' "$cur" ;;
            help) _shearcotter_words '--quiet --help' "$cur" ;;
            man) _shearcotter_words '--quiet --help' "$cur" ;;
            completions) _shearcotter_words '--quiet --help' "$cur" ;;
        esac
    else
        case $command,$place in
            check,0) _shearcotter_files "$cur" ;;
            convert,0) _shearcotter_files "$cur" ;;
            convert,1) _shearcotter_files "$cur" ;;
            publish,0) _shearcotter_files "$cur" ;;
            publish,1) _shearcotter_files "$cur" ;;
            lock,0) _shearcotter_words 'mceliece348864 mceliece460896 mceliece6688128 mceliece6960119 mceliece8192128' "$cur" ;;
            lock,1) _shearcotter_files "$cur" ;;
            lock,2) _shearcotter_files "$cur" ;;
            lock,3) _shearcotter_files "$cur" ;;
            open,0) _shearcotter_files "$cur" ;;
            open,1) _shearcotter_files "$cur" ;;
            session,0) _shearcotter_files "$cur" ;;
            session,1) _shearcotter_files "$cur" ;;
            session,2) _shearcotter_files "$cur" ;;
            report,0) _shearcotter_files "$cur" ;;
            report,1) _shearcotter_files "$cur" ;;
            read,0) _shearcotter_files "$cur" ;;
            read,1) _shearcotter_files "$cur" ;;
            help,0) _shearcotter_words 'check convert publish lock open session report read shapes help man completions' "$cur" ;;
            completions,0) _shearcotter_words 'bash' "$cur" ;;
        esac
    fi
}

complete -F _shearcotter shearcotter
