# Completion of etcs for bash. Written by tools/manual.py from the help of etcs.

_etcs() {
    local current=${COMP_WORDS[COMP_CWORD]} before=${COMP_WORDS[COMP_CWORD - 1]} command= words= files word
    # --kind=short is three words here
    if [[ $current == = ]]; then
        current=
    elif [[ $before == = ]]; then
        before=${COMP_WORDS[COMP_CWORD - 2]}
    fi
    for word in "${COMP_WORDS[@]:1:COMP_CWORD - 1}"; do
        if [[ $word != -* ]]; then
            command=$word
            break
        fi
    done
    case "$command $before" in
        'show --kind') words='long short radio train' ;;
        'show --from') words='hex bin json' ;;
        'check --kind') words='long short radio train' ;;
        'check --from') words='hex bin json' ;;
        'convert --kind') words='long short radio train' ;;
        'convert --from') words='hex bin json' ;;
        'convert --to') words='hex bin json' ;;
        'group --kind') words='long short' ;;
        'group --from') words='hex bin json' ;;
        'log -k' | 'log --kind') words='auto long short radio train' ;;
        'log --to') words='hex json' ;;
        'log --packet') words='' ;;
        'log --message') words='' ;;
        'explain -k' | 'explain --kind') words='auto long short radio train' ;;
        'explain --from') words='hex bin json' ;;
        'explain --to') words='text html' ;;
        'blank -k' | 'blank --kind') words='long short radio train' ;;
        ' '*) if [[ $current == -* ]]; then words='-h --help -V --version'; else words='show check convert group log explain blank schema tables completions help'; fi ;;
        'help '*) words='show check convert group log explain blank schema tables completions help' ;;
        'show '*) words='--kind --from -h --help' ;;
        'check '*) words='--kind --from -h --help' ;;
        'convert '*) words='--kind --from --to -h --help' ;;
        'group '*) words='--kind --from -h --help' ;;
        'log '*) if [[ $current == -* ]]; then words='-k --kind --good --to --packet --message --summary --groups --strict --quiet -h --help'; else files=$current; fi ;;
        'explain '*) if [[ $current == -* ]]; then words='-k --kind --from --to -h --help'; else files=$current; fi ;;
        'blank '*) words='-k --kind -h --help' ;;
        'schema '*) words='-h --help' ;;
        'tables '*) words='-h --help' ;;
        'completions '*) if [[ $current == -* ]]; then words='-h --help'; else words='bash zsh fish'; fi ;;
    esac
    if [[ -v files ]]; then
        compopt -o filenames 2> /dev/null
        mapfile -t COMPREPLY < <(compgen -f -- "$files")
    else
        COMPREPLY=($(compgen -W "$words" -- "$current"))
    fi
}

complete -F _etcs etcs
