# Completions of realm, realm-explain and realm-flow for bash. tools/write-manual wrote this file.
_realm() {
    local word=${COMP_WORDS[COMP_CWORD]} before=${COMP_WORDS[COMP_CWORD - 1]} action="" options="" words="" each
    COMPREPLY=()
    action=${COMP_WORDS[0]##*/}
    if [[ $action != realm-* ]]; then
        action=""
        for each in "${COMP_WORDS[@]:1:COMP_CWORD-1}"; do
            case $each in
            help | check | run | eval | session | timeline | audit | make | upgrade)
                action=$each
                break
                ;;
            esac
        done
    fi
    case $action in
    "") words="check run eval session timeline audit make upgrade help --help --version" ;;
    help) words="check run eval session timeline audit make upgrade realm-explain realm-flow" ;;
    check) options="-o --help" ;;
    run) options="--workers --engine --hints --slots --trace -o --help" ;;
    eval) options="--trace -o --help" ;;
    session) options="--workers --engine --hints --slots -o --help" ;;
    timeline) options="--workers --columns -o --help" ;;
    audit) options="-o --help" ;;
    make) options="--seed --size --text --workers --engine --hints --slots -o --help" ;;
    upgrade) options="--to -o --help" ;;
    realm-explain) options="--ends --all -o --help" ;;
    realm-flow) options="--commute --format -o --help" ;;
    esac
    [[ $word == -* ]] && words="$words $options"
    case $before in
    -o) words="" ;;
    --workers) words="0 1 2 3 4 5 6 7 8" ;;
    --engine) words="words lock" ;;
    --hints) words="queue homes" ;;
    --to) words="3" ;;
    --format) words="3" ;;
    esac
    [[ -z $words ]] || mapfile -t COMPREPLY < <(compgen -W "$words" -- "$word")
}
complete -o default -F _realm realm realm-explain realm-flow
