# Words of hdt and hdv for bash.
_hdt() {
    local word=${COMP_WORDS[COMP_CWORD]} before=${COMP_WORDS[COMP_CWORD - 1]} words
    case $before in
    --heap | --blocks | --rounds) return ;;
    --by) words="generation region" ;;
    hdt) words="solo roots run load audit" ;;
    hdv) words="why show path graph step help --help --version" ;;
    *) case ${COMP_WORDS[1]} in
        load) words="--rounds" ;;
        solo | run) words="--heap --blocks --slots" ;;
        graph) words="--by --heap --blocks --help" ;;
        why | show | path | step) words="--heap --blocks --help" ;;
        *) words="--heap --blocks" ;;
        esac ;;
    esac
    mapfile -t COMPREPLY < <(compgen -W "$words" -- "$word")
}
complete -F _hdt hdt hdv
