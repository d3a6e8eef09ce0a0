# Completion of hfs_collect's options and paths, for bash.
_hfs_collect() {
    local word=${COMP_WORDS[COMP_CWORD]} options='--compare --no-digest --help --version'
    [ "${COMP_WORDS[1]}" != page ] || options='--base --help'
    [ "${COMP_WORDS[1]}" != rows ] || options='--format --no-digest --table --help'
    case $word in
        -*) mapfile -t COMPREPLY < <(compgen -W "$options" -- "$word") ;;
        *) mapfile -t COMPREPLY < <(compgen -f -- "$word") && compopt -o filenames 2> /dev/null ;;
    esac
}
complete -F _hfs_collect hfs_collect
