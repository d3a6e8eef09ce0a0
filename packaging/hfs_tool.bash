# Completion of hfs_tool's words, options, their values, volumes and paths, for bash: by the program's own help.

# The lines of a list of the help, as Commands or Options, of the program or of a word.
_hfs_tool_list() {
    local list=$1
    shift
    "${COMP_WORDS[0]}" "$@" --help 2> /dev/null | awk -v list="$list:" '$0 == list { inside = 1; next } /^$/ { inside = 0 } inside'
}

# The image among the words that were typed: the first after the program's word that is no option and no option's value. The argument is what
# the help says about the options.
_hfs_tool_image() {
    local i
    for ((i = 2; i < COMP_CWORD; i++)); do
        case ${COMP_WORDS[i]} in
            -*) ! grep -qF -- " ${COMP_WORDS[i]} <" <<< "$1" || i=$((i + 1)) ;;
            *) printf '%s' "${COMP_WORDS[i]}" && return ;;
        esac
    done
}

# The numbers of the volumes in an image, by the program itself.
_hfs_tool_volumes() {
    local image
    image=$(_hfs_tool_image "$1")
    image=${image/#\~\//$HOME/}
    [ ! -f "$image" ] || "${COMP_WORDS[0]}" volumes "$image" 2> /dev/null | cut -f 1 | grep -x '[0-9]*'
}

_hfs_tool() {
    local word=${COMP_WORDS[COMP_CWORD]} before=${COMP_WORDS[COMP_CWORD - 1]} first=${COMP_WORDS[1]} options values
    if [ "$COMP_CWORD" -eq 1 ]; then
        mapfile -t COMPREPLY < <(compgen -W "$(_hfs_tool_list Commands | awk '{ print $1 }') --help --version" -- "$word")
        return
    fi
    if [ "$first" = help ]; then
        mapfile -t COMPREPLY < <(compgen -W "$(_hfs_tool_list Commands | awk '{ print $1 }' | grep -vx help)" -- "$word")
        return
    fi
    options=$(_hfs_tool_list Options "$first")
    if [ "$before" = --volume ]; then
        mapfile -t COMPREPLY < <(compgen -W "$(_hfs_tool_volumes "$options")" -- "$word")
        return
    fi
    [[ ! $before =~ ^--[a-z-]+$ ]] || values=$(sed -n "s/^ *$before <.*\[possible values: \(.*\)\]$/\1/p" <<< "$options" | tr -d ,)
    if [ -n "$values" ]; then
        mapfile -t COMPREPLY < <(compgen -W "$values" -- "$word")
        return
    fi
    case $word in
        -*) mapfile -t COMPREPLY < <(compgen -W "$(grep -o -- '^ *\(-., \)\?--[a-z-]*' <<< "$options" | grep -o -- '--.*')" -- "$word") ;;
        *) mapfile -t COMPREPLY < <(compgen -f -- "$word") && compopt -o filenames 2> /dev/null ;;
    esac
}
complete -F _hfs_tool hfs_tool
