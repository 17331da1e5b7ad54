# Completion of cmdwall's words in bash: source this file, or put it into the folder of bash-completion as 'cmdwall'.
_cmdwall() {
    local word=${COMP_WORDS[COMP_CWORD]} command=${COMP_WORDS[1]:-} place=$((COMP_CWORD - 1))
    local commands='sift check compare learn draft migrate packets judge review run relay serve world'
    COMPREPLY=()
    if [ "$place" -eq 0 ]; then
        mapfile -t COMPREPLY < <(compgen -W "$commands help --help --version" -- "$word")
        return
    fi
    case $command:$place in
        help:1)
            mapfile -t COMPREPLY < <(compgen -W "$commands" -- "$word")
            return
            ;;
        sift:2 | relay:2)
            # The names of the assets: each first name below a header [[asset]].
            mapfile -t COMPREPLY < <(compgen -W "$(_cmdwall_assets "${COMP_WORDS[2]}")" -- "$word")
            return
            ;;
        serve:[4-9] | serve:[1-9][0-9]*)
            # An asset, and behind it the place.
            mapfile -t COMPREPLY < <(compgen -S = -W "$(_cmdwall_assets "${COMP_WORDS[2]}")" -- "$word")
            compopt -o nospace 2> /dev/null
            return
            ;;
        sift:3 | relay:[34] | serve:2 | world:[12]) return ;;
        check:1 | compare:[12] | learn:[123] | draft:[1-9] | draft:[1-6][0-9] | migrate:[12] | packets:1 | judge:[12] | review:[1-9] | review:[1-6][0-9] | sift:[14567] | run:[1234] | relay:[15] | serve:[13] | world:[3456]) ;;
        *) return ;;
    esac
    mapfile -t COMPREPLY < <(compgen -f -- "$word")
    compopt -o filenames 2> /dev/null
}

# The names that stand on lines of their own below headers of assets.
_cmdwall_assets() {
    [ -f "$1" ] || return
    awk '/^[ \t]*\[/ { below = ($0 ~ /^[ \t]*\[\[[ \t]*asset[ \t]*\]\]/) }
        below && match($0, /^[ \t]*name[ \t]*=[ \t]*"[a-z0-9_-]*"/) {
            text = substr($0, RSTART, RLENGTH); split(text, parts, "\""); print parts[2]; below = 0 }' "$1"
}

complete -F _cmdwall cmdwall ./cmdwall
