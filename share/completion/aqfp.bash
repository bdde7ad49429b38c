# Completion of aqfp's words for bash: source it, or put it where bash-completion looks, under the name aqfp. Where
# bash-completion is loaded, its `_filedir` looks for files, so blanks, quotes and ~ in names are as for other programs.

# Files with one of the endings, and folders, where there is no bash-completion.
_aqfp_files() {
    local file
    while IFS= read -r file; do
        if [ -d "$file" ] || [[ $file =~ \.($1)$ ]]; then COMPREPLY+=("$file"); fi
    done < <(compgen -f -- "$2")
    compopt -o filenames 2>/dev/null
}

_aqfp() {
    local cur prev words cword
    COMPREPLY=()
    if declare -F _init_completion >/dev/null; then
        _init_completion || return
    else
        cur=${COMP_WORDS[COMP_CWORD]}
        cword=$COMP_CWORD
        words=("${COMP_WORDS[@]}")
    fi
    if [ "$cword" -eq 1 ]; then
        local commands="build compact draw verify trace sample netlist equal report shapes --help --version"
        mapfile -t COMPREPLY < <(compgen -W "$commands" -- "$cur")
        return
    fi
    local endings
    case ${words[1]}:$cword in
        build:2 | compact:2 | draw:2 | equal:4 | netlist:4) endings='blif' ;;
        verify:2 | trace:2 | equal:2 | netlist:2 | report:2 | shapes:2 | build:4 | compact:4 | draw:4) endings='gds' ;;
        build:3 | compact:3 | draw:3 | verify:3 | trace:3 | equal:3 | netlist:3 | report:3) endings='toml' ;;
        verify:4 | trace:4) endings='words|txt' ;;
        *) return ;;
    esac
    if declare -F _filedir >/dev/null; then
        _filedir "@($endings)"
    else
        _aqfp_files "$endings" "$cur"
    fi
}
complete -F _aqfp aqfp
