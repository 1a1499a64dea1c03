# Completions of psg for bash, made from docs/codes.txt: source this file.
_psg() {
    local word=${COMP_WORDS[COMP_CWORD]} first=${COMP_WORDS[1]} place=$COMP_CWORD
    # after --explain the words are those of a call
    if [ "$first" = --explain ] && [ "$place" -gt 1 ]; then
        first=${COMP_WORDS[2]} place=$((place - 1))
    fi
    if [ "$place" -eq 1 ]; then
        mapfile -t COMPREPLY < <(compgen -W "check edit live windows gen layout self format lint tui lsp explain test sample tree grammar codes commands help --help --version --build --compile --explain" -- "$word")
        return
    fi
    case $first in
    check | edit | live | windows | layout | self | format | lint | tui | lsp | explain | test | sample | tree | grammar)
        # the first file is a definition
        if [ "$place" -eq 2 ]; then
            mapfile -t COMPREPLY < <(compgen -f -X '!*.psg' -- "$word"; compgen -d -- "$word")
        else
            mapfile -t COMPREPLY < <(compgen -f -- "$word")
        fi
        ;;
    self) mapfile -t COMPREPLY < <(compgen -f -- "$word") ;;
    codes) mapfile -t COMPREPLY < <(compgen -W "1 2 3 4 5 6 7 8 9 10 11 12 13 14 15 16 17 18 19 20 21 22 23 NoFirst Form NoBracket MixedLevel SameFirst SameLed LedFollows ListEnd Scope Declaring NoRow Uncovered Cases NotSmaller OpenHole Large Weak NotIt NoDeclare NotClear 0 70" -- "$word") ;;
    esac
}
complete -o filenames -F _psg psg ./psg
