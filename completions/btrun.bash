# Completes the commands, options, files, entries and variables of btrun in bash. Source it, or put it where
# bash-completion looks for completions under the name btrun.

# The procedures of a program that take no arguments, as `check --json` has them.
_btrun_entries() {
    btrun check "$1" --json 2> /dev/null | grep -oE '"name":"\w+","formals":\[\]' | cut -d '"' -f 4
}

# The variables of a program whose names have no braces.
_btrun_variables() {
    btrun check "$1" --json 2> /dev/null | grep -oE '"(formals|locals|globals)":\[[^]]*' | cut -d : -f 2- |
        grep -oE '"\w+"' | tr -d '"'
}

# The locals of a program, each after its procedure and a dot.
_btrun_locals() {
    btrun check "$1" --json 2> /dev/null | grep -oE '"name":"\w+","formals":\[[^]]*\],"locals":\[[^]]*' |
        awk -F '"' '{ for (i = 8; i < NF; i += 2) if ($i ~ /^[A-Za-z0-9_]+$/ && $(i + 1) !~ /^:/) print $4 "." $i }'
}

# The globals of a program whose names have no braces, each with either bit.
_btrun_bits() {
    btrun check "$1" --json 2> /dev/null | grep -oE '"globals":\[[^]]*' | cut -d : -f 2- | grep -oE '"\w+"' |
        tr -d '"' | sed -n 's/$/=0/p; s/0$/1/p'
}

# Whether the word that is completed is of the value of --init, which bash cuts at each equals sign.
_btrun_in_init() {
    local at=$((COMP_CWORD - 1))
    while [[ ${COMP_WORDS[at]} == = ]]; do ((at -= 2)); done
    [[ ${COMP_WORDS[at]} == --init ]]
}

# The words before the one that is completed which are files.
_btrun_files() {
    local word
    for word in "${COMP_WORDS[@]:2:COMP_CWORD-2}"; do
        [[ -f $word ]] && echo "$word"
    done
}

# The options of a command.
_btrun_options() {
    local common="--explain --no-explain --help" start="--contexts --calls --init"
    case $1 in
        replay | migrate | shrink) echo "$common" ;;
        check) echo "$common --json" ;;
        code) echo "$common --source --json" ;;
        drive) echo "$common $start" ;;
        confirm) echo "$common $start --expect --json" ;;
        run) echo "$common $start --seed --turn --ring --spread" ;;
        test) echo "$common $start --seed --runs --time --jobs --deadlock --unreached --json" ;;
        explore) echo "$common --contexts --init --states --time --deadlock --through --json" ;;
        show) echo "$common --thread --last --from --to --watch --fold --state --brief --valid --at --contexts --steps --json" ;;
    esac
}

# Offers words for the part of a value after its last comma.
_btrun_offer_part() {
    compopt +o filenames 2> /dev/null
    mapfile -t COMPREPLY < <(compgen -P "${1%"${1##*,}"}" -W "$2" -- "${1##*,}")
}

_btrun() {
    local word=${COMP_WORDS[COMP_CWORD]} before=${COMP_WORDS[COMP_CWORD - 1]} words files
    local commands="check code drive confirm run test explore replay show migrate shrink"
    mapfile -t files < <(_btrun_files)
    case ${COMP_WORDS[1]}$before in
        show--contexts) ;;
        show--watch)
            words=$(_btrun_variables "${files[0]}")
            [[ ${word##*,} == *.* ]] && words=$(_btrun_locals "${files[0]}")
            _btrun_offer_part "$word" "$words"
            return
            ;;
        *--init | *=)
            if _btrun_in_init; then _btrun_offer_part "$word" "$(_btrun_bits "${files[0]}")"; fi
            return
            ;;
        *--contexts | *--calls | *--seed | *--turn | *--ring | *--runs | *--states | *--time | *--jobs | *--thread | *--last | *--from | *--to | *--at) return ;;
    esac
    if ((COMP_CWORD == 1)); then
        words="$commands help --help --version"
    elif [[ $word == -* ]]; then
        words=$(_btrun_options "${COMP_WORDS[1]}")
    elif [[ ${COMP_WORDS[1]} == help ]]; then
        words=$commands
    elif [[ ${COMP_WORDS[1]}${#files[@]} == @(run1|test1|explore1|drive2|confirm2) ]]; then
        words=$(_btrun_entries "${files[0]}")
    else
        mapfile -t COMPREPLY < <(compgen -f -- "$word")
        return
    fi
    mapfile -t COMPREPLY < <(compgen -W "$words" -- "$word")
}

complete -o filenames -F _btrun btrun
