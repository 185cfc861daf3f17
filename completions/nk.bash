# Bash completion for nk, nk_impact, nk_flows and nk_address. It completes the commands, and the names of policies and predicates where it can
# see the text: where the command has `< FILE` after its first word, before or after the cursor. It can't see a text that comes from a pipe or a
# here-document, nor a file that is named by a variable, a pattern or a substitution; then it offers no names. It reads the first 4 MiB of the
# file and runs nothing of it.

# The names of a program's text on standard input: of all policies, or of those that are predicates where the first word is `predicates`.
_nk_names() {
    LC_ALL=C awk -v only="$1" '
        function close_let() {
            if (name != "" && (only != "predicates" || tests)) print name
            if (name != "") is_predicate[name] = tests
            name = ""
        }
        function take(token) {
            if (token ~ /^(field|tag|switch|link|fabric|virtual|let|certificate|tables|table)$/) {
                close_let()
                if (token == "certificate" || token == "tables") exit
                expected = (token == "let")
                in_let = 0
            } else if (expected) {
                expected = 0
                in_let = (token ~ /^[A-Za-z_]/)
                name = in_let ? token : ""
                tests = 1
                last = ""
            } else if (in_let) {
                if (token ~ /^(:=|=>|\*|dup)$/) tests = 0
                # a name is a field where `=`, `in` or `:=` follows, else a policy
                if (last ~ /^[A-Za-z_]/ && last !~ /^(id|drop|dup|in)$/ && token !~ /^(=|:=|in)$/ && !is_predicate[last]) tests = 0
                last = token
            }
        }
        {
            sub(/#.*/, "")
            while (match($0, /[A-Za-z_][A-Za-z0-9_]*|[0-9]+|:=|=>|->|\.\.|[^ \t\r]/)) {
                take(substr($0, RSTART, RLENGTH))
                $0 = substr($0, RSTART + RLENGTH)
            }
        }
        END { if (in_let) take(";"); close_let() }'
}

# The file after the last `<` of the command, without its quotes and backslashes and with its tilde; nothing where there is none, or where bash
# would expand more of it.
_nk_text_file() {
    local word='("[^"$`\\]*"|'"'[^']*'"'|([^][:space:]<>|;&()"$`*?[\\'"'"']|\\.)+)' file
    [[ $COMP_LINE =~ ^.*[^\<]\<[[:space:]]*$word ]] || return
    file=${BASH_REMATCH[1]}
    case $file in
        [\"\']*) file=${file:1:-1} ;;
        '~/'*) file=$HOME/${file:2} ;;
    esac
    [[ ${BASH_REMATCH[1]} == [\"\']* ]] || file=${file//\\/}
    printf '%s' "$file"
}

_nk() {
    local cur=$2 command= place=0 kinds= kind file at
    local commands='compile equal check apart waypoint check_apart check_waypoint trace fly update compact virtual gen job'
    COMPREPLY=()
    case ${1##*/} in
        nk_address) commands='in out' ;;
        nk_*) command=${1##*/} ;;
    esac
    # what stands before the cursor, redirections left out
    for ((at = 1; at < COMP_CWORD; at++)); do
        if [[ ${COMP_WORDS[at]} == [\<\>]* ]]; then
            if ((at + 1 == COMP_CWORD)); then
                compopt -o filenames 2> /dev/null
                mapfile -t COMPREPLY < <(compgen -f -- "$cur")
                return
            fi
            at=$((at + 1))
            while [[ ${COMP_WORDS[at + 1]} == [=:] ]]; do
                at=$((at + 2))
            done
        elif [[ ${COMP_WORDS[at]} == [0-9] && ${COMP_WORDS[at + 1]} == [\<\>]* ]]; then
            continue
        elif [[ -z $command ]]; then
            command=${COMP_WORDS[at]}
        else
            place=$((place + 1))
        fi
    done
    if [[ -z $command ]]; then
        mapfile -t COMPREPLY < <(compgen -W "$commands" -- "$cur")
        return
    fi
    if [[ $command == nk_flows && $place == 1 ]]; then
        mapfile -t COMPREPLY < <(compgen -W 'groups flows' -- "$cur")
        return
    fi
    # of each argument, whether it is the name of a policy (p) or of a predicate (t)
    case $command in
        compile | compact | virtual) kinds=p ;;
        equal | check | update | nk_impact) kinds=pp ;;
        apart | check_apart) kinds=ptt ;;
        waypoint | check_waypoint) kinds=pttt ;;
    esac
    kind=${kinds:place:1}
    file=$(_nk_text_file)
    [[ -n $kind && -f $file && -r $file ]] || return
    [[ $kind == t ]] && kind=predicates
    mapfile -t COMPREPLY < <(compgen -W "$(head -c 4194304 -- "$file" | _nk_names "$kind")" -- "$cur")
}

complete -F _nk nk nk_impact nk_flows nk_address
