# Completions of textpeer for bash. Made by tools/completions of what the program prints as its help.

_textpeer() {
    local line=${COMP_LINE:0:COMP_POINT} words=() i
    COMPREPLY=()
    # The words as they were typed: bash cuts them at = and : too.
    for ((i = 0; i <= COMP_CWORD; i++)); do
        if ((i == 0)) || [[ $line == [[:space:]]* ]]; then
            words+=("${COMP_WORDS[i]}")
        else
            words[-1]+=${COMP_WORDS[i]}
        fi
        line=${line#"${line%%[![:space:]]*}"}
        line=${line#"${COMP_WORDS[i]}"}
    done
    local last=$((${#words[@]} - 1)) word=${words[-1]} options
    if ((last == 1)); then
        options='new edit update import mirror text heads log graph diff status cursor check merge save load recover show simulate serve sync session web'
        [[ $word != -* ]] || options='-h --help -V --version'
        mapfile -t COMPREPLY < <(compgen -W "$options" -- "$word")
        return
    fi
    # Of the command: its values, those that come after them, its options, and which of these take a value.
    local values rest='' takes='' place=0 name journal=''
    case ${words[1]} in
    new) values=(file) options='--wait --key --explain -h --help' takes='--wait --key' ;;
    edit) values=(file) options='--at --del --text --text-file --time --message --wait --key --explain -h --help' takes='--at --del --text --text-file --time --message --wait --key' ;;
    update) values=(file file) options='--time --message --wait --key --since --explain -h --help' takes='--time --message --wait --key --since' ;;
    import) values=(file file) options='--time --message --wait --key --explain -h --help' takes='--time --message --wait --key' ;;
    mirror) values=(file file) options='--take --every --follow --wait --key --explain -h --help' takes='--take --follow --wait --key' ;;
    text) values=(file hash) rest=hash options='--raw --explain -h --help' ;;
    heads) values=(file) options='--explain -h --help' ;;
    log) values=(file) options='--pretty --most --explain -h --help' takes='--most' ;;
    graph) values=(file) options='--explain -h --help' ;;
    diff) values=(file hash) rest=hash options='--to -U --unified --words --explain -h --help' takes='--to -U --unified' ;;
    status) values=(file) options='--explain -h --help' ;;
    cursor) values=(file other hash) rest=hash options='--explain -h --help' ;;
    check) values=(file) options='--explain -h --help' ;;
    merge) values=(file file) options='--wait --key --explain -h --help' takes='--wait --key' ;;
    save) values=(file file) options='--explain -h --help' ;;
    load) values=(file file) options='--wait --explain -h --help' takes='--wait' ;;
    recover) values=(file file) options='--with --texts --explain -h --help' takes='--with' ;;
    show) values=(file) options='--explain -h --help' ;;
    simulate) values=(file) options='--explain -h --help' ;;
    serve) values=(file other) options='--sessions --workers --patience --verbose --mirror --take --wait --key --explain -h --help' takes='--sessions --workers --patience --mirror --take --wait --key' ;;
    sync) values=(file other) options='--follow --sessions --patience --mirror --take --wait --key --explain -h --help' takes='--sessions --patience --mirror --take --wait --key' ;;
    session) values=(file) options='--client --wait --key --explain -h --help' takes='--wait --key' ;;
    web) values=(file other) options='--serve --follow --mirror --take --wait --key --explain -h --help' takes='--serve --follow --mirror --take --wait --key' ;;
    *) return ;;
    esac
    options=" $options "
    for ((i = 2; i < last; i++)); do
        name=${words[i]%%=*}
        if [[ " $takes " == *" ${words[i]} "* ]]; then
            ((++i < last)) || return
        elif [[ $name != -* ]]; then
            ((place > 0)) || journal=${words[i]}
            ((++place))
        fi
        options=${options/ "$name" / }
    done
    local value=${values[place]-$rest}
    if [[ $word == -* || -z $value ]]; then
        mapfile -t COMPREPLY < <(compgen -W "$options" -- "$word")
    elif [[ $value == file ]]; then
        compopt -o default
    elif [[ $value == hash ]]; then
        # (xargs takes quotes and backslashes away, and runs nothing that the word says)
        journal=$(xargs printf %s <<<"${journal/#\~\//$HOME/}" 2>/dev/null)
        mapfile -t COMPREPLY < <(compgen -W "$("${words[0]}" log "$journal" 2>/dev/null | cut -d ' ' -f 1)" -- "$word")
    fi
}

complete -F _textpeer textpeer
