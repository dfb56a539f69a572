# Completions of nbdcheck and of the programs round it for bash.

_nbdcheck_words() {
    # Those of the words $1 that begin as $2 does; they are no names of files. Behind a colon a path goes on.
    mapfile -t COMPREPLY < <(compgen -W "$1" -- "$2")
    compopt +o filenames 2>/dev/null
    [[ ${COMPREPLY[0]:-} = *: ]] && compopt -o nospace 2>/dev/null
    return 0
}

_nbdcheck_files() {
    # A colon ends a word: the path behind it is a word of its own.
    mapfile -t COMPREPLY < <(compgen -f -- "${1#:}")
}

_nbdcheck() {
    # The commands, each with its options; every other word is the name of a file.
    local -A options=(
        [check]="--start --profile --json --hints --help"
        [explain]="--start --profile --states --steps --json --hints --help"
        [order]="--start --profile --whole --arrival --states --steps --json --hints --help"
        [show]="--names --profile --json --hints --help"
        [contents]="--start --profile --against --json --hints --help"
        [lint]="--profile --level --allow --json --list --hints --help"
        [make]="--hints --help"
        [help]=""
    )
    local starts="unknown zero image: contents:"
    local word=${COMP_WORDS[COMP_CWORD]} before=${COMP_WORDS[COMP_CWORD - 1]} name=${COMP_WORDS[1]:-}

    if [ "$COMP_CWORD" = 1 ]; then
        _nbdcheck_words "${!options[*]} --help --version" "$word"
    elif [ "$name" = help ]; then
        _nbdcheck_words "${!options[*]}" "$word"
    elif [ "$before" = --start ]; then
        _nbdcheck_words "$starts" "$word"
    elif [ "$before" = --profile ]; then
        _nbdcheck_words "base wide" "$word"
    elif [ "$before" = --level ]; then
        _nbdcheck_words "must should hint" "$word"
    elif [ "$before" = --allow ]; then
        _nbdcheck_words "$(nbdcheck lint --list 2>/dev/null | cut -d ' ' -f 3)" "$word"
    elif [[ $word = -* ]]; then
        _nbdcheck_words "${options[$name]:-}" "$word"
    else
        _nbdcheck_files "$word"
    fi
}

complete -o filenames -F _nbdcheck nbdcheck

_capture_to_pcap() {
    # The name of a file, or the only option.
    local word=${COMP_WORDS[COMP_CWORD]}

    if [[ $word = -* ]]; then
        _nbdcheck_words "--help" "$word"
    else
        _nbdcheck_files "$word"
    fi
}

complete -o filenames -F _capture_to_pcap capture-to-pcap socat-to-capture cookies-to-order

_pcap_to_capture() {
    local word=${COMP_WORDS[COMP_CWORD]} before=${COMP_WORDS[COMP_CWORD - 1]}

    if [ "$before" = --stream ]; then
        # A number, which is not known here.
        COMPREPLY=()
    elif [[ $word = -* ]]; then
        _nbdcheck_words "--stream --help" "$word"
    else
        _nbdcheck_files "$word"
    fi
}

complete -o filenames -F _pcap_to_capture pcap-to-capture

_nbdcheck_picture() {
    # The names of a capture and of an order, or an option.
    local starts="unknown zero image: contents:"
    local word=${COMP_WORDS[COMP_CWORD]} before=${COMP_WORDS[COMP_CWORD - 1]}

    if [ "$before" = --start ]; then
        _nbdcheck_words "$starts" "$word"
    elif [ "$before" = --profile ]; then
        _nbdcheck_words "base wide" "$word"
    elif [[ $word = -* ]]; then
        _nbdcheck_words "--start --profile --help" "$word"
    else
        _nbdcheck_files "$word"
    fi
}

complete -o filenames -F _nbdcheck_picture nbdcheck-picture

_nbdcheck_record() {
    local asked="--to --listen --start --arrival --order --apart --profile --no-lint --refuse --strict --format --report"
    asked="$asked --keep --out --help --tls-certificates --tls-psk"
    local starts="unknown zero image: contents:"
    local options="list starttls info go structured-reply list-meta-context set-meta-context extended-headers"
    local word=${COMP_WORDS[COMP_CWORD]} before=${COMP_WORDS[COMP_CWORD - 1]} at

    for ((at = 1; at < COMP_CWORD; at++)); do
        if [ "${COMP_WORDS[at]}" = -- ]; then
            # The client and its words, with completions of their own.
            if declare -F _command_offset >/dev/null; then
                _command_offset $((at + 1))
            else
                mapfile -t COMPREPLY < <(compgen -c -f -- "$word")
            fi
            return
        fi
    done
    if [ "$before" = --start ]; then
        _nbdcheck_words "$starts" "$word"
    elif [ "$before" = --profile ]; then
        _nbdcheck_words "base wide" "$word"
    elif [ "$before" = --format ]; then
        _nbdcheck_words "text json junit" "$word"
    elif [ "$before" = --refuse ]; then
        _nbdcheck_words "$options" "$word"
    elif [ "$before" = --keep ] || [ "$before" = --tls-certificates ]; then
        mapfile -t COMPREPLY < <(compgen -d -- "$word")
    elif [[ $word = -* ]]; then
        _nbdcheck_words "$asked --" "$word"
    else
        _nbdcheck_files "$word"
    fi
}

complete -o filenames -F _nbdcheck_record nbdcheck-record
