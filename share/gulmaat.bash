# Completion of gulmaat's options for bash.
_gulmaat() {
    local word=${COMP_WORDS[COMP_CWORD]} before=${COMP_WORDS[COMP_CWORD - 1]}
    local keys="allow_options audit base_dir cache_dir direct_mode disable log_file log_format max_size read_only recache remote_key remote_storage sloppiness stats umask"
    case $before in
        -d | --dir | --links) mapfile -t COMPREPLY < <(compgen -d -- "$word") ;;
        -k | --get-config) mapfile -t COMPREPLY < <(compgen -W "$keys" -- "$word") ;;
        -o | --set-config) mapfile -t COMPREPLY < <(compgen -S = -W "$keys" -- "$word") ;;
        --page | --trace | --compare) mapfile -t COMPREPLY < <(compgen -f -- "$word") ;;
        -M | --max-size | --limit | --evict-older-than) COMPREPLY=() ;;
        *)
            case $word in
                -*) mapfile -t COMPREPLY < <(compgen -W "-h --help -V --version -s --show-stats -v --verbose --print-stats -z --zero-stats \
                    -C --clear -M --max-size -c --cleanup --evict-older-than -p --show-config -k --get-config -o --set-config -d --dir \
                    --audit --why --page --trace --compare --links" -- "$word") ;;
                *) mapfile -t COMPREPLY < <(compgen -c -- "$word") ;;
            esac ;;
    esac
}
complete -o default -F _gulmaat gulmaat
