# Completion of coniks-client for bash. scripts/install puts it where bash-completion finds it.
_coniks_client() {
    local word=${COMP_WORDS[COMP_CWORD]} before=${COMP_WORDS[COMP_CWORD - 1]} words
    local commands="begin register keep close reset adopt lookup fingerprint verify watch compare evidence note succeed trust set export import"
    case $before in
    --state | --policy | --token | --trust | --passphrase)
        mapfile -t COMPREPLY < <(compgen -f -- "$word")
        return
        ;;
    --service | --auditor | --add-auditor | --remove-auditor | --faulty | --unwatch | --reset | --key) return ;;
    esac
    if [ "$COMP_CWORD" -eq 1 ]; then
        words="$commands --help --version"
    else
        words="--state --json --help --version"
        case ${COMP_WORDS[1]} in
        begin) words="$words --service --policy --auditor --faulty --trust --token --without-auditors --go-on" ;;
        export | import) words="$words --passphrase" ;;
        register | reset) words="$words --reset" ;;
        verify) words="$words --key" ;;
        set) words="$words --service --token --add-auditor --remove-auditor --faulty --trust --without-auditors --go-on --unwatch" ;;
        succeed) words="$words --anew" ;;
        esac
    fi
    mapfile -t COMPREPLY < <(compgen -W "$words" -- "$word")
}
complete -o filenames -F _coniks_client coniks-client
