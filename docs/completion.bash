# Completion of the arguments of nvme-script, nvme-trace, nvme-model and nvme-describe, for bash, from their help, and
# of a command of nvme-model by its own completion. (nvme-trace has the options of nvme-script.)
_nvme_model() {
    local word=${COMP_WORDS[COMP_CWORD]} before=${COMP_WORDS[COMP_CWORD - 1]} name=${COMP_WORDS[0]##*/}
    local first='' help argument valued at
    # bash takes --option=value for three words
    if [ "$word" = = ]; then
        word=
    elif [ "$before" = = ]; then
        before=${COMP_WORDS[COMP_CWORD - 2]}
    fi
    # after one of these, nvme-model has other options
    case $COMP_CWORD:${COMP_WORDS[1]} in
        1:*) ;;
        *:--qemu | *:--vfio-user | *:--vm) first=${COMP_WORDS[1]} name+=$first ;;
    esac
    help=$("${COMP_WORDS[0]/nvme-trace/nvme-script}" $first --help 2> /dev/null | grep -v 'in a clone')
    valued=$(awk '$1 ~ /^--/ && $2 ~ /^[A-Z]/ { print $1, $2 }' <<< "$help")
    argument=$(awk -v option="$before" '$1 == option { print $2 }' <<< "$valued")
    COMPREPLY=()
    case $name in
        nvme-model | nvme-model--vm)
            for ((at = 1; at < COMP_CWORD; at++)); do
                case ${COMP_WORDS[at]}:${COMP_WORDS[at + 1]} in
                    --:*) ;;
                    -*:=) at=$((at + 2)) ;;
                    -*) [[ $'\n'$valued != *$'\n'"${COMP_WORDS[at]} "* ]] || at=$((at + 1)) ;;
                    *)
                        if declare -F _command_offset > /dev/null; then
                            _command_offset "$at"
                        else
                            mapfile -t COMPREPLY < <(compgen -f -- "$word")
                        fi
                        return
                        ;;
                esac
            done
            ;;
    esac
    case $argument:$word:$name in
        FILE:* | PATH:* | FOLDER:*) mapfile -t COMPREPLY < <(compgen -f -- "$word") ;;
        [A-Z]*) ;;
        :-* | *:nvme-script | *:nvme-trace)
            mapfile -t COMPREPLY < <(compgen -W "$(sed -nE 's/^  (-h, )?(--[a-z-]+).*/\2/p' <<< "$help")" -- "$word")
            ;;
        *:nvme-model | *:nvme-model--vm) mapfile -t COMPREPLY < <(compgen -c -f -- "$word" | sort -u) ;;
        *:nvme-model*) mapfile -t COMPREPLY < <(compgen -f -- "$word") ;;
        *) mapfile -t COMPREPLY < <(compgen -f -- "${word:-/dev/nvme}") ;;
    esac
}
complete -o filenames -F _nvme_model nvme-script nvme-trace nvme-model nvme-describe
