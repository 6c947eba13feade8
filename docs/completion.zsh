#compdef nvme-script nvme-trace nvme-model nvme-describe
# Completion of the arguments of these programs, for zsh, from their help. (nvme-trace has the options of nvme-script,
# and nvme-model has others after one of three words.)
local -a first options
[[ $service = nvme-model && $CURRENT -gt 2 && $words[2] = --(qemu|vfio-user|vm) ]] && first=($words[2])
options=($first ${(f)"$("${words[1]/nvme-trace/nvme-script}" $first --help 2> /dev/null | sed -nE \
    -e 's/^  (--[a-z-]+)\[=.*/\1=-:: :_files/p; t' \
    -e 's/^  (--[a-z-]+) (FILE|PATH|FOLDER) .*/\1=: :_files/p; t' \
    -e 's/^  (--[a-z-]+) [A-Z].*/\1=: : /p; t' \
    -e 's/^  (-h, )?(--[a-z-]+).*/\2/p')"})
case $service$first in
    nvme-model | nvme-model--vm) _arguments -S $options '1: :_command_names -e' '*:: :_normal' ;;
    nvme-model* | nvme-describe) _arguments $options '*: :_files' ;;
    *) _arguments $options ;;
esac
