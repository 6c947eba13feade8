# Completion of the arguments of nvme-script, nvme-trace, nvme-model and nvme-describe, for fish, from their help, and
# of a command of nvme-model by its own completion. (nvme-trace has the options of nvme-script.)
function __nvme_model_first --description 'Prints the first word of nvme-model if there are other options after it'
    set --local words (commandline --current-process --tokenize --cut-at-cursor)
    contains -- "$words[2]" --qemu --vfio-user --vm; and echo -- $words[2]
end
set --local option '^  (?:-h, )?--([a-z-]+)(?:\[=\S*|)( [A-Z]\S*|)(| +.*)$'
set --local valued
for program in nvme-script nvme-trace nvme-model 'nvme-model --qemu' 'nvme-model --vfio-user' 'nvme-model --vm' \
        nvme-describe
    set --local words (string split ' ' -- $program)
    set --local with_help (string replace nvme-trace nvme-script $words[1])
    type --query $with_help; or continue
    for line in ($with_help $words[2] --help 2> /dev/null)
        if set --local found (string match --regex --groups-only $option -- $line)
            complete --command $words[1] --condition "test \"\$(__nvme_model_first)\" = '$words[2]'" \
                --long-option $found[1] --description (string trim -- "$found[3]") \
                (test -n "$found[2]" && echo --require-parameter)
            test -n "$found[2]"; and set --append valued --$found[1]
        end
    end
end
complete --command nvme-script --no-files
complete --command nvme-trace --no-files
# (the function takes words with two hyphens at its beginning for options of its own)
complete --command nvme-model --condition 'not contains -- "$(__nvme_model_first)" --qemu --vfio-user' --no-files \
    --arguments "(__fish_complete_subcommand - $valued)"
