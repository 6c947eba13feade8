# How the programs in C are compiled, and of which files: nvme-model, tools/library, tools/mutants, tools/coverage and
# the tests read this. (Debian compiles bubblewrap with these flags, but for the one by which no stack grows over other
# memory.)
# shellcheck disable=SC2034
flags='-O2 -g0 -pthread -Wall -Wextra -Wshadow -U_FORTIFY_SOURCE -D_FORTIFY_SOURCE=2 -fstack-protector-strong
    -fstack-clash-protection -Wl,-z,relro,-z,now'
of_program='-fPIE -pie'
of_library='-fPIC -shared'
launcher='launcher nodes sysfs sandbox calls caller filter helpers io refuse device inherited command options
    opens names lists supplied'
preloaded='library'
qemu='qemu messages function memory proxy vfio_user drive queues volumes supplied'
vm_guest='vm_guest'
