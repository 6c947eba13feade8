// Uses the headers from C++.
#include <nvme_controller.h>
#include <nvme_records.h>
static_assert(sizeof(nvme_submission_entry) == 64 && NVME_CONTROLLER_VERSION_MAJOR == 1, "");
int main() {
    nvme_machine *machine;
    if (nvme_machine_demo(&machine) != 0) return 1;
    int count = nvme_machine_controllers(machine);
    nvme_machine_close(machine);
    return count == 2 ? 0 : 2;
}
