/* Uses both the library and a library of the toolchain with the calls below its own. */
#include <nvme_controller.h>
int nvme_handle_demo(void **handle);
uint16_t nvme_handle_controllers(void **handle);
void nvme_handle_close(void **handle);
void *rattle_alloc(uint64_t size);
int main(void) {
    nvme_machine *machine;
    void *handle = 0;
    if (nvme_machine_demo(&machine) != 0 || nvme_handle_demo(&handle) != 0) return 1;
    int wrong = nvme_machine_controllers(machine) != 2 || nvme_handle_controllers(&handle) != 2;
    nvme_handle_close(&handle);
    nvme_machine_close(machine);
    return wrong ? 2 : 0;
}
