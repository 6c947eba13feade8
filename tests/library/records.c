/* Prints where the fields of records are, and their sizes. The file FIELDS names them. */
#include <nvme_records.h>
#include <stdio.h>
#define SHOW(record, field) \
    printf("%s %s %zu %zu\n", #record, #field, offsetof(record, field), sizeof(((record *)0)->field));
#define SIZE(record) printf("%s %zu\n", #record, sizeof(record));

int main(void) {
#include FIELDS
}
