/* Reads the bytes of an error status block, as numbers with commas between them, by the structures that the Linux kernel
 * has for it, goes from section to section as the kernel does (ghes_walk.h is cut out of its acpi/ghes.h), and compares every
 * field with what the block is known to hold: the first so many of the copies below. */
#include <stdint.h>
#include <stdio.h>
#include <stdlib.h>
#include <string.h>

#include <acpi/platform/acenv.h>
#include <acpi/acnames.h>
#include <acpi/acconfig.h>
#include <acpi/actypes.h>
#include <acpi/actbl.h>

#include "ghes_walk.h"

struct copy {
    uint64_t registers[6]; /* control, status, address, info, supplement, time */
    int severity;
};

/* A corrected error, an uncorrected one that came twice, a deferred one, and a record with errors of each severity. */
static const struct copy copies[] = {
    { { 0x95, 0x30093, 0x1000, 5, 0, 9 }, ACPI_HEST_GEN_ERROR_CORRECTED },
    { { 0x97, 0x20049, 0x2000, 1, 2, 3 }, ACPI_HEST_GEN_ERROR_FATAL },
    { { 0x95, 0x10005, 0x3000, 0, 0, 4 }, ACPI_HEST_GEN_ERROR_RECOVERABLE },
    { { 0x95, 0x2000f, 0x4000, 6, 7, 8 }, ACPI_HEST_GEN_ERROR_FATAL },
};

static int wrong;

static void is(const char *field, uint64_t got, uint64_t wanted)
{
    if (got != wanted) {
        printf("%s is 0x%llx, not 0x%llx\n", field, (unsigned long long)got, (unsigned long long)wanted);
        wrong = 1;
    }
}

static size_t read_bytes(unsigned char *bytes, size_t room)
{
    char word[32];
    size_t count = 0;

    while (count < room && scanf("%31[^,],", word) == 1) {
        bytes[count++] = strtoul(word, NULL, 0);
    }
    return count;
}

static void check_section(struct acpi_hest_generic_data *section, const struct copy *copy)
{
    static const char registers[6][11] = { "control", "status", "address", "info", "supplement", "time" };
    static const unsigned char zeros[20];
    struct acpi_hest_generic_data_v300 *entry = (struct acpi_hest_generic_data_v300 *)section;
    uint64_t got[6];

    is("version", acpi_hest_get_version(section), 3);
    is("section type", memcmp(entry->section_type, "RERI-RECORD-0001", 16), 0);
    is("entry severity", entry->error_severity, copy->severity);
    is("revision", entry->revision, 0x0300);
    is("validation bits", entry->validation_bits, 0);
    is("flags", entry->flags, 0);
    is("error data length", acpi_hest_get_error_length(section), sizeof got);
    is("fru id", memcmp(entry->fru_id, zeros, sizeof entry->fru_id), 0);
    is("fru text", memcmp(entry->fru_text, zeros, sizeof entry->fru_text), 0);
    is("time stamp", entry->time_stamp, 0);
    memcpy(got, acpi_hest_get_payload(section), sizeof got);
    for (int i = 0; i < 6; i++) {
        is(registers[i], got[i], copy->registers[i]);
    }
}

int main(int argc, char **argv)
{
    size_t wanted = argc > 1 ? strtoul(argv[1], NULL, 0) : 1, found = 0;
    static _Alignas(8) unsigned char bytes[1024];
    struct acpi_hest_generic_status *status = (struct acpi_hest_generic_status *)bytes;
    struct acpi_hest_generic_data *section;
    size_t entry = sizeof(struct acpi_hest_generic_data_v300) + 48;

    is("length", read_bytes(bytes, sizeof bytes), sizeof *status + wanted * entry);
    is("correctable", !!(status->block_status & ACPI_HEST_CORRECTABLE), 1);
    is("uncorrectable", !!(status->block_status & ACPI_HEST_UNCORRECTABLE), wanted > 1);
    is("multiple correctable", !!(status->block_status & ACPI_HEST_MULTIPLE_CORRECTABLE), 0);
    is("multiple uncorrectable", !!(status->block_status & ACPI_HEST_MULTIPLE_UNCORRECTABLE), wanted > 1);
    is("entries", (status->block_status & ACPI_HEST_ERROR_ENTRY_COUNT) >> 4, wanted);
    is("raw data offset", status->raw_data_offset, 0);
    is("raw data length", status->raw_data_length, 0);
    is("data length", status->data_length, wanted * entry);
    is("severity", status->error_severity, wanted > 1 ? ACPI_HEST_GEN_ERROR_FATAL : ACPI_HEST_GEN_ERROR_CORRECTED);
    apei_estatus_for_each_section(status, section) {
        if (found < wanted) {
            check_section(section, &copies[found]);
        }
        found++;
    }
    is("sections", found, wanted);
    return wrong;
}
