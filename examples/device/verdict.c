/* What the checker says of an image, in the words of `sfi check`. */
#include "host.h"

static const char *name_of_fault(uint32_t fault) {
    static const char *const names[] = {
        "none", "Magic", "Count", "Short", "Code", "Data", "GuardRoom", "Start", "Gates", "Init",
        "Overlap", "Trailing"
    };
    return fault <= SFI_FAULT_TRAILING ? names[fault] : "unknown";
}

static void print_finding(const struct sfi_finding *finding) {
    print("V");
    print_decimal(finding->rule);
    print(" sandbox=");
    print_decimal(finding->sandbox);
    print(" at=");
    print_hex(finding->address, 8);
}

void print_verdict(enum sfi_device_status status, const struct sfi_verdict *verdict) {
    if (status != SFI_DEVICE_DONE && status != SFI_DEVICE_NOT_ACCEPTED)
        return print("the checker stopped");
    switch (verdict->status) {
    case SFI_ACCEPTED:
        print("accepted");
        break;
    case SFI_REFUSED:
        print("refused");
        if (verdict->findings == 0)
            break; /* before the whole image was read: nobody has counted them */
        print(" findings=");
        print_decimal(verdict->findings);
        print(" first=");
        print_finding(&verdict->first);
        break;
    default:
        print("layout fault ");
        print_decimal(verdict->layout_fault);
        print(" ");
        print(name_of_fault(verdict->layout_fault));
    }
}
