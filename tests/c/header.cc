// Every call and name of include/ventarico_store.h, written once in C++. It is compiled and not run: tests/c/wrappers.c
// runs them in C.
#include "ventarico_store.h"

VENTARICO_STORE_STATIC(ledger, 512, 8, 2, 4, 8);

uint32_t every_call(uint8_t *durable, uint8_t *lost)
{
    const ventarico_sizes sizes = {4096, 1024, 64, 512, 2048};
    ventarico_store s = ventarico_store_over(sizes, durable, lost);
    uint8_t buffer[16];
    uint32_t sum = ventarico_store_format(&ledger, 0).code + ventarico_store_format(&s, 7).code;
    sum += ventarico_store_begin(&s, 1).code;
    sum += ventarico_store_read(&s, buffer, sizeof buffer, 1, 5, 16, 8).code;
    sum += ventarico_store_update(&s, 1, 5, 16, 8, VENTARICO_ADD, ventarico_minus(8, 3)).code;
    sum += ventarico_store_commit(&s, 1).code;
    sum += ventarico_store_abort(&s, 1).code;
    sum += ventarico_store_evict(&s, 5).code;
    sum += ventarico_store_compact(&s, 5, 1, 0).code;
    sum += ventarico_store_close(&s).code;
    sum += ventarico_store_checkpoint(&s, 1, 0).code;
    sum += ventarico_store_restart(&s).code;
    sum += ventarico_begin(VENTARICO_AREAS(&s), 1).code;
    sum += ventarico_store_last(&s) + ventarico_store_closed(&s) + ventarico_store_logged(&s);
    sum += ventarico_store_stamp(&s, 5) + ventarico_store_online(&s) + ventarico_sizes_of(s.fixed.bytes).pages;
    sum += ventarico_code_name(0) && ventarico_code_meaning(0) && ventarico_kind_name(0);
    sum += uint32_t(ventarico_durable_length(sizes) + ventarico_lost_length(sizes));
    sum += uint32_t(VENTARICO_LOG_AT(3) + VENTARICO_DIRTY_AT(8, 3));
    struct ventarico_clerk clerk = {{0}, 0};
    return sum + ventarico_clerk_begin(&clerk, 1) + ventarico_clerk_commit(&clerk, 1, 2) + ventarico_clerk_abort(&clerk, 1);
}
