/* Linux's sum of a slice, from a file of its source that LINUX_SUM names: arch/x86/lib/csum-partial_64.c. */
#include <stddef.h>

#include "kernel.h"
#include LINUX_SUM

/* The sum in 32 bits of a start and the words of a slice. */
u32 linux_add_slice(u32 start_sum, const unsigned char *at, size_t len) {
  return csum_partial(at, (int)len, start_sum);
}

/* Its complement in 16 bits. */
u16 linux_checksum(u32 start_sum, const unsigned char *at, size_t len) {
  return csum_fold(csum_partial(at, (int)len, start_sum));
}
