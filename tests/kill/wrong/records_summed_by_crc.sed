# doors: a record's checksum is a CRC, which does not see that sums within it are others.
s/return (uint32_t)mix(f->seed, record + 4, length - 4);/return (uint32_t)f->seed ^ crc32(0, record + 4, length - 4);/
