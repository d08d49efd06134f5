/* Every function of include/, called as the firmware calls it. What must come of a call is written down by hand from
 * document 01 and docs/LAYOUT.md, or from SQLite's published layout, byte by byte. tests/c/run builds and runs this. */
#include "store.h"
#include "topics.h"

int main(void)
{
    checks_begin();
    topic("cases", cases);
    topic("faults", faults);
    topic("steps", steps);
    topic("refusals", refusals);
    topic("soundness", soundness);
    topic("ranges", ranges);
    topic("clerk", clerk);
    topic("wrappers", wrappers);
    topic("journal", journal);
    topic("wal", wal);
    return checks_end();
}
