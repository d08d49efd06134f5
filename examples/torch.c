/* The story of the torch and the game, on a store kept in a file.
 *
 * The battery screen keeps one row of 16 bytes for each app: 8 bytes identifier, 8 bytes charge used, both lowest byte
 * first. A game holds row 2. It is deleted, and the clearing of its row is committed under transaction number 3. Then
 * number 3 is given out again, to the torch, which claims the free row and cancels; and the power goes. A store that
 * took the cancel for the older transaction of that number would bring the game back, and the torch would be charged
 * for it. Here the power goes at five moments, and the torch's charge must be right at the end. Then the table is shown
 * that the battery screen would show.
 *
 * usage: torch FILE      a file that is not there yet
 * Exit 0 and a last line 'story held'; else 1 and a line that says what went wrong.
 */
#include <inttypes.h>
#include <stdio.h>
#include <stdlib.h>

#include "filestore.h"

enum { ROW = 16, PAGE = 512, PAGES = 4 };
static const struct filestore_sizes sizes = {.page_size = PAGE, .pages = PAGES, .frames = 2, .online = 16, .log = 16};
static const uint64_t NOBODY = 0, SCREEN = 1001, RADIO = 1002, GAME = 7001, TORCH = 9002;

static struct filestore store;
static const char *path;

static void stop(const char *what, const char *next)
{
    printf("story BROKE: %s. Next: %s.\n", what, next);
    exit(1);
}

/* Every call of the story has one right code. */
static void must(ventarico_reply r, uint32_t code)
{
    if (r.code == code)
        return;
    char what[64];
    snprintf(what, sizeof what, "the call above must answer %" PRIu32 ", not %" PRIu32, code, r.code);
    stop(what, filestore_meaning(r.code));
}

static void tell(const char *words)
{
    printf("\n%s\n", words);
}

static void open_store(void)
{
    if (!filestore_open(&store, path, sizes, stdout))
        stop("the store did not open", "do as the line of filestore says");
}

static const char *name_of(uint64_t who)
{
    return who == NOBODY ? "nobody" : who == SCREEN ? "the screen" : who == RADIO ? "the radio" :
        who == GAME ? "the game" : who == TORCH ? "the torch" : "a stranger";
}

/* The memory is gone, and comes back with noise in it; the file stays. */
static void power_loss(void)
{
    filestore_drop(&store);
    printf("  *** the power goes, and comes back\n");
    open_store();
}

static void begin(uint32_t number) { must(filestore_begin(&store, number), VENTARICO_DONE); }
static void commit(uint32_t number) { must(filestore_commit(&store, number), VENTARICO_DONE); }
static void cancel(uint32_t number) { must(filestore_abort(&store, number), VENTARICO_DONE); }

static void set_owner(uint32_t number, uint32_t row, uint64_t who)
{
    must(filestore_update(&store, number, row * ROW / PAGE, row * ROW % PAGE, 8, VENTARICO_SET, who), VENTARICO_DONE);
}

static void charge(uint32_t number, uint32_t row, uint32_t kind, uint64_t value)
{
    must(filestore_update(&store, number, row * ROW / PAGE, row * ROW % PAGE + 8, 8, kind, value), VENTARICO_DONE);
}

static uint64_t number_at(const uint8_t *at)
{
    uint64_t number = 0;
    for (int i = 8; i-- > 0;)
        number = number << 8 | at[i];
    return number;
}

/* Reads the row under number 4 and holds it to what it must say. */
static void expect(uint32_t row, uint64_t who, uint64_t used)
{
    uint8_t bytes[ROW];
    begin(4);
    must(filestore_read(&store, bytes, sizeof bytes, 4, row * ROW / PAGE, row * ROW % PAGE, ROW), VENTARICO_DONE);
    cancel(4);
    uint64_t is = number_at(bytes), has = number_at(bytes + 8);
    printf("  = row %" PRIu32 ": %s, charge %" PRIu64 "\n", row, name_of(is), has);
    if (is != who || has != used) {
        char what[128];
        snprintf(what, sizeof what,
            "row %" PRIu32 " must hold %" PRIu64 " with charge %" PRIu64 ", not %" PRIu64 " with charge %" PRIu64, row,
            who, used, is, has);
        stop(what, "tests/c/run tells which call is at fault; if none is, look at examples/filestore.c");
    }
}

/* The rows that somebody holds, as the battery screen shows them. Answers the sum of their charges. */
static uint64_t show_battery_screen(void)
{
    static uint8_t page[PAGE];
    uint64_t sum = 0;
    FILE *talk = store.talk;
    store.talk = NULL;
    begin(6);
    printf("\n  Battery use\n  row  app          identifier   charge\n");
    for (uint32_t row = 0; row < PAGES * PAGE / ROW; row++) {
        const uint8_t *at = page + row * ROW % PAGE;
        if (row * ROW % PAGE == 0)
            must(filestore_read(&store, page, sizeof page, 6, row * ROW / PAGE, 0, PAGE), VENTARICO_DONE);
        if (number_at(at) == NOBODY && number_at(at + 8) == 0)
            continue;
        printf("  %3" PRIu32 "  %-12s %10" PRIu64 " %8" PRIu64 "\n", row, name_of(number_at(at)), number_at(at),
            number_at(at + 8));
        sum += number_at(at + 8);
    }
    cancel(6);
    store.talk = talk;
    printf("       in all                  %8" PRIu64 "\n", sum);
    return sum;
}

int main(int count, char **words)
{
    if (count != 2) {
        fprintf(stderr, "usage: torch FILE      a file that is not there yet\n");
        return 2;
    }
    path = words[1];
    setvbuf(stdout, NULL, _IOLBF, 0);

    printf("A new store, in a file.\n");
    if (!filestore_create(&store, path, sizes, stdout))
        stop("the store was not made", "do as the line of filestore says");

    tell("The screen has row 0 and has used a charge of 310, the radio has row 1 and 120.");
    begin(1);
    set_owner(1, 0, SCREEN);
    charge(1, 0, VENTARICO_SET, 310);
    set_owner(1, 1, RADIO);
    charge(1, 1, VENTARICO_SET, 120);
    commit(1);

    tell("The game takes row 2 and uses a charge of 700. It is put into its page.");
    begin(1);
    set_owner(1, 2, GAME);
    charge(1, 2, VENTARICO_SET, 700);
    commit(1);
    must(filestore_checkpoint(&store, 1, 0), VENTARICO_DONE);
    expect(2, GAME, 700);

    tell("The game is deleted: its row is cleared, under number 3.");
    begin(3);
    set_owner(3, 2, NOBODY);
    charge(3, 2, VENTARICO_SET, 0);
    commit(3);

    tell("Number 3 is given out again. The torch claims the row; meanwhile the screen may not read it; the torch cancels.");
    begin(3);
    set_owner(3, 2, TORCH);
    charge(3, 2, VENTARICO_ADD, 5);
    begin(5);
    uint8_t screen[ROW];
    must(filestore_read(&store, screen, sizeof screen, 5, 0, 2 * ROW, ROW), VENTARICO_HELD);
    cancel(3);
    must(filestore_read(&store, screen, sizeof screen, 5, 0, 2 * ROW, ROW), VENTARICO_DONE);
    cancel(5);

    tell("First loss. The row must be free: no game, and nothing of the cancelled claim.");
    power_loss();
    expect(2, NOBODY, 0);

    tell("The torch claims the row, under number 3 once more, and uses 40.");
    begin(3);
    set_owner(3, 2, TORCH);
    charge(3, 2, VENTARICO_ADD, 40);
    commit(3);

    tell("Second loss, after the commit: the claim is kept.");
    power_loss();
    expect(2, TORCH, 40);

    tell("The torch uses 2. Third loss, before the commit: these 2 are gone, and are charged again.");
    begin(3);
    charge(3, 2, VENTARICO_ADD, 2);
    power_loss();
    expect(2, TORCH, 40);
    begin(3);
    charge(3, 2, VENTARICO_ADD, 2);
    commit(3);

    tell("A checkpoint is begun. Fourth loss, when the page is written and the log still has its records: no add counts twice.");
    must(filestore_compact(&store, 0, 1, 0), VENTARICO_DONE);
    power_loss();
    expect(2, TORCH, 42);

    tell("The torch uses 8; its page is evicted unwritten and comes back right; then a whole checkpoint, and the fifth loss.");
    begin(3);
    charge(3, 2, VENTARICO_ADD, 8);
    commit(3);
    must(filestore_evict(&store, 0), VENTARICO_DONE);
    expect(2, TORCH, 50);
    must(filestore_checkpoint(&store, 1, 0), VENTARICO_DONE);
    power_loss();
    expect(2, TORCH, 50);

    tell("The screen and the radio have what they had. The store is left: its file is then whole without the journal.");
    expect(0, SCREEN, 310);
    expect(1, RADIO, 120);
    if (!filestore_leave(&store))
        stop("the store was not left as it should be", "do as the line of filestore says");
    open_store();

    tell("The torch has used 40 + 2 + 8 = 50; the game's 700 are gone, and no other row is held:");
    if (show_battery_screen() != 310 + 120 + 50)
        stop("the charges do not add up to 480", "run tests/c/run, and look at examples/filestore.c");
    filestore_drop(&store);
    printf("\nstory held\n");
    return 0;
}
