/* The file that outlives the glue, and what a cut does: everything that the glue knows is forgotten, the file is mapped again, and
 * the steps of docs/BOX.md, After a restart, follow. */
#include "parts.h"
#include "qemu/error-report.h"
#include <sys/mman.h>

struct known known;

bool glue_on(void) {
    static int on = -1; /* asked at every access, so the environment is not searched again */
    if (on < 0) on = getenv("TAHVENNO_STATE") != NULL;
    return on;
}

static size_t rows_wanted(void) {
    const char *given = getenv("TAHVENNO_ROWS");
    size_t rows = given ? strtoul(given, NULL, 10) : DEFAULT_ROWS;
    return rows < 1 || rows > TAHVENNO_MAX_ROWS ? DEFAULT_ROWS : rows;
}

static void map_file(void) {
    int file = open(getenv("TAHVENNO_STATE"), O_RDWR | O_CREAT, 0644);
    uint8_t *at = MAP_FAILED;
    if (file >= 0 && ftruncate(file, (off_t)PART * PARTS) == 0)
        at = mmap(NULL, (size_t)PART * PARTS, PROT_READ | PROT_WRITE, MAP_SHARED, file, 0);
    if (at == MAP_FAILED) {
        error_report("tahvenno: the file %s cannot be mapped", getenv("TAHVENNO_STATE"));
        exit(1);
    }
    close(file);
    known.kept = (uint64_t *)(at + KEPT_PART * PART);
    known.table = (uint64_t *)(at + TABLE_PART * PART);
    known.events = (uint64_t *)(at + EVENTS_PART * PART);
    known.told = (uint64_t *)(at + TOLD_PART * PART);
    known.queue = at + QUEUE_PART * PART;
    known.rows = rows_wanted();
    known.words = TAHVENNO_WORDS(known.rows);
}

static void forget(void) {
    if (known.kept) munmap((uint8_t *)known.kept - KEPT_PART * PART, (size_t)PART * PARTS);
    memset(&known, 0, sizeof known);
}

void state_must(uint64_t refused, const char *call) {
    if (refused) {
        error_report("tahvenno: %s is refused with %" PRIu64, call, refused);
        exit(1);
    }
}

/* Where the parts stand in the file, for one who takes it apart: name, place and length in bytes. */
static void write_layout(void) {
    char *path = g_strconcat(getenv("TAHVENNO_STATE"), ".layout", NULL);
    FILE *to = fopen(path, "w");
    g_free(path);
    if (!to) return;
    fprintf(to, "kept %d %zu\n", KEPT_PART * PART, known.words * sizeof *known.kept);
    fprintf(to, "table %d %zu\n", TABLE_PART * PART, TAHVENNO_TABLE_WORDS(REGIONS) * sizeof *known.table);
    fprintf(to, "events %d %zu\n", EVENTS_PART * PART, TAHVENNO_EVENT_WORDS(EVENTS_N) * sizeof *known.events);
    fprintf(to, "queue %d %zu\n", QUEUE_PART * PART, TAHVENNO_QUEUE_BYTES(TAHVENNO_MAX_LOG2SIZE));
    fclose(to);
}

/* The guest starts anew, so what was kept is about tables and a queue that are gone. Rows first, then the control word. */
void state_create(void) {
    volatile uint64_t *kept, *events;
    forget();
    map_file();
    kept = known.kept, events = known.events;
    for (size_t row = 0; row < known.rows; row++) kept[ROW_AT(row)] = 0;
    for (size_t row = 0; row < REGIONS; row++) known.table[TAHVENNO_TABLE_WORDS(row)] = 0;
    kept[0] = 0;
    events[0] = TAHVENNO_PUT(TAHVENNO_EVENT_N, EVENTS_N);
    *known.told = 0;
    write_layout();
    watch_begin();
}

void state_restart(SMMUv3State *s) {
    bool cut;
    do {
        forget();
        map_file();
        queue_show_error(s);
        cut = !queue_run(s);
    } while (cut);
    queue_tell(s);
    queue_mirror(s);
    recorder_read_out(s);
}
