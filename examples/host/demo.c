/* A client, the guard and a host over a directory of this machine; the disk fills up, and the client goes on; a
 * read-only guard shows the files; a batch is renamed while a file in it is open; then someone tampers with the disk,
 * and the guard stops. Ends with status 1 where anything comes back that is not what is told here.
 *
 *     demo [--budget BYTES]       how many bytes the disk has that fills up; with another than BUDGET, what comes is
 *                                 shown, and nothing but a stop is wrong */
#define _XOPEN_SOURCE 700 /* mkdtemp */
#include <signal.h>
#include <stdio.h>
#include <stdlib.h>
#include <string.h>
#include <sys/stat.h>
#include <sys/wait.h>
#include <unistd.h>

#include "client.h"
#include "disk.h"
#include "saves.h"

/* The host's part of the directory and the client's own, which the host cannot reach. */
#define LOG "host/tree/cellar/log"
#define NOTE "host/tree/cellar/note"
#define LOT "host/tree/cellar/lot 12"
#define OLD_IMAGE "host/image.0" /* of the first save; the second writes the other */
#define DIGEST "client/digest"

/* Nodes and files take 7,085 bytes of it before the file is written that fills the disk: two pages have room. */
enum { BUDGET = 9300, LINE = 25 };

static uint64_t budget = BUDGET;

typedef struct {
    client client;
    saves saves;
    host *host;
    char asked[128]; /* what the guard has asked for since the last line */
    int same;        /* the host gives out descriptor 0 whatever is asked */
    uint64_t lent;   /* where the host's next map is to be, whatever lies there; 0: where there is room */
    int wrong;
} stage;

/* ---- in words */

/* The memory at an address, which is this process's own: host and client are one here. */
static uint8_t *memory_at(uint64_t address) { return (uint8_t *)(uintptr_t)address; }

/* A host that lends memory a second time: as it is, and where it may be lent already. */
static size_t lend_again(stage *s, const guard_request *r, uint8_t *reply)
{
    if (r->kind == GUARD_UNMAP) /* nothing is done */
        return guard_status_reply(reply, HOST_REPLY_LENGTH, 0);
    return guard_map_reply(reply, HOST_REPLY_LENGTH, s->lent, memory_at(s->lent), r->length);
}

/* Listens between guard and host. */
static size_t ask(void *to, const uint8_t *request, size_t length, uint8_t reply[HOST_REPLY_LENGTH])
{
    stage *s = to;
    guard_request r;
    size_t n = strlen(s->asked);
    guard_get_request(request, length, &r);
    int paged = r.kind == GUARD_FETCH || r.kind == GUARD_STORE;
    snprintf(s->asked + n, sizeof s->asked - n, paged ? "%s%s %d" : "%s%s", n ? " " : "", guard_request_name(r.kind),
        (int)r.page);
    if (s->lent && (r.kind == GUARD_MAP || r.kind == GUARD_UNMAP))
        return lend_again(s, &r, reply);
    n = host_reply(s->host, request, length, reply);
    if (s->same && r.kind == GUARD_OPEN)
        memset(reply, 0, n);
    return n;
}

enum { SHOWN = 10 };

/* The first bytes in hexadecimal. */
static const char *digits(const uint8_t *bytes, size_t length)
{
    static char text[2 * SHOWN + 1];
    size_t shown = length > SHOWN ? SHOWN - 1 : length;
    text[0] = '\0';
    for (size_t i = 0; i < shown; i++)
        sprintf(text + 2 * i, "%02x", bytes[i]);
    return length > SHOWN ? strcat(text, "..") : text;
}

/* One line: the call in words, its bytes, what the guard asked of the host, what came back. */
static void row(stage *s, guard_outcome o, int kind, uint64_t number, const char *words)
{
    printf("  %-33s  %-*s", words, 2 * SHOWN, digits(s->client.call, s->client.call_length));
    printf("  %-31s  %s %llu", s->asked[0] ? s->asked : "-", guard_outcome_name(o.kind), (unsigned long long)o.number);
    if (o.kind != GUARD_DONE)
        printf(": %s", o.kind == GUARD_STOPPED ? guard_stop_text(o.number) : guard_number_text(o.number));
    if (o.kind != kind || o.number != number) {
        printf("   << not what is expected");
        s->wrong = 1;
    }
    putchar('\n');
    s->asked[0] = '\0';
    s->client.call_length = 0;
}

static void show_text(const stage *s, size_t length)
{
    printf("    > ");
    for (size_t i = 0; i < length; i++)
        putchar(s->client.layer.answer[i] == '\n' ? '|' : s->client.layer.answer[i]);
    putchar('\n');
}

static void show_listing(const stage *s, size_t length)
{
    guard_dirent e;
    for (size_t at = 0; guard_get_dirent(s->client.layer.answer, length, &at, &e);)
        printf("    > id %u, a %s, %.*s\n", (unsigned)e.id, e.kind == GUARD_FILE ? "file" : "directory",
            e.name_length, e.name);
}

/* ---- save and start */

/* This host keeps one tree alone, so it has nothing to go back to. */
static int sync_host(void *h, const uint8_t *digest)
{
    (void)digest;
    return host_sync(h);
}

static int start_host(void *h, const uint8_t *digest)
{
    (void)h, (void)digest;
    return 0;
}

static void save(stage *s)
{
    guard_outcome o = {GUARD_STOPPED, 0, 0};
    if (saves_save(&s->saves, &s->client.layer, &o) < 0)
        perror("save");
    uint8_t digest[GUARD_DIGEST_LENGTH];
    disk_read(DIGEST, 0, digest, sizeof digest);
    row(s, o, GUARD_DONE, o.number, "save");
    printf("    the image, %zu bytes, may lie with the host; its digest is what the client keeps: %s\n", o.length,
           digits(digest, sizeof digest));
}

/* The last save's image. */
static void start(stage *s)
{
    guard_outcome o = {saves_start(&s->saves, &s->client.layer) == SAVES_LOADED ? GUARD_DONE : GUARD_STOPPED, 0, 0};
    row(s, o, GUARD_DONE, 0, "load the image");
}

static void load(stage *s, const char *file, int kind, uint64_t number)
{
    static uint8_t image[GUARD_IMAGE_LENGTH];
    uint8_t digest[GUARD_DIGEST_LENGTH];
    size_t length = disk_read(file, 0, image, sizeof image);
    size_t digest_length = disk_read(DIGEST, 0, digest, sizeof digest);
    guard_outcome o = guard_client_load(&s->client.layer, image, length, digest, digest_length);
    trace_load(s->client.trace, image, length, digest, digest_length, o);
    row(s, o, kind, number, "load the image");
}

/* ---- the client's work */

/* Lines of LINE bytes each, and a 0 behind them. */
static void put_days(char *text, int days)
{
    for (int day = 0; day < days; day++)
        sprintf(text + LINE * day, "day %03d  cask %02d  11.%d C\n", day + 1, day % 12 + 1, day * 7 % 10);
}

static void make_files(stage *s)
{
    static const char edge[] = "<<over the edge>>";
    char text[LINE * 100 + 1];
    put_days(text, 100);
    client *c = &s->client;
    row(s, client_mkdir(c, "/cellar", 7), GUARD_DONE, 2, "mkdir /cellar, mode 7");
    row(s, client_create(c, "/cellar/log", 6), GUARD_DONE, 3, "create /cellar/log, mode 6");
    row(s, client_open(c, "/cellar/log", 3), GUARD_DONE, 3, "open /cellar/log, read and write");
    row(s, client_write(c, 3, text, 2500), GUARD_DONE, 2500, "write 2,500 bytes");
    row(s, client_seek(c, 3, 1015), GUARD_DONE, 1015, "seek to 1,015");
    row(s, client_write(c, 3, edge, 17), GUARD_DONE, 17, "write 17 bytes over a page's edge");
    row(s, client_seek(c, 3, 1000), GUARD_DONE, 1000, "seek to 1,000");
    row(s, client_read(c, 3, 50), GUARD_DONE, 50, "read 50 bytes");
    show_text(s, 50);
    row(s, client_close(c, 3), GUARD_DONE, 0, "close");
}

static void first_life(stage *s)
{
    static const char note[] = "The key is under the third cask.\n";
    client *c = &s->client;
    if (saves_start(&s->saves, &c->layer) != SAVES_FRESH)
        s->wrong = 1;
    make_files(s);
    row(s, client_create(c, "/cellar/note", 7), GUARD_DONE, 4, "create /cellar/note, mode 7");
    row(s, client_open(c, "/cellar/note", 2), GUARD_DONE, 4, "open /cellar/note, write");
    row(s, client_write(c, 4, note, sizeof note - 1), GUARD_DONE, sizeof note - 1, "write a line");
    row(s, client_truncate(c, 4, 65536), GUARD_DONE, 0, "truncate to 65,536: zeros behind");
    row(s, client_truncate(c, 4, sizeof note - 1), GUARD_DONE, 0, "truncate to the line again");
    row(s, client_read(c, 4, 10), GUARD_REFUSED, GUARD_BAD_HANDLE, "read without the right to");
    row(s, client_close(c, 4), GUARD_DONE, 0, "close");
    row(s, client_open(c, "/cellar/keys", 1), GUARD_REFUSED, GUARD_ABSENT, "open /cellar/keys, read");
    guard_outcome o = client_readdir(c, "/cellar");
    row(s, o, GUARD_DONE, 2, "readdir /cellar");
    show_listing(s, o.length);
    row(s, client_stat(c, "/cellar/log"), GUARD_DONE, 2500, "stat /cellar/log: its size");
    save(s);
    printf("  What an ordinary ls and cat see:\n");
    disk_show("ls -l host/tree/cellar");
    disk_show("cat " NOTE);
}

static void second_life(stage *s)
{
    client *c = &s->client;
    start(s);
    row(s, client_open(c, "/cellar/note", 3), GUARD_DONE, 4, "open /cellar/note, read and write");
    row(s, client_read(c, 4, GUARD_TRANSFER_LENGTH), GUARD_DONE, 33, "read up to 4,096 bytes");
    show_text(s, 33);
    row(s, client_write(c, 4, "No: it is gone.\n", 16), GUARD_DONE, 16, "write on at the end");
    row(s, client_close(c, 4), GUARD_DONE, 0, "close");
    save(s);
}

/* ---- a disk that fills up */

/* With another budget, anything but a stop is as told. */
static void full_row(stage *s, guard_outcome o, int kind, uint64_t number, const char *words)
{
    int is_told = budget == BUDGET || o.kind == GUARD_STOPPED;
    row(s, o, is_told ? kind : o.kind, is_told ? number : o.number, words);
}

/* A file of 3,000 bytes, and one that is to be longer than there is room for. */
static void make_two(stage *s, const char *text)
{
    client *c = &s->client;
    full_row(s, client_create(c, "/cellar/old", 6), GUARD_DONE, 5, "create /cellar/old, mode 6");
    full_row(s, client_open(c, "/cellar/old", 2), GUARD_DONE, 5, "open /cellar/old, write");
    full_row(s, client_write(c, 5, text, 3000), GUARD_DONE, 3000, "write 3,000 bytes");
    full_row(s, client_close(c, 5), GUARD_DONE, 0, "close");
    full_row(s, client_create(c, "/cellar/new", 6), GUARD_DONE, 6, "create /cellar/new, mode 6");
    full_row(s, client_open(c, "/cellar/new", 3), GUARD_DONE, 6, "open /cellar/new, read and write");
}

/* What a client does with a write that was done in part: it writes the rest, once there is room. */
static void fill_disk(stage *s, const char *text)
{
    client *c = &s->client;
    guard_outcome o = client_write(c, 6, text, GUARD_TRANSFER_LENGTH);
    size_t done = o.kind == GUARD_DONE ? (size_t)o.number : 0, rest = GUARD_TRANSFER_LENGTH - done;
    full_row(s, o, GUARD_DONE, 2048, "write 4,096 bytes: two pages fit");
    disk_show("wc -c host/tree/cellar/*");
    full_row(s, client_write(c, 6, text + done, rest), GUARD_REFUSED, GUARD_FULL, "write the rest");
    full_row(s, client_truncate(c, 6, 65536), GUARD_REFUSED, GUARD_FULL, "truncate to 65,536");
    full_row(s, client_create(c, "/cellar/more", 6), GUARD_REFUSED, GUARD_FULL, "create /cellar/more, mode 6");
    full_row(s, client_remove(c, "/cellar/old"), GUARD_DONE, 0, "remove /cellar/old: room is made");
    full_row(s, client_write(c, 6, text + done, rest), GUARD_DONE, 2048, "write the rest");
}

static void disk_fills_up(stage *s)
{
    char text[LINE * 164 + 1];
    client *c = &s->client;
    put_days(text, 164);
    start(s);
    host_limit(s->host, budget);
    make_two(s, text);
    fill_disk(s, text);
    full_row(s, client_seek(c, 6, 0), GUARD_DONE, 0, "seek to 0");
    guard_outcome o = client_read(c, 6, GUARD_TRANSFER_LENGTH);
    full_row(s, o, GUARD_DONE, GUARD_TRANSFER_LENGTH, "read 4,096 bytes: as written");
    s->wrong |= memcmp(c->layer.answer, text, o.length) != 0;
    full_row(s, client_close(c, 6), GUARD_DONE, 0, "close");
    full_row(s, client_remove(c, "/cellar/new"), GUARD_DONE, 0, "remove /cellar/new");
    if (budget != BUDGET) /* the others find the tree of the save */
        client_remove(c, "/cellar/old"), client_remove(c, "/cellar/more");
}

/* ---- a read-only guard */

/* What it saves is the image that was loaded. */
static void save_loaded(stage *s)
{
    static uint8_t image[GUARD_IMAGE_LENGTH];
    uint8_t digest[GUARD_DIGEST_LENGTH], kept[GUARD_DIGEST_LENGTH];
    guard_outcome o = guard_reader_client_save(&s->client.reader_layer, image, sizeof image, digest);
    trace_save(s->client.trace, o, image, digest);
    row(s, o, GUARD_DONE, o.length, "save");
    disk_read(DIGEST, 0, kept, sizeof kept);
    int is_same = !memcmp(digest, kept, sizeof digest) && !memcmp(image, s->saves.image, o.length);
    printf("    the image is %s that was loaded; its digest: %s\n", is_same ? "the one" : "NOT the one",
        digits(digest, sizeof digest));
    s->wrong |= !is_same;
}

static void read_only(stage *s)
{
    client *c = &s->client;
    start(s);
    row(s, client_readdir(c, "/cellar"), GUARD_DONE, 2, "readdir /cellar");
    row(s, client_stat(c, "/cellar/note"), GUARD_DONE, 49, "stat /cellar/note: its size");
    row(s, client_open(c, "/cellar/note", 1), GUARD_DONE, 4, "open /cellar/note, read");
    guard_outcome o = client_read(c, 4, GUARD_TRANSFER_LENGTH);
    row(s, o, GUARD_DONE, 49, "read up to 4,096 bytes");
    show_text(s, o.length);
    row(s, client_write(c, 4, "x", 1), GUARD_REFUSED, GUARD_READ_ONLY, "write a byte");
    row(s, client_open(c, "/cellar/log", 3), GUARD_REFUSED, GUARD_READ_ONLY, "open /cellar/log, read and write");
    row(s, client_create(c, "/cellar/more", 6), GUARD_REFUSED, GUARD_READ_ONLY, "create /cellar/more, mode 6");
    row(s, client_close(c, 4), GUARD_DONE, 0, "close");
    save_loaded(s);
}

/* ---- a rename */

/* A batch with a file that is open: its handle. Ids go on from what a full disk has let be made. */
static uint32_t make_batch(stage *s)
{
    static const char must[] = "Riesling, 84 Oe\n";
    client *c = &s->client;
    guard_outcome o = client_mkdir(c, "/batch", 7);
    row(s, o, GUARD_DONE, o.number, "mkdir /batch, mode 7");
    o = client_create(c, "/batch/must", 6);
    row(s, o, GUARD_DONE, o.number, "create /batch/must, mode 6");
    row(s, client_open(c, "/batch/must", 3), GUARD_DONE, o.number, "open /batch/must, read and write");
    row(s, client_write(c, (uint32_t)o.number, must, sizeof must - 1), GUARD_DONE, sizeof must - 1, "write a line");
    return (uint32_t)o.number;
}

static void lot_name(stage *s)
{
    client *c = &s->client;
    start(s);
    uint32_t handle = make_batch(s);
    row(s, client_rename(c, "/batch", "/cellar/lot 12"), GUARD_DONE, 0, "rename /batch to /cellar/lot 12");
    row(s, client_seek(c, handle, 0), GUARD_DONE, 0, "seek to 0: the file is still open");
    row(s, client_read(c, handle, GUARD_TRANSFER_LENGTH), GUARD_DONE, 16, "read up to 4,096 bytes");
    show_text(s, 16);
    disk_show("ls -p host/tree/cellar");
    row(s, client_rename(c, "/cellar/lot 12", "/cellar/note"), GUARD_REFUSED, GUARD_PRESENT,
        "rename it to /cellar/note");
    row(s, client_rename(c, "/cellar", "/cellar/lot 12/x"), GUARD_REFUSED, GUARD_MALFORMED,
        "rename /cellar into itself");
    row(s, client_close(c, handle), GUARD_DONE, 0, "close");
    row(s, client_remove(c, "/cellar/lot 12/must"), GUARD_DONE, 0, "remove /cellar/lot 12/must");
    row(s, client_rmdir(c, "/cellar/lot 12"), GUARD_DONE, 0, "rmdir /cellar/lot 12");
}

/* ---- tampering */

static void read_log(stage *s, int kind, uint64_t number)
{
    int is_reader = s->client.is_reader;
    row(s, client_open(&s->client, "/cellar/log", is_reader ? 1 : 3), GUARD_DONE, 3,
        is_reader ? "open /cellar/log, read" : "open /cellar/log, read and write");
    row(s, client_read(&s->client, 3, GUARD_TRANSFER_LENGTH), kind, number, "read up to 4,096 bytes");
}

static void byte_changed(stage *s)
{
    char byte;
    start(s);
    disk_read(LOG, 1500, &byte, 1);
    disk_write(LOG, 1500, "!", 1);
    read_log(s, GUARD_STOPPED, GUARD_STOP_PAGE);
    row(s, client_stat(&s->client, "/"), GUARD_REFUSED, GUARD_STOPPED_FOR_GOOD, "stat /");
    disk_write(LOG, 1500, &byte, 1);
}

static void old_page(stage *s)
{
    char page[GUARD_PAGE_LENGTH];
    start(s);
    disk_read(LOG, 0, page, sizeof page);
    row(s, client_open(&s->client, "/cellar/log", 3), GUARD_DONE, 3, "open /cellar/log, read and write");
    row(s, client_write(&s->client, 3, "day 001  cask 01  19.9 C\n", 25), GUARD_DONE, 25, "write 25 bytes");
    disk_write(LOG, 0, page, sizeof page);
    row(s, client_seek(&s->client, 3, 0), GUARD_DONE, 0, "seek to 0");
    row(s, client_read(&s->client, 3, 25), GUARD_STOPPED, GUARD_STOP_PAGE, "read 25 bytes");
}

static void file_hidden(stage *s)
{
    start(s);
    disk_move(NOTE, "aside");
    row(s, client_readdir(&s->client, "/cellar"), GUARD_STOPPED, GUARD_STOP_LISTING, "readdir /cellar");
    disk_move("aside", NOTE);
}

static void same_descriptor(stage *s)
{
    start(s);
    s->same = 1;
    row(s, client_open(&s->client, "/cellar/log", 1), GUARD_DONE, 3, "open /cellar/log, read");
    row(s, client_open(&s->client, "/cellar/note", 2), GUARD_STOPPED, GUARD_STOP_DESCRIPTOR,
        "open /cellar/note, write");
}

static void files_swapped(stage *s)
{
    start(s);
    disk_swap(LOG, NOTE);
    read_log(s, GUARD_STOPPED, GUARD_STOP_PAGE);
    disk_swap(LOG, NOTE);
}

/* Memory of 8,192 bytes for the client's own work; its address is the host's choice. */
static uint64_t map_memory(stage *s)
{
    guard_outcome o = client_map(&s->client, 8192);
    row(s, o, GUARD_DONE, o.number, "map 8,192 bytes: their address");
    return o.number;
}

static void map_overlaps(stage *s)
{
    start(s);
    s->lent = map_memory(s) + GUARD_MAP_UNIT;
    row(s, client_map(&s->client, 4096), GUARD_STOPPED, GUARD_STOP_MAP, "map 4,096 bytes");
}

static void map_is_dirty(stage *s)
{
    start(s);
    uint64_t at = map_memory(s);
    strcpy((char *)memory_at(at) + 5000, "eleven casks, three of them empty");
    s->lent = at;
    row(s, client_unmap(&s->client, at), GUARD_DONE, 0, "unmap");
    row(s, client_map(&s->client, 8192), GUARD_STOPPED, GUARD_STOP_MAP, "map 8,192 bytes");
}

/* The host's table has lost the note then, so the lives after this one look at the log alone. */
static void rename_undone(stage *s)
{
    start(s);
    row(s, client_rename(&s->client, "/cellar/note", "/cellar/lot 12"), GUARD_DONE, 0, "rename /cellar/note to lot 12");
    disk_move(LOT, NOTE);
    row(s, client_readdir(&s->client, "/cellar"), GUARD_STOPPED, GUARD_STOP_LISTING, "readdir /cellar");
}

static void old_image(stage *s) { load(s, OLD_IMAGE, GUARD_REFUSED, GUARD_WRONG_DIGEST); }

static void untouched(stage *s)
{
    start(s);
    read_log(s, GUARD_DONE, 2500);
    row(s, client_unmap(&s->client, map_memory(s)), GUARD_DONE, 0, "unmap");
}

/* ---- lives: each a process of its own, so that nothing goes on but what lies in files */

typedef void begin(client *c, client_host *ask, void *with, FILE *trace);

static const struct { const char *title; void (*act)(stage *); begin *begin; } lives[] = {
    {"The client makes files; the guard keeps names, sizes, modes and digests, and asks the host to keep the pages.",
        first_life, client_begin},
    {"The client is switched off and on: a new process, a fresh guard, and the image with the digest that the client"
        " kept.",
        second_life, client_begin},
    {"The host's disk is full: a call ends, with what there was room for or with nothing, and the guard goes on.",
        disk_fills_up, client_begin},
    {"A read-only guard shows the files of the last image, which it loads with its digest. It changes nothing.",
        read_only,
        client_begin_reader},
    {"A batch gets its lot name, and goes to the cellar with a file that is open. Nothing is ever replaced.", lot_name,
        client_begin},
    {"Someone changes byte 1,500 of the log on the disk; it is the read-only guard that meets it.", byte_changed,
        client_begin_reader},
    {"Someone puts an old page back, after the client has written a newer one.", old_page, client_begin},
    {"Someone takes the note out of the directory.", file_hidden, client_begin},
    {"The host gives one descriptor to two files.", same_descriptor, client_begin},
    {"Someone swaps log and note on the disk.", files_swapped, client_begin},
    {"The host lends memory within memory that it has lent already.", map_overlaps, client_begin},
    {"The host lends memory again as the client has left it, what it wrote there included.", map_is_dirty,
        client_begin},
    {"Someone gives a note that was renamed its old name back.", rename_undone, client_begin},
    {"The host hands out the image of the save before the last.", old_image, client_begin},
    {"Nobody does anything.", untouched, client_begin},
};

static int live(int number)
{
    printf("\n%d. %s\n", number + 1, lives[number].title);
    fflush(stdout);
    pid_t child = fork();
    if (child == 0) {
        static stage s;
        if (!(s.host = host_open("host/tree", "host/table"))) {
            perror("host");
            exit(2);
        }
        FILE *trace = getenv("GUARD_TRACE") ? fopen(getenv("GUARD_TRACE"), "a") : NULL;
        lives[number].begin(&s.client, ask, &s, trace);
        s.saves = (saves){.images = "host", .own = "client", .sync = sync_host, .start = start_host, .host = s.host,
            .trace = trace};
        lives[number].act(&s);
        host_close(s.host);
        exit(s.wrong);
    }
    int status = 1;
    return child < 0 || waitpid(child, &status, 0) < 0 || status != 0;
}

/* The budget that the command line names, if it does; 0 where it is none. */
static uint64_t named_budget(int count, char **words)
{
    char *end = "";
    uint64_t named = count == 3 && !strcmp(words[1], "--budget") ? strtoull(words[2], &end, 10) : 0;
    return count == 1 ? BUDGET : *end ? 0 : named;
}

int main(int count, char **words)
{
    const char *base = getenv("TMPDIR");
    char place[4096];
    int wrong = 0;
    if ((budget = named_budget(count, words)) == 0) {
        fputs("demo [--budget BYTES]\n", stderr);
        return 2;
    }
    signal(SIGPIPE, SIG_IGN); /* the directory goes away even if only the beginning is read */
    snprintf(place, sizeof place, "%s/guard-demo.XXXXXX", base ? base : "/tmp");
    if (!mkdtemp(place) || chdir(place) || mkdir("host", 0700) || mkdir("client", 0700)) {
        perror(place);
        return 2;
    }
    printf("A guard of %d bytes for a client, and a host that keeps the files in %s/host/tree.\n",
        GUARD_MEMORY_LENGTH, place);
    printf("Each line: the call in words, its bytes, what the guard asks of the host, what comes back to the client.\n");
    for (size_t i = 0; i < sizeof lives / sizeof *lives; i++)
        wrong |= live((int)i);
    if (chdir("/"))
        perror("/");
    disk_clear(place);
    puts(wrong ? "\nNot everything came back as told."
               : "\nA full disk cost a call, a read-only guard changed nothing, an open file was renamed, each of the"
                 " nine was caught; what nobody touched is served.");
    return wrong;
}
