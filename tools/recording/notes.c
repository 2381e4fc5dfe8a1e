/* The notes of a process: a file under NOTES_FOLDER that is mapped, so what was noted stays where the process is
 * killed. Behind its head stand misuses, each with what is known of its block, and then calls; notes.py reads it. */
#include "recorder.h"

#define MOST_FAULTS 4096
#define FAULTS_BYTES (MOST_FAULTS * sizeof(struct fault))
#define NOTES_BYTES (PAGE_BYTES + FAULTS_BYTES + (size_t)MOST_RECORDS * sizeof(struct record))

uint64_t blocks; /* the number of the block that was given last */
int is_fork;

static struct head *head;
static struct record *records;
static struct fault *faults;
static int cannot_note;
static char live_path[PATH_BYTES];

void say(const char *text)
{
    ssize_t written = write(2, text, strlen(text));
    (void)written;
}

/* Opens a file that no process has yet: a process that calls exec has several. */
static int open_file(void)
{
    char path[PATH_BYTES];
    for (int number = 1; number < 10000; number++) {
        snprintf(path, sizeof path, "%s/%ld-%d.notes", NOTES_FOLDER, (long)getpid(), number);
        snprintf(live_path, sizeof live_path, "%s/%ld-%d.notes.live", NOTES_FOLDER, (long)getpid(), number);
        int file = open(path, O_RDWR | O_CREAT | O_EXCL | O_NOFOLLOW | O_CLOEXEC, 0600);
        if (file >= 0 || errno != EEXIST)
            return file;
    }
    return -1;
}

/* The words of the command, each ended by a zero byte. */
static void fill_command(void)
{
    int file = open("/proc/self/cmdline", O_RDONLY | O_CLOEXEC);
    ssize_t length = file < 0 ? -1 : read(file, head->command, sizeof head->command);
    head->command_bytes = length < 0 ? 0 : (uint64_t)length;
    if (file >= 0)
        close(file);
}

static void fill_head(void)
{
    struct timespec now;
    clock_gettime(CLOCK_REALTIME, &now);
    head->started = (uint64_t)now.tv_sec * 1000000000u + (uint64_t)now.tv_nsec;
    head->process = (uint64_t)getpid();
    head->is_fork = (uint64_t)is_fork;
    head->most = MOST_RECORDS;
    if (TAKES_STACKS)
        memcpy(head->sites, sites_name(), sizeof head->sites);
    fill_command();
}

/* Maps the whole file, of which only what is written takes room, and closes it: some programs close all files. */
static void open_notes(void)
{
    int file = open_file();
    char *mapped = MAP_FAILED;
    if (file >= 0 && ftruncate(file, (off_t)NOTES_BYTES) == 0)
        mapped = mmap(NULL, NOTES_BYTES, PROT_READ | PROT_WRITE, MAP_SHARED, file, 0);
    if (file >= 0)
        close(file);
    if (mapped == MAP_FAILED) {
        cannot_note = 1;
        say("record: a process cannot write its notes\n");
        return;
    }
    head = (struct head *)mapped;
    faults = (struct fault *)(mapped + PAGE_BYTES);
    records = (struct record *)(mapped + PAGE_BYTES + FAULTS_BYTES);
    fill_head();
}

static int are_open(void)
{
    if (!head && !cannot_note)
        open_notes();
    return head != NULL;
}

/* A child's notes go to a file of their own, which is opened at its first one. */
void begin_notes_of_child(void)
{
    if (head)
        munmap(head, NOTES_BYTES);
    head = NULL;
}

uint64_t calls(void)
{
    return head ? head->records : 0;
}

struct event this_call(void)
{
    return (struct event){ calls(), own.site, own.thread };
}

void count_left_out(void)
{
    if (head)
        head->left_out++;
}

/* Whether this is the process whose memory it is: a child of vfork has its parent's. */
int is_own_memory(void)
{
    return !head || head->process == (uint64_t)getpid();
}

void note_end(int number)
{
    if (head && is_own_memory())
        head->ended_by = (uint64_t)number;
}

/* Appends a note. The count is raised last, so a process that is killed leaves whole notes. */
void note(struct record record)
{
    if (!are_open())
        return;
    if (!KEEPS_LAST && head->records >= MOST_RECORDS) {
        head->left_out++;
        return;
    }
    record.thread = own.thread;
    record.site = own.site;
    if (head->threads < own.thread)
        head->threads = own.thread;
    if (record.kind == TAIL_WRITE || record.kind == FREED_WRITE)
        head->stray_writes++;
    records[head->records % MOST_RECORDS] = record;
    __atomic_store_n(&head->records, head->records + 1, __ATOMIC_RELEASE);
}

/* Notes a misuse, before the call at which it is seen. Of a stray write `size` is where the changed bytes end. */
void note_fault(const struct block *block, struct record record)
{
    if (!are_open())
        return;
    if (head->faults == MOST_FAULTS) {
        head->faults_left_out++;
        return;
    }
    struct fault fault = { .kind = record.kind, .offset = record.offset, .first = record.first,
                           .second = record.second, .end = record.size, .here = this_call() };
    if (block) {
        fault.state = block->state;
        fault.align = block->align;
        fault.block = block->number;
        fault.size = block->size;
        fault.given = block->given;
        fault.right = block->right;
    }
    if (block && block->state != LIVE)
        fault.freed = block->freed;
    faults[head->faults] = fault;
    __atomic_store_n(&head->faults, head->faults + 1, __ATOMIC_RELEASE);
}

/* A touch that was taken for a read, and comes again where reads are let through, is a write. */
void turn_into_write(const struct block *block, uint64_t offset)
{
    for (uint64_t one = head ? head->faults : 0; one-- > 0;) {
        struct fault *fault = &faults[one];
        if (fault->kind != GUARD_READ || fault->block != block->number || fault->here.thread != own.thread ||
            fault->here.site != own.site || fault->offset != offset)
            continue;
        fault->kind = GUARD_WRITE;
        return;
    }
    note_fault(block, (struct record){ .kind = GUARD_WRITE, .offset = offset });
}

/* ---- the blocks that are live at the end ---- */

struct live {
    uint64_t number, size, call;
    uint32_t site, thread;
    uint64_t align;
};

#define LIVE_AT_ONCE 512

static int write_lives(int file, const struct live *lives, size_t count)
{
    size_t bytes = count * sizeof *lives;
    return write(file, lives, bytes) == (ssize_t)bytes;
}

/* Writes the live blocks down; without memory, and without a lock but the turn. */
void write_live(void)
{
    static struct live lives[LIVE_AT_ONCE];
    int file = head ? open(live_path, O_WRONLY | O_CREAT | O_TRUNC | O_NOFOLLOW | O_CLOEXEC, 0600) : -1;
    if (file < 0)
        return;
    size_t count = 0;
    for (struct block *block = next_block(NULL); block; block = next_block(block)) {
        if (block->state != LIVE)
            continue;
        lives[count++] = (struct live){ block->number, block->size, block->given.call, block->given.site,
                                        block->given.thread, block->align };
        if (count == LIVE_AT_ONCE) {
            if (!write_lives(file, lives, count))
                break;
            count = 0;
        }
    }
    write_lives(file, lives, count);
    close(file);
}
