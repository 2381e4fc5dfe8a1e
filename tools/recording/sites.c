/* Where a call was made: the return addresses of its stack, each distinct stack once, in a file of the process that its
 * forked children share, with the modules in which the addresses lie. sites.py reads it.
 *
 * Frames are found by unwind.c; where its tables are not enough, by the compiler's unwinder, which takes forty times as
 * long.
 */
#include "recorder.h"

#include <elf.h>
#include <link.h>
#include <unwind.h>

#define MOST_STACKS (1 << 20)
#define MOST_MODULES 4096
#define STACK_BUCKETS (1 << 21)
#define STABLE_FRAMES 6
#define FNV_BASIS UINT64_C(14695981039346656037)
#define FNV_PRIME UINT64_C(1099511628211)

struct module {
    uint64_t start, end, bias; /* an address minus the bias is one of the file */
    uint64_t is_of_cxx;        /* it holds operator new */
    char path[224];
};

struct stack {
    uint32_t frames, generation;
    uint16_t module[MOST_FRAMES]; /* by its number, from 1; 0 where there is none */
    uint64_t address[MOST_FRAMES];
};

struct sites {
    uint64_t stacks, modules, left_out;
    char pad[PAGE_BYTES - 24];
    struct module module[MOST_MODULES];
    struct stack stack[MOST_STACKS]; /* number 0 is none */
};

_Static_assert(sizeof(struct module) == 256 && sizeof(struct stack) == 168, "sites.py reads these sizes");

static struct sites *sites;
static char name_of_file[64];
static uint32_t *stack_buckets;
static uint32_t generation; /* raised where a module goes: its addresses may be another's */
static uint32_t known[MOST_MODULES];
static uint32_t known_count;
static pthread_once_t opening = PTHREAD_ONCE_INIT;

/* ---- the file ---- */

const char *sites_name(void)
{
    return name_of_file;
}

static int open_file(void)
{
    char path[PATH_BYTES];
    for (int number = 1; number < 10000; number++) {
        snprintf(name_of_file, sizeof name_of_file, "%ld-%d.sites", (long)getpid(), number);
        snprintf(path, sizeof path, "%s/%s", NOTES_FOLDER, name_of_file);
        int file = open(path, O_RDWR | O_CREAT | O_EXCL | O_NOFOLLOW | O_CLOEXEC, 0600);
        if (file >= 0 || errno != EEXIST)
            return file;
    }
    return -1;
}

/* It is opened at the first call, as libraries allocate before this one's constructor runs. */
static void open_sites(void)
{
    int error = errno, file = open_file();
    void *mapped = MAP_FAILED;
    if (file >= 0 && ftruncate(file, (off_t)sizeof *sites) == 0)
        mapped = mmap(NULL, sizeof *sites, PROT_READ | PROT_WRITE, MAP_SHARED, file, 0);
    if (file >= 0)
        close(file);
    void *table = mmap(NULL, STACK_BUCKETS * sizeof *stack_buckets, PROT_READ | PROT_WRITE,
                       MAP_PRIVATE | MAP_ANONYMOUS, -1, 0);
    if (mapped != MAP_FAILED && table != MAP_FAILED) {
        stack_buckets = table;
        sites = mapped;
        read_suspects();
    } else {
        name_of_file[0] = 0;
    }
    errno = error;
}

/* ---- the frames of a call ---- */

extern const char __ehdr_start[] __attribute__((visibility("hidden")));
extern const char _end[] __attribute__((visibility("hidden")));

static int is_of_recorder(uint64_t address)
{
    return address >= (uintptr_t)__ehdr_start && address < (uintptr_t)_end;
}

/* Answers whether there is room for more. */
int add_frame(struct backtrace *trace, uint64_t address)
{
    if (!is_of_recorder(address))
        trace->address[trace->frames++] = address;
    return trace->frames < MOST_FRAMES;
}

static _Unwind_Reason_Code add_slowly(struct _Unwind_Context *context, void *trace)
{
    int is_exact = 0; /* where a signal came, the address is that of the instruction, and not behind a call */
    uint64_t address = _Unwind_GetIPInfo(context, &is_exact);
    address += address && is_exact;
    return address && add_frame(trace, address) ? _URC_NO_REASON : _URC_END_OF_STACK;
}

static uint64_t hash_of(const struct backtrace *trace)
{
    uint64_t hash = generation;
    for (uint32_t frame = 0; frame < trace->frames; frame++) {
        hash = (hash ^ trace->address[frame]) * UINT64_C(0x9e3779b97f4a7c15);
        hash ^= hash >> 29;
    }
    return hash;
}

/* Where the unwinder itself asks for memory, that call has no stack. */
__attribute__((noinline)) void take_backtrace(struct backtrace *trace)
{
    trace->frames = 0;
    pthread_once(&opening, open_sites);
    if (!sites || own.is_unwinding)
        return;
    own.is_unwinding = 1;
    if (!unwind_by_tables(trace)) {
        trace->frames = 0;
        _Unwind_Backtrace(add_slowly, trace);
    }
    own.is_unwinding = 0;
    trace->hash = hash_of(trace);
}

/* ---- modules: in a turn, so without the loader's lock, as a thread that holds it may wait for the turn ---- */

/* A line of the system's list of what is mapped. */
struct mapping {
    uint64_t start, end, offset;
    char path[sizeof ((struct module *)0)->path];
};

struct reader {
    int file;
    char bytes[1024];
    size_t at, filled;
};

static int next_byte(struct reader *reader)
{
    if (reader->at == reader->filled) {
        ssize_t length = read(reader->file, reader->bytes, sizeof reader->bytes);
        if (length <= 0)
            return -1;
        reader->filled = (size_t)length;
        reader->at = 0;
    }
    return (unsigned char)reader->bytes[reader->at++];
}

/* Reads a line, cut where it is too long; answers whether there was one. */
static int read_line(struct reader *reader, char *line, size_t room)
{
    size_t length = 0;
    int byte = next_byte(reader);
    if (byte < 0)
        return 0;
    for (; byte >= 0 && byte != '\n'; byte = next_byte(reader))
        if (length + 1 < room)
            line[length++] = (char)byte;
    line[length] = 0;
    return 1;
}

static struct mapping mapping_of(const char *line)
{
    struct mapping mapping = { 0 };
    char *rest;
    const char *path = strchr(line, '/');
    mapping.start = strtoull(line, &rest, 16);
    mapping.end = strtoull(rest + 1, &rest, 16);
    rest = strchr(rest + 1, ' '); /* the rights */
    mapping.offset = rest ? strtoull(rest, NULL, 16) : 0;
    if (path)
        strncpy(mapping.path, path, sizeof mapping.path - 1);
    return mapping;
}

/* Grows a module by a mapping of its file, or begins another; its bias is the first mapping's place in the file. */
static void add_mapping(struct module *module, const struct mapping *mapping)
{
    int goes_on = mapping->start == module->end || mapping->offset != 0;
    if (!goes_on || strcmp(module->path, mapping->path) != 0) {
        *module = (struct module){ .start = mapping->start, .bias = mapping->offset };
        memcpy(module->path, mapping->path, sizeof module->path);
    }
    module->end = mapping->end;
}

/* Finds the module of an address: mappings of one file, of which one holds the address. */
static int find_module(uint64_t address, struct module *module)
{
    char line[512];
    struct reader reader = { .file = open("/proc/self/maps", O_RDONLY | O_CLOEXEC) };
    int is_in = 0;
    *module = (struct module){ 0 };
    while (reader.file >= 0 && read_line(&reader, line, sizeof line)) {
        struct mapping mapping = mapping_of(line);
        if (is_in && strcmp(module->path, mapping.path) != 0)
            break;
        if (!mapping.path[0])
            continue;
        add_mapping(module, &mapping);
        is_in |= address >= mapping.start && address < mapping.end;
    }
    if (reader.file >= 0)
        close(reader.file);
    return is_in;
}

/* The least address of the file that is mapped, by its head, which lies at the module's start. */
static uint64_t first_address_of(const struct module *module)
{
    const ElfW(Ehdr) *file = (const ElfW(Ehdr) *)module->start;
    const ElfW(Phdr) *part = (const ElfW(Phdr) *)(module->start + file->e_phoff);
    if (memcmp(file->e_ident, ELFMAG, SELFMAG) != 0 || file->e_phoff > PAGE_BYTES / 2)
        return 0;
    for (int one = 0; one < file->e_phnum; one++)
        if (part[one].p_type == PT_LOAD)
            return part[one].p_vaddr & ~(uint64_t)(PAGE_BYTES - 1);
    return 0;
}

static int is_same(const struct module *left, const struct module *right)
{
    return left->start == right->start && left->end == right->end && strcmp(left->path, right->path) == 0;
}

/* The number of a module, one that it had before where it is the same; 0 where there is no room. */
static uint32_t number_of(const struct module *module)
{
    uint64_t count = __atomic_load_n(&sites->modules, __ATOMIC_RELAXED);
    for (uint64_t one = 0; one < count && one < MOST_MODULES; one++)
        if (is_same(&sites->module[one], module))
            return (uint32_t)one + 1;
    uint64_t number = __atomic_add_fetch(&sites->modules, 1, __ATOMIC_RELAXED);
    if (number > MOST_MODULES)
        return 0;
    sites->module[number - 1] = *module;
    return (uint32_t)number;
}

static uint32_t enter_module(uint64_t address)
{
    struct module module;
    if (known_count == MOST_MODULES || !find_module(address, &module))
        return 0;
    module.bias = module.start - (module.bias ? module.bias : first_address_of(&module));
    module.is_of_cxx = strstr(module.path, "/libstdc++") || strstr(module.path, "/libc++");
    uint32_t number = number_of(&module);
    if (number)
        known[known_count++] = number;
    return number;
}

static uint32_t module_of(uint64_t address)
{
    for (uint32_t one = 0; one < known_count; one++) {
        const struct module *module = &sites->module[known[one] - 1];
        if (address >= module->start && address < module->end)
            return known[one];
    }
    return enter_module(address);
}

/* A module has gone: what is known of addresses holds no longer. */
void forget_modules(void)
{
    generation++;
    known_count = 0;
    forget_rules();
}

/* ---- the numbers of stacks; in a turn ---- */

static uint32_t enter_stack(const struct backtrace *trace)
{
    uint64_t number = __atomic_add_fetch(&sites->stacks, 1, __ATOMIC_RELAXED);
    if (number >= MOST_STACKS) {
        sites->left_out++;
        return 0;
    }
    struct stack *stack = &sites->stack[number];
    for (uint32_t frame = 0; frame < trace->frames; frame++) {
        stack->module[frame] = (uint16_t)module_of(trace->address[frame] - 1);
        stack->address[frame] = trace->address[frame];
    }
    stack->generation = generation;
    stack->frames = trace->frames;
    return (uint32_t)number;
}

static int is_stack_of(const struct stack *stack, const struct backtrace *trace)
{
    return stack->frames == trace->frames && stack->generation == generation &&
           memcmp(stack->address, trace->address, trace->frames * sizeof *trace->address) == 0;
}

/* The number of a stack, 0 where there is none. */
uint32_t site_of(const struct backtrace *trace)
{
    if (!sites || !trace->frames)
        return 0;
    uint64_t at = trace->hash >> 43;
    while (stack_buckets[at] && !is_stack_of(&sites->stack[stack_buckets[at]], trace))
        at = (at + 1) % STACK_BUCKETS;
    if (!stack_buckets[at])
        stack_buckets[at] = enter_stack(trace);
    return stack_buckets[at];
}

/* A number of a stack that is the same in each run, of its innermost frames. sites.py makes it likewise. */
uint64_t stable_hash(uint32_t site)
{
    const struct stack *stack = &sites->stack[site];
    uint64_t hash = FNV_BASIS;
    for (uint32_t frame = 0; frame < stack->frames && frame < STABLE_FRAMES; frame++) {
        if (!stack->module[frame])
            continue;
        const struct module *module = &sites->module[stack->module[frame] - 1];
        for (const char *byte = strrchr(module->path, '/') + 1; *byte; byte++)
            hash = (hash ^ (unsigned char)*byte) * FNV_PRIME;
        hash = (hash ^ (stack->address[frame] - module->bias)) * FNV_PRIME;
    }
    return hash;
}

/* Whether a call was made by C++'s operators; where stacks are not taken, it may have been. */
int is_of_cxx(uint32_t site)
{
    if (!sites || !site)
        return 1;
    uint16_t module = sites->stack[site].module[0];
    return module && sites->module[module - 1].is_of_cxx;
}
