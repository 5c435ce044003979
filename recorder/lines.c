// Lines: from the return address of a call of the instrumentation to the line and column of the access, by the line tables that -g leaves in the
// program and its shared libraries, as libdw reads them.
//
// A place is found once for each address and kept, in an array with 8 bytes for each byte of the program's or library's text (only pages with calls
// are touched). Code without a line of its own (line 0: merged or moved by the optimizer) has that of what stands before
// it. Of the first file a line is itself, and of file k it is k million more, so that two files' lines differ.
//
// May assume: a library that was loaded stays where it is. swordcc puts code at 16 MB, since what the linker left out has its lines from 0 on.
#include "recorder.h"
#include <elfutils/libdw.h>
#include <fcntl.h>
#include <link.h>

enum { FILES = 4000, MILLION = 1000000 };

// The rows of a unit's line table, in order of their addresses.
typedef struct {
    Dwarf_Lines *row;
    size_t rows;
} Unit;

// The program, or a library.
typedef struct Module {
    struct Module *next;
    const char *path; // "": the program
    uint64_t base, low, length; // where it is, and the return addresses that it may have
    _Atomic uint64_t *places;   // by return address from `low` on
    Unit *unit;
    size_t units, room;
} Module;

static _Atomic(Module *) modules;
static const char *files[FILES];
static bool file_used[FILES];
static unsigned files_count;
uint64_t text_low, text_length;
atomic_ullong quick_length;
_Atomic uint64_t *places;

// ---- Line tables ----

// FILES: there is no room.
static unsigned file_number(const char *path)
{
    for (unsigned i = 0; path && i < files_count; i++)
        if (!strcmp(files[i], path)) return i;
    if (!path || files_count == FILES) return FILES;
    files[files_count] = path;
    return files_count++;
}

// Keeps a unit, and numbers its files by their first rows. False: no memory.
static bool add_unit(Module *m, Unit unit)
{
    Unit *units = grown(m->unit, &m->room, m->units, sizeof unit);
    if (!units) return false;
    m->unit = units;
    m->unit[m->units++] = unit;
    const char *last = NULL;
    for (size_t i = 0; i < unit.rows; i++) {
        const char *path = dwarf_linesrc(dwarf_onesrcline(unit.row, i), NULL, NULL);
        if (path != last) file_number(last = path);
    }
    return true;
}

// Reads all tables, which stay in memory. What can't be read has no rows, so its lines aren't known, which is told.
static void read_module(Module *m)
{
    int file = open(m->path[0] ? m->path : "/proc/self/exe", O_RDONLY | O_CLOEXEC);
    Dwarf *dwarf = file < 0 ? NULL : dwarf_begin(file, DWARF_C_READ);
    Dwarf_Off at = 0;
    Dwarf_CU *within = NULL;
    Unit unit;
    while (dwarf && !dwarf_next_lines(dwarf, at, &at, &within, NULL, NULL, &unit.row, &unit.rows) && add_unit(m, unit)) {}
    if (file >= 0) close(file);
}

// ---- Places ----

// The row that an address has in this unit: the last one up to it that has a line. NULL: the unit hasn't its code, or no line for it.
static Dwarf_Line *row_of(Unit unit, Dwarf_Addr address)
{
    size_t low = 0, high = unit.rows;
    while (low < high) {
        size_t middle = (low + high) / 2;
        Dwarf_Addr at;
        if (!dwarf_lineaddr(dwarf_onesrcline(unit.row, middle), &at) && at <= address) low = middle + 1;
        else high = middle;
    }
    while (low) {
        Dwarf_Line *row = dwarf_onesrcline(unit.row, --low);
        bool end;
        int line;
        if (dwarf_lineendsequence(row, &end) || end || dwarf_lineno(row, &line)) return NULL;
        if (line) return row;
    }
    return NULL;
}

static uint64_t ask_place(const Module *m, uint64_t address)
{
    Dwarf_Line *row = NULL;
    int line, column;
    for (size_t i = 0; i < m->units && !row; i++) row = row_of(m->unit[i], address - m->base);
    if (!row || dwarf_lineno(row, &line) || dwarf_linecol(row, &column) || line < 1 || line >= MILLION) return UNKNOWN;
    unsigned file = file_number(dwarf_linesrc(row, NULL, NULL));
    if (file == FILES) return UNKNOWN;
    file_used[file] = true;
    return (uint64_t)(column > 65535 ? 65535 : column) << 32 | (line + (uint64_t)MILLION * file);
}

// Looks for the program or library that has the code.
static int find_module(struct dl_phdr_info *info, size_t size, void *module)
{
    Module *m = module;
    for (int i = 0; i < info->dlpi_phnum; i++) {
        const ElfW(Phdr) *part = &info->dlpi_phdr[i];
        uint64_t low = info->dlpi_addr + part->p_vaddr + 1; // what the first byte calls returns behind it
        if (part->p_type != PT_LOAD || !(part->p_flags & PF_X) || m->low - low >= part->p_memsz) continue;
        m->base = info->dlpi_addr;
        m->low = low;
        m->length = part->p_memsz;
        m->path = info->dlpi_name;
        return 1;
    }
    return 0;
}

static Module *known_module(uint64_t address)
{
    Module *m = atomic_load_explicit(&modules, memory_order_acquire);
    while (m && address - m->low >= m->length) m = m->next;
    return m;
}

// With the gate held. NULL: there is no such code, or no memory.
static Module *new_module(uint64_t address)
{
    Module *m = calloc(1, sizeof *m);
    if (!m) return NULL;
    m->low = address;
    if (dl_iterate_phdr(find_module, m))
        m->places = mmap(NULL, m->length * 8, PROT_READ | PROT_WRITE, MAP_PRIVATE | MAP_ANONYMOUS | MAP_NORESERVE, -1, 0);
    if (!m->length || m->places == MAP_FAILED) {
        free(m);
        return NULL;
    }
    read_module(m);
    m->next = atomic_load(&modules);
    atomic_store(&modules, m);
    return m;
}

// Apart, since it is seldom needed.
static __attribute__((noinline)) uint64_t learn_place(uint64_t address)
{
    Task *keep = cur;
    int error = errno;
    cur = NULL;
    close_gate();
    Module *m = known_module(address);
    if (!m) m = new_module(address);
    uint64_t place = m ? ask_place(m, address - 1) : UNKNOWN;
    if (m) atomic_store_explicit(&m->places[address - m->low], place, memory_order_relaxed);
    open_gate();
    cur = keep;
    errno = error;
    return place;
}

uint64_t find_place(const void *return_address)
{
    uint64_t address = (uint64_t)return_address;
    const Module *m = known_module(address);
    uint64_t place = m ? atomic_load_explicit(&m->places[address - m->low], memory_order_relaxed) : 0;
    return place ? place : learn_place(address);
}

void lines_start(void)
{
    find_place((char *)lines_start + 1);
    Module *m = atomic_load(&modules);
    if (!m) return;
    text_low = m->low;
    text_length = m->length;
    places = m->places;
    atomic_store(&quick_length, text_length);
}

// Tells which lines are of which files, if there is more than the first.
void lines_tell(void)
{
    bool more = false;
    for (unsigned i = 1; i < files_count; i++) more |= file_used[i];
    for (unsigned i = 0; more && i < files_count; i++)
        if (file_used[i]) say("lines from %u are of %s", i * MILLION + 1, files[i]);
}
