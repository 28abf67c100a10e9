/* What the program takes from a C library, for a WebAssembly module of 64-bit addresses: memory, files, arguments and `errno`. Files and
   arguments come from the script that runs the module (page/instance.js). No thread can be started; by the program's contracts the thread
   that asks for one then does its work. Compiled by packaging/wasm. */
typedef unsigned long u64; typedef unsigned char u8;
#define HOST(name) __attribute__((import_module("host"), import_name(#name)))
HOST(read) long host_read(int file, void *to, u64 many);
HOST(write) long host_write(int file, const void *from, u64 many);
HOST(open) int host_open(const char *path);
HOST(close) int host_close(int file);
HOST(arg) long host_arg(u64 index, void *to, u64 room);
HOST(exit) _Noreturn void host_exit(int status);

/* Memory. Blocks stand one behind the other. Each has a head: its size with its head, the lowest bit of which is set while the block is
   used, and the size of the block before it. A free block is in the list of its class, and is joined with free neighbours, so no two of
   them stand side by side. Class 4 b + q has the sizes from (4 + q) 2^(b-2) on, up to the next class. A used block of size 0 is the end. */
enum { HEAD = 16, LEAST = 32, PAGE = 65536, CLASSES = 192, USED = 1 };
typedef struct block { u64 size, before; struct block *next, *previous; } block;
static block *lists[CLASSES], *last;
static u64 filled[3], most = 1UL << 31, taken;
static u64 size_of(const block *it) { return it->size & ~(u64)USED; } static block *behind(block *it) { return (block *)((u8 *)it + size_of(it)); }
static int class_of(u64 size) { int b = 63 - __builtin_clzl(size); return 4 * b + (int)(size >> (b - 2) & 3); }

static void leave_list(block *it) {
  int class = class_of(it->size);
  if (it->previous) it->previous->next = it->next; else lists[class] = it->next;
  if (it->next) it->next->previous = it->previous;
  if (!lists[class]) filled[class / 64] &= ~(1UL << class % 64);
}
static void join_list(block *it) {
  int class = class_of(it->size);
  it->previous = 0;
  it->next = lists[class];
  if (it->next) it->next->previous = it;
  lists[class] = it;
  filled[class / 64] |= 1UL << class % 64;
}
/* Gives a block to the lists, joined with the free blocks beside it. */
static void release(block *it) {
  block *after = behind(it), *front = (block *)((u8 *)it - it->before);
  if (!(after->size & USED)) { leave_list(after); it->size += after->size; }
  if (it->before && !(front->size & USED)) { leave_list(front); front->size += it->size; it = front; }
  behind(it)->before = it->size;
  join_list(it);
}
/* Keeps the first `size` bytes of a block that is in no list, marks them used, and releases the rest if it can be a block. */
static void keep(block *it, u64 size) {
  u64 rest = it->size - size;
  it->size |= USED;
  if (rest < LEAST) return;
  it->size = size | USED;
  block *more = behind(it);
  more->size = rest;
  more->before = size;
  release(more);
}
/* Takes so many bytes more from the browser, and releases them. Whether that worked. */
static int grow(u64 size) {
  u64 wanted = size + 2 * HEAD + PAGE, step = taken / 8 < 16 * PAGE ? 16 * PAGE : taken / 8, room = most > taken ? most - taken : 0;
  if (wanted > room) return 0;
  u64 bytes = (wanted > step || step > room ? wanted : step) & ~(u64)(PAGE - 1);
  u64 pages = __builtin_wasm_memory_grow(0, bytes / PAGE);
  if (pages == (u64)-1) return 0;
  taken += bytes;
  /* blocks begin with the first page that is added; the rest of the module's own last page stays unused */
  if (!last) { last = (block *)(pages * PAGE); last->before = 0; bytes -= HEAD; }
  block *it = last;
  it->size = bytes;
  last = behind(it);
  last->size = USED;
  last->before = bytes;
  release(it);
  return 1;
}
/* A free block of at least so many bytes: among the first of its own class, or any of a larger class. */
static block *find(u64 size) {
  int class = class_of(size), tries = 16;
  for (block *it = lists[class]; it && tries--; it = it->next) if (it->size >= size) return it;
  for (class++; class < CLASSES; class = (class / 64 + 1) * 64) {
    u64 more = filled[class / 64] >> class % 64;
    if (more) return lists[class + __builtin_ctzl(more)];
  }
  return 0;
}
static u64 rounded(u64 many) { u64 size = (many + HEAD + 15) & ~15UL; return size < LEAST ? LEAST : size; }
void *malloc(u64 many) {
  u64 size = rounded(many);
  block *it = many > most ? 0 : find(size);
  if (!it && (many > most || !grow(size) || !(it = find(size)))) return 0;
  leave_list(it);
  keep(it, size);
  return (u8 *)it + HEAD;
}
void free(void *place) {
  if (!place) return;
  block *it = (block *)((u8 *)place - HEAD);
  it->size -= USED;
  release(it);
}
/* A block that becomes smaller or has enough free room behind it stays where it is. */
void *realloc(void *place, u64 many) {
  if (!place) return malloc(many);
  if (many > most) return 0;
  block *it = (block *)((u8 *)place - HEAD), *after = behind(it);
  u64 size = rounded(many), have = size_of(it);
  if (size > have && !(after->size & USED) && have + after->size >= size) {
    leave_list(after);
    have += after->size;
    behind(after)->before = have;
  }
  if (size <= have) { it->size = have; keep(it, size); return place; }
  void *to = malloc(many);
  if (to) { __builtin_memcpy(to, place, have - HEAD); free(place); }
  return to;
}
struct tried { u64 is_there; void *place; };
static struct tried tried(void *place) { struct tried found = {place != 0, place}; return found; }
struct tried rattle_alloc(u64 many, u64 align) { return tried(malloc(many ? many : align)); }
struct tried rattle_realloc(void *place, u64 had, u64 many, u64 align) { return tried(realloc(place, many ? many : align)); }
void rattle_dealloc(void *place) { free(place); }
/* Allocations beyond so many bytes in all are refused. Exported: the page sets it, and tests do. */
void set_limit(u64 bytes) { most = bytes; }
u64 taken_bytes(void) { return taken; }

/* Files, arguments and `errno`: a negative answer of the script is the number of an error. */
enum { EAGAIN = 11, EINVAL = 22, ESPIPE = 29, ABORTED = 134 };
static int error;
int rattle_errno(void) { return error; } void rattle_set_errno(int number) { error = number; }
static long or_error(long found) { if (found < 0) error = (int)-found; return found < 0 ? -1 : found; }
long read(int file, void *to, u64 many) { return or_error(host_read(file, to, many)); }
long write(int file, const void *from, u64 many) { return or_error(host_write(file, from, many)); }
long __write(int file, const void *from, u64 many) { return write(file, from, many); }
int open(const char *path, int flags, ...) { return (int)or_error(host_open(path)); }
int close(int file) { return (int)or_error(host_close(file)); }
long lseek(int file, long by, int from) { return or_error(-ESPIPE); }
long rattle_arg(u64 index, u8 *to, u64 room) { return host_arg(index, to, room); }
long rattle_env(const char *name, u8 *to, u64 room) { return -1; } long rattle_env_at(u64 index, u8 *to, u64 room) { return -1; }
int __xpg_strerror_r(int number, u8 *to, u64 room) { if (room) *to = 0; return 0; }
void _exit(int status) { host_exit(status); } void abort(void) { host_exit(ABORTED); }
long __sysv_signal(int signal, long handler) { return 0; }
/* What the other processor can do is asked by code that this one never runs. */
void __x86_get_cpuid_feature_leaf(void) { abort(); }

/* One processor, and no thread but the one that runs. */
long sysconf(int name) { return name == 30 ? PAGE : 1; }
int sched_getaffinity(int process, u64 many, u8 *mask) { for (u64 i = 0; i < many; i++) mask[i] = i == 0; return 0; }
int sched_yield(void) { return 0; } int pthread_create(void *thread, void *how, void *run, void *given) { return EAGAIN; }
int pthread_join(u64 thread, void *result) { return EINVAL; } int pthread_detach(u64 thread) { return EINVAL; }
u64 pthread_self(void) { return 1; }
int pthread_attr_init(void *how) { return 0; } int pthread_attr_destroy(void *how) { return 0; }
int pthread_attr_setstacksize(void *how, u64 many) { return 0; } int pthread_attr_setguardsize(void *how, u64 many) { return 0; }
