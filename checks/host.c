/* Tests of page/host.c and page/wide.c, linked with both by checks/module. Each answers 0, or the line at which it fails. */
typedef unsigned long u64;
typedef unsigned char u8;
typedef unsigned __int128 wide;
void *malloc(u64 many);
void free(void *place);
void *realloc(void *place, u64 many);
struct tried { u64 is_there; void *place; };
struct tried rattle_alloc(u64 many, u64 align);
struct tried rattle_realloc(void *place, u64 had, u64 many, u64 align);
void rattle_dealloc(void *place);
void set_limit(u64 bytes);
u64 taken_bytes(void);
int rattle_errno(void);
void rattle_set_errno(int number);
long read(int file, void *to, u64 many);
long write(int file, const void *from, u64 many);
long __write(int file, const void *from, u64 many);
int open(const char *path, int flags, ...);
int close(int file);
long lseek(int file, long by, int from);
long rattle_arg(u64 index, u8 *to, u64 room);
long rattle_env(const char *name, u8 *to, u64 room);
long rattle_env_at(u64 index, u8 *to, u64 room);
int __xpg_strerror_r(int number, u8 *to, u64 room);
void __x86_get_cpuid_feature_leaf(void);
_Noreturn void _exit(int status);
_Noreturn void abort(void);
long __sysv_signal(int signal, long handler);
long sysconf(int name);
int sched_getaffinity(int process, u64 many, u8 *mask);
int sched_yield(void);
int pthread_create(void *thread, void *how, void *run, void *given);
int pthread_join(u64 thread, void *result);
int pthread_detach(u64 thread);
u64 pthread_self(void);
int pthread_attr_init(void *how);
int pthread_attr_destroy(void *how);
int pthread_attr_setstacksize(void *how, u64 many);
int pthread_attr_setguardsize(void *how, u64 many);
wide __ashlti3(wide number, int by);
wide __lshrti3(wide number, int by);
wide __multi3(wide one, wide other);

#define TEST(name) __attribute__((export_name(#name))) int name(void)
#define IS(what) do { if (!(what)) return __LINE__; } while (0)
enum { HELD = 4096, TURNS = 1000000 };
static u8 *held[HELD];
static u64 sizes[HELD], seed;
static u64 chance(void) { seed ^= seed << 13; seed ^= seed >> 7; seed ^= seed << 17; return seed; }
/* A size by chance: as often small as large, up to 64 KiB, and now and then a megabyte. */
static u64 size_by_chance(void) { return chance() % 1000 == 0 ? 1 << 20 : 1 + chance() % (1UL << chance() % 17); }
static void fill(u64 at) { for (u64 i = 0; i < sizes[at]; i += 251) held[at][i] = (u8)(at + i); held[at][sizes[at] - 1] = (u8)at; }
static int is_filled(u64 at, u64 many) { for (u64 i = 0; i + 1 < many; i += 251) if (held[at][i] != (u8)(at + i)) return 0; return 1; }

/* A million allocations, changes of size and frees: no two blocks overlap, and memory stays within twice the largest use. */
TEST(test_memory) {
  u64 use = 0, most = 0;
  seed = 88172645463325252UL;
  for (u64 turn = 0; turn < TURNS; turn++) {
    u64 at = chance() % HELD;
    if (!held[at]) {
      sizes[at] = size_by_chance();
      IS(held[at] = malloc(sizes[at]));
      IS((u64)held[at] % 16 == 0);
      use += sizes[at];
      fill(at);
    } else if (chance() % 4 == 0) {
      u64 size = size_by_chance(), kept = size < sizes[at] ? size : sizes[at] - 1;
      IS(held[at] = realloc(held[at], size));
      IS(is_filled(at, kept));
      use += size - sizes[at];
      sizes[at] = size;
      fill(at);
    } else {
      IS(is_filled(at, sizes[at]) && held[at][sizes[at] - 1] == (u8)at);
      free(held[at]);
      held[at] = 0;
      use -= sizes[at];
    }
    most = use > most ? use : most;
  }
  IS(taken_bytes() <= 2 * most);
  for (u64 at = 0; at < HELD; at++) { free(held[at]); held[at] = 0; }
  /* all is one free block again */
  u64 before = taken_bytes();
  u8 *whole = malloc(before - 65536);
  IS(whole && taken_bytes() == before);
  free(whole);
  return 0;
}
/* Blocks of one size after another: what was freed is used again for the others. */
TEST(test_used_again) {
  for (u64 size = 16; size < 1 << 20; size *= 2) {
    u64 many = (1 << 22) / size < HELD ? (1 << 22) / size : HELD;
    for (u64 at = 0; at < many; at++) IS(held[at] = malloc(size));
    for (u64 at = 0; at < many; at += 2) { free(held[at]); held[at] = 0; }
    for (u64 at = 1; at < many; at += 2) { free(held[at]); held[at] = 0; }
  }
  IS(taken_bytes() < 10 << 20);
  free(0);
  u8 *place = realloc(0, 100);
  IS(place && realloc(place, 50) == place && realloc(place, 100) == place);
  free(place);
  return 0;
}
/* Beyond the limit an allocation is refused, and what is there stays. */
TEST(test_limit) {
  set_limit(8 << 20);
  u8 *small = malloc(1000);
  IS(small);
  small[0] = 7;
  IS(!malloc(9 << 20) && !malloc(~0UL) && !malloc(~0UL - 8) && !realloc(small, 9 << 20) && small[0] == 7);
  struct tried none = rattle_alloc(9 << 20, 1);
  IS(!none.is_there && !none.place);
  u64 many = 0;
  while (many < HELD && (held[many] = malloc(100000))) many++;
  IS(many > 40 && many < 90);
  free(held[0]);
  IS(held[0] = malloc(100000));
  set_limit(16 << 20);
  IS(held[many] = malloc(100000));
  return 0;
}
TEST(test_rattle_memory) {
  struct tried one = rattle_alloc(100, 8);
  IS(one.is_there && one.place);
  ((u8 *)one.place)[99] = 5;
  struct tried more = rattle_realloc(one.place, 100, 100000, 8);
  IS(more.is_there && ((u8 *)more.place)[99] == 5);
  rattle_dealloc(more.place);
  struct tried nothing = rattle_alloc(0, 8);
  IS(nothing.is_there);
  rattle_dealloc(nothing.place);
  return 0;
}
/* The script has a file "there" of the bytes "abc", a folder "folder", the standard input "in", and the words "wfcheck" and "word". */
TEST(test_files) {
  u8 room[8];
  rattle_set_errno(0);
  IS(rattle_errno() == 0);
  IS(open("nowhere", 0) == -1 && rattle_errno() == 2);
  int file = open("there", 0), folder = open("folder", 0);
  IS(file > 2 && folder > file);
  IS(read(folder, room, 8) == -1 && rattle_errno() == 21);
  IS(read(file, room, 2) == 2 && room[0] == 'a' && room[1] == 'b');
  IS(read(file, room, 8) == 1 && room[0] == 'c' && read(file, room, 8) == 0);
  IS(close(file) == 0 && close(file) == -1 && rattle_errno() == 9);
  IS(read(file, room, 8) == -1 && rattle_errno() == 9);
  IS(read(0, room, 8) == 2 && room[0] == 'i' && read(0, room, 8) == 0);
  IS(lseek(0, 0, 0) == -1 && rattle_errno() == 29);
  IS(write(1, "out", 3) == 3 && __write(2, "err", 3) == 3 && write(9, "x", 1) == -1 && rattle_errno() == 9);
  return 0;
}
TEST(test_words) {
  u8 room[8];
  IS(rattle_arg(0, room, 8) == 7 && room[0] == 'w' && rattle_arg(1, room, 8) == 4 && room[3] == 'd');
  IS(rattle_arg(2, room, 8) == -1 && rattle_arg(0, room, 3) == -2);
  IS(rattle_env("HOME", room, 8) == -1 && rattle_env_at(0, room, 8) == -1);
  room[0] = 'x';
  IS(__xpg_strerror_r(2, room, 0) == 0 && room[0] == 'x' && __xpg_strerror_r(2, room, 8) == 0 && room[0] == 0);
  return 0;
}
TEST(test_threads) {
  u8 mask[16], how[64];
  IS(pthread_attr_init(how) == 0 && pthread_attr_setstacksize(how, 1 << 20) == 0 && pthread_attr_setguardsize(how, 4096) == 0);
  IS(pthread_create(mask, how, 0, 0) == 11 && pthread_attr_destroy(how) == 0);
  IS(pthread_join(2, 0) == 22 && pthread_detach(2) == 22 && pthread_self() == 1 && sched_yield() == 0);
  IS(sched_getaffinity(0, 16, mask) == 0 && mask[0] == 1);
  for (int i = 1; i < 16; i++) IS(mask[i] == 0);
  IS(sysconf(30) == 65536 && sysconf(84) == 1 && __sysv_signal(13, 0) == 0);
  return 0;
}
TEST(test_wide) {
  wide one = 1, many = ((wide)0x0123456789abcdefUL << 64) | 0xfedcba9876543210UL;
  for (int by = 0; by < 128; by++) {
    wide bit = __ashlti3(one, by);
    IS((u64)bit == (by < 64 ? 1UL << by : 0) && (u64)__lshrti3(bit, 64) == (by < 64 ? 0 : 1UL << (by - 64)) && __lshrti3(bit, by) == one);
    /* by halves: a product with a power of two is a shift */
    IS(__multi3(many, bit) == __ashlti3(many, by) && __multi3(bit, many) == __ashlti3(many, by));
  }
  IS(__multi3(~(wide)0, ~(wide)0) == 1);
  wide square = __multi3(0xffffffffffffffffUL, 0xffffffffffffffffUL);
  IS((u64)square == 1 && (u64)__lshrti3(square, 64) == 0xfffffffffffffffeUL);
  return 0;
}
/* These end with the status 7, and with 134. */
TEST(test_cpuid) { __x86_get_cpuid_feature_leaf(); return 0; }
TEST(test_exit) { _exit(7); }
TEST(test_abort) { abort(); }
