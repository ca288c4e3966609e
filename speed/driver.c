/* Times the product's calls beside the peer's, or makes calls of one of them, to have their instructions counted.
     driver time ROUNDS [NAME]            a line for each measurement: name, set, ns a job of ours and of the peer, each the least of so many interleaved rounds
     driver check                         whether both sides give the same answers
     driver call NAME SET JOBS TIMES      NAME with a hyphen before it is the peer's
   The Rattle ABI: what is no scalar goes by pointer, a slice as a pointer and a length, an aggregate answer to a pointer that comes first. */
typedef unsigned char u8; typedef unsigned short u16; typedef unsigned u32; typedef unsigned long u64; typedef unsigned long usize;
struct timespec { long s, ns; };
int printf(const char *, ...); int strcmp(const char *, const char *); int memcmp(const void *, const void *, usize);
long atol(const char *); int clock_gettime(int, struct timespec *);

/* the product, by the names that the module has */
#define OURS(f) __asm__("speed::" f)
void run_value(void *unit, const void *file, usize) OURS("run_value");
u32 run_lent(void *unit, const void *file, usize) OURS("run_lent");
u32 start_lent(void *unit, const void *file, usize) OURS("start_lent");
void started_value(void *unit, const void *file, usize) OURS("started_value");
void cycles_value(void *unit, const void *file, usize) OURS("cycles_value");
u32 cycles_lent(void *unit, const void *file, usize) OURS("cycles_lent");
u32 rows_lent(void *unit, const void *file, usize, void *out, usize) OURS("rows_lent");
void registers(void *out, void *unit) OURS("registers");
void plain_all(void *rows, const void *words, usize, void *file, void *marks, usize) OURS("plain_all");
usize report_text(const void *file, usize, void *out, usize) OURS("report_text");
void read_file(void *job, const void *file, usize) OURS("read");
usize write_file(const void *words, usize, const void *registers, usize, void *out, usize) OURS("write");
/* the peer */
u32 peer_run(void *, const u8 *, usize), peer_start(void *, const u8 *, usize), peer_cycles(void *, const u8 *, usize), peer_plain(void *, const u32 *, usize, const void *, void *);
usize peer_report(const u8 *, usize, void *), peer_size(void), peer_write(const u32 *, usize, const u8 *, usize, void *, usize);
void peer_registers(const void *, void *);

#define JOBS 256
#define SIZE 776
#define SETS 7
static u8 jobs[SETS][JOBS][SIZE] __attribute__((aligned(16)));
static const char *sets[] = { "mixed", "multiply", "li", "short", "clamp", "same", "ones" };
static u64 seed = 88172645463325252ull;
static u32 any(u32 below) { seed ^= seed << 13; seed ^= seed >> 7; seed ^= seed << 17; return (u32)(seed >> 20) % below; }
static u32 pool[6];
static u32 reg(void) { return any(2) ? pool[any(6)] : any(32); }
static u32 li(void) { return any(8) << 21 | any(65536) << 5 | reg(); }
static u32 mul(void) { return 1u << 24 | any(8) << 20 | reg() << 15 | reg() << 10 | reg() << 5 | reg(); }
static u32 sh(u32 code) { return 3u << 23 | code << 15 | reg() << 10 | reg() << 5 | reg(); }
static u32 word(int set) {
  u32 k;
  switch (set) {
  case 1: return mul();
  case 2: return li();
  case 3: return sh(1 + any(15));
  case 4: return sh(any(2) ? 4 : 15);
  case 6: return sh(3);
  }
  k = any(20);
  return k < 5 ? li() : k < 11 ? mul() : k < 19 ? sh(1 + any(15)) : sh(0);
}
static void put4(u8 *b, u32 w) { b[0] = w; b[1] = w >> 8; b[2] = w >> 16; b[3] = w >> 24; }
static void make(int s, int count) {
  for (int j = 0; j < count; j++) {
    u8 *b = jobs[s][j];
    seed = 88172645463325252ull + (u64)(s == 5 ? 0 : s * JOBS + j) * 0x9E3779B97F4A7C15ull;
    for (int k = 0; k < 6; k++) pool[k] = any(32);
    put4(b, 64 | 32 << 16); put4(b + 4, 8 | (8 + 256) << 16);
    for (int k = 0; k < 64; k++) put4(b + 8 + 4 * k, word(s));
    seed += j; /* the set `same` is one program on other registers each time */
    for (int k = 0; k < 256; k++) { u32 h = any(3) ? any(65536) : any(2) ? 0x7fff : 0x8000; b[264 + 2 * k] = h; b[265 + 2 * k] = h >> 8; }
  }
}

static u8 ours_unit[4096] __attribute__((aligned(64))), peer_unit[4096] __attribute__((aligned(64)));
static u8 text[5233], text2[5233], marks[64], marks2[64], file_out[SIZE], file_out2[SIZE]; static u32 rows[32][4], rows2[32][4];
static volatile u64 sink;
static void o_run(u8 *job) { run_value(ours_unit, job, SIZE); }
static void o_runl(u8 *job) { sink += run_lent(ours_unit, job, SIZE); }
static void o_start(u8 *job) { started_value(ours_unit, job, SIZE); }
static void o_startl(u8 *job) { sink += start_lent(ours_unit, job, SIZE); }
static void o_cyc(u8 *job) { cycles_value(ours_unit, job, SIZE); }
static void o_cycl(u8 *job) { sink += cycles_lent(ours_unit, job, SIZE); }
static void o_rows(u8 *job) { sink += rows_lent(ours_unit, job, SIZE, text, sizeof text); }
static void o_plain(u8 *job) { plain_all(rows, job + 8, 64, job + 264, marks, sizeof marks); }
static void o_report(u8 *job) { sink += report_text(job, SIZE, text, sizeof text); }
static void o_read(u8 *job) { read_file(ours_unit, job, SIZE); }
static void o_write(u8 *job) { sink += write_file(job + 8, 64, job + 264, 512, file_out, SIZE); }
static void p_run(u8 *job) { sink += peer_run(peer_unit, job, SIZE); }
static void p_start(u8 *job) { sink += peer_start(peer_unit, job, SIZE); }
static void p_cyc(u8 *job) { sink += peer_cycles(peer_unit, job, SIZE); }
static void p_plain(u8 *job) { sink += peer_plain(rows2, (u32 *)(job + 8), 64, job + 264, marks2); }
static void p_report(u8 *job) { sink += peer_report(job, SIZE, text2); }
static void p_write(u8 *job) { sink += peer_write((u32 *)(job + 8), 64, job + 264, 512, file_out2, SIZE); }
typedef void (*Call)(u8 *);
static struct { const char *name; Call ours, peer; int sets; } all[] = {
  { "run", o_run, p_run, SETS }, { "run_lent", o_runl, p_run, 1 }, { "start", o_start, p_start, 1 }, { "start_lent", o_startl, p_start, 1 },
  { "cycles", o_cyc, p_cyc, 1 }, { "cycles_lent", o_cycl, p_cyc, 1 }, { "plain", o_plain, p_plain, SETS },
  { "report", o_report, p_report, 1 }, { "rows_lent", o_rows, p_report, 1 }, { "read", o_read, p_start, 1 }, { "write", o_write, p_write, 1 },
};
#define COUNT (int)(sizeof all / sizeof *all)
static double now(void) { struct timespec t; clock_gettime(1, &t); return t.s * 1e9 + t.ns; }
static double once(Call c, int set) { double t = now(); for (int j = 0; j < JOBS; j++) c(jobs[set][j]); return (now() - t) / JOBS; }

static int check(void) {
  int bad = 0;
  for (int s = 0; s < SETS; s++) for (int j = 0; j < JOBS; j++) {
    u8 *job = jobs[s][j]; u32 want[32][4], got[32][4];
    p_run(job); peer_registers(peer_unit, want);
    o_run(job); registers(got, ours_unit); bad += memcmp(got, want, 512) != 0;
    o_runl(job); registers(got, ours_unit); bad += memcmp(got, want, 512) != 0;
    o_cyc(job); registers(got, ours_unit); bad += memcmp(got, want, 512) != 0;
    o_cycl(job); registers(got, ours_unit); bad += memcmp(got, want, 512) != 0;
    o_plain(job); bad += memcmp(rows, want, 512) != 0; p_plain(job); bad += memcmp(rows2, want, 512) != 0; bad += memcmp(marks, marks2, sizeof marks) != 0;
    o_report(job); p_report(job); bad += memcmp(text, text2, sizeof text) != 0;
    text[1] = 0; o_rows(job); bad += memcmp(text, text2, 5025) != 0;
    o_write(job); p_write(job); bad += memcmp(file_out, job, SIZE) != 0; bad += memcmp(file_out2, job, SIZE) != 0;
  }
  printf("%d disagreements\n", bad);
  return bad != 0;
}

int main(int argc, char **argv) {
  if (argc > 5 && !strcmp(argv[1], "call")) {
    int peer = argv[2][0] == '-', set = 0, count = atol(argv[4]), times = atol(argv[5]);
    for (int s = 0; s < SETS; s++) if (!strcmp(argv[3], sets[s])) set = s;
    make(set, count);
    for (int m = 0; m < COUNT; m++) if (!strcmp(argv[2] + peer, all[m].name))
      for (int t = 0; t < times; t++) for (int k = 0; k < count; k++) (peer ? all[m].peer : all[m].ours)(jobs[set][k]);
    return 0;
  }
  for (int s = 0; s < SETS; s++) make(s, JOBS);
  if (argc > 1 && !strcmp(argv[1], "check")) return check();
  int rounds = argc > 2 ? atol(argv[2]) : 60;
  const char *only = argc > 3 ? argv[3] : 0;
  for (int m = 0; m < COUNT; m++) for (int s = 0; s < all[m].sets; s++) {
    if (only && strcmp(only, all[m].name)) continue;
    double a = 1e18, b = 1e18;
    for (int r = 0; r < rounds; r++) { double x = once(all[m].ours, s), y = once(all[m].peer, s); if (x < a) a = x; if (y < b) b = y; }
    printf("%-12s %-9s %8.1f %8.1f %6.2f\n", all[m].name, sets[s], a, b, a / b);
  }
  return 0;
}
