// Limits the yields of a thread that waits for its turn, for bench/turns --yields N, which starts part_lines with this
// library. Only the first N yields of a wait reach the system. After each other yield the thread looks at once whose
// turn it is, and with SPINS=M after M pauses of the processor. A new wait begins if the last yield is long ago, or the
// wait had 64 yields.

extern char *getenv(const char *name);
extern int atoi(const char *text);
extern long syscall(long number, ...);

// The number of sched_yield, the yields of a wait, and after how many ticks of the processor's clock a new wait begins.
enum { SCHED_YIELD = 24, ALL = 64, PAUSE = 3000 };

static int made = ALL, spins;
static __thread int asked;
static __thread unsigned long long last;

__attribute__((constructor)) static void begin(void) {
  const char *yields = getenv("YIELDS"), *pauses = getenv("SPINS");
  if (yields)
    made = atoi(yields);
  if (pauses)
    spins = atoi(pauses);
}

int sched_yield(void) {
  if (asked >= ALL || __builtin_ia32_rdtsc() - last > PAUSE)
    asked = 0;
  long status = 0;
  if (asked++ < made)
    status = syscall(SCHED_YIELD);
  else
    for (int i = 0; i < spins; i++)
      __builtin_ia32_pause();
  last = __builtin_ia32_rdtsc();
  return (int)status;
}
