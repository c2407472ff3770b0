// Makes the standard streams of the program halt that is started with this library: reads of standard input and writes
// of standard output are interrupted, move few bytes or none, or fail. The environment has the numbers, each as READ_
// or WRITE_ and
//
//   PIECE          how many bytes a call moves at most
//   INTERRUPTIONS  how many calls in a row are interrupted before each other call
//   NOTHING_AT     which of the other calls moves no byte, counted from 0
//   FAILS_AFTER    after how many bytes each call fails
//
// A read after one that moved nothing, and a call after one that failed, print a line on standard error. The
// declarations of the C library stand here, because the kit has no headers.

typedef __SIZE_TYPE__ size_t;

char *getenv(const char *name);
long atol(const char *text);
long syscall(long number, ...);
int *__errno_location(void);

enum { READ = 0, WRITE = 1, INTERRUPTED = 4, INPUT_OUTPUT = 5 };

struct habit {
  long piece, interruptions, nothing_at, fails_after;
  long interrupted, answered, passed, has_ended, has_failed;
};

static struct habit habits[2];

static long number_of(const char *name, long other) {
  const char *text = getenv(name);
  return text ? atol(text) : other;
}

__attribute__((constructor)) static void read_habits(void) {
  static const char *const names[2][4] = {
      {"READ_PIECE", "READ_INTERRUPTIONS", "READ_NOTHING_AT", "READ_FAILS_AFTER"},
      {"WRITE_PIECE", "WRITE_INTERRUPTIONS", "WRITE_NOTHING_AT", "WRITE_FAILS_AFTER"},
  };
  for (int call = READ; call <= WRITE; call++) {
    habits[call].piece = number_of(names[call][0], 1L << 30);
    habits[call].interruptions = number_of(names[call][1], 0);
    habits[call].nothing_at = number_of(names[call][2], -1);
    habits[call].fails_after = number_of(names[call][3], 1L << 40);
  }
}

static long failed(int why) {
  *__errno_location() = why;
  return -1;
}

// Answers a read or a write. Its number is that of the system call, and also that of the stream.
static long answer(int call, void *bytes, size_t count) {
  static const char late[] = "a read after the end\n", again[] = "a call after a failure\n";
  struct habit *habit = &habits[call];
  if (habit->has_ended)
    (void)syscall(WRITE, 2, late, sizeof late - 1);
  if (habit->has_failed)
    (void)syscall(WRITE, 2, again, sizeof again - 1);
  if (habit->interrupted < habit->interruptions) {
    habit->interrupted += 1;
    return failed(INTERRUPTED);
  }
  habit->interrupted = 0;
  long left = habit->fails_after - habit->passed;
  habit->has_failed = left <= 0 && count > 0;
  if (habit->has_failed)
    return failed(INPUT_OUTPUT);
  long most = habit->piece < left ? habit->piece : left;
  if (habit->answered == habit->nothing_at)
    most = 0;
  habit->answered += 1;
  long given = most > 0 ? syscall(call, call, bytes, count < (size_t)most ? count : (size_t)most) : 0;
  habit->passed += given > 0 ? given : 0;
  habit->has_ended = call == READ && given == 0 && count > 0;
  return given;
}

long read(int file, void *bytes, size_t count) {
  return file == 0 ? answer(READ, bytes, count) : syscall(READ, file, bytes, count);
}

long write(int file, const void *bytes, size_t count) {
  return file == 1 ? answer(WRITE, (void *)bytes, count) : syscall(WRITE, file, bytes, count);
}
