// Makes one system call of the program fail that is started with this library. The environment chooses the call:
//
//   FAILED_CALL    the kind of the call, by a name of the list `names` below
//   FAILED_NUMBER  the number of the call among those of its kind in all threads, from 1; with 0, none fails
//   FAILED_WHY     the number of the error (without it 104, a connection that was reset)
//   SESSION        the connection whose reads and writes count, by its number among those accepted, from 1; with 0, all
//   PIECE          how many bytes a read or a write of a socket moves at most
//   DIVISOR        by what the time limit of each write of a socket is divided
//
// The failed call does nothing else, and prints a line on standard error. A read whose time is up does not count. The
// declarations of the C library stand here, because the kit has no headers.

typedef __SIZE_TYPE__ size_t;

char *getenv(const char *name);
long atol(const char *text);
long syscall(long number, ...);
int *__errno_location(void);
void *dlsym(void *library, const char *name);

// The calls of the system, by their numbers on x86-64.
enum { WRITE_FILE = 1, SEND_TO = 44, RECEIVE_FROM = 45, BIND = 49, LISTEN = 50, SET_OPTION = 54, ACCEPT = 288 };
enum { PEEK = 2, RESET = 104, SECOND = 1000000 };

enum kind { READ, WRITE, ACCEPTED, READ_TIME, WRITE_TIME, NO_DELAY, REUSE, BOUND, LISTENING, THREAD, OTHER };

static const char *const names[] = {"read",     "write", "accept", "read_time", "write_time",
                                    "no_delay", "reuse", "bind",   "listen",    "thread"};

// The options of sockets that are kinds of their own, each by its level and its number.
static const struct {
  int level, option;
  enum kind kind;
} options[] = {{1, 20, READ_TIME}, {1, 21, WRITE_TIME}, {6, 1, NO_DELAY}, {1, 2, REUSE}};

static enum kind chosen;
static long number, why, piece, divisor, count;
static long session, accepted;
static int file_of_session = -1;

static long number_of(const char *name, long other) {
  const char *text = getenv(name);
  return text ? atol(text) : other;
}

static int is_same(const char *one, const char *other) {
  while (*one && *one == *other)
    one++, other++;
  return *one == *other;
}

__attribute__((constructor)) static void read_choice(void) {
  const char *name = getenv("FAILED_CALL");
  chosen = READ;
  while (chosen < OTHER && !(name && is_same(name, names[chosen])))
    chosen++;
  number = number_of("FAILED_NUMBER", 0);
  why = number_of("FAILED_WHY", RESET);
  piece = number_of("PIECE", 1L << 30);
  divisor = number_of("DIVISOR", 1);
  session = number_of("SESSION", 0);
}

// Whether the next call of a kind is the one that fails.
static int is_failed(enum kind kind) {
  static const char line[] = "a call was failed\n";
  if (kind != chosen || __atomic_add_fetch(&count, 1, __ATOMIC_SEQ_CST) != number)
    return 0;
  (void)syscall(WRITE_FILE, 2L, line, sizeof line - 1);
  *__errno_location() = (int)why;
  return 1;
}

// The same of a read or a write.
static int is_failed_in(int file, enum kind kind) {
  return (session == 0 || file == file_of_session) && is_failed(kind);
}

static size_t at_a_time(size_t size) { return size < (size_t)piece ? size : (size_t)piece; }

// Waits until there is something to read, and then fails or takes it.
long recv(int file, void *bytes, size_t size, int flags) {
  char first;
  if (syscall(RECEIVE_FROM, (long)file, &first, 1L, (long)(flags | PEEK), 0L, 0L) < 0)
    return -1;
  return is_failed_in(file, READ) ? -1 : syscall(RECEIVE_FROM, (long)file, bytes, at_a_time(size), (long)flags, 0L, 0L);
}

long send(int file, const void *bytes, size_t size, int flags) {
  return is_failed_in(file, WRITE) ? -1 : syscall(SEND_TO, (long)file, bytes, at_a_time(size), (long)flags, 0L, 0L);
}

int accept4(int file, void *address, void *size, int flags) {
  if (is_failed(ACCEPTED))
    return -1;
  int taken = (int)syscall(ACCEPT, (long)file, address, size, (long)flags);
  if (taken >= 0 && ++accepted == session)
    file_of_session = taken;
  return taken;
}

// A time limit, as the kernel reads it.
struct limit {
  long seconds, microseconds;
};

static struct limit divided(const struct limit *limit) {
  long microseconds = (limit->seconds * SECOND + limit->microseconds) / divisor;
  return (struct limit){microseconds / SECOND, microseconds % SECOND};
}

int setsockopt(int file, int level, int option, const void *value, unsigned size) {
  enum kind kind = OTHER;
  for (size_t at = 0; at < sizeof options / sizeof *options; at++)
    if (options[at].level == level && options[at].option == option)
      kind = options[at].kind;
  if (kind != OTHER && is_failed(kind))
    return -1;
  struct limit limit;
  if (kind == WRITE_TIME) {
    limit = divided(value);
    value = &limit;
  }
  return (int)syscall(SET_OPTION, (long)file, (long)level, (long)option, value, (long)size);
}

int bind(int file, const void *address, unsigned size) {
  return is_failed(BOUND) ? -1 : (int)syscall(BIND, (long)file, address, (long)size);
}

int listen(int file, int backlog) {
  return is_failed(LISTENING) ? -1 : (int)syscall(LISTEN, (long)file, (long)backlog);
}

// Calls the C library's function, which is the next definition of this name.
int pthread_create(void *thread, const void *how, void *(*body)(void *), void *argument) {
  int (*next)(void *, const void *, void *(*)(void *), void *) = dlsym((void *)-1L, "pthread_create");
  return is_failed(THREAD) ? (int)why : next(thread, how, body, argument);
}
