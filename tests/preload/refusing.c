// Refuses one allocation of the program that is started with this library: of all calls of malloc and realloc the one
// whose number is in REFUSED_GROWTH, counted from 1. Then it prints a line on standard error. The declarations of the C
// library stand here, because the kit has no headers.

typedef __SIZE_TYPE__ size_t;

void *__libc_malloc(size_t size);
void *__libc_realloc(void *block, size_t size);
char *getenv(const char *name);
long atol(const char *text);
long write(int file, const void *bytes, size_t count);

// The number of the refused allocation, counted from the next one. It is 0 after this allocation, and if none is to be
// refused.
static long number;

__attribute__((constructor)) static void read_number(void) {
  const char *text = getenv("REFUSED_GROWTH");
  number = text ? atol(text) : 0;
}

static int is_refused(void) {
  static const char line[] = "a growth was refused\n";
  if (number == 0)
    return 0;
  number -= 1;
  if (number > 0)
    return 0;
  (void)write(2, line, sizeof line - 1);
  return 1;
}

void *malloc(size_t size) { return is_refused() ? 0 : __libc_malloc(size); }

void *realloc(void *block, size_t size) { return is_refused() ? 0 : __libc_realloc(block, size); }
