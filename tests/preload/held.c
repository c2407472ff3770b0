// Counts the bytes that the program holds that is started with this library, and how often it asked for memory. When a
// read of standard input finds the end, it prints both on standard error. The bytes of a block are what the allocator
// reserves for it. The declarations of the C library stand here, because the kit has no headers.

typedef __SIZE_TYPE__ size_t;

void *__libc_malloc(size_t size);
void *__libc_realloc(void *block, size_t size);
void __libc_free(void *block);
size_t malloc_usable_size(void *block);
long __read(int file, void *bytes, size_t count);
int dprintf(int file, const char *form, ...);

// What the allocator keeps in front of each block, in bytes.
enum { HEAD = sizeof(size_t) };

static long held, asked;

static long size_of(void *block) { return block ? (long)malloc_usable_size(block) + HEAD : 0; }

void *malloc(size_t size) {
  asked++;
  void *block = __libc_malloc(size);
  held += size_of(block);
  return block;
}

void *realloc(void *block, size_t size) {
  asked++;
  long before = size_of(block);
  void *moved = __libc_realloc(block, size);
  if (moved)
    held += size_of(moved) - before;
  return moved;
}

void free(void *block) {
  held -= size_of(block);
  __libc_free(block);
}

long read(int file, void *bytes, size_t count) {
  long given = __read(file, bytes, count);
  if (file == 0 && given == 0)
    dprintf(2, "%ld bytes held, memory asked for %ld times\n", held, asked);
  return given;
}
