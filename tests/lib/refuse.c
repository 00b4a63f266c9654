/*
 * Refuses one allocation of a program: the tests of refused memory have this compiled as a shared object, and
 * preloaded.
 *
 * REFUSED_ALLOCATION is the number of the allocation that is refused, from 1; the numbers count calls of malloc,
 * calloc, realloc, aligned_alloc and posix_memalign. When it is refused, one byte is written to the file descriptor
 * that PRELOADED_REPORT names. So where no byte comes, the program made fewer allocations.
 *
 * Counted are the calls that the program's own file makes, its runtime among them. What the dynamic loader and the C
 * library take for themselves is not counted, since it is no part of what the program does; they are told apart by
 * the address to which a call returns.
 *
 * It includes no headers, so that it compiles where only a compiler is installed. It is for x86-64 and glibc.
 */
typedef unsigned long size_t;

struct program_header { /* Elf64_Phdr of <elf.h> */
	unsigned int type;
	unsigned int flags;
	unsigned long offset;
	unsigned long address;
	unsigned long physical_address;
	unsigned long file_size;
	unsigned long memory_size;
	unsigned long alignment;
};

enum { PT_LOAD = 1, PT_PHDR = 6 };  /* <elf.h> */
enum { AT_PHDR = 3, AT_PHNUM = 5 }; /* <elf.h> */
enum { ENOMEM = 12 };               /* <errno.h> */

extern char *getenv(const char *name);
extern int *__errno_location(void);
extern long write(int file, const void *bytes, size_t size);
extern void abort(void);
extern unsigned long getauxval(unsigned long type);

/* The C library's own functions, under the names that no object takes the place of. */
extern void *__libc_malloc(size_t size);
extern void *__libc_calloc(size_t count, size_t size);
extern void *__libc_realloc(void *memory, size_t size);
extern void *__libc_memalign(size_t alignment, size_t size);

static unsigned long program_start, program_end;
static unsigned long refused, made;
static int report;

static unsigned long number_of(const char *name)
{
	const char *digit = getenv(name);
	unsigned long number = 0;

	if (!digit || !*digit)
		abort();
	for (; *digit; digit++)
		number = 10 * number + (unsigned long)(*digit - '0');
	return number;
}

/* Where the program's file lies in memory: from the lowest to the highest address of its segments. */
static void find_program(void)
{
	const struct program_header *headers = (const struct program_header *)getauxval(AT_PHDR);
	unsigned long count = getauxval(AT_PHNUM), base = 0, at;

	for (at = 0; at < count; at++)
		if (headers[at].type == PT_PHDR)
			base = (unsigned long)headers - headers[at].address;
	program_start = ~0ul;
	for (at = 0; at < count; at++) {
		unsigned long start = base + headers[at].address;
		unsigned long end = start + headers[at].memory_size;

		if (headers[at].type != PT_LOAD)
			continue;
		if (start < program_start)
			program_start = start;
		if (end > program_end)
			program_end = end;
	}
}

__attribute__((constructor)) static void begin(void)
{
	refused = number_of("REFUSED_ALLOCATION");
	report = (int)number_of("PRELOADED_REPORT");
	find_program();
}

/* Whether the allocation that returns to this address is refused. */
static int is_refused(void *caller)
{
	unsigned long address = (unsigned long)caller;

	if (address < program_start || address >= program_end || ++made != refused)
		return 0;
	if (write(report, "", 1) != 1)
		abort();
	*__errno_location() = ENOMEM;
	return 1;
}

void *malloc(size_t size)
{
	return is_refused(__builtin_return_address(0)) ? 0 : __libc_malloc(size);
}

void *calloc(size_t count, size_t size)
{
	return is_refused(__builtin_return_address(0)) ? 0 : __libc_calloc(count, size);
}

void *realloc(void *memory, size_t size)
{
	return is_refused(__builtin_return_address(0)) ? 0 : __libc_realloc(memory, size);
}

void *aligned_alloc(size_t alignment, size_t size)
{
	return is_refused(__builtin_return_address(0)) ? 0 : __libc_memalign(alignment, size);
}

int posix_memalign(void **memory, size_t alignment, size_t size)
{
	if (is_refused(__builtin_return_address(0)))
		return ENOMEM;
	*memory = __libc_memalign(alignment, size);
	return *memory ? 0 : ENOMEM;
}
