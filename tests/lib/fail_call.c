/*
 * Has the reads and writes of a program move a few bytes at a time, and one of them fail: test_failed_calls.py has
 * this compiled as a shared object, and preloaded.
 *
 * READ_PIECE and WRITE_PIECE are the most bytes that a read, or a write to standard output, moves, and FIRST_READ those
 * that the first read moves. FAILED_READ and FAILED_WRITE are the number of the call that fails, from 1, or 0 for none;
 * FAILED_ERROR is its error, as in <errno.h>, and a write that fails with 0 takes nothing. When the call fails, `f` is
 * written to the file descriptor that PRELOADED_REPORT names. So where none comes, the program made fewer calls. Where
 * LOG_CALLS is 1 and not 0, each read writes `r` there, and each write to standard output `w`, as it begins.
 *
 * It includes no headers, so that it compiles where only a compiler is installed. It is for glibc.
 */
typedef unsigned long size_t;

enum { STDOUT = 1 };

extern char *getenv(const char *name);
extern int *__errno_location(void);
extern void abort(void);

/* The C library's own functions, under the names that no object takes the place of. */
extern long __read(int file, void *bytes, size_t size);
extern long __write(int file, const void *bytes, size_t size);

/* The calls of one kind: the most bytes that one moves, and the first one, how many there were, and which one fails. */
struct calls {
	size_t piece;
	size_t first;
	size_t made;
	size_t failed;
};

static struct calls reads, writes;
static int error, report, logs_calls;

static size_t number_of(const char *name)
{
	const char *digit = getenv(name);
	size_t number = 0;

	if (!digit || !*digit)
		abort();
	for (; *digit; digit++)
		number = 10 * number + (size_t)(*digit - '0');
	return number;
}

__attribute__((constructor)) static void begin(void)
{
	reads.piece = number_of("READ_PIECE");
	reads.first = number_of("FIRST_READ");
	reads.failed = number_of("FAILED_READ");
	writes.piece = number_of("WRITE_PIECE");
	writes.first = writes.piece;
	writes.failed = number_of("FAILED_WRITE");
	error = (int)number_of("FAILED_ERROR");
	report = (int)number_of("PRELOADED_REPORT");
	logs_calls = (int)number_of("LOG_CALLS");
}

static void put(const char *byte)
{
	if (__write(report, byte, 1) != 1)
		abort();
}

/* Whether the next call of this kind, which is logged by this byte, fails. */
static int fails(struct calls *calls, const char *byte)
{
	if (logs_calls)
		put(byte);
	if (++calls->made != calls->failed)
		return 0;
	put("f");
	*__errno_location() = error;
	return 1;
}

/* How many of so many bytes the call moves that was counted last. */
static size_t moved(const struct calls *calls, size_t size)
{
	size_t most = calls->made == 1 ? calls->first : calls->piece;

	return size < most ? size : most;
}

long read(int file, void *bytes, size_t size)
{
	if (fails(&reads, "r"))
		return -1;
	return __read(file, bytes, moved(&reads, size));
}

long write(int file, const void *bytes, size_t size)
{
	if (file != STDOUT)
		return __write(file, bytes, size);
	if (fails(&writes, "w"))
		return error ? -1 : 0;
	return __write(file, bytes, moved(&writes, size));
}
