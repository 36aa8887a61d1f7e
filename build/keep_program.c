/* For unproved.sh: loaded before the C library, it gives each file `program` that is about to lose its name the one in KEPT_PROGRAM too, unless
   that is taken. It names no header, so that the toolchain's clang compiles it. */
int linkat(int, const char *, int, const char *, int);
long syscall(long, ...);
char *getenv(const char *);
int strcmp(const char *, const char *);

/* As Linux numbers them on x86-64, for which alone `rt try` builds programs. */
enum { CURRENT_FOLDER = -100, SYSTEM_UNLINKAT = 263 };

int unlinkat(int folder, const char *name, int flags) {
    if (strcmp(name, "program") == 0) linkat(folder, name, CURRENT_FOLDER, getenv("KEPT_PROGRAM"), 0);
    return (int)syscall(SYSTEM_UNLINKAT, folder, name, flags);
}
