"""Runs `jvmx asm` in front of a small library in C, for bench/output_files.py. The library, which the kit's clang builds,
chooses the random bytes of a fresh name, and lets a call of the system fail."""
import os
import subprocess
import sys
from pathlib import Path

ROOT = Path(__file__).resolve().parent.parent
sys.path.insert(0, str(ROOT))
from jvmx_build import quick  # noqa: E402

SOURCE = ROOT / "examples" / "G.j"
DONE, REFUSED = 0, 3
# Seconds that a command may take.
LIMIT = 60
GUESS, FAILING = "OUTPUT_GUESS", "OUTPUT_FAILING"
# The kit has no headers of C, so what is called is declared here. The numbers are those of Linux on x86-64.
LIBRARY = f"""
typedef unsigned long size_t;
long syscall(long, ...);
void *__libc_malloc(size_t);
char *getenv(const char *);
unsigned long strtoul(const char *, char **, int);
int strncmp(const char *, const char *, size_t);
size_t strlen(const char *);
int *__errno_location(void);
static int is_refused(const char *name, long *times) {{
  const char *failing = getenv("{FAILING}");
  size_t length = strlen(name);
  *times += 1;
  if (!failing || strncmp(failing, name, length) || failing[length] != ':') return 0;
  if (strtoul(failing + length + 1, 0, 10) != *times) return 0;
  *__errno_location() = 28;
  return 1;
}}
int open(const char *path, int flags, int mode) {{
  static long times;
  return is_refused("open", &times) ? -1 : syscall(2, path, flags, mode);
}}
long write(int file, const void *bytes, size_t count) {{
  static long times;
  return is_refused("write", &times) ? -1 : syscall(1, file, bytes, count);
}}
int statx(int folder, const char *path, int flags, unsigned mask, void *found) {{
  static long times;
  return is_refused("statx", &times) ? -1 : syscall(332, folder, path, flags, mask, found);
}}
int fchmod(int file, unsigned mode) {{
  static long times;
  return is_refused("fchmod", &times) ? -1 : syscall(91, file, mode);
}}
int rename(const char *from, const char *to) {{
  static long times;
  return is_refused("rename", &times) ? -1 : syscall(82, from, to);
}}
void *malloc(size_t size) {{
  static long times;
  return is_refused("malloc", &times) ? 0 : __libc_malloc(size);
}}
int getentropy(void *bytes, size_t count) {{
  static long times;
  const char *guess = getenv("{GUESS}");
  if (is_refused("getentropy", &times)) return -1;
  if (!guess) return syscall(318, bytes, count, 0) == (long)count ? 0 : -1;
  unsigned long number = strtoul(guess, 0, 10) + times - 1;
  for (size_t i = 0; i < count; i++) ((unsigned char *)bytes)[i] = number >> (8 * i);
  return 0;
}}
"""


class Commands:
    """Runs `asm` of one program."""

    def __init__(self, jvmx, library):
        self.jvmx, self.library = jvmx, library

    def run(self, out, source=SOURCE, variables=None, **options):
        """Runs a command to its end. `variables` are those of the library in C, which isn't loaded without any."""
        loaded = {"LD_PRELOAD": str(self.library), **variables} if variables else {}
        return subprocess.run(
            [self.jvmx, "asm", source, out], stderr=subprocess.PIPE, env={**os.environ, **loaded}, timeout=LIMIT, **options
        )

    def status(self, out, source=SOURCE, **options):
        """Returns the exit status."""
        return self.run(out, source, **options).returncode

    def refuses(self, out, **options):
        """Returns whether the output is refused with P02, in one line."""
        ran = self.run(out, **options)
        return ran.returncode == REFUSED and ran.stderr == os.fsencode(f"jvmx: {out}: P02 File\n")


def library_in(folder):
    """Builds the library in C in a folder, by the kit's clang."""
    kit = quick.kit_folder()
    if not kit:
        sys.exit("there is no rt on the PATH, whose kit has the compiler")
    clang = [kit / "toolchain/bin/clang", "--target=x86_64-unknown-linux-gnu", "-fuse-ld=lld", "-nostdlib", "-shared"]
    library = folder / "output.so"
    subprocess.run([*clang, "-fPIC", "-O1", "-x", "c", "-", "-o", library], input=LIBRARY, text=True, check=True)
    return library
