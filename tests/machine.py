"""How a test builds and runs programs for x86-64, for which the kit compiles.

On x86-64 by the machine's own compiler and as they are. On another machine by Debian's cross compiler, and under
Debian's emulator, with the cross compiler's C library."""
import os
import shutil

EMULATED = os.uname().machine != 'x86_64'
C_LIBRARY = '/usr/x86_64-linux-gnu'


def kit():
    """The kit's folder, as rt finds it."""
    rt = os.path.realpath(shutil.which('rt') or 'rt')
    return os.environ.get('RATTLE_HOME') or os.path.dirname(os.path.dirname(rt))


def tool(name):
    """The name of a compiler, or of a tool that looks into what it built."""
    return 'x86_64-linux-gnu-' + name if EMULATED else name


def call(program, *arguments):
    """The words that run a program."""
    if not EMULATED:
        return [program, *arguments]
    return ['qemu-x86_64', '-L', C_LIBRARY, program, *arguments]
