"""The proved library, built where it is not there or older than a source: `libamphorust.so`, and for a machine that
cannot load it, as it is for x86-64, a worker that an emulator runs.

In a clone both stand in target/lib, and `rt`, the kit's command, proves and builds; installed they stand in lib/ of the
prefix, and nothing is built. The archive is kept in target/staticlib: of what stands in a crate's out/, `rt ci` clears
all but what later checks begin with.
"""
import fcntl
import os
import re
import select
import shutil
import subprocess
import time

from tools.fault import CannotJudge

ROOT = os.path.dirname(os.path.dirname(os.path.abspath(__file__)))
IS_CLONE = os.path.exists(os.path.join(ROOT, 'crates.txt'))
PREFIX = os.path.dirname(os.path.dirname(ROOT))         # of what is installed: it stands in share/amphorust
FOLDER = os.path.join(ROOT, 'target', 'lib') if IS_CLONE else os.path.join(PREFIX, 'lib')
LIBRARY = os.path.join(FOLDER, 'libamphorust.so')
WORKER = os.path.join(FOLDER, 'amphorust-worker')
ARCHIVE = os.path.join(ROOT, 'target', 'staticlib', 'libhub.a')
MACHINE = os.uname().machine
LOADS = MACHINE == 'x86_64'             # whether this machine can load the library
CRATE = 'hub'
MADE = os.path.join(ROOT, 'crates', CRATE, 'out', 'libhub.a')
DONE = re.compile(r'== (\w+)\s*')
CHECKED = re.compile(r'crate (\w+): modules loaded=\d+ checked=(\d+)\s*')
A_CHECK = 3 << 30                       # the memory that is kept free for each check

# All that the header asks of a compiler's own headers, which the kit's compiler does not have.
HEADERS = {'stddef.h': 'typedef __SIZE_TYPE__ size_t;\n',
           'stdint.h': 'typedef __UINT8_TYPE__ uint8_t;\ntypedef __UINT32_TYPE__ uint32_t;\n'
                       'typedef __UINT64_TYPE__ uint64_t;\n'}


def named(path):
    """A path as it is told: by its place in the clone, if it is in one."""
    return os.path.relpath(path, ROOT) if IS_CLONE else path


def linked():
    """What is linked from the archive."""
    return [LIBRARY] + [WORKER] * (not LOADS)


def make_ready(say, at_once=None):
    """Sees that the library is there and as new as its sources. say is told what goes on, a line each; at_once, if it
    is given, shows a line that the next one replaces."""
    if is_ready():
        return
    if not IS_CLONE:
        raise CannotJudge('not there: install it again, by ./install PREFIX in a clone', file=LIBRARY)
    rt = shutil.which('rt')
    if rt is None:
        raise CannotJudge('%s, and rt, which proves and builds it, is not there: put the bin folder of the Rattle kit '
                          'on the PATH' % ('older than a source' if os.path.exists(LIBRARY) else 'not built yet'),
                          file=named(LIBRARY))
    try:
        os.makedirs(FOLDER, exist_ok=True)
        with open(os.path.join(FOLDER, '.lock'), 'w') as lock:
            fcntl.flock(lock, fcntl.LOCK_EX)        # two builds at once would write the same files
            if not is_ready():
                build(rt, say, at_once or say)
    except OSError as fault:
        raise CannotJudge('not built: %s: %s' % (fault.filename, fault.strerror.lower()), file=named(LIBRARY))


def is_ready():
    if not all(map(os.path.exists, linked())):
        return False
    return not IS_CLONE or is_proved() and min(map(os.path.getmtime, linked())) >= newest(linked_from())


def is_proved():
    """Whether the archive is there, and as new as the crates."""
    return os.path.exists(ARCHIVE) and os.path.getmtime(ARCHIVE) >= newest(sources())


def newest(paths):
    """When one of these was last changed."""
    return max(map(os.path.getmtime, filter(os.path.exists, paths)))


def linked_from():
    return [ARCHIVE] + [os.path.join(ROOT, name) for name in ('include/amphorust.h', 'tools/worker.c')]


def sources(names=None):
    """The files that are proved of the library's crates, and their folders, which change when a file goes."""
    paths = [os.path.join(ROOT, 'crates.txt')]
    for crate in crates() if names is None else names:
        for part in ('src', 'specs', 'proofs'):
            for folder, _, files in os.walk(os.path.join(ROOT, 'crates', crate, part)):
                paths += [folder] + [os.path.join(folder, file) for file in files]
    return paths


def crates():
    """The library's crates, its own last, each with those that it stands on before it."""
    needs = {}
    with open(os.path.join(ROOT, 'crates.txt'), encoding='utf-8') as lines:
        for line in lines:
            kind, _, rest = line.partition('#')[0].partition(':')
            needs[kind.partition(' ')[0].strip()] = rest.split()
    found = []

    def visit(name):
        if name not in needs or name in found:
            return
        for below in needs[name]:
            visit(below)
        found.append(name)

    visit(CRATE)
    return found


def build(rt, say, at_once):
    start, kit = time.monotonic(), kit_of(rt)
    if not kit:
        raise CannotJudge('is there, and the tools of its kit for this machine, %s, are not: set RATTLE_HOME to the '
                          "kit's folder" % MACHINE, file=rt)
    if not is_proved():
        say('proves and builds the judge first, once, by %s: %d crates, some minutes' % (rt, len(crates())))
        prove(rt, at_once)
        date([ARCHIVE], sources())
        say('built in %d s' % (time.monotonic() - start))
    link(kit)
    date(linked(), linked_from())


def date(made, made_from):
    """Dates what was made now, or as late as what it was made from: that may be from another clock."""
    now = max(time.time(), newest(made_from))
    for path in made:
        os.utime(path, (now, now))


def prove(rt, at_once):
    """Has all crates proved, as many at a time as there are processors and memory for, and then the library built over
    that. `rt lib` proves itself what is not proved yet, and has the last word: a crate that the library does not stand
    on may fail."""
    progress = Progress(crates())
    run(rt, ['all', 'check', '--jobs', str(at_a_time())], ROOT, progress, at_once)
    status, printed = run(rt, ['lib'], os.path.join(ROOT, 'crates', CRATE), progress, at_once)
    if status != 0:
        raise CannotJudge('not built: rt lib ended with %d: %s' % (status, ' / '.join(printed)), file=named(LIBRARY))
    if not os.path.exists(MADE):
        raise CannotJudge('not built: rt lib wrote no %s' % named(MADE), file=named(LIBRARY))
    os.makedirs(os.path.dirname(ARCHIVE), exist_ok=True)
    shutil.copyfile(MADE, ARCHIVE + '.new')
    os.replace(ARCHIVE + '.new', ARCHIVE)


def at_a_time():
    """How many crates are proved at a time."""
    with open('/proc/meminfo') as lines:
        free = 1024 * int(re.search(r'^MemAvailable: *(\d+) kB', lines.read(), re.M)[1])
    return max(1, min(len(os.sched_getaffinity(0)), free // A_CHECK))


def run(rt, words, folder, progress, at_once):
    """Runs the prover; gives its exit status, and of what it printed the end."""
    printed = []
    try:
        running = subprocess.Popen([rt, *words], cwd=folder, stdin=subprocess.DEVNULL, stdout=subprocess.PIPE,
                                   stderr=subprocess.STDOUT)
    except OSError as fault:
        raise CannotJudge('does not run: %s' % fault.strerror.lower(), file=rt)
    for line in lines_in(running.stdout):
        if line is not None:
            printed = (printed + [line])[-3:]
            progress.takes(line)
        elif progress.at != progress.told:
            progress.told = progress.at
            at_once(progress.words())
    return running.wait(), printed


def lines_in(pipe):
    """The lines of a process as they come, and None after each second without one."""
    rest = b''
    while True:
        if not select.select([pipe], [], [], 1)[0]:
            yield None
            continue
        data = os.read(pipe.fileno(), 1 << 16)
        if not data:
            return
        *lines, rest = (rest + data).split(b'\n')
        yield from (line.decode('utf-8', 'replace') for line in lines)


class Progress:
    """How far the prover is, by the size of the crates: what is left takes as long for its size as what is done."""

    def __init__(self, names):
        self.sizes = {name: sum(map(os.path.getsize, sources([name]))) for name in names}
        self.left, self.size_proved, self.start = set(names), 0, time.monotonic()
        self.last = self.start          # when the last crate was done
        self.told = 0

    @property
    def at(self):
        """The number of the crate that is under way, and of the last one where all are done."""
        return min(len(self.sizes) - len(self.left) + 1, len(self.sizes))

    def takes(self, line):
        """Takes in a line: that a crate is done, or what was checked of it, nothing if it was proved before, and then it
        tells nothing of the time."""
        found, checked = DONE.fullmatch(line), CHECKED.fullmatch(line)
        if found and found[1] in self.left:
            self.left.remove(found[1])
            if not self.size_proved:
                self.start = self.last
            self.last = time.monotonic()
        elif checked and checked[1] in self.sizes and int(checked[2]):
            self.size_proved += self.sizes[checked[1]]

    def words(self):
        left = sum(self.sizes[name] for name in self.left)
        spent = time.monotonic() - self.start
        about = ', about %s left' % duration(spent * left / self.size_proved) if self.size_proved else ''
        return 'crate %d of %d%s' % (self.at, len(self.sizes), about)


def duration(seconds):
    if seconds < 90:
        return '%d seconds' % max(10 * round(seconds / 10), 10)
    return '%d minutes' % round(seconds / 60)


def kit_of(rt):
    """The kit's folder, as rt finds it; None if it has no tools for this machine."""
    kit = os.environ.get('RATTLE_HOME') or os.path.dirname(os.path.dirname(os.path.realpath(rt)))
    return kit if os.path.exists(toolchain(kit, 'bin', 'ld.lld')) else None


def toolchain(kit, *path):
    return os.path.join(kit, 'toolchain', *path)


def link(kit):
    """The shared library and the worker, by the kit's own linker and compiler, so that no other need be there."""
    lib = lambda name: toolchain(kit, 'lib', name)
    linker = toolchain(kit, 'bin', 'ld.lld')
    made(LIBRARY, linker, '-shared', '-soname', 'libamphorust.so', '--whole-archive', ARCHIVE, '--no-whole-archive',
         lib('libc.so.6'))
    if LOADS:
        return
    headers = os.path.join(FOLDER, 'include')
    os.makedirs(headers, exist_ok=True)
    for name, text in HEADERS.items():
        with open(os.path.join(headers, name), 'w') as header:
            header.write(text)
    made(WORKER + '.o', toolchain(kit, 'bin', 'clang'), '--target=x86_64-linux-gnu', '-std=c99', '-O2', '-fPIE',
         '-nostdinc', '-isystem', headers, '-I', os.path.join(ROOT, 'include'), '-c', os.path.join(ROOT, 'tools', 'worker.c'))
    made(WORKER, linker, '-pie', '--dynamic-linker', '/lib64/ld-linux-x86-64.so.2', lib('Scrt1.o'), lib('crti.o'),
         lib('crtbeginS.o'), WORKER + '.o', ARCHIVE, lib('libc.so.6'), lib('libc_nonshared.a'), lib('crtendS.o'),
         lib('crtn.o'))


def made(path, *words):
    """Runs a compiler or linker; what it makes is there as a whole or not at all."""
    try:
        ran = subprocess.run(words + ('-o', path + '.new'), capture_output=True, text=True, errors='replace')
    except OSError as fault:
        raise CannotJudge('does not run: %s' % fault.strerror.lower(), file=words[0])
    if ran.returncode != 0:
        raise CannotJudge('not built: %s' % (ran.stderr.strip() or 'ended with %d' % ran.returncode), file=named(path))
    os.replace(path + '.new', path)


def worker_call():
    """The words that run the worker: by the machine's emulator and the kit's C library."""
    rt, emulator = shutil.which('rt'), shutil.which('qemu-x86_64')
    kit = kit_of(rt) if rt or os.environ.get('RATTLE_HOME') else None
    if kit is None:
        raise CannotJudge('is for x86-64, and this machine is %s: rt, whose C library it runs with, is not there: put '
                          'the bin folder of the Rattle kit on the PATH' % MACHINE, file=named(WORKER))
    if emulator is None:
        raise CannotJudge('is for x86-64, and this machine is %s: the emulator qemu-x86_64 is not there' % MACHINE,
                          file=named(WORKER))
    libraries = toolchain(kit, 'lib')
    return [emulator, os.path.join(libraries, 'ld-linux-x86-64.so.2'), '--library-path', libraries, WORKER]
