"""Copies of the command for the tests to run: installed, as a user has it, or in a clone that has nothing built."""
import os
import shutil
import subprocess

HERE = os.path.dirname(os.path.abspath(__file__))
ROOT = os.path.dirname(HERE)
ARCHIVE = os.path.join(ROOT, 'target', 'staticlib', 'libhub.a')


def write_program(path, script):
    os.makedirs(os.path.dirname(path), exist_ok=True)
    with open(path, 'w') as program:
        program.write(script)
    os.chmod(path, 0o755)


def installed(prefix):
    """Installs the command, and gives its path."""
    subprocess.run([os.path.join(ROOT, 'install'), prefix], check=True, stdout=subprocess.DEVNULL)
    return os.path.join(prefix, 'bin', 'amphorust')


def fresh_clone(folder, crates):
    """A clone with crates of these names, each standing on the one before, the last the library's; gives the path of
    its command."""
    shutil.copy(os.path.join(ROOT, 'amphorust'), folder)
    for name in ('tools', 'include'):
        shutil.copytree(os.path.join(ROOT, name), os.path.join(folder, name),
                        ignore=shutil.ignore_patterns('__pycache__'))
    with open(os.path.join(folder, 'crates.txt'), 'w') as lines:
        *below, top = ['%s: %s\n' % pair for pair in zip(crates, [''] + crates)]
        lines.write('# the crates\n' + ''.join(below) + top.replace(':', ' staticlib:'))
    for crate in crates:
        write_program(os.path.join(folder, 'crates', crate, 'src', 'lib.rt'), 'a source\n' * 100)
    return os.path.join(folder, 'amphorust')
