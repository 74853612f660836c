"""What the tests of the command share: files to run it on, its runs, and the counts."""
import json
import os
import subprocess
from pathlib import Path

import judges

EXAMPLES = Path(judges.ROOT) / 'examples'


class Runs:
    def __init__(self, folder):
        self.passed, self.failed, self.folder = 0, 0, Path(folder)
        self.files = self.folder / 'files'
        self.files.mkdir()
        self.command = judges.installed(str(self.folder / 'prefix'))

    def run(self, *arguments, command=None, stdin=b'', cwd=None, **environment):
        """(standard output, standard error, exit status) of the command."""
        ran = subprocess.run([command or self.command, *map(str, arguments)], input=stdin, capture_output=True,
                             cwd=cwd or self.files, env=dict(os.environ, **environment))
        return ran.stdout.decode(), ran.stderr.decode(), ran.returncode

    def write(self, name, value):
        """Writes a file: bytes and text as they are, anything else as JSON."""
        if not isinstance(value, (bytes, str)):
            value = json.dumps(value)
        path = self.files / name
        path.parent.mkdir(parents=True, exist_ok=True)
        path.write_bytes(value if isinstance(value, bytes) else value.encode())
        return name

    def equal(self, label, got, wanted):
        if got == wanted:
            self.passed += 1
        else:
            self.failed += 1
            print('%s:\n  is        %s\n  should be %s' % (str(label)[:200], str(got)[:900], str(wanted)[:900]))
