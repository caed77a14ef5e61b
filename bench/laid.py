"""Programs of benchmarks, which are no crates of the product: each is laid as a crate beside the crates of this
repository, proved and built by `rt run`, which takes minutes (and long without `rt all check` before), and taken
away again."""
import contextlib
import os
import shutil
import subprocess

HERE = os.path.dirname(os.path.abspath(__file__))
ROOT = os.path.dirname(HERE)
CRATES = os.path.join(ROOT, 'crates.txt')
# Not `.rt` and `.antt`: `rt ci` refuses files of these endings outside the crates.
ENDING = '.in'


@contextlib.contextmanager
def program(name, libraries, files):
    """The path of the proved program that these files of bench/ make: by the path of each in the crate, its own
    without its last ending."""
    crate = os.path.join(ROOT, 'crates', name)
    try:
        for path, own in files.items():
            to = os.path.join(crate, path)
            os.makedirs(os.path.dirname(to), exist_ok=True)
            shutil.copy(os.path.join(HERE, own + ENDING), to)
        with open(CRATES, 'a') as file:
            file.write('%s: %s\n' % (name, libraries))
        subprocess.run(['rt', 'run'], cwd=crate, check=True, stdout=subprocess.DEVNULL)
        yield os.path.join(crate, 'out', name)
    finally:
        shutil.rmtree(crate, ignore_errors=True)
        with open(CRATES) as file:
            lines = [line for line in file if not line.startswith(name + ':')]
        with open(CRATES, 'w') as file:
            file.writelines(lines)
