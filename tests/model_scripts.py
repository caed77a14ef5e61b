#!/usr/bin/env python3
"""model_scripts.py [FOLDER..]

Plays scripts through the model of gateway_model.py alone, and compares all that it prints, and the exit
status, with what they are to print: each NAME.script of these folders (tests/scripts) with NAME.expected and
NAME.status, and where no folder is named those of full_places.py and the lines of lines.table too. So what is
written by hand and what the model says are compared before the program can do it. The first line of each
script that differs is printed, and the exit status is 1 then. The gate leaves this out: the program agrees
with both there.
"""
import glob
import os
import sys

sys.dont_write_bytecode = True
import end_to_end
import gateway_model
import random_scripts


def cases_of(folders):
    """Each script: its name, its text, and what it ends with and prints."""
    if not folders:
        yield from ((case.name, case.given, (case.status, case.expected)) for case in end_to_end.scripts()
                    if len(case.given) < random_scripts.MOST_PRINTED)
    for folder in folders:
        for path in sorted(glob.glob(os.path.join(folder, '*.script'))):
            stem = path[:-len('.script')]
            status = int(end_to_end.read(stem + '.status', b'0'))
            yield path, end_to_end.read(path), (status, end_to_end.read(stem + '.expected'))


def main(folders):
    passed = failed = 0
    for name, given, wanted in cases_of(folders):
        found = gateway_model.play(given)
        if found == wanted:
            passed += 1
            continue
        failed += 1
        place, one, other = random_scripts.difference(found[1], wanted[1])
        print('%s: status %s, wanted %d; line %d of the output' % (name, found[0], wanted[0], place))
        print('  model  %s\n  wanted %s' % (one.decode(errors='replace')[:300], other.decode()[:300]))
    print('%d passed, %d failed' % (passed, failed))
    return 1 if failed else 0


if __name__ == '__main__':
    sys.exit(main(sys.argv[1:]))
