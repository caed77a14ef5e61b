#!/usr/bin/env python3
"""refused_rows.py [TURNS [SEED]]

Refuses an allocation in the midst of random scripts. A turn plays 20 short ones of random_scripts.py by a
build without proof in which the N-th allocation of each is refused, N being drawn at random from the turn's
seed: SEED (1) for the first turn, one more for each further one. The refusal has to leave no trace: what is
printed is a beginning of what the script prints with ample memory, it ends where a row ends, `out of memory`
stands behind it, and the exit status is 3. Where so many allocations are never made, all is printed.

What a script prints with ample memory is what the model says, so random_scripts.py has to pass first. A turn
builds anew, which takes a minute of the processor, so the gate leaves this out; without TURNS it makes 3."""
import random
import sys

sys.dont_write_bytecode = True
import gateway_model
import random_scripts

SCRIPTS, TURNS = 20, 3
# A short script makes some hundreds of allocations
MOST_ALLOCATIONS = 400
REFUSED = b'out of memory\n'
BEGINS = (b'row ', b'refused ', b'line ')


def is_beginning(printed, whole):
    """Whether it is a beginning of the whole output that ends where something new begins."""
    behind = whole[len(printed):]
    is_whole_lines = printed == b'' or printed.endswith(b'\n')
    return whole.startswith(printed) and is_whole_lines and (not behind or behind.startswith(BEGINS))


def fault_of(found, wanted):
    """What is wrong with an exit status and an output, where something is."""
    status, printed = found
    if found == wanted:
        return None
    if status != 3:
        return 'the exit status is %s, and has to be 3' % status
    if not printed.endswith(REFUSED):
        return 'the refusal is not printed'
    if not is_beginning(printed[:-len(REFUSED)], wanted[1]):
        return 'what is printed before the refusal is no beginning'
    return None


def turn(seed):
    """Whether each script of this turn is refused without a trace."""
    allocation = random.Random(seed).randint(1, MOST_ALLOCATIONS)
    first = len(random_scripts.LONG) + seed * SCRIPTS
    texts = {place: random_scripts.script(place) for place in range(first, first + SCRIPTS)}
    wanted = [gateway_model.play(text) for text in texts.values()]
    results = list(random_scripts.by_build_without_proof(texts.values(), ['--fail-alloc', str(allocation)]))
    faults = 0
    for place, found, whole in zip(texts, results, wanted):
        fault = fault_of(found, whole)
        if fault:
            faults += 1
            print('script %d, allocation %d: %s' % (place, allocation, fault))
            random_scripts.report(place, texts[place], found, whole)
    met = sum(status == 3 for status, _ in results)
    print('turn %d: allocation %d was refused to %d scripts of %d; %d faults'
          % (seed, allocation, met, SCRIPTS, faults), flush=True)
    return faults == 0


def main(words):
    turns, seed = int(words[0]) if words else TURNS, int(words[1]) if len(words) > 1 else 1
    passed = [turn(number) for number in range(seed, seed + turns)]
    print('%d passed, %d failed' % (sum(passed), turns - sum(passed)))
    return 0 if all(passed) else 1


if __name__ == '__main__':
    sys.exit(main(sys.argv[1:]))
