#!/usr/bin/env python3
"""bench_graph.py SHAPE NODES FOLDER DMK: writes a makefile whose graph has about so many nodes, the files that it stands on and,
where it has hidden prerequisites, a state that knows them. Then it has DMK answer -q there three times, and prints the
processor time of each, in all and for each node. No target is there, so each recipe would be run."""
import os
import resource
import subprocess
import sys

from state_file import batch, done, header


def flat(nodes):
    count = (nodes - 1) // 2
    rules = ['all: ' + ' '.join(f't{i}' for i in range(count))]
    rules += [f't{i}: s{i}\n\tcc' for i in range(count)]
    return rules, [f's{i}' for i in range(count)], {}


def chain(nodes):
    rules = [f't{i}: t{i + 1}\n\tcc' for i in range(nodes - 1)]
    return rules, [f't{nodes - 1}'], {}


def layers(nodes):
    wide = 100
    deep = (nodes - 1) // wide
    rules = ['all: ' + ' '.join(f't0_{i}' for i in range(wide))]
    for layer in range(deep - 1):
        for i in range(wide):
            rules.append(f't{layer}_{i}: ' + ' '.join(f't{layer + 1}_{(i + k) % wide}' for k in range(10)) + '\n\tcc')
    return rules, [f't{deep - 1}_{i}' for i in range(wide)], {}


def hidden(nodes):
    count = max(1, (nodes - 501) // 2)
    rules, files, _ = flat(2 * count + 1)
    files += [f'h{i}' for i in range(500)]
    return rules, files, {f't{i}': [f'h{(i * 7 + k * 13) % 500}' for k in range(20)] for i in range(count)}


def waits(nodes):
    rules, files, _ = flat(nodes)
    each = min(500, nodes // 8)
    front = ' '.join(f's{i}' for i in range(each))
    behind = ' '.join(f's{i}' for i in range(each, 2 * each))
    return rules + [f'all: {front} .WAIT {behind}'], files, {}


def write_tree(rules, files, known):
    """A graph's nodes are the targets and the files: nothing else is named."""
    for name in files:
        open(name, 'w').close()
    if known:
        rules = ['.KEEP_STATE:'] + rules
        with open('.make.state', 'wb') as out:
            out.write(header(1))
            for target, names in known.items():
                out.write(batch([done(target, ['cc'], names, ['s' + target[1:]])]))
            out.write(b'\0')
    with open('makefile', 'w', encoding='utf-8') as out:
        out.write(''.join(rule + '\n' for rule in rules))


def seconds(dmk):
    before = resource.getrusage(resource.RUSAGE_CHILDREN)
    status = subprocess.run([dmk, '-q'], check=False).returncode
    after = resource.getrusage(resource.RUSAGE_CHILDREN)
    if status != 1:
        sys.exit(f'dmk -q answers {status}, and not 1')
    return after.ru_utime + after.ru_stime - before.ru_utime - before.ru_stime


def main():
    shape, nodes, folder, dmk = sys.argv[1], int(sys.argv[2]), sys.argv[3], os.path.abspath(sys.argv[4])
    rules, files, known = globals()[shape](nodes)
    os.chdir(folder)
    write_tree(rules, files, known)
    count = len({rule.split(':')[0] for rule in rules} | set(files))
    for run in 1, 2, 3:
        took = seconds(dmk)
        print(f'{shape}, {count} nodes, run {run}: {took:.3f} s, {took / count * 1e6:.1f} µs a node', flush=True)


main()
