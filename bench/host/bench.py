"""What the benchmarks share: running commands, measuring in rounds, and the report.

In each round every implementation is run once on every case, one after the other; the median and the least of the rounds are given, in processor time.
Ratios are of the least, the other's time to ours: what else runs on the machine makes a time longer, never shorter. Nothing is asserted of the times; the
answers of all implementations to a case have to be the same.

Standard output has a table for a reader, and lines for a program (bench/run), with tabs between the fields:

    result  SCRIPT  BENCHMARK  CASE  IMPLEMENTATION  MEDIAN  LEAST  BYTES  ROUNDS

MEDIAN and LEAST are nanoseconds for one operation; BYTES is what it goes over.
"""
import os, platform, statistics, subprocess, sys

ROOT = os.path.dirname(os.path.dirname(os.path.dirname(os.path.abspath(__file__))))
HOST = os.path.join(ROOT, 'bench', 'host')
NAME = os.path.basename(sys.argv[0])
ROOM = os.path.join(ROOT, 'target', 'bench', NAME)
CC = os.environ.get('CC', 'cc').split()
CXX = os.environ.get('CXX', 'g++').split()
RUSTC = os.environ.get('RUSTC', 'rustc')
BEFORE = os.environ.get('BEFORE')
OURS = 'ours'


def note(text):
    print('bench/%s: %s' % (NAME, text), file=sys.stderr, flush=True)


def call(words, cwd=ROOT, env=None, text=b''):
    try:
        return subprocess.run(words, cwd=cwd, env=dict(os.environ, **(env or {})), input=text, stdout=subprocess.PIPE, stderr=subprocess.PIPE)
    except OSError as error:
        note('%s cannot be run: %s' % (words[0], error))
        sys.exit(2)


def must(words, cwd=ROOT, env=None):
    done = call(words, cwd, env)
    if done.returncode != 0:
        sys.stderr.write(done.stderr.decode(errors='replace'))
        note('%s failed, with exit status %d' % (' '.join(words[:2]), done.returncode))
        sys.exit(2)
    return done.stdout.decode()


def installed(there, packages):
    """Whether there() holds, after trying to install Debian packages where it doesn't."""
    if there():
        return True
    note('something is missing; trying apt-get install ' + ' '.join(packages))
    install = ['apt-get', 'install', '-y'] + packages
    try:
        quiet = {'stdin': subprocess.DEVNULL, 'stdout': subprocess.DEVNULL, 'stderr': subprocess.DEVNULL}
        if subprocess.run(install, **quiet).returncode != 0:
            subprocess.run(['apt-get', 'update'], **quiet)
            subprocess.run(install, **quiet)
    except OSError:
        pass
    return there()


def native(crate):
    """The static library of a proved crate, for this machine."""
    library = os.path.join(ROOM, 'lib%s.a' % crate)
    must([os.path.join(ROOT, 'tools', 'native-lib'), crate, library])
    return library


def linked(folder, crates):
    """bench/host/NAME.rs as a program in a folder, with the crates' libraries there linked."""
    program = os.path.join(folder, NAME)
    links = [word for crate in crates for word in ('-l', 'static=' + crate)]
    must([RUSTC, '-O', '--edition', '2024', os.path.join(HOST, NAME + '.rs'), '-o', program, '-L', folder] + links)
    return program


def rust(*crates):
    """bench/host/NAME.rs as a program, with the proved crates linked."""
    for crate in crates:
        native(crate)
    return linked(ROOM, crates)


def rust_before(crate):
    """The same with the library at BEFORE, which is of an earlier state of the crate. It is copied, since the linker goes by its name."""
    folder = os.path.join(ROOM, 'before')
    os.makedirs(folder, exist_ok=True)
    must(['cp', BEFORE, os.path.join(folder, 'lib%s.a' % crate)], cwd=None)
    return linked(folder, [crate])


def measure(cases, ways, once, rounds):
    """Nanoseconds by case and implementation, one figure to a round. A case is a benchmark, its case and its bytes; once runs one and gives a time and an answer,
    or nothing where the implementation has no such case."""
    times, answers = {}, {}
    for turn in range(rounds):
        for case in cases:
            for way in ways:
                got = once(way, case[0], case[1])
                if got is None:
                    continue
                ns, answer = got
                times.setdefault((case, way), []).append(float(ns))
                if answers.setdefault(case, answer) != answer:
                    note('%s answers otherwise than the others in %s of %s' % (way, case[1], case[0]))
                    sys.exit(1)
    return times


def report(cases, ways, times, rounds):
    there = [(case, way) for case in cases for way in ways if (case, way) in times]
    print('%s on %s, %d rounds; ratios are the other\'s time to ours' % (NAME, platform.machine(), rounds))
    print('%-10s %-18s %-34s %14s %14s %10s' % ('', '', '', 'median', 'least', 'to ours'))
    for case, way in there:
        all_of = times[case, way]
        ratio = min(all_of) / min(times[case, OURS])
        print('%-10s %-18s %-34s %11.0f ns %11.0f ns %9.2fx' % (case[0], case[1], way, statistics.median(all_of), min(all_of), ratio))
    for case, way in there:
        all_of = times[case, way]
        print('\t'.join(['result', NAME, case[0], case[1], way, '%.1f' % statistics.median(all_of), '%.1f' % min(all_of), str(case[2]), str(rounds)]))


def rounds_asked(doc):
    """The number of rounds on the command line, 11 where there is none."""
    words = sys.argv[1:]
    if len(words) > 1 or words and not words[0].isdigit() or words == ['0']:
        print(doc, file=sys.stderr)
        sys.exit(2)
    return int(words[0]) if words else 11


def main(doc, cases, ways, build):
    """build makes all that is measured, and gives once."""
    rounds = rounds_asked(doc)
    os.makedirs(ROOM, exist_ok=True)
    note('proving and compiling')
    once = build()
    note('measuring')
    report(cases, ways, measure(cases, ways, once, rounds), rounds)
