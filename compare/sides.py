"""The two sides of a comparison: the source in its harness, and the program nodetrace. Builds them and asks them."""
import hashlib
import os
import random
import shlex
import subprocess
import sys

HERE = os.path.dirname(os.path.abspath(__file__))
ROOT = os.path.dirname(HERE)
HARNESS = os.path.join(HERE, 'harness')

# The modules of the source that declare others, which the harness stands in for: they are read under a name beside those.
LINKED = ('nib/mod.rs', 'frame/mod.rs', 'frame/frame_control.rs')


def stop(why):
    sys.exit(f'{os.path.basename(sys.argv[0])}: {why}')


def link(target, path):
    if os.path.islink(path):
        os.remove(path)
    os.symlink(target, path)


def source():
    """Links the folder of zigbee-rs into the harness: the one that ZIGBEE_RS names, or the one of the last time."""
    path = os.path.join(HARNESS, 'source')
    folder = os.environ.get('ZIGBEE_RS')
    if not os.path.isdir(folder or path):
        stop('set ZIGBEE_RS to the folder of zigbee-rs that holds zigbee-core and zigbee-mac')
    if folder:
        link(os.path.abspath(folder), path)
    with open(os.path.join(HARNESS, 'SOURCES')) as f:
        for line in f:
            digest, name = line.split()
            try:
                with open(os.path.join(path, name), 'rb') as g:
                    found = hashlib.sha256(g.read()).hexdigest()
            except OSError as e:
                stop(e)
            if found != digest:
                stop(f'{name} is not of the version that was ported (compare/harness/SOURCES)')
    for name in LINKED:
        link(f'../../../source/zigbee-core/src/nwk/{name}', os.path.join(HARNESS, 'src/nwk', name))


def harness():
    """The command of the harness, built."""
    source()
    if subprocess.run(['cargo', 'build', '--release', '--offline', '--quiet'], cwd=HARNESS).returncode:
        stop('the harness is not built')
    return [os.path.join(HARNESS, 'target/release/harness')]


def prove(name, root=ROOT):
    """The command of a Rattle program of the repository, proved and built: `rt run` leaves it in the crate's out/, and runs it, here on no input."""
    folder = os.path.join(root, 'crates', name)
    done = subprocess.run(['rt', 'run'], cwd=folder, stdin=subprocess.DEVNULL, stdout=subprocess.DEVNULL, stderr=subprocess.PIPE, text=True)
    if done.returncode:
        stop(f'{name} is not proved\n{done.stderr}')
    return [os.path.join(folder, 'out', name)]


def nodetrace():
    """The command of nodetrace, built; or the one that NODETRACE names."""
    named = os.environ.get('NODETRACE')
    return shlex.split(named) if named else prove('nodetrace')


def ask(command, text=b''):
    """What the command writes on standard output for the text on standard input."""
    done = subprocess.run(command, input=text, stdout=subprocess.PIPE, stderr=subprocess.DEVNULL)
    if done.returncode:
        return done.stdout + f'(ended with status {done.returncode})\n'.encode()
    return done.stdout


def timed(text):
    """A trace as nodetrace is asked it: with random lines `h` and `clock`, which the source has not, and which change nothing that either prints.

    They are drawn anew from each `node` line. So a part of a scenario has the same, and so have two that differ in their beacons alone."""
    lines = []
    for line in text.splitlines(keepends=True):
        word = line.split()[0]
        if word == b'node':
            draw = random.Random(line)
        elif word not in (b'e', b'f', b'b') and draw.random() < 0.3:
            lines.append(b'clock\t%d\n' % draw.getrandbits(32))
        lines.append(line)
        if word == b'e' and draw.random() < 0.5:
            lines.append(b'h\t%d\n' % draw.getrandbits(32))
    return b''.join(lines)


def scenarios(text):
    """The scenarios of a trace, each a list of its lines with their line feeds."""
    found = []
    for line in text.splitlines(keepends=True):
        if line.startswith(b'node\t'):
            found.append([])
        found[-1].append(line)
    return found


def calls(lines):
    """The calls of a scenario: a scan is one with its `b` lines, and so are the lines of the state at the start."""
    found = []
    for line in lines:
        if line[:2] in (b'e\t', b'f\t', b'b\t'):
            found[-1] += line
        else:
            found.append(line)
    return found


def numbers(usage):
    """The seed and the count of the command line, and the words after them."""
    words = sys.argv[1:]
    if len(words) < 2 or not words[0].isdigit() or not words[1].isdigit():
        stop(usage)
    return int(words[0]), int(words[1]), words[2:]
