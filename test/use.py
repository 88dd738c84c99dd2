"""Uses `sheets` as somebody at a terminal may, and holds what comes of it to what must.

    python3 test/use.py

Inputs that cannot be read, outputs that cannot be written, slow pipes, long texts, a link, a proof that failed: by `bin/sheets`, which
has an exit status (0 a listing, 1 refused, 2 could not read, write or build), and by the program behind it, whose status is 1 where it
could not read or write, and else 0. Where the program is not built yet, `bin/sheets` proves and builds it first. Exit status 1 if
something is not as it must be.
"""

import os
import resource
import shutil
import subprocess
import sys
import tempfile
import threading
import time

import longest

HERE = os.path.dirname(os.path.dirname(os.path.realpath(__file__)))
WRAPPER = [os.path.join(HERE, 'bin', 'sheets')]
PROGRAM = os.path.join(HERE, 'crates', 'sheets', 'out', 'sheets')
RUNNER = subprocess.run([os.path.join(HERE, 'test', 'runner.sh')], check=True, capture_output=True, text=True).stdout.split()
BARE = RUNNER + [PROGRAM]
PATIENCE = 120
faults = []
uses = 0


def example(name):
    with open(os.path.join(HERE, 'examples', name), 'rb') as file:
        return file.read()


TEXT, LISTING = example('class-of-eight.txt'), example('class-of-eight.out')
BAD_TEXT, REFUSAL = example('refused.txt'), example('refused.out')
TOO_LONG = b'refused 21 0\n'


def closed(descriptor):
    return lambda: os.close(descriptor)


def hold(title, words, status, output, says, feed=None, **options):
    """Runs the words, and notes each way in which the run is not as it must be.

    `output` is what it must write. `says` is a text that its one line on standard error must have, or None where it must say nothing.
    `feed` is called with the end of a pipe for its input."""
    global uses
    uses += 1
    options = {'stdin': subprocess.DEVNULL, 'stdout': subprocess.PIPE, 'cwd': '/', **options}
    if feed is not None:
        options['stdin'] = subprocess.PIPE
    child = subprocess.Popen(words, stderr=subprocess.PIPE, **options)
    if feed is not None:
        threading.Thread(target=feed, args=(child.stdin,), daemon=True).start()
        child.stdin = None
    try:
        wrote, said = child.communicate(timeout=PATIENCE)
    except subprocess.TimeoutExpired:
        child.kill()
        faults.append('%s: it did not end within %d seconds' % (title, PATIENCE))
        return
    said = said.decode(errors='replace')
    if child.returncode != status:
        faults.append('%s: it ended with status %d, not %d' % (title, child.returncode, status))
    if wrote is not None and wrote != output:
        faults.append('%s: it wrote %r, not %r' % (title, wrote[:80], output[:80]))
    if says is None and said:
        faults.append('%s: it said %r' % (title, said))
    if says is not None and (says not in said or said.count('\n') != 1):
        faults.append('%s: its one line should say %r, and it said %r' % (title, says, said))


# ---- feeds: what comes through the pipe at standard input

def byte_by_byte(text):
    def feed(pipe):
        with pipe:
            for at in range(len(text)):
                pipe.write(text[at:at + 1])
                pipe.flush()
                if at % 100 == 0:
                    time.sleep(0.001)
    return feed


def without_end(pipe):
    try:
        while True:
            pipe.write(b'1 1 1 1\n' * 1000)
    except BrokenPipeError:
        pass


def some_then_silence(text):
    """A pipe that gives an error and does not wait where it is empty, with some of the text in it and its writer still there."""
    reader, writer = os.pipe()
    os.set_blocking(reader, False)
    os.write(writer, text)
    return reader, writer


# ---- what both do

def reading(name, words, refused, failed):
    """Texts that can be read, and inputs that cannot: `refused` is the status of a text that is refused, `failed` that where a read failed."""
    hold(name + ', a slow pipe', words, 0, LISTING, None, feed=byte_by_byte(TEXT))
    hold(name + ', an endless input', words, refused, TOO_LONG, None, feed=without_end)
    with tempfile.TemporaryFile() as large:
        large.write(b'# ten million bytes\n' * 500000)
        large.seek(0)
        hold(name + ', 10 MB', words, refused, TOO_LONG, None, stdin=large)
    with tempfile.TemporaryFile() as bad:
        bad.write(BAD_TEXT)
        bad.seek(0)
        hold(name + ', a text that is refused', words, refused, REFUSAL, None, stdin=bad)
    hold(name + ', a closed input', words, failed, b'', 'sheets: reading', preexec_fn=closed(0))
    folder = os.open('/', os.O_RDONLY)
    hold(name + ', a folder as input', words, failed, b'', 'sheets: reading: Is a directory', stdin=folder)
    os.close(folder)
    for part in (b'', TEXT[:300]):
        reader, writer = some_then_silence(part)
        hold('%s, a pipe with %d bytes that does not wait' % (name, len(part)), words, failed, b'', 'sheets: reading', stdin=reader)
        os.close(reader)
        os.close(writer)


def writing(name, words, failed):
    """Outputs that cannot be written."""
    with open(os.path.join(HERE, 'examples', 'class-of-eight.txt'), 'rb') as text, open('/dev/full', 'wb') as full:
        hold(name + ', a full output', words, failed, None, 'sheets: writing: No space left on device', stdin=text, stdout=full)
    with open(os.path.join(HERE, 'examples', 'class-of-eight.txt'), 'rb') as text:
        hold(name + ', a closed output', words, failed, None, 'sheets: writing', stdin=text, stdout=None, preexec_fn=closed(1))


def preloaded(room, name):
    """The environment in which the calls of test/NAME.c stand in the place of the C library's."""
    tools = subprocess.run(['bash', '-c', '. test/kit.sh && echo "$kit_tools"'], cwd=HERE, check=True, capture_output=True, text=True).stdout.strip()
    made, library = os.path.join(room, name + '.o'), os.path.join(room, name + '.so')
    subprocess.run([tools + '/bin/clang', '--target=x86_64-unknown-linux-gnu', '-Wall', '-Wextra', '-Werror', '-O2', '-fPIC', '-c', '-o', made,
                    os.path.join(HERE, 'test', name + '.c')], check=True)
    subprocess.run([tools + '/bin/ld.lld', '-shared', '-o', library, made], check=True)
    return {**os.environ, 'LD_PRELOAD': library}


def other_calls(room):
    """The program with a read and a write that are interrupted and move few bytes at a time, and with a write that takes nothing."""
    with open(os.path.join(HERE, 'examples', 'class-of-eight.txt'), 'rb') as text:
        hold('interrupted calls', BARE, 0, LISTING, None, stdin=text, env=preloaded(room, 'interrupted'))
        text.seek(0)
        hold('an output that takes nothing', BARE, 1, b'', 'sheets: writing: write zero', stdin=text, env=preloaded(room, 'takes_nothing'))


def small_stack():
    """The longest listing, with no more of the stack than README says that it needs."""
    most = 2000000
    text = longest.one_team().encode()
    listing = subprocess.run(BARE, input=text, capture_output=True, check=True).stdout
    limit = lambda: resource.setrlimit(resource.RLIMIT_STACK, (most, most))
    with tempfile.TemporaryFile() as file:
        file.write(text)
        file.seek(0)
        hold('%d bytes of stack' % most, BARE, 0, listing, None, stdin=file, preexec_fn=limit)


# ---- the wrapper alone

def links(room):
    link = os.path.join(room, 'a link')
    os.symlink(WRAPPER[0], link)
    above = os.path.join(room, 'a link to it')
    os.symlink('a link', above)
    hold('a link to bin/sheets', [above], 0, LISTING, None, feed=byte_by_byte(TEXT))


STAND_IN = '''#!/bin/sh
# In the place of rt: proves nothing, and takes the program that was proved for what it builds.
case $1 in
run)
    echo run >>'%(room)s/calls'
    [ -f '%(room)s/is-right' ] || { echo 'logic=not-proved' >&2; exit 1; }
    mkdir -p out && cp '%(program)s' out/sheets && echo 'logic=proved' >&2
    ;;
*) exec '%(rt)s' "$@" ;;
esac
'''


class Tree:
    """A copy of the tree as far as bin/sheets looks at it, with a stand-in for rt."""

    def __init__(self, room):
        self.room, self.tree = room, os.path.join(room, 'tree')
        for part in ('bin', 'test', 'crates/sheets'):
            shutil.copytree(os.path.join(HERE, part), os.path.join(self.tree, part), ignore=shutil.ignore_patterns('out'))
        shutil.copy(os.path.join(HERE, 'crates.txt'), self.tree)
        self.program = os.path.join(self.tree, 'crates', 'sheets', 'out', 'sheets')
        self.source = os.path.join(self.tree, 'crates', 'sheets', 'src', 'main.rt')
        tools = os.path.join(room, 'tools')
        os.mkdir(tools)
        with open(os.path.join(tools, 'rt'), 'w') as file:
            file.write(STAND_IN % {'room': room, 'program': PROGRAM, 'rt': shutil.which('rt')})
        os.chmod(os.path.join(tools, 'rt'), 0o755)
        self.env = {**os.environ, 'PATH': tools + ':' + os.environ['PATH']}

    def is_right(self, yes):
        mark = os.path.join(self.room, 'is-right')
        if yes:
            open(mark, 'w').close()
        elif os.path.exists(mark):
            os.remove(mark)

    def calls(self):
        try:
            with open(os.path.join(self.room, 'calls')) as file:
                return len(file.readlines())
        except FileNotFoundError:
            return 0

    def change_source(self):
        """Another byte in the place of one, at the same time and of the same size."""
        before = os.stat(self.source)
        with open(self.source, 'r+b') as file:
            first = file.read(1)
            file.seek(0)
            file.write(b'#' if first != b'#' else b'/')
        os.utime(self.source, ns=(before.st_atime_ns, before.st_mtime_ns))

    def use(self, title, proves, works):
        """One use: whether rt is called for a proof, and whether a listing comes of it."""
        global uses
        uses += 1
        before = self.calls()
        ended = subprocess.run([os.path.join(self.tree, 'bin', 'sheets')], input=TEXT, capture_output=True, env=self.env, timeout=PATIENCE)
        wanted = (0, LISTING) if works else (2, b'')
        if (ended.returncode, ended.stdout) != wanted:
            faults.append('%s: status %d, output %r, and it said %r' % (title, ended.returncode, ended.stdout[:80], ended.stderr))
        if not works and b'sheets: it is not proved, so nothing is run' not in ended.stderr:
            faults.append('%s: it did not say that it is not proved, but %r' % (title, ended.stderr))
        if (self.calls() > before) != proves:
            faults.append('%s: rt run was called %d times' % (title, self.calls() - before))


def proofs(room):
    tree = Tree(room)
    os.makedirs(os.path.dirname(tree.program))
    shutil.copy(PROGRAM, tree.program)
    tree.use('an old program, and a proof that fails', True, False)
    tree.use('the same once more', True, False)
    tree.is_right(True)
    tree.use('a proof that succeeds', True, True)
    tree.use('a program that is proved', False, True)
    tree.change_source()
    tree.use('a source that changed within its time', True, True)
    with open(tree.program, 'ab') as file:
        file.write(b'\0')
    tree.use('another program in its place', True, True)
    tree.is_right(False)
    tree.use('a program that stays proved', False, True)
    other = os.path.join(tree.tree, 'crates', 'other', 'src')
    os.makedirs(other)
    open(os.path.join(other, 'lib.rt'), 'w').close()
    tree.use('another crate, which sheets does not stand on', False, True)
    tree.change_source()
    tree.use('a source that changed, and a proof that fails', True, False)


def main():
    room = tempfile.mkdtemp()
    try:
        # Where it was not called before, it says what it proves and builds.
        subprocess.run(WRAPPER, input=TEXT, capture_output=True)
        reading('bin/sheets', WRAPPER, 1, 2)
        writing('bin/sheets', WRAPPER, 2)
        reading('the program', BARE, 0, 1)
        writing('the program', BARE, 1)
        hold('an argument', WRAPPER + ['examples/two-teams.txt'], 2, b'', 'sheets: it takes no argument')
        other_calls(room)
        small_stack()
        links(room)
        proofs(room)
    finally:
        shutil.rmtree(room)
    for fault in faults:
        print('use.py: ' + fault)
    print('%d uses, %d faults' % (uses, len(faults)))
    return 1 if faults else 0


if __name__ == '__main__':
    sys.exit(main())
