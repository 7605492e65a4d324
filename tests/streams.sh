#!/bin/sh
# What the programs do where reading or writing fails, where nobody reads what they write, and where a word
# stands behind their name: nothing goes to standard output, and a line on standard error says why.
#   tests/streams.sh
set -eu
. "$(dirname "$0")/../scripts/settings.sh"
need_program
need_program_filed
mkdir -p "$root/target/tests"
native || echo "NOT RUN: input that is closed, as the emulator opens a file of its own in its place;" \
    "and a disk that takes some bytes, as its signal need not stay ignored there"
python3 - "$(native && echo native || echo emulated)" "$PROGRAM" "$root/example/group" "$PROGRAM_FILED" "$root/example/filed" "$root/target/tests" <<'END'
import fcntl, os, pty, resource, signal, subprocess, sys, tty

tried = 0


def same(what, expected, got):
    global tried
    tried += 1
    if expected != got:
        sys.exit(f'{what}\n expected: {expected}\n got:      {got}')


def run(program, *words, **streams):
    done = subprocess.run([program, *words], stderr=subprocess.PIPE, timeout=60, **{'stdout': subprocess.PIPE, **streams})
    return done.stdout, done.stderr.decode(), done.returncode


def limited(size):
    """To be called in the child: a file that it writes can't grow past so many bytes."""
    def limit():
        signal.signal(signal.SIGXFSZ, signal.SIG_IGN)
        resource.setrlimit(resource.RLIMIT_FSIZE, (size, size))
    return limit


def torn_input(program, name, data, k):
    """A read that fails after k bytes: a terminal whose other side wrote them and closed."""
    ours, other = pty.openpty()
    tty.setraw(other)
    os.write(other, data[:k])
    os.close(other)
    same(f'{name}: input that fails after {k} bytes', (b'', f"{name}: standard input can't be read: Input/output error\n", 0),
         run(program, stdin=ours))
    os.close(ours)


def filled_pipe(left):
    """A pipe of a page that has room for so many bytes more, and doesn't wait for room."""
    read, write = os.pipe()
    os.write(write, bytes(fcntl.fcntl(write, fcntl.F_SETPIPE_SZ, 4096) - left))
    os.set_blocking(write, False)
    return read, write


def bad_output(program, name, data, line):
    unwritten = f"{name}: standard output can't be written: "
    with open('/dev/full', 'wb') as full:
        same(f'{name}: a full disk', (None, unwritten + 'No space left on device\n', 0), run(program, input=data, stdout=full))
    same(f'{name}: output that is closed', (b'', unwritten + 'Bad file descriptor\n', 0),
         run(program, input=data, preexec_fn=lambda: os.close(1)))
    for size in (0, 1, line - 1, line, line + 1, len(data) // 2):
        read, write = filled_pipe(size)
        same(f'{name}: a pipe with room for {size} bytes', (None, unwritten + 'Resource temporarily unavailable\n', 0),
             run(program, input=data, stdout=write))
        os.close(read)
        os.close(write)
    for size in (0, 1, line - 1, line, line + 1, len(data) // 2) if sys.argv[1] == 'native' else ():
        with open(f'{sys.argv[6]}/limited', 'wb') as out:
            same(f'{name}: a disk that takes {size} bytes', (None, unwritten + 'File too large\n', 0),
                 run(program, input=data, stdout=out, preexec_fn=limited(size)))
    read, write = os.pipe()
    os.close(read)
    same(f'{name}: a pipe that nobody reads', (None, unwritten + 'Broken pipe\n', 0), run(program, input=data, stdout=write))
    os.close(write)


for at, name in ((2, 'overlap'), (4, 'overlap_filed')):
    program = sys.argv[at]
    with open(sys.argv[at + 1], 'rb') as f:
        data = f.read()
    answer = run(program, input=data)
    same(f'{name}: an input in order', (b'ok ', '', 0), (answer[0][:3], *answer[1:]))
    for k in range(len(data) + 1):
        torn_input(program, name, data, k)
    if sys.argv[1] == 'native':
        same(f'{name}: input that is closed', (b'', f"{name}: standard input can't be read: Bad file descriptor\n", 0),
             run(program, preexec_fn=lambda: os.close(0)))
    bad_output(program, name, data, answer[0].index(b'\n') + 1)
    for words in (['--help'], ['--version'], ['-'], [''], [sys.argv[at + 1]], ['0', '0']):
        out, said, status = run(program, *words, input=data)
        same(f'{name} {words}', (b'', f'usage: {name} ', 1, 0), (out, said[:len(name) + 8], said.count('\n'), status))
print(f'streams that fail, pipes that nobody reads and words: {tried} runs answered as they should be')
END
