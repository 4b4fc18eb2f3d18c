"""For the tests beside it: what a program writes, also where a read or a write fails, and a count of what is as due."""
import os
import resource
import signal
import subprocess
import tempfile


def run(program, source, sink, before=None, arguments=()):
    """What the program writes to standard error, and its exit status; a source or sink of None is closed."""
    def start():
        for number, file in ((0, source), (1, sink)):
            if file is None:
                os.close(number)
        if before:
            before()
    done = subprocess.run([program, *arguments], stdin=source, stdout=sink, stderr=subprocess.PIPE, preexec_fn=start, timeout=60)
    return done.stderr, done.returncode


def written(program, source, before=None, arguments=()):
    """What it writes to standard output, a file, and the same."""
    with tempfile.TemporaryFile() as out:
        errors, status = run(program, source, out, before, arguments)
        out.seek(0)
        return out.read(), errors, status


def broken_pipe():
    """A pipe that nobody reads."""
    read, write = os.pipe()
    os.close(read)
    return write


def ignore(number):
    return lambda: signal.signal(number, signal.SIG_IGN)


def most_bytes(count):
    """A write past a file's limit fails, after the bytes that fit."""
    ignore(signal.SIGXFSZ)()
    resource.setrlimit(resource.RLIMIT_FSIZE, (count, count))


def lent(data):
    """A file with these bytes, to be read from its start."""
    file = tempfile.TemporaryFile()
    file.write(data)
    file.seek(0)
    return file


def failures(program, data, text, arguments=()):
    """The program reads these bytes and writes this text, unless a read or a write fails: what is found, and what is due."""
    name = os.path.basename(program).encode()
    refused, no_read, no_write = b'refused 2\n', name + b': read failed\n', name + b': write failed\n'

    def to(sink, source=None, before=None):
        return run(program, source or lent(data), sink, before, arguments)

    with open('/dev/full', 'wb') as full:
        folder = os.open('/', os.O_RDONLY)
        yield 'a file is read and reported on', written(program, lent(data), None, arguments), (text, b'', 0)
        yield 'a read of a directory fails', written(program, folder, None, arguments), (refused, no_read, 0)
        yield 'standard input is closed', written(program, None, None, arguments), (refused, no_read, 0)
        yield 'a write to a full disk fails', to(full), (no_write, 0)
        yield 'a write fails after ten bytes', written(program, lent(data), lambda: most_bytes(10), arguments), (text[:10], no_write, 0)
        yield 'standard output is closed', to(None), (no_write, 0)
        yield 'a read and the write of its refusal fail', to(full, folder), (no_read + no_write, 0)
        yield 'a pipe is closed, its signal ignored', to(broken_pipe(), before=ignore(signal.SIGPIPE)), (no_write, 0)
        # a program of today's toolchain ignores the signal from its start
        yield 'a pipe is closed, its signal not ignored', to(broken_pipe()), (no_write, 0)


def shown(value):
    """A value in one line of some length."""
    text = repr(value)
    return text if len(text) <= 300 else text[:200] + ' .. ' + text[-100:]


def judge(cases):
    """Says of each case (its name, what was found, what is due) whether it holds; 1 if one does not."""
    failed = 0
    passed = 0
    for name, found, due in cases:
        if found == due:
            passed += 1
            print('ok   ' + name)
        else:
            failed += 1
            print('FAIL %s: %s, not %s' % (name, shown(found), shown(due)))
    print('%d passed, %d failed' % (passed, failed))
    return 1 if failed else 0
