"""Makes a spool of many past jobs and measures the programs over it: SPOOL, the prefix of the installation, how many jobs, and of
how many of them the outputs are there."""
import glob, os, resource, subprocess, sys, time

spool, prefix, past, outputs = sys.argv[1], sys.argv[2], int(sys.argv[3]), int(sys.argv[4])
WAITING, KEPT, FULL, RUNS = 100, 10000, 100000, 15
MINUTE = 28928160  # of the first job; one each minute and a half or so
environment = {'ATSPOOL': spool, 'LOGNAME': 'root', 'HOME': '/root', 'PWD': '/', 'TZ': 'UTC', 'PATH': '/usr/bin:/bin'}
SCRIPT = ("#!/bin/sh\n# at user=root mail=0\numask 0022\n"
          "cd '/' || {\n\techo 'Execution directory inaccessible' >&2\n\texit 1\n}\ntrue\n")


def write(name, text):
    with open(os.path.join(spool, name), 'w') as file:
        file.write(text)


def job_name(number):
    return 'a%08x%08x' % (number, MINUTE + number * 3 // 2 if number <= past else 0x01e24f60)


def notes(done, live):
    """What atpost noted: the name of each job, and that the notice was sent."""
    for number in list(done) + list(live):
        yield 'N %08x %s 0 root\n' % (number, job_name(number))
        if number in done:
            yield 'S %08x\n' % number


def records(done, live):
    """What ataccount saw: each job, and its start and end."""
    for number in done:
        yield 'A %08x a root\nS %08x\nF %08x\n' % (number, number, number)
    for number in live:
        yield 'A %08x a root\n' % number


def slots(done):
    """The journal of the youngest jobs that are done, and its free slots."""
    for number in done:
        yield '+S%08xa-00%016x.\n' % (number, (MINUTE + number * 3 // 2) * 60)
        yield '+E%08x-x00%016x.\n' % (number, 0)
    for _ in range(256):
        yield '-' + '.' * 30 + '\n'


def make(jobs, noted):
    """A spool in which so many jobs are over and as many as WAITING wait. Whether atpost and ataccount saw those that are over."""
    os.makedirs(spool, 0o700)
    done, live = range(1, jobs + 1), range(past + 1, past + 1 + WAITING)
    for number in live:
        write(job_name(number), SCRIPT)
    write('.SEQ', '%08x\n' % (past + WAITING))
    write('at.deny', '')
    write('.JRN', ''.join(slots(done[-KEPT:])))
    if not noted:
        done, jobs = [], 0
    write('.MAIL', ''.join(notes(done, live)))
    counted = min(jobs, (FULL - WAITING - 1000) // 3)
    write('.ACC', ''.join(records(range(jobs - counted + 1, jobs + 1), live)))


def make_outputs(jobs):
    os.makedirs(spool + '.out', 0o700, exist_ok=True)
    old = time.time() - 2 * 86400
    for number in range(1, jobs + 1):
        for name in job_name(number), 'mail.%08x' % number:
            path = os.path.join(spool + '.out', name)
            os.close(os.open(path, os.O_CREAT | os.O_WRONLY, 0o600))
            os.utime(path, (old, old))


def apart(function, *words):
    """In a process of its own: the memory of this one would be counted with each program that it starts."""
    child = os.fork()
    if child == 0:
        function(*words)
        os._exit(0)
    if os.waitpid(child, 0)[1] != 0:
        sys.exit('no spool could be made')


def run(name, words, text=b''):
    """Processor time and wall time in milliseconds, and the most memory in MB."""
    source, sink = os.pipe()
    os.write(sink, text)
    os.close(sink)
    since = time.monotonic()
    places = [os.path.join(prefix, place, name) for place in ('bin', 'libexec/coefhird')]
    child = subprocess.Popen([name] + words, executable=next(filter(os.path.exists, places)), env=environment, cwd='/',
                             stdin=source, stdout=subprocess.DEVNULL, stderr=subprocess.PIPE)
    said = child.stderr.read().decode()
    _, status, used = os.wait4(child.pid, 0)
    wall = (time.monotonic() - since) * 1000
    os.close(source)
    if status != 0:
        sys.exit('%s ended with %d: %s' % (name, status, said))
    return (used.ru_utime + used.ru_stime) * 1000, wall, used.ru_maxrss / 1024


def measure(state):
    calls = {
        'at': ['at', ['-t', '203001010000'], b'true\n'],
        'atq': ['atq', []],
        'atpost, idle': ['atpost', [spool, '--send', '/bin/true', '--turns', '1']],
        'ataccount, nothing new': ['ataccount', [spool]],
    }
    for what, call in calls.items():
        if what != 'at':
            run(*call)  # (what is new is noted first)
        found = [run(*call) for _ in range(RUNS)]
        print('| %s | %s | %.1f | %.1f | %.1f |' % (
            what, state, min(f[0] for f in found), min(f[1] for f in found), max(f[2] for f in found)))
        sys.stdout.flush()


def clear():
    subprocess.run(['rm', '-r', '--'] + glob.glob(spool + '*'), check=True)


def size(name):
    return os.path.getsize(os.path.join(spool, name))


def output_count():
    return sum(1 for _ in os.scandir(spool + '.out'))


print('(what measures has %.1f MB itself, which each program has at least here)' % (resource.getrusage(resource.RUSAGE_SELF).ru_maxrss / 1024))
print('| call | spool | ms of processor time | ms of wall time | MB |\n|---|---|---|---|---|')
apart(make, 0, True)
measure('new')
clear()
apart(make, past, False)
measure('a used journal')
clear()
since = time.monotonic()
apart(make, past, True)
apart(make_outputs, outputs)
print('made in %d s: .JRN %d, .MAIL %d, .ACC %d bytes, %d outputs' % (
    time.monotonic() - since, size('.JRN'), size('.MAIL'), size('.ACC'), output_count()))
measure('a year later')
print('rotate: %d ms of processor time, %d ms' % run('rotate', ['--now'])[:2])
print('counts: %s' % open(glob.glob(spool + '.accounts/*.counts')[0]).read().strip())
print('atpost --trim: %d ms of processor time, %d ms' % run('atpost', [spool, '--trim'])[:2])
print('trim: %d ms of processor time, %d ms; %d outputs stay' % (run('trim', [])[:2] + (output_count(),)))
measure('after trim and rotation')
print('then .MAIL %d, .ACC %d bytes' % (size('.MAIL'), size('.ACC')))
