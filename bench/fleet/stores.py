"""143 stores of 350 agents with four reports of 1 KB each, and one that grew; and how long programs take over them; see bench/fleet/stores."""
import itertools, json, os, shutil, statistics, subprocess, sys, time

program, scratch = sys.argv[1:]
STORES, AGENTS, RUNS = 143, 350, 5
BANK = 335544320  # the bytes of each half of a store

def text(it):
    return len(it).to_bytes(2, 'big') + it.encode()

def cell(body):
    return b'\xa5' + len(body).to_bytes(4, 'big') + body

def report(job):
    said = {'JobId': '00000000-0000-0000-0000-%012x' % job, 'OperationType': 'Consistency', 'Status': 'Success',
            'StartTime': '2026-01-02T03:04:05Z', 'EndTime': '2026-01-02T03:04:09Z', 'Errors': [], 'StatusData': []}
    said['StatusData'] = [json.dumps({'NumberNotInDesiredState': 0, 'Text': 'x' * (1024 - len(json.dumps(said)) - 60)})]
    return json.dumps(said).encode()

def registered(agent, at):
    return cell(b'\1' + agent.to_bytes(16, 'big') + text('2.0') + text('web%d' % at) + text('::1') + b'\1' + text('Web'))

def reported(agent, job):
    return cell(b'\2' + agent.to_bytes(16, 'big') + job.to_bytes(16, 'big') + report(job))

def store(number):
    path = os.path.join(scratch, 'store-%d' % number)
    with open(path, 'wb') as file:
        file.write(b'DSCSTOR1')
        for at in range(AGENTS):
            agent = number * 1000 + at
            file.write(registered(agent, at))
            for job in range(4):
                file.write(reported(agent, at * 4 + job))
        file.write(b'\0')
    return path

# The bytes of the live half of a store to which its agents sent report after report, until no further one has room; and the store, whose other half
# is a hole.
def grown():
    live, path = os.path.join(scratch, 'live'), os.path.join(scratch, 'grown')
    with open(live, 'wb') as bank:
        for at in range(AGENTS):
            bank.write(registered(1 + at, at))
        for job in itertools.count():
            one = reported(1 + job % AGENTS, job)
            if bank.tell() + len(one) >= BANK:
                break
            bank.write(one)
        bank.write(b'\0')
    with open(live, 'rb') as bank, open(path, 'wb') as file:
        file.write(b'DSCSTOR2')
        file.seek(8 + BANK)
        shutil.copyfileobj(bank, file, 1 << 20)
    return live, path

def timed(words):
    began = time.monotonic()
    running = subprocess.Popen(words, stdin=subprocess.DEVNULL, stdout=subprocess.DEVNULL)
    _, status, usage = os.wait4(running.pid, 0)
    running.returncode = os.waitstatus_to_exitcode(status)
    if running.returncode:
        sys.exit('%s ended with %d' % (words[0], running.returncode))
    return time.monotonic() - began, usage.ru_utime + usage.ru_stime, usage.ru_maxrss / 1024

def middle(name, words, paths):
    runs = [timed([*words, *paths]) for _ in range(RUNS)]
    took, processor, memory = (statistics.median(it) for it in zip(*runs))
    print('%-12s %.2f s, of these %.2f s of the processor, %.0f MB' % (name, took, processor, memory), flush=True)
    return processor, memory

# Whether the program that reads stores takes longer than three times sha256sum's time, and than so many seconds, or too much memory.
def is_slow(hashed, paths, seconds):
    digest, _ = middle('sha256sum', ['sha256sum'], hashed)
    slow = False
    for name, words in (('lines', []), ('a table', ['--table']), ('gauges', ['--prometheus'])):
        took, memory = middle(name, [program, *words], paths)
        slow |= took > max(seconds, 3 * digest) or memory > 50
    return slow

paths = [store(number) for number in range(1, STORES + 1)]
print('%d MB in %d stores' % (sum(map(os.path.getsize, paths)) / 1e6, STORES))
slow = is_slow(paths, paths, 2)
live, path = grown()
print('%d MB in the live half of a store that grew' % (os.path.getsize(live) / 1e6))
slow |= is_slow([live], [path], 0)
sys.exit(slow)
