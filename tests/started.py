"""What ./listing and ./mend have in common, for their tests: words, messages and exit statuses, standard files that are closed, full or gone, links,
and how a script builds its program. The building is tried in a small project with an rt that only writes what it is told to. And of the programs
themselves, reads and writes that fail.
"""
import contextlib
import fcntl
import os
import select
import shutil
import signal
import socket
import struct
import subprocess
import sys
import tempfile
import time

import plans

ROOT = os.path.dirname(os.path.dirname(os.path.abspath(__file__)))
TEST = os.path.basename(sys.argv[0])
CYCLE, SEVENTH = (os.path.join(ROOT, "examples", name + ".sheet") for name in ("cycle", "seventh"))
LIMIT = 20  # seconds

# the faults of a sheet, by document 01's table and document 02's A2
FAULTS = {
    1: "fewer than 32 bytes",
    2: "an item count above its limit",
    14: "a body starts late, leaving a gap",
    15: "a body starts early, running into the one before",
    4: "the sheet doesn't end with its last body",
    5: "an opening count above 1,000,000",
    6: "a weight above 1,000",
    7: "an event names no transition",
    8: "a pair names no event",
    9: "a pair of an event with itself",
    10: "a pair given twice",
    11: "the order has a cycle",
}


def expect(what, found, due):
    if found != due:
        sys.exit("%s: %s\n%r is due, not\n%r" % (TEST, what, due, found))


def start(command, **how):
    """A process in a group of its own."""
    return subprocess.Popen(command, stdout=subprocess.PIPE, stderr=subprocess.PIPE, start_new_session=True, **how)


def finish(process, given=None):
    """Its exit status, what it wrote, and what it said on standard error. Where it doesn't end, it and what it started are ended."""
    try:
        output, errors = process.communicate(given, timeout=LIMIT)
    except subprocess.TimeoutExpired:
        os.killpg(process.pid, signal.SIGKILL)
        sys.exit("%s: %r doesn't end" % (TEST, process.args))
    return process.returncode, output, errors.decode()


def wait_until(what, test):
    end = time.monotonic() + LIMIT
    while not test():
        if time.monotonic() > end:
            sys.exit("%s: %s: waited for in vain" % (TEST, what))
        time.sleep(0.01)


def run(command, *words, given=None, **how):
    """Of a file, of nothing, or of what is given as standard input."""
    how.setdefault("stdin", subprocess.DEVNULL if given is None else subprocess.PIPE)
    return finish(start([command, *words], **how), given)


def put(name, data, mode=0o644):
    os.makedirs(os.path.dirname(name), exist_ok=True)
    with open(name, "wb" if isinstance(data, bytes) else "w") as file:
        file.write(data)
    os.chmod(name, mode)
    return name


def content(name):
    with open(name, "rb") as file:
        return file.read()


class Script:
    """A script, by the name of its program. What it prints of examples/seventh.sheet is `seventh`. In the small project the program is `stand_in`, by
    which it prints `printed` where "text" is given. Its `refused` is what it returns of a sheet with a fault."""

    def __init__(self, name, seventh, stand_in, printed, refused):
        self.name, self.path, self.program = name, os.path.join(ROOT, name), os.path.join(ROOT, "target", "bin", name)
        self.seventh, self.stand_in, self.printed, self.refused = seventh, stand_in, printed, refused

    def failed(self, said):
        return 2, b"", "%s: %s\n" % (self.name, said)

    def run(self, *words, **how):
        return run(self.path, *words, **how)

    def shell(self, line, *words):
        """A command line of bash, in which $0 is the script and $1, $2 and so on are the words."""
        return run("bash", "-c", line, self.path, *words, cwd=ROOT)


def words(script):
    see = "see ./%s --help" % script.name
    for given, said in (
        ((), "which sheet? " + see),
        (("",), "which sheet? " + see),
        (("--",), "which sheet? " + see),
        (("--fast",), "there is no option '--fast'; " + see),
        (("-", "-"), "one sheet at a time; " + see),
        (("--", SEVENTH, SEVENTH), "one sheet at a time; " + see),
        (("/no/such/file",), "there is no file /no/such/file"),
        (("--", "--help"), "there is no file --help"),
        (("/",), "/ is a directory"),
    ):
        expect("%r" % (given,), script.run(*given, cwd="/"), script.failed(said))
    status, text, errors = script.run("--help")
    expect("--help", (status, text.decode().split("\n")[0], errors), (0, "usage: ./%s [--] SHEET" % script.name, ""))
    with tempfile.TemporaryDirectory() as folder:
        shutil.copy(SEVENTH, os.path.join(folder, "-h"))
        expect("a file named -h", script.run("--", "-h", cwd=folder), (0, script.seventh, ""))
        with open(SEVENTH) as file:
            expect("-- and standard input", script.run("--", "-", stdin=file), (0, script.seventh, ""))
        with contextlib.closing(socket.socket(socket.AF_UNIX)) as server:
            name = os.path.join(folder, "socket")
            server.bind(name)
            unread = script.failed("%s can't be read" % name)
            expect("a file that can't be opened", script.run(name), unread)
            expect("the same by the rules of POSIX", script.run(name, env=dict(os.environ, POSIXLY_CORRECT="1")), unread)


def faulty_sheets():
    """Of each fault, the sheet of document 01's column of small examples, and an early start. Every item at fault is item 0 but that of 7 and 10."""
    good = plans.LISTED
    sheets = {
        1: b"",
        2: plans.with_places(65).sheet(),
        14: bytes([33]) + good.sheet()[1:],
        15: bytes([31]) + good.sheet()[1:],
        4: good.sheet() + b"\0",
        5: plans.one_place(1000001, ((1, 0),), ()).sheet(),
        6: plans.one_place(0, ((1001, 0),), ()).sheet(),
    }
    net = good.opening, good.transitions
    for number, labels, pairs in ((7, (0, 0, 2), ()), (8, (0, 0, 1), [(0, 3)]), (9, (0, 0, 1), [(1, 1)]), (10, (0, 0, 1), [(0, 1), (0, 1)])):
        sheets[number] = plans.Plan(*net, labels, pairs).sheet()
    sheets[11] = plans.Plan(*net, (0, 0, 1), [(0, 1), (1, 0)]).sheet()
    return sheets


def hints(script):
    """The hint at the tool for a text."""
    hint = "%s: this looks like a text; tools/sheet write TEXT SHEET writes a sheet from a text\n" % script.name

    def hinted(number):
        status, printed, errors = script.refused(number)
        return status, printed, errors + hint

    with tempfile.TemporaryDirectory() as folder:
        for name, text, number in (("long", "place seat 1\r\n\t# caf\u00e9\n" * 9, 2), ("short", "place seat 1", 1), ("huge", "place\n" * 9999, 2)):
            expect("a %s text" % name, script.run(put(os.path.join(folder, name), text)), hinted(number))
    expect("standard input", script.shell('"$0" - <"$1"', os.path.join("examples", "cycle.txt")), hinted(2))


def by_lines(script, lines):
    """Command lines, of examples/seventh.sheet as $1 and examples/cycle.sheet as $2."""
    for line, due in lines:
        expect(line, script.shell(line, SEVENTH, CYCLE), due)


def standard_files(script):
    """Standard input, output and error that are closed, full, gone or a directory."""
    refused, good, unwritten = (*script.refused(11)[:2], ""), (0, script.seventh, ""), script.failed("standard output can't be written")
    by_lines(script, (
        ('"$0" - <&-', script.failed("standard input is closed")),
        ('"$0" - <.', script.failed("standard input can't be read: Is a directory")),
        ('"$0" "$1" >&-', script.failed("standard output is closed")),
        ('"$0" "$1" <&- >&-', script.failed("standard output is closed")),
        ('"$0" "$1" >/dev/full', unwritten),
        ('"$0" --help >/dev/full', unwritten),
        ('"$0" --help >&-', script.failed("standard output is closed")),
        ('"$0" - <&- 2>&-', (2, b"", "")),
        ('"$0" /no/such/file 2>&-', (2, b"", "")),
        ('"$0" /no/such/file 2>/dev/full', (2, b"", "")),
        ('"$0" "$2" 2>/dev/full', refused),
        ('"$0" "$2" <&- 2>&-', refused),
        ('"$0" "$1" <&-', good),
        ('"$0" "$1" <&- 2>&-', good),
    ))
    reader, writer = os.pipe()
    os.close(reader)
    done = subprocess.run([script.path, SEVENTH], stdout=writer, stderr=subprocess.PIPE, timeout=LIMIT)
    expect("a reader that is gone", (done.returncode, b"", done.stderr.decode()), unwritten)
    for words in ((script.path, SEVENTH), ("bash", "-c", 'exec "$0" "$1" >&-', script.path, SEVENTH)):
        expect("readers that are gone", subprocess.run(words, stdout=writer, stderr=writer, timeout=LIMIT).returncode, 2)
    os.close(writer)


# the crates of the small project that the program needs, in the order in which rt proves them
ORDER = "abcdefghi"


def proved(name):
    """What rt says of a crate that it proves, at the end."""
    return "library b: modules loaded=2 checked=0\ncrate %s: modules loaded=1 checked=4\nlogic=proved functions=1 sum=f\n" % name


class Project:
    """A copy of a script among a few crates, and an rt that counts its calls, says lines on standard error, leaves a program, and prints what that would
    print. The crates are ten, eleven with one that the program doesn't need."""

    def __init__(self, folder, script):
        self.folder, self.script = os.path.realpath(folder), script
        self.copy = self.path("project/" + script.name)
        needs = "# a line for each crate\na:\nb: a # and a comment\n\nc: a b\nd: c\ne: c d\nf: e io\ng: f\nh: g a\ni: h\nother: a\n%s: i h io libc\n"
        self.put("project/crates.txt", needs % script.name)
        self.put("project/crates/a/src/lib.rt", "")
        self.put("project/crates/%s/src/main.rt" % script.name, "")
        self.put("project/tools/started.sh", "")
        for name in (script.name, "tools/started.sh"):
            shutil.copy(os.path.join(ROOT, name), self.path("project/" + name))
        self.proved = "only=0 proved=0\nrt: chose --jobs 2 for a\nfn a::f: proved\n"
        self.proved += "".join(proved(name) for name in (*ORDER, script.name))
        self.proved += "linked target=x\nrt: running out/%s; to give it other input, run that file yourself\n" % script.name
        self.made = self.path("project/crates/{0}/out/{0}".format(script.name))
        self.program = self.path("project/target/bin/" + script.name)
        self.log = self.path("project/target/%s.log" % script.name)
        self.rt()

    def path(self, name):
        return os.path.join(self.folder, name)

    def put(self, name, data, mode=0o644):
        return put(self.path(name), data, mode)

    def rt(self, lines=None, program=None, status=0, before=""):
        """Of a program, "" leaves none. It works in the folder above the project."""
        program = self.script.stand_in if program is None else program
        self.put("lines", self.proved if lines is None else lines)
        self.put("program", program)
        leave = self.leave_program() if program else ""
        begin = '#!/bin/sh\necho "${PWD##*/project/}: $*" >>"%s/calls"\ncd "%s"\n' % (self.folder, self.folder)
        self.put("bin/rt", begin + "%scat lines >&2\necho refused 1\n%sexit %d\n" % (before, leave, status), 0o755)

    def leave_program(self):
        return "mkdir -p '{1}'\ncp program '{0}'\nchmod 755 '{0}'\n".format(self.made, os.path.dirname(self.made))

    def environment(self):
        return dict(os.environ, PATH=self.path("bin") + os.pathsep + os.environ["PATH"])

    def start(self, command=None, **how):
        return start([command or self.copy, "-"], stdin=subprocess.PIPE, env=self.environment(), **how)

    def run(self, command=None, **how):
        return finish(self.start(command, **how), b"text")

    def calls(self):
        with contextlib.suppress(FileNotFoundError):
            return content(self.path("calls")).decode().split("\n")[:-1]
        return []

    def says(self, *lines):
        return "".join("%s: %s\n" % (self.script.name, line) for line in lines)

    def begins(self):
        return self.says("proving and building the program; the first time this takes some minutes (log: %s)" % self.log)

    def built(self, *progress):
        return 0, self.script.printed, self.begins() + self.says(*["%s crates proved" % line for line in progress])

    def unbuilt(self, *progress):
        return 2, b"", self.built(*progress)[2] + self.says("the program wasn't built; see %s" % self.log)


@contextlib.contextmanager
def project(script):
    with tempfile.TemporaryDirectory() as folder:
        yield Project(folder, script)


def building(script):
    with project(script) as tried:
        expect("the first call", tried.run(), tried.built("5 of 10", "10 of 10"))
        expect("what rt was asked", tried.calls(), ["crates/%s: run" % script.name])
        expect("the log", content(tried.log).decode(), tried.proved)
        expect("the second call", tried.run(), (0, script.printed, ""))
        tried.put("project/crates/b/src/lib.rt", "")
        expect("a call after a change", tried.run(), tried.built("5 of 10", "10 of 10"))
        os.unlink(tried.program)
        expect("a call without the program", tried.run(), tried.built("5 of 10", "10 of 10"))
        os.truncate(tried.program, 0)
        expect("a call with an empty program", tried.run(), tried.built("5 of 10", "10 of 10"))
        expect("the calls of rt", len(tried.calls()), 4)
        tried.put("project/crates/b/out/lib", "")
        tried.put("project/crates/other/out/lib", "")
        expect("a call after rt has built something else", tried.run(), (0, script.printed, ""))
        tried.put("project/crates/b/proofs/out/Answers.antt", "")
        tried.rt(lines="".join(proved(name) for name in ("d", "h", "i", script.name)))
        expect("a call where some crates are proved already", tried.run(), tried.built("8 of 10", "10 of 10"))
    with project(script) as tried:
        tried.rt(lines="other words\nrt: \nlogic=not-proved\ncrate a: \nlogic=proved\n")
        expect("an rt that prints other lines", tried.run(), tried.built())
        tried.put("project/crates.txt", "\0:::\n# nothing\n")
        tried.rt()
        expect("a list of crates without ours", tried.run(), tried.built("5", "10"))


def failing_builds(script):
    name = script.name
    with project(script) as tried:
        tried.rt(lines=proved("a") + "crate b: modules loaded=1 checked=1\nlogic=not-proved\n", program="", status=1)
        for _ in range(2):
            expect("a crate that isn't proved", tried.run(), tried.unbuilt())
        tried.rt(program="")
        expect("no program", tried.run(), tried.unbuilt("5 of 10", "10 of 10"))
        tried.rt(lines="rt: running out/%s; to give it other input, run that file yourself\n" % name, program="#!/bin/sh\necho refused 1\n", status=1)
        for _ in range(2):
            expect("a program whose run failed", tried.run(), tried.unbuilt())
        tried.rt(before="grep SigIgn: /proc/self/status >ignored\n")
        expect("mended", tried.run(), tried.built("5 of 10", "10 of 10"))
        ignored = int(content(tried.path("ignored")).split()[1], 16)
        expect("signals that rt ignores", [name for name in ("SIGPIPE", "SIGXFSZ") if ignored >> getattr(signal, name) - 1 & 1], [])
    for make in (lambda tried: tried.put("project/target", ""), lambda tried: os.symlink("/no/such", tried.path("project/target")),
                 lambda tried: os.makedirs(tried.log), lambda tried: os.makedirs(tried.path("project/target/started.lock"))):
        with project(script) as tried:
            make(tried)
            unwritable = script.failed("the program has to be built, and %s can't be written" % tried.path("project/target"))
            expect("an unwritable target/", tried.run(), unwritable)
            expect("the calls of rt", tried.calls(), [])
    with project(script) as tried:
        needed = ("bash", "dirname", "readlink", "find", "awk")
        for tool in needed:
            os.symlink(shutil.which(tool), tried.path("bin/" + tool))
        os.unlink(tried.path("bin/rt"))
        expect("no rt", run(tried.copy, "-", env={"PATH": tried.path("bin")}), script.failed(
            "the program isn't built, and building it needs the Rattle toolchain (rt), which isn't on the PATH"))


def by_programs(script, programs):
    """What comes of programs, each given by what it does as a script of the shell."""
    for body, due in programs:
        with project(script) as tried:
            tried.rt(lines="", program="#!/bin/sh\n%s\n" % body)
            status, printed, errors = tried.run()
            errors = errors.replace(tried.begins(), "").split("\n")
            expect(body, (status, printed, "\n".join(line for line in errors if "Killed" not in line)), due)


def by_links(script):
    """It builds in its own folder, whatever links led to it and wherever it is called from."""
    name = script.name
    with project(script) as tried:
        os.makedirs(tried.path("links/deep"))
        os.makedirs(tried.path("cd/links"))
        os.symlink(tried.copy, tried.path("links/absolute"))
        os.symlink("../project/" + name, tried.path("links/relative"))
        os.symlink("../relative", tried.path("links/deep/chain"))
        os.symlink("links", tried.path("linked"))
        os.symlink("../links/deep/chain", tried.path("bin/" + name))
        before = sorted(os.listdir(tried.path("links")))
        for command, cwd in (("links/absolute", ""), ("links/relative", ""), ("linked/deep/chain", ""), ("./chain", "links/deep"), (name, "links")):
            shutil.rmtree(tried.path("project/target"), ignore_errors=True)
            line = ["bash", "-c", 'CDPATH=%s; export CDPATH; "$0" -' % tried.path("cd"), command]
            done = finish(start(line, stdin=subprocess.PIPE, cwd=tried.path(cwd), env=tried.environment()), b"text")
            expect("%s in %s" % (command, cwd or "the folder above"), done, tried.built("5 of 10", "10 of 10"))
        expect("the folder of links", sorted(os.listdir(tried.path("links"))), before)
        for folder, make in (("copy", shutil.copy), ("hard", os.link)):
            os.makedirs(tried.path(folder))
            make(tried.copy, tried.path("%s/%s" % (folder, name)))
            expect("a %s elsewhere" % folder, tried.run(tried.path("%s/%s" % (folder, name))), script.failed(
                "there are no crates in %s; a copy or a hard link doesn't find its project, a symbolic link does" % tried.path(folder)))
            expect("what it leaves", sorted(os.listdir(tried.path(folder))), [name])


WAITS = "another call builds the program; this one waits for it"


def first_line(process):
    """The first line that a process says on standard error."""
    wait_until("a line on standard error", lambda: select.select([process.stderr], [], [], 0)[0])
    return process.stderr.readline().decode()


def two_at_once(script):
    """The second call waits for the first one's build, and builds nothing. Another program's build is waited for too."""
    if shutil.which("flock") is None:
        print("%s: there is no flock, so two calls at once aren't tried" % TEST)
        return
    with project(script) as tried:
        tried.rt(before="until [ -e go ]; do sleep 0.05; done\n")
        first = tried.start()
        wait_until("the first call of rt", tried.calls)
        second = tried.start()
        expect("the second call", first_line(second), tried.says(WAITS))
        tried.put("go", "")
        expect("the first call", finish(first, b"text"), tried.built("5 of 10", "10 of 10"))
        expect("the second call", finish(second, b"text"), (0, script.printed, ""))
        expect("the calls of rt", len(tried.calls()), 1)
    with project(script) as tried:
        with open(tried.put("project/target/started.lock", "")) as lock:
            fcntl.flock(lock, fcntl.LOCK_EX)  # as where another program is built
            call = tried.start()
            expect("a call beside another program's build", first_line(call), tried.says(WAITS))
            expect("the calls of rt meanwhile", tried.calls(), [])
        expect("a call after another program's build", finish(call, b"text"), tried.built("5 of 10", "10 of 10"))


def opened_to_write(pipe):
    """A pipe that another process has opened to read, or None as long as there is none."""
    try:
        return os.open(pipe, os.O_WRONLY | os.O_NONBLOCK)
    except OSError:
        return None


def reader_of(pipe):
    """Waits until another process has opened a pipe to read, and returns the end to write."""
    ends = []
    wait_until("a reader of %s" % pipe, lambda: ends.append(opened_to_write(pipe)) or ends[-1] is not None)
    return ends[-1]


def interrupted(script):
    """A build that is interrupted ends the call. What it leaves isn't taken for the program, and the next call builds."""
    with project(script) as tried:
        pipe = tried.path("pipe")
        os.mkfifo(pipe)
        tried.rt(before="%sexec cat pipe\n" % tried.leave_program())
        call = tried.start()
        end = reader_of(pipe)
        os.killpg(call.pid, signal.SIGINT)
        expect("what an interrupted call prints", finish(call)[1], b"")
        os.close(end)
        tried.rt()
        expect("the next call", tried.run(), tried.built("5 of 10", "10 of 10"))


def on_a_terminal(script):
    """One line that is written again and again."""
    try:
        inner, outer = os.openpty()
    except OSError as error:
        print("%s: no pseudo-terminal, so that display isn't tried: %s" % (TEST, error))
        return
    with project(script) as tried:
        done = subprocess.run([tried.copy, "-"], input=b"text", stdout=subprocess.PIPE, stderr=outer, env=tried.environment(), timeout=LIMIT)
        os.close(outer)
        said = b""
        with contextlib.suppress(OSError):  # which is how the end of a terminal shows
            while True:
                said += os.read(inner, 4096)
        os.close(inner)
        line = "".join("\r%s: %d of 10 crates proved" % (script.name, count) for count in range(1, 11)) + "\n"
        found = done.returncode, done.stdout, said.decode().replace("\r\n", "\n")
        expect("on a terminal", found, (0, script.printed, tried.begins() + line))


def try_all(script, *parts):
    """What the scripts have in common, and parts of a script's own."""
    signal.signal(signal.SIGINT, signal.default_int_handler)  # which isn't so where this runs in the background
    subprocess.run([script.path, SEVENTH], stdout=subprocess.DEVNULL)  # which builds the program where a source is newer, and says so
    for part in (words, hints, standard_files, building, failing_builds, by_links, two_at_once, interrupted, on_a_terminal):
        part(script)
    for part in parts:
        part()


# the programs, which have no exit status


def by_shell(program, line):
    """What a program writes and says in a command line of bash, in which it is $0."""
    return run("bash", "-c", line, program, cwd=ROOT)[1:]


def read_errors(name, program):
    """A read that fails isn't the end of the sheet: nothing is written, and the reason is said."""
    unread = name + ": standard input can't be read: "
    expect("a directory", by_shell(program, '"$0" <.'), (b"", unread + "Is a directory\n"))
    expect("a closed input", by_shell(program, '"$0" <&-'), (b"", unread + "Bad file descriptor\n"))
    for sheet in (SEVENTH, CYCLE):
        reader, writer = os.pipe()
        os.set_blocking(reader, False)
        os.write(writer, content(sheet))
        due = b"", unread + "Resource temporarily unavailable\n"
        expect("a read that fails after a whole sheet", run(program, stdin=reader)[1:], due)
        os.close(reader)
        os.close(writer)


def write_errors(name, program):
    """A write that fails is told."""
    unwritten = name + ": standard output can't be written: "
    for output, said in ((">/dev/full", "No space left on device"), (">&-", "Bad file descriptor")):
        expect("a failed write", by_shell(program, '"$0" <examples/seventh.sheet ' + output), (b"", unwritten + said + "\n"))


def wait_for(process, letter):
    """Until a process sleeps (S) or is stopped (T)."""
    wait_until("state %s" % letter, lambda: content("/proc/%d/stat" % process.pid).decode().rsplit(")", 1)[1].split()[0] == letter)


def interrupted_read(program, sheet, due):
    """A read from a socket with a time limit fails where the program is stopped and goes on. It is tried again."""
    ours, theirs = socket.socketpair()
    theirs.setsockopt(socket.SOL_SOCKET, socket.SO_RCVTIMEO, struct.pack("ll", LIMIT, 0))
    process = start([program], stdin=theirs)
    theirs.close()
    try:
        ours.sendall(sheet[:40])
        for _ in range(3):
            wait_for(process, "S")
            process.send_signal(signal.SIGSTOP)
            wait_for(process, "T")
            process.send_signal(signal.SIGCONT)
        wait_for(process, "S")
        ours.sendall(sheet[40:])
        ours.close()
        expect("a sheet after reads that were interrupted", finish(process)[1:], due)
    finally:
        process.kill()
