#!/usr/bin/env python3
"""Runs the real program, bin/wickpollen, as people and cron do: signals, closed descriptors, full disks, files that must not be replaced, messages.

    python3 tests/program.py [NAME..]     all tests, or those whose names hold one of the words

Needs `rt run -- --version` in crates/wickpollen first, and Linux. Each test has a folder of its own; its last line is "N passed, 0 failed".
"""
import os, pty, resource, shutil, signal, stat, struct, subprocess, sys, tempfile, time

HERE = os.path.dirname(os.path.dirname(os.path.abspath(__file__)))
PROGRAM = os.path.join(HERE, "bin", "wickpollen")
EXAMPLES = os.path.join(HERE, "examples")
SHEET = os.path.join(EXAMPLES, "programmes.sheet")
OLD = b"yesterday's listing"
TESTS = []


def test(f):
    TESTS.append(f)
    return f


def expect(what, is_so):
    if not is_so:
        raise AssertionError(what)


def example(name):
    return os.path.join(EXAMPLES, name)


def read(path):
    with open(path, "rb") as f:
        return f.read()


def write(path, content):
    with open(path, "wb") as f:
        f.write(content)


def run(*words, program=PROGRAM, **more):
    """The exit status, standard output and standard error of a command."""
    p = subprocess.run([program, *words], stdout=subprocess.PIPE, stderr=subprocess.PIPE, timeout=300, **more)
    return p.returncode, p.stdout, p.stderr


def shell(line, **more):
    p = subprocess.run(["bash", "-c", line], stdout=subprocess.PIPE, stderr=subprocess.PIPE, timeout=300, **more)
    return p.returncode, p.stdout, p.stderr


def many(programmes):
    """A schedule of so many programmes."""
    one = b"<programme><start>2026-03-02T19:30</start><title>A title of some length</title></programme>\n"
    return b"<schedule>\n" + one * programmes + b"</schedule>\n"


class Stalled:
    """A conversion that stands in the middle: the schedule is a pipe, of which a part has been written and more is awaited."""

    def __init__(self, **more):
        write("listing", OLD)
        os.mkfifo("pipe")
        self.process = subprocess.Popen([PROGRAM, "convert", SHEET, "pipe", "listing"], stdout=subprocess.PIPE, stderr=subprocess.PIPE, **more)
        self.pipe = open("pipe", "wb", buffering=0)
        self.pipe.write(many(3000))  # more than three parts; the root's end tag makes what follows wrong, but it is never reached
        until(lambda: len(new_files()) == 1 and os.path.getsize(new_files()[0]) > 0)

    def end(self):
        out, err = self.process.communicate(timeout=60)
        self.pipe.close()
        return self.process.returncode, out, err


def until(holds, seconds=60):
    end = time.time() + seconds
    while not holds():
        expect("it came in time", time.time() < end)
        time.sleep(0.02)


def new_files():
    return [n for n in os.listdir(".") if n.startswith("listing.")]


def processes(word):
    """The processes of this test's folder that have the word in their command."""
    found = []
    for p in os.listdir("/proc"):
        if p.isdigit():
            try:
                if os.readlink(f"/proc/{p}/cwd") == os.getcwd() and word in read(f"/proc/{p}/cmdline"):
                    found.append(int(p))
            except OSError:
                pass
    return found


def unchanged():
    expect("the listing is as it was", read("listing") == OLD)
    expect("no new file is left", new_files() == [])


# ---- the exit status


@test
def the_number_is_the_exit_status():
    for words, number in [
        (["convert", SHEET, example("quiz.schedule"), "listing"], 0),
        (["convert", SHEET, example("half.schedule"), "listing"], 27),
        (["check", example("faults.sheet")], 8),
        (["check"], 101),
        (["check", "no such file"], 102),
        (["convert", SHEET, "no such file", "listing"], 102),
        (["--help"], 0),
        (["--version"], 0),
    ]:
        status, _, err = run(*words)
        expect(f"{words} gives {number}", status == number)
        expect("the last line is the number", err.splitlines()[-1] == b"wickpollen: %d" % number)
    expect("the listing is the example's", read("listing") == read(example("quiz.listing")))


@test
def closed_descriptors_change_no_status():
    for name, number in [("quiz", 0), ("half", 27)]:
        for closed in ["2>&-", ">&-", "<&-", "<&- >&- 2>&-", ">/dev/full", "2>/dev/full"]:
            write("listing", OLD)
            status, _, _ = shell(f'"{PROGRAM}" convert "{SHEET}" "{example(name)}.schedule" listing {closed}')
            expect(f"{name} with {closed} gives {number}, not {status}", status == number)
            expect("the listing is whole", read("listing") == (OLD if number else read(example("quiz.listing"))))
            expect("no new file is left", new_files() == [])


@test
def a_reader_that_goes_away_changes_no_status():
    for name, number in [("quiz", 0), ("half", 27)]:
        status, _, _ = shell(f'"{PROGRAM}" convert "{SHEET}" "{example(name)}.schedule" listing 2>&1 | true; exit "${{PIPESTATUS[0]}}"')
        expect(f"{number}, not {status}", status == number)


@test
def no_folder_for_temporary_files_is_needed():
    os.mkdir("tmp")
    for folder in ["/no such folder", "/dev/full", os.path.abspath("tmp")]:
        status, _, _ = run("convert", SHEET, example("quiz.schedule"), "listing", env={**os.environ, "TMPDIR": folder})
        expect(f"0 with TMPDIR={folder}", status == 0)
    expect("nothing is left there", os.listdir("tmp") == [])


@test
def standard_input_can_be_the_schedule():
    status, out, _ = run("try", SHEET, "/dev/stdin", stdin=open(example("quiz.schedule"), "rb"))
    expect("0", status == 0)
    expect("257 bytes", b"Bytes read: 257." in out)


@test
def progress_is_said_to_a_terminal():
    write("long", many(100000))
    master, slave = pty.openpty()
    p = subprocess.Popen([PROGRAM, "try", SHEET, "long"], stdout=subprocess.DEVNULL, stderr=slave)
    os.close(slave)
    said = b""
    try:
        while True:
            got = os.read(master, 4096)
            if not got:
                break
            said += got
    except OSError:
        pass
    expect("0", p.wait(300) == 0)
    expect("8 MB", b"8 MB converted" in said)


# ---- signals


@test
def a_signal_stops_the_program_and_leaves_nothing():
    for name in ["TERM", "INT", "HUP", "QUIT"]:
        number = getattr(signal, "SIG" + name)
        s = Stalled()
        s.process.send_signal(number)
        status, _, err = s.end()
        expect(f"{name} gives {128 + number}, not {status}", status == 128 + number)
        expect("the last line is the number", err.splitlines()[-1] == b"wickpollen: %d" % (128 + number))
        unchanged()
        expect("nothing runs on", processes(b"--tell") == [])
        os.unlink("pipe")


@test
def a_signal_to_the_whole_group_stops_it_too():
    for name in ["TERM", "INT", "HUP"]:
        number = getattr(signal, "SIG" + name)
        s = Stalled(start_new_session=True)
        os.killpg(s.process.pid, number)
        status, _, _ = s.end()
        expect(f"{name} gives {128 + number}, not {status}", status == 128 + number)
        unchanged()
        expect("nothing runs on", processes(b"--tell") == [])
        os.unlink("pipe")


@test
def a_signal_at_any_time_leaves_the_old_or_the_new_listing():
    write("long", many(4000))
    whole = None
    for k in range(24):
        write("listing", OLD)
        p = subprocess.Popen([PROGRAM, "convert", SHEET, "long", "listing"], stdout=subprocess.PIPE, stderr=subprocess.PIPE)
        time.sleep(0.02 * k)
        p.send_signal([signal.SIGTERM, signal.SIGINT, signal.SIGHUP][k % 3])
        p.communicate(timeout=60)
        until(lambda: processes(b"--tell") == [])
        if whole is None:
            expect("0", run("convert", SHEET, "long", "whole")[0] == 0)
            whole = read("whole")
        expect("the listing is the old one or the new one", read("listing") in (OLD, whole))
        expect(f"no new file is left by run {k}", new_files() == [])


@test
def a_program_that_dies_is_told():
    s = Stalled()
    for p in processes(b"--tell"):
        if b"/wickpollen\0--tell\0convert" in read(f"/proc/{p}/cmdline") and b"process $$" not in read(f"/proc/{p}/cmdline") and p != s.process.pid:
            os.kill(p, signal.SIGKILL)
    status, _, err = s.end()
    expect(f"104, not {status}", status == 104)
    expect("it is said", b"The program ended without an answer" in err)
    unchanged()


@test
def without_its_wrapper_the_program_puts_nothing_in_place():
    s = Stalled()
    s.process.kill()
    s.process.wait(60)
    s.pipe.write(b" " * 300000)
    s.pipe.close()
    until(lambda: processes(b"--tell") == [])
    unchanged()


# ---- what LISTING may be


def refused(listing, *says):
    status, _, err = run("convert", SHEET, "schedule", listing)
    expect(f"{listing} gives 102, not {status}", status == 102)
    for s in says:
        expect(f"{s!r} is said of {listing}", s in err)
    expect("no new file is left", [n for n in os.listdir(".") if "." in n] == [])


@test
def only_a_plain_file_is_replaced():
    shutil.copy(example("quiz.schedule"), "schedule")
    os.mkfifo("pipe")
    os.mkdir("folder")
    write("file", OLD)
    os.symlink("file", "link")
    os.symlink("nothing", "dangling")
    refused("/dev/null", b"device")
    expect("/dev/null is a device", stat.S_ISCHR(os.stat("/dev/null").st_mode))
    refused("/dev/stdout")
    refused("pipe", b"pipe")
    expect("the pipe is a pipe", stat.S_ISFIFO(os.stat("pipe").st_mode))
    refused("folder", b"folder")
    refused("link", b"link")
    refused("dangling", b"link")
    expect("the links are links", os.readlink("link") == "file" and os.readlink("dangling") == "nothing")
    expect("the file is as it was", read("file") == OLD)


@test
def what_is_read_is_not_replaced():
    shutil.copy(example("quiz.schedule"), "schedule")
    shutil.copy(SHEET, "sheet")
    os.link("schedule", "schedule-too")
    for listing in ["schedule", "./schedule", "schedule-too"]:
        status, _, err = run("convert", "sheet", "schedule", listing)
        expect("102 for the schedule", status == 102 and b"this is the schedule" in err)
    status, _, err = run("convert", "sheet", "schedule", "sheet")
    expect("102 for the sheet", status == 102 and b"this is the rule sheet" in err)
    expect("both are as they were", read("schedule") == read(example("quiz.schedule")) and read("sheet") == read(SHEET))


@test
def what_a_message_tells_mends_the_case():
    shutil.copy(example("quiz.schedule"), "schedule")
    os.mkdir("folder")
    write("file", OLD)
    os.symlink("file", "link")
    expect("a file in the folder", run("convert", SHEET, "schedule", "folder/listing")[0] == 0)
    expect("the file that the link leads to", run("convert", SHEET, "schedule", "file")[0] == 0)
    expect("the link leads to the listing", read("link") == read(example("quiz.listing")))


@test
def trying_writes_nothing_and_says_the_same():
    for name in ["quiz", "half", "damaged", "twice", "after"]:
        before = sorted(os.listdir("."))
        tried = run("try", SHEET, example(name + ".schedule"))
        expect("nothing was written", sorted(os.listdir(".")) == before)
        converted = run("convert", SHEET, example(name + ".schedule"), "listing")
        expect("the same number", tried[0] == converted[0])
        if tried[0]:
            said = converted[1].splitlines()
            expect("the same words", tried[1].splitlines() == said[:-1] and said[-1].startswith(b"Nothing was put in place"))
        if os.path.exists("listing"):
            os.unlink("listing")


@test
def a_full_disk_changes_nothing():
    write("long", many(4000))
    write("listing", OLD)
    status, out, err = run("convert", SHEET, "long", "listing", preexec_fn=lambda: resource.setrlimit(resource.RLIMIT_FSIZE, (70000, 70000)))
    expect(f"102, not {status}", status == 102)
    expect("it is said", b"listing: File too large" in err and b"Nothing was put in place" in out)
    unchanged()


@test
def a_full_small_disk_changes_nothing():
    os.mkdir("disk")
    if os.getuid() != 0 or subprocess.run(["mount", "-t", "tmpfs", "-o", "size=64k", "tmpfs", "disk"], stderr=subprocess.DEVNULL).returncode:
        return  # only root can have one
    try:
        write("long", many(4000))
        write("disk/listing", OLD)
        status, _, err = run("convert", SHEET, "long", "disk/listing")
        expect(f"102, not {status}", status == 102)
        expect("it is said", b"No space left on device" in err)
        expect("nothing else is there", os.listdir("disk") == ["listing"] and read("disk/listing") == OLD)
    finally:
        subprocess.run(["umount", "disk"], check=True)


# ---- damaged records


def salvaged(schedule, number):
    """What is said of a schedule, given as bytes, whose damaged records are dropped; the number is the exit status and the last line."""
    write("schedule", schedule)
    write("listing", OLD)
    status, out, err = run("convert", "--salvage", SHEET, "schedule", "listing")
    expect(f"{number}, not {status}", status == number)
    expect("the last line is the number", err.splitlines()[-1] == b"wickpollen: %d" % number)
    expect("no new file is left", new_files() == [])
    return out


def converted(schedule):
    """The listing of a schedule that is not damaged."""
    write("whole", schedule)
    expect("it is whole", run("convert", SHEET, "whole", "whole listing")[0] == 0)
    return read("whole listing")


ONE = b"<programme><start>%d</start><title>Title %d</title></programme>\n"
DAMAGED = b"<programme><start>%d</start>\n<title>Lost %d</titel>\n</programme>\n"


def day(records):
    return b"<schedule>\n" + b"".join(records) + b"</schedule>\n"


@test
def a_damaged_programme_is_dropped_and_the_day_is_served():
    out = salvaged(read(example("damaged.schedule")), 103)
    expect("the lines, the number and the first words", b"Dropped: <programme>\\x0a    <start>19:00" in out and b"lines 6 to 8, 79 bytes after the first 99; number 23: " in out)
    expect("how many were kept", b"Programmes kept: 1.\n" in out)
    expect("the listing is in place", read("listing") == "<schedule><programme><start>18:00</start><title>Caf\u00e9 at six</title></programme></schedule>".encode())
    out = salvaged(read(example("evening.schedule")), 103)
    expect("the titles", b"Dropped: Evening news & weather\n  lines 3 to 7, " in out and b"Dropped: Late film\n  line 9, " in out)
    expect("how many were kept", b"Programmes kept: 3.\n" in out)


@test
def where_nothing_is_damaged_all_is_as_without_salvage():
    out = salvaged(read(example("quiz.schedule")), 0)
    expect("the listing is the example's", read("listing") == read(example("quiz.listing")))
    expect("the same words", out == run("convert", SHEET, "schedule", "listing")[1])
    status, _, err = run("convert", "--salvage", SHEET, "schedule", "listing", "--progress")
    expect("with --progress", status == 0)
    expect("a file too few", run("convert", "--salvage", SHEET, "schedule")[0] == 101)


@test
def half_a_file_and_damage_between_programmes_are_refused():
    for name, number, says in [
        ("half", 27, b"Dropped: This&\n  lines 2 to 4, 64 bytes after the first 13; number 27: "),
        ("between", 22, b"Refused after 86 bytes, at line 3, column 3. "),
        ("after", 26, b"Refused after 223 bytes, at line 2, column 1. "),
    ]:
        out = salvaged(read(example(name + ".schedule")), number)
        expect(f"{name}: {says}", says in out and b"Nothing was put in place" in out)
        unchanged()
    expect("an empty file", b"the root of a schedule is <schedule>" in salvaged(b"", 27))
    out = salvaged(b"<schedule>\n<programme><start>1</start></programme>\n", 27)
    expect("between two programmes", b"Dropped" not in out and b"Open there, from the outside in: <schedule> (line 1)\n" in out)


@test
def a_sheet_of_another_shape_is_refused():
    write("listing", OLD)
    status, out, _ = run("convert", "--salvage", example("schedule.sheet"), example("quiz.schedule"), "listing")
    expect(f"34, not {status}", status == 34)
    expect("it is said", b"schedule.sheet: number 34.\n" in out)
    unchanged()


@test
def a_full_room_outside_a_programme_is_told_as_such():
    prints = b"; ".join([b'print "' + b"&" * 255 + b'"'] * 63)  # 80,325 bytes as they are written
    for rules, says in [
        (b"n0 ::= {%s} r(n1*)\nn1 ::= a()\n" % prints, b"Here the room is 65536 bytes"),
        (b"n0 ::= r(n1*) {%s}\nn1 ::= a()\n" % prints, b"Here the room is 65536 bytes"),
        (b"n0 ::= r(n1*)\nn1 ::= {%s} a()\n" % prints, b"Here a programme waits"),
    ]:
        write("wide.rules", rules)
        write("wide.schedule", b"<r><a></a></r>")
        write("listing", OLD)
        status, out, _ = run("convert", "--salvage", "wide.rules", "wide.schedule", "listing")
        expect(f"17 and {says}, not {status}: {out}", status == 17 and says in out)
        unchanged()


@test
def lines_and_counts_do_not_depend_on_where_a_part_ended():
    for ending in [b"\n", b"\r\n", b"\r"]:
        for shift in range(0, 40, 13):
            records = [ONE % (n, n) for n in range(3000)]
            records[0] = b" " * shift + records[0]
            lost = [700, 701, 1400, 2999]
            whole = [r for n, r in enumerate(records) if n not in lost]
            for n in lost:
                records[n] = DAMAGED % (n, n)
            out = salvaged(day(records).replace(b"\n", ending), 103)
            expect("the listing is that of the others", read("listing") == converted(day(whole)))
            line = 2
            for n, r in enumerate(records):
                if n in lost:
                    expect(f"record {n} with {ending!r}", b"Dropped: Lost %d\n  lines %d to %d, " % (n, line, line + 2) in out)
                line += r.count(b"\n")
            expect("how many were kept", b"Programmes kept: 2996.\n" in out)


@test
def a_schedule_from_a_pipe_has_its_bytes_told():
    write("listing", OLD)
    status, out, _ = shell(f'cat "{example("evening.schedule")}" | "{PROGRAM}" convert --salvage "{SHEET}" /dev/stdin listing')
    expect(f"103, not {status}", status == 103)
    expect("the bytes", b"Dropped: 142 bytes after the first 86; number 20: " in out and b"Dropped: 58 bytes after the first 304; number 23: " in out)
    expect("the listing is in place", b"Night music" in read("listing"))


@test
def first_words_cut_no_character():
    for before, shown in [(38, "x" * 38 + "\u00e9"), (39, "x" * 39), (40, "x" * 40)]:
        title = ("x" * before + "\u00e9" + "y" * 9).encode()
        out = salvaged(day([b"<programme><start>1</start><title>" + title + b"</titel></programme>\n"]), 103)
        expect(f"{before} before it", b"Dropped: " + shown.encode() + b" ..\n" in out)


@test
def what_has_no_room_is_told():
    out = salvaged(day([DAMAGED % (n, n) for n in range(2730)]), 103)
    expect("2730 stretches", out.count(b"Dropped: ") == 2730 and b"Programmes kept: 0.\n" in out)
    out = salvaged(day([DAMAGED % (n, n) for n in range(2731)]), 17)
    expect("one more", b"Here at most 2730 stretches can be dropped" in out)
    unchanged()
    out = salvaged(day([b"<programme><start>1</start><title>%s</title></programme>" % (b"x" * 65536)]), 17)
    expect("a programme that is too long to wait", b"65536 bytes of its listing can wait" in out)
    unchanged()


@test
def what_is_read_is_not_replaced_by_salvage_either():
    shutil.copy(example("damaged.schedule"), "schedule")
    os.symlink("schedule", "link")
    for listing in ["schedule", "link", "."]:
        status, _, err = run("convert", "--salvage", SHEET, "schedule", listing)
        expect(f"{listing}: 102, not {status}", status == 102)
    expect("the schedule is as it was", read("schedule") == read(example("damaged.schedule")))


# ---- messages


def told(schedule, number):
    """What is said of a schedule that is refused with this number."""
    write("schedule", schedule)
    status, out, _ = run("try", SHEET, "schedule")
    expect(f"{schedule!r} gives {number}, not {status}", status == number)
    return out


def programme(rest):
    return b"<schedule><programme><start>now</start>" + rest + b"</programme></schedule>"


@test
def what_is_no_token_is_named():
    for text, says in [
        (b'<b class="x">', b"a tag with an attribute"),
        (b"<b =>", b"a tag with something in it"),
        (b"</b x>", b"a tag with an attribute"),
        (b"<!-- x -->", b"a comment"),
        (b"<![CDATA[x]]>", b"a CDATA section"),
        (b"<!DOCTYPE x>", b"a declaration"),
        (b"<?xml version='1.0'?>", b"an XML declaration"),
        (b"< b", b"a < that starts no tag"),
        (b"Tom & Jerry", b"a bare &"),
        (b"&nbsp;", b"no reference that schedules have"),
        (b"&#xD800;", b"a reference by a number"),
        (b"a > b", b"a bare >"),
        (b"a\x01b", b"a control character"),
        (b"caf\xe9 au lait", b"no character in UTF-8"),
    ]:
        out = told(programme(b"<title>" + text + b"</title>"), 20)
        expect(f"{says!r} is said of {text!r}", says in out)


@test
def what_to_write_instead_mends_the_case():
    for text in [b"Tom &amp; Jerry", b"a &gt; b", b"&lt; b", "\u00e9".encode()]:
        write("schedule", programme(b"<title>" + text + b"</title>"))
        expect(f"{text!r} is taken", run("try", SHEET, "schedule")[0] == 0)


@test
def a_fault_is_shown_by_two_atoms_and_the_sign():
    status, out, _ = run("check", example("places.sheet"))
    expect(f"places.sheet gives 9, not {status}", status == 9)
    for says in [
        b"<title> could be [1 n2 <title>] or [2 n5 <title>]; the two part at the \"or\" of [1 n2 <title>] or [2 n5 <title>], which may go left or right\n",
        b"a character could be [1 any character] or [3 any character]; the two part at the * of [1 any character]*, which may go round or end\n",
    ]:
        expect(f"{says!r} is said", says in out)


@test
def a_fault_is_shown_by_a_shortest_input():
    for text, inputs in [
        # the shorter side of a union, the left one of two that are as short, no turn of a star
        ("n0 ::= r((n1.n1|n2).n3*.n3*)\nn1 ::= b()\nn2 ::= c(n1)\nn3 ::= d()\nn3 ::= a(n1)\n",
         {2: "<r><b/><b/>", 3: "<r><c>..</c>", 4: "<r><c>..</c><d/>"}),
        ("n0 ::= r((n1|n2).CHAR*.CHAR*)\nn1 ::= b()\nn2 ::= c()\n", {1: "<r><b/>", 2: "<r><c/>", 3: "<r><b/>x"}),
        # the lowest tag of a nonterminal, and the first production of those
        ("n0 ::= r(n1*.n1*)\nn1 ::= r()\nn1 ::= b()\nn1 ::= b(n1)\nn1 ::= r(n1)\n", {0: "<r>", 1: "<r><r/>"}),
    ]:
        write("a.rules", text.encode())
        _, out, _ = run("check", "a.rules")
        for place, shown in shown_inputs(out.decode(), 0):
            expect(f"{shown!r} at place {place} of {text!r}", inputs.get(place) == shown)
        expect(f"each of these places of {text!r}", {place for place, _ in shown_inputs(out.decode(), 0)} == set(inputs))


def shown_inputs(out, production):
    """The place of each fault of rule S that is told of a production, and the input that it is shown by."""
    said = out.splitlines()
    entries = [(line.rpartition(" [9 ")[2][:-1].split(), said[i + 1]) for i, line in enumerate(said) if line.startswith("- production ")]
    head = "  shortest input up to there: "
    expect("each fault has its input", all(line.startswith(head) for _, line in entries))
    return [(int(place), line[len(head):]) for (q, place, _), line in entries if int(q) == production]


@test
def no_input_up_to_a_place_is_shorter():
    """A second way to find them: breadth first over which atom may follow which."""
    import random
    random = random.Random(11)
    kinds = {"n1": "1", "n2": "2", "CHAR": "x"}

    def part(deep, atoms):
        """The text of an expression, whether it can be empty, its first and its last atoms, and which follow which."""
        if deep == 0 or random.random() < 0.15:
            kind = random.choice([*kinds, "EMPTY"])
            if kind == "EMPTY":
                return kind, True, set(), set(), set()
            atoms.append(kind)
            return kind, False, {len(atoms)}, {len(atoms)}, set()
        text, empty, first, last, after = part(deep - 1, atoms)
        sign = random.choice(".|.|*")
        if sign == "*":
            return f"({text})*", True, first, last, after | {(a, b) for a in last for b in first}
        text2, empty2, first2, last2, after2 = part(deep - 1, atoms)
        both = after | after2
        if sign == "|":
            return f"({text}|{text2})", empty or empty2, first | first2, last | last2, both
        return (f"({text}.{text2})", empty and empty2, first | (first2 if empty else set()), last2 | (last if empty2 else set()),
                both | {(a, b) for a in last for b in first2})

    told = 0
    for _ in range(60):
        atoms = []
        text, _, first, _, after = part(3, atoms)
        write("a.rules", f"n0 ::= r({text})\nn1 ::= b(n1)\nn2 ::= c()\n".encode())
        _, out, _ = run("check", "a.rules")
        far = {a: 1 for a in first}
        for steps in range(2, 40):
            far.update({b: steps for a, b in after if far.get(a) == steps - 1 and b not in far})
        for place, shown in shown_inputs(out.decode(), 0):
            row = shown[len("<r>"):].replace("<b>..</b>", "1").replace("<c/>", "2")
            expect(f"{shown!r} is as short as any, in {text!r}", shown.startswith("<r>") and len(row) == far.get(place, 0))
            here = {0}
            for kind in row:
                here = {b for a, b in after | {(0, b) for b in first} if a in here and kinds[atoms[b - 1]] == kind}
            expect(f"{shown!r} leads to place {place} of {text!r}", place in here)
            told += 1
    expect(f"many were told, not {told}", told > 50)


# ---- declarations of a DTD


DECLARATIONS = [
    (b"<!ELEMENT r (a,b?)>\n<!ELEMENT a EMPTY>\n<!ELEMENT b (#PCDATA|a)*>\n", 0, b"n0\nn0 ::= r(n1.(n2|EMPTY))\nn1 ::= a()\nn2 ::= b((CHAR|n1)*)\n"),
    (b"<!ELEMENT name (year,title,author+)>", 7, b"n0\nn0 ::= name(n1.n2.(n3.n3*))\n"),
    (b"<!ELEMENT r EMPTY><!ELEMENT r EMPTY>", 8, b"n0\nn0 ::= r()\nn0 ::= r()\n"),
    (b"<!ELEMENT r (r*)?>", 9, b"n0\nn0 ::= r(n0*|EMPTY)\n"),
]


@test
def declarations_are_printed_as_rules():
    for dtd, number, text in DECLARATIONS:
        write("d.dtd", dtd)
        status, out, err = run("models", "d.dtd")
        expect(f"{dtd}: {status} {out} {err}", status == number and out == text and err.endswith(b"wickpollen: %d\n" % number))
        write("d.rules", out)
        expect(f"{dtd}: its rules", run("check", "d.rules")[0] == number)


@test
def a_name_that_is_not_declared_is_said():
    write("d.dtd", DECLARATIONS[1][0])
    err = run("models", "d.dtd")[2]
    for name in (b"year", b"title", b"author"):
        expect(f"{name} in {err}", name in err)


@test
def rules_that_cannot_be_printed_are_told():
    """`print` and `models` write to standard output: where that is full, the rules are not there."""
    for words in (["print", SHEET], ["models", example("partner.dtd")]):
        status, _, err = shell(f"'{PROGRAM}' {words[0]} '{words[1]}' >/dev/full")
        expect(f"{words}: {status} {err}", status == 102 and b"standard output" in err)


@test
def rules_are_written_and_printed():
    status, text, _ = run("print", SHEET)
    expect("printed", status == 0)
    write("p.rules", text)
    expect("written", run("write", "p.rules", "p.sheet")[0] == 0)
    expect("printed again", run("print", "p.sheet")[1] == text)
    status, _, _ = shell(f"cat p.rules | '{PROGRAM}' write /dev/stdin piped.sheet")
    expect("a pipe is read once", status == 0 and read("piped.sheet") == read("p.sheet"))
    write("p.sheet", OLD)
    expect("rules with faults are not written", run("write", example("faults.rules"), "p.sheet")[0] == 8 and read("p.sheet") == OLD)


# rules that are refused, the number, a word of what is told, and how it is mended
REFUSED_RULES = [
    (read(os.path.join(EXAMPLES, "typo.rules")), 40, b"There may stand", read(os.path.join(EXAMPLES, "typo.rules")).replace(b"reject;", b"reject")),
    (b"n0n0 ::= a()", 40, b"white space between two words", b"n0 n0 ::= a()"),
    (b"n0 ::= {if $.a0 = 1then reject} a()", 40, b"white space between two words", b"n0 ::= {if $.a0 = 1 then reject} a()"),
    (b"n0 ::= abcdefghijklmnop()", 40, b"at most 15 bytes", b"n0 ::= abcdefghijklmno()"),
    (b"n0 ::= a(" + b".".join([b"n1"] * 13) + b") n1 ::= b()", 40, b"12 deep", b"n0 ::= a((n1.n1.n1.n1.n1.n1.n1).(n1.n1.n1.n1.n1.n1)) n1 ::= b()"),
    (b"n0 ::= {print " + b"".join(b"<t%d>" % i for i in range(64)) + b"} a()", 41, b"at most 64 different tags", b"n0 ::= {print " + b"".join(b"<t%d>" % i for i in range(63)) + b"} a()"),
]


@test
def rules_that_are_refused_are_told_and_can_be_mended():
    for rules, number, words, mended in REFUSED_RULES:
        write("r.rules", rules)
        status, out, _ = run("check", "r.rules")
        expect(f"{rules[:40]}: {status} {out}", status == number and words in out and b"What stands there is marked" in out)
        write("r.rules", mended)
        expect(f"{mended[:40]} passes", run("check", "r.rules")[0] == 0)


@test
def rules_that_are_too_long_are_told():
    start = b"n0 ::= a()\n#"
    for more, number in ((262144 - len(start), 0), (262145 - len(start), 102)):
        write("long.rules", start + b"x" * more)
        status, out, err = run("check", "long.rules")
        expect(f"{more}: {status} {out[:200]} {err[:200]}", status == number and (b"at most 262144 bytes" in out) == (number == 102))


@test
def declarations_that_are_refused_print_nothing():
    before = b"<!ELEMENT r EMPTY>\n"
    for dtd, number, column in [
        (b"<!ELEMENT a ANY>", 50, 13), (b"<!ENTITY x 'y'>", 51, 4), (b"<!ELEMENT a (%x;)>", 51, 14), (b"<!ATTLIST a b CDATA #IMPLIED>", 52, 3),
        (b"<!ELEMENT a ((((b)+)+)+)+>", 53, 25), (b"<!ELEMENT a (b,b,b,b,b,b,b,b,b,b,b,b,b)>", 54, 37), (b"<!-- a comment -->", 55, 3), (b"<!ELEMENT a (b", 55, 15), (b"<!ELEMENT a EMPTY>" * 64, 56, 18 * 64),
    ]:
        write("d.dtd", before + dtd)
        status, out, err = run("models", "d.dtd")
        expect(f"{dtd[:40]}: {status} {out} {err}", status == number and out == b"" and b"line 2, column %d" % column in err and err.endswith(b"wickpollen: %d\n" % number))


@test
def declarations_written_as_told_pass():
    """The models that `models` and the README say to write in place of others."""
    names = [b"n%d" % i for i in range(16)]
    fours = b"((" + b"),(".join(b",".join(names[i:i + 4]) for i in range(0, 16, 4)) + b"))"
    for model, number, instead in [
        (b"(n0*)?", 9, b"(n0*)"), (b"(n0?)*", 9, b"(n0*)"), (b"(n0+)+", 9, b"(n0+)"), (b"(n0+)*", 9, b"(n0*)"), (b"(n0*)+", 9, b"(n0*)"), (b"(n0?,n1?)?", 9, b"(n0?,n1?)"), (b"(n0*,n1*)*", 9, b"(n0|n1)*"),
        (b"(n0?|n1?)", 9, b"(n0|n1)?"), (b"(n0*|n1*)", 9, b"(n0+|n1+)?"), (b"(n0*,n0)", 9, b"(n0+)"), (b"(n0?,n0)", 9, b"(n0,n0?)"), (b"((n0,n1)|(n0,n2))", 9, b"(n0,(n1|n2))"),
        (b"(#PCDATA|n0|n0)*", 9, b"(#PCDATA|n0)*"), (b"(" + b",".join(names) + b")", 54, fours), (b"((((n0)+)+)+)+", 53, b"(n0+)"), (b"ANY", 50, b"(#PCDATA|n0|n1)*"),
    ]:
        for content, status in ((model, number), (instead, 0)):
            write("d.dtd", b"<!ELEMENT r %s>" % content + b"".join(b"<!ELEMENT %s EMPTY>" % name for name in names))
            expect(f"{content}", run("models", "d.dtd")[0] == status)


@test
def a_byte_order_mark_is_named():
    out = told(b"\xef\xbb\xbf" + programme(b""), 23)
    expect("it is named", b"byte order mark" in out and b"\\xef\\xbb\\xbf" in out)


@test
def nothing_shown_can_be_taken_for_another_byte():
    out = told(programme("<titel>\u00e9 \\x41 \u202e \x7f".encode()), 23)
    expect("characters, and others by number", "<start>now</start><titel>\u00e9 \\\\x41 \\xe2\\x80\\xae \\x7f</programme> ..\n".encode() in out)


# what Unicode says to show nothing for (Default_Ignorable_Code_Point), and with 2028 to 202F line and paragraph ends and the narrow no-break space
UNSEEN = [(0xAD, 0xAD), (0x34F, 0x34F), (0x61C, 0x61C), (0x115F, 0x1160), (0x17B4, 0x17B5), (0x180B, 0x180F), (0x200B, 0x200F), (0x2028, 0x202F), (0x2060, 0x206F), (0x3164, 0x3164),
          (0xFE00, 0xFE0F), (0xFEFF, 0xFEFF), (0xFFA0, 0xFFA0), (0xFFF0, 0xFFF8), (0x1BCA0, 0x1BCA3), (0x1D173, 0x1D17A), (0xE0000, 0xE0FFF)]


@test
def what_shows_nothing_is_shown_by_number():
    for first, last in UNSEEN:
        seen, unseen = chr(first - 1) + chr(last + 1), chr(first) + chr(last)
        out = told(programme(("<titel>" + seen + unseen).encode()), 23)
        by_number = b"".join(b"\\x%02x" % b for b in unseen.encode())
        expect(f"{first:x} to {last:x}, and not those beside them", b"<titel>" + seen.encode() + by_number + b"</pro" in out)


def marked(out):
    """The line that is shown, and how many columns come before the mark."""
    lines = out.decode().splitlines()
    at = next(i for i, line in enumerate(lines) if line.endswith("What stands there is marked:"))
    expect("the mark", lines[at + 2].strip(" ") == "^")
    return lines[at + 1], len(lines[at + 2]) - 1


@test
def what_was_refused_is_marked_in_its_line():
    line, column = marked(told(b"<schedule>\n<programme>\r\n<start>now</start>\t<titel>x</titel></programme></schedule>", 23))
    expect("the line", line == "<start>now</start>\\x09<titel>x</titel></programme></sc ..")
    expect("the mark", line[column:].startswith("<titel>"))
    line, column = marked(told(b"<schedule><programme><start>" + 30 * "\u00e9".encode() + b"x</start><titel/>", 23))
    expect("a long line is cut at a character", line.startswith(".. \u00e9\u00e9") and line[column:].startswith("<titel/>"))


@test
def the_line_before_a_place_is_marked_where_something_is_left_out():
    for before in range(44, 54):
        for first in [b"", b"<schedule>\n", b"<schedule>\r\n", b"<schedule>\r"]:
            start = b"<programme><start>" if first else b"<schedule><programme><start>"
            line = start + b"x" * (before - len(start) - 8) + b"</start>"
            shown = line.decode() if before <= 48 else ".. " + line.decode()[-48:]
            expect(f"{before} bytes behind {first!r}", marked(told(first + line + b"<titel/>", 23)) == (shown + "<titel/>", len(shown)))
        for first in ["", "n1 ::= s()\n", "n1 ::= s()\r\n", "n1 ::= s()\r"]:
            line = "n0 ::= r(" + " " * (before - 9)
            shown = line if before <= 48 else ".. " + line[-48:]
            expect(f"{before} bytes of rules behind {first!r}", marked(checked(first + line + "!", 40).encode()) == (shown + "!", len(shown)))


@test
def a_line_of_rules_is_shown_up_to_its_end():
    for end in ["\n", "\r\n", "\r"]:
        out = checked(end.join(["n0 ::= r(!)", "n1 ::= s()", ""]), 40)
        expect(f"the first line with {end!r}", "at line 1, column 10." in out and marked(out.encode()) == ("n0 ::= r(!)", 9))
        out = checked(end.join(["n0 ::= r()", "n1 ::= s(!)", "n2 ::= t()"]), 40)
        expect(f"the second line with {end!r}", "at line 2, column 10." in out and marked(out.encode()) == ("n1 ::= s(!)", 9))


@test
def a_line_of_rules_is_cut_at_a_character():
    for character in ["\u00e9", "\u20ac", "\U0001f600"]:
        for before in range(26, 33):
            rest = "!" + "x" * before + character + "y" * 40
            shown = max((rest[:n] for n in range(len(rest)) if len(rest[:n].encode()) <= 32), key=len)
            expect(f"{before} before {character}", marked(checked("n0 ::= r(" + rest, 40).encode()) == ("n0 ::= r(" + shown, 9))


@test
def what_is_shown_does_not_depend_on_where_a_part_ended():
    after = b"<programme><start>now</start><titel>Evening news and more</titel></programme></schedule>"
    for start in range(65536 - 75, 65536 + 2):
        out = told(b"<schedule>" + b" " * (start - 10) + after, 23)
        line, column = marked(out)
        expect(f"the bytes from {start} on", line[column:] == "<titel>Evening news and more</ti ..")
        expect("the bytes before", line[:column].endswith("<programme><start>now</start>"))


@test
def the_lines_on_which_the_open_elements_began_are_said():
    out = told(b"<schedule>\n\n<programme>\r\n<start>now</start>\r<title>x\n</programme></schedule>", 22)
    expect("22", b"from the outside in: <schedule> (line 1) <programme> (line 3) <title> (line 5)\n" in out)
    out = told(b"\n<schedule>\n<programme><start/></programme><programme\n><start\n></start>", 27)
    expect("27", b"from the outside in: <schedule> (line 2) <programme> (line 3)\n" in out)
    start = b"\n<schedule>" + b"\n<programme><start>now</start></programme>" * 3000
    out = told(start + b"\n<programme>\n<start>", 27)
    expect("in a later part", b"<schedule> (line 2) <programme> (line 3003) <start> (line 3004)\n" in out)


@test
def what_may_come_is_listed():
    for schedule, number, says in [
        (b"<schedule><film/></schedule>", 23, b"Here may come: <programme> or the end of <schedule>.\n"),
        (b"<schedule><programme><title/></programme></schedule>", 23, b"Here may come: <start>.\n"),
        (programme(b"<titel/>"), 23, b"Here may come: <title> or <people> or <description> or the end of <programme>.\n"),
        (programme(b"<title>x<b/></title>"), 23, b"Here may come: a character or the end of <title>.\n"),
        (programme(b"<title>x</people>"), 22, b"Here may come: a character or the end of <title>.\n"),
        (b"<schedule><programme>", 27, b"Here may come: <start>.\n"),
    ]:
        out = told(schedule, number)
        expect(f"{says!r} is said of {schedule!r}", says in out)


@test
def the_program_that_rejects_is_named():
    out = told(read(example("twice.schedule")), 25)
    expect("the program of an element", b"What rejected: the program in front of <title>, of production 3 (n3 <title>).\n" in out)
    for rules, schedule, says in [
        (b"n0 ::= list(n1*) {if $.a0 = 2 then reject}\nn1 ::= {$.a0 := 2} item()", b"<list><item/></list>", b"behind <list>, of production 0 (n0 <list>)"),
        (b"n0 ::= list(n1*)\nn1 ::= item() {reject}", b"<list><item/></list>", b"behind <item>, of production 1 (n1 <item>)"),
        (b"n0 ::= {reject} list(n1*)\nn1 ::= item()", b" <list><item/></list>", b"in front of <list>, of production 0 (n0 <list>)"),
        (b"n0 ::= list(({reject} n1*).n2)\nn1 ::= item()\nn2 ::= last()", b"<list><item/></list>", b"in front of [1 n1 <item>]*, in production 0 (n0 <list>)"),
        (b"n0 ::= list((n1* {reject}).n2)\nn1 ::= item()\nn2 ::= last()", b"<list><item/><last/></list>", b"behind [1 n1 <item>]*, in production 0 (n0 <list>)"),
        (b"n0 ::= list(({reject} n1)|({reject} n2))\nn1 ::= item()\nn2 ::= last()", b"<list><last/></list>", b"in front of [2 n2 <last>], in production 0 (n0 <list>)"),
        (b"n0 ::= list({reject} CHAR*)", b"<list>x</list>", b"in front of [1 any character]*, in production 0 (n0 <list>)"),
    ]:
        write("rules", rules)
        write("schedule", schedule)
        status, out, _ = run("try", "rules", "schedule")
        expect(f"25, not {status}, of {rules!r}", status == 25)
        expect(f"{says!r} is said of {rules!r}", b"What rejected: the program " + says + b".\n" in out)


def damaged(at, byte):
    sheet = bytearray(read(example("schedule.sheet")))
    sheet[at] = byte
    write("sheet", sheet)
    status, out, _ = run("check", "sheet")
    return status, out


@test
def the_first_wrong_record_is_named():
    size = len(read(example("schedule.sheet")))
    for at, byte, number, says in [
        (size - 1, 0, 2, b"the mark, from byte 236 of the file on"),
        (size - 22, 6, 2, b"the offset of the productions, from byte 218 of the file on (counted from 0): it is 80, and has to be 96."),
        (32, 0, 3, b"tag 2, from byte 32 of the file on"),
        (33, ord("1"), 3, b"tag 2, from byte 32 of the file on"),
        (80 + 12 + 5, 1, 4, b"production 1, from byte 92 of the file on"),
        (size - 4, 64, 4, b"the start, in the trailer, is 64"),
        (140 + 12, 6, 5, b"the expression of production 1, from byte 92 of the file on"),
        (212, 99, 6, b"The first wrong program is the one at 0 of the programs, which start at byte 212"),
        (80 + 6, 1, 6, b"a program field of production 0, from byte 80 of the file on"),
        (140 + 7, 9, 7, b"Nonterminal 9 has no production. The first wrong one is node 1, from byte 146 of the file on"),
        (size - 4, 9, 7, b"Nonterminal 9 has no production. It is the start"),
    ]:
        status, out = damaged(at, byte)
        expect(f"byte {at} as {byte} gives {number}, not {status}", status == number)
        expect(f"{says!r} is said, not {out!r}", says in out)


@test
def strings_that_are_too_long_are_told():
    def sheet(count, length):
        """A sheet with so many bytes of strings, of which the trailer says that they are `length`."""
        front = b"\x01a" + bytes(14) + bytes(6) + b"\xff" * 4 + bytes(2)
        return front + b"a" * count + struct.pack("<12H", 0, 1, 16, 1, 28, 0, 28, 0, 28, length, 0, 21336)

    too_many = b"from byte 28 of the file on (counted from 0), there are 8193 bytes: they are the strings, and strings have at most 8192.\n"
    for count, length, number, says in [
        (8193, 8193, 2, too_many),
        (8193, 0, 2, too_many),
        (8192, 8193, 2, b"the length of the strings, from byte 8238 of the file on (counted from 0): it is 8193, and has to be 8192.\n"),
        (8192, 8192, 0, b"The sheet passes"),
    ]:
        write("sheet", sheet(count, length))
        status, out, _ = run("check", "sheet")
        expect(f"{count} as {length} gives {number}, not {status}", status == number)
        expect(f"{says!r} is said, not {out!r}", says in out)


# ---- rules typed as text: a fault is told with its line and column, and a mark stands under its sign


SIGNS = """# signs in a comment: * | . n1 "
n0 ::= {print "\u00e9*|" <a/>} a(({print "(n1|n2)*"} n1|EMPTY)* {print "*"}) # *
n1 ::= b(n2
  |n3)
n2 ::= c(CHAR*)
n3 ::= c()
"""


def checked(text, number):
    """What is said of rules that are typed as this text."""
    write("a.rules", text.encode())
    status, out, _ = run("check", "a.rules")
    expect(f"{number}, not {status}: {out!r}", status == number)
    return out.decode()


def pointed(text, out):
    """Of each place that is told: the words before it, the place in the text by its line and column, and the character above the mark."""
    lines = text.replace("\r\n", "\n").split("\n")
    said = out.splitlines()
    found = []
    for i, line in enumerate(said):
        words, _, place = line.rpartition(" line ")
        if line.endswith(":") and ", column " in place and i + 2 < len(said) and said[i + 2].strip() == "^":
            number, column = map(int, place[:-1].split(", column "))
            mark = said[i + 2].index("^")
            expect("the mark is under the same character", said[i + 1][mark] == lines[number - 1][column - 1])
            found.append((words.strip(), number, column, said[i + 1][mark]))
    return found


def place(text, part, behind=0):
    """The line and the column of a part of a text, or of a character of it."""
    expect("one such part", text.count(part) == 1)
    before = text[:text.index(part) + behind]
    return before.count("\n") + 1, len(before) - before.rfind("\n")


@test
def a_fault_of_a_text_is_marked_at_its_sign():
    bar, star, union = place(SIGNS, "n1|EMPTY", 2), place(SIGNS, "EMPTY)*", 6), place(SIGNS, "  |n3", 2)
    found = pointed(SIGNS, checked(SIGNS, 9))
    expect(f"five signs, not {found}", [(f[1:3], f[3]) for f in found] == [(bar, "|"), (star, "*"), (bar, "|"), (star, "*"), (union, "|")])
    for end in ("\n", "\r\n"):
        text = f"n0 ::={end} a(n1**){end}n1 ::= b()"
        found = pointed(text, checked(text, 9))
        expect(f"the two stars, not {found}", [f[1:] for f in found] == [(2, 6, "*"), (2, 7, "*")] * 2)


@test
def productions_of_one_tag_are_marked_each():
    text = "n0 ::= a(n1*)\nn1 ::= {ECHO} b ()\n  n1 ::= # b\n b(CHAR)\nn2 ::= b()\nn1 ::= b(n2)\n"
    found = pointed(text, checked(text, 8))
    expect(f"three tags, not {found}", [f[1:] for f in found[:3]] == [place(text, "b ()") + ("b",), place(text, " b(C", 1) + ("b",), place(text, "b(n2)") + ("b",)])


@test
def nonterminals_without_a_production_are_marked_each():
    text = "n7 n0 ::= {print \"n5 n6\"} n5(n1.(n6|n5)) # n5\nn1 ::= b(n5)\n"
    found = pointed(text, checked(text, 7))
    expect(f"three places, not {found}", found == [("n5 has no production; it stands at",) + place(text, "n5)) #") + ("n",), ("n6 has no production; it stands at",) + place(text, "n6|") + ("n",),
                                                  ("n7 has no production; it stands at", 1, 1, "n")])


@test
def convert_and_try_mark_the_faults_of_a_text_too():
    write("a.schedule", b"<a/>")
    said = checked(SIGNS, 9)
    for words in (["try"], ["convert"]):
        status, out, _ = run(words[0], "a.rules", "a.schedule", *(["listing"] if words[0] == "convert" else []))
        expect("9, and the same report", status == 9 and out.decode().startswith(said))
    status, out, _ = shell(f"cat a.rules | '{PROGRAM}' try /dev/stdin a.schedule")
    expect("of a pipe, which is read once, too", status == 9 and out.decode().split("\n", 1)[1].startswith(said.split("\n", 1)[1]))


@test
def signs_of_random_texts_are_those_that_are_named():
    sys.path.insert(0, os.path.join(HERE, "tests"))
    import random
    import rules
    random = random.Random(7)

    def part(deep):
        if deep == 0 or random.random() < 0.2:
            return random.choice(["n1", "n2", "CHAR", "EMPTY", "({print \"*|\"} n1)"])
        if random.random() < 0.5:
            return "(" + part(deep - 1) + ")" + random.choice(["*", " *"])
        return "(" + part(deep - 1) + random.choice([".", "|", " | ", "\n.\n"]) + part(deep - 1) + ")"

    for n in range(40):
        text = "".join(f"n{q} ::= a{q % 2}({part(3)})\n" for q in range(3))
        number, _, _ = rules.write(text.encode())
        expect("a rule text", number == 0)
        write("a.rules", text.encode())
        status, out, _ = run("check", "a.rules")
        said = out.decode().splitlines()
        starts = [text.index(f"n{q} ::= ") for q in range(3)] + [len(text)]
        told = [line for line in said if "the two part at" in line]
        found = [f for f in pointed(text, out.decode()) if f[0] == "This sign stands at"]
        entries = [line for line in said if line.startswith("- production ")]
        expect("each fault has its sign", len(told) == len(found) == len(entries))
        for line, entry, (_, number, column, shown) in zip(told, entries, found):
            at = sum(len(l) + 1 for l in text.split("\n")[:number - 1]) + column - 1
            q = int(entry.split()[2])
            expect("the sign that is named", text[at] == shown == ("*" if "part at the * of" in line else "|"))
            expect("in its production", starts[q] <= at < starts[q + 1])


@test
def a_sheet_has_no_lines():
    status, out, _ = run("check", example("faults.sheet"))
    expect("no line is told", status == 8 and b", column " not in out)


# ---- where it is called from


@test
def links_cdpath_and_crons_path_work():
    os.mkdir("bin")
    os.symlink(PROGRAM, "bin/first")
    os.symlink("first", "bin/wickpollen")
    env = {"PATH": "/usr/bin:/bin", "CDPATH": "/tmp:/", "HOME": "/"}
    expect("by a link to a link", run("check", SHEET, program=os.path.abspath("bin/wickpollen"), env=env)[0] == 0)
    env["PATH"] = os.path.abspath("bin") + ":/usr/bin:/bin"
    status, out, err = shell(f'wickpollen check "{SHEET}"', env=env)
    expect("by the path", status == 0 and out.startswith(SHEET.encode()))
    expect("from bin/", run("check", SHEET, program="./wickpollen", env=env, cwd=os.path.join(HERE, "bin"))[0] == 0)


@test
def it_can_be_installed():
    if not shutil.which("rt"):
        return
    p = subprocess.run([os.path.join(HERE, "bin", "install"), "place"], stdout=subprocess.PIPE, stderr=subprocess.STDOUT)
    expect("it is installed: " + p.stdout.decode()[-300:], p.returncode == 0)
    for name in ["bin/wickpollen", "lib/wickpollen/wickpollen", "share/man/man1/wickpollen.1", "include/wickpollen.h", "lib/libwickpollen.a", "lib/pkgconfig/wickpollen.pc"]:
        expect(name + " is there", os.path.exists(os.path.join("place", name)))
    env = {"PATH": "/usr/bin:/bin", "HOME": "/"}
    expect("0", run("check", SHEET, program=os.path.abspath("place/bin/wickpollen"), env=env)[0] == 0)
    version = run("--version", program=os.path.abspath("place/bin/wickpollen"), env=env)[1]
    expect("one version", b"Version: " + version.split()[1] in read("place/lib/pkgconfig/wickpollen.pc"))


def main():
    words = sys.argv[1:]
    passed = failed = 0
    for t in TESTS:
        if words and not any(w in t.__name__ for w in words):
            continue
        folder = tempfile.mkdtemp()
        os.chdir(folder)
        began = time.time()
        try:
            t()
            passed += 1
            print(f"{t.__name__.replace('_', ' ')}: passed ({time.time() - began:.1f} s)", flush=True)
        except (AssertionError, subprocess.TimeoutExpired, OSError) as e:
            failed += 1
            print(f"{t.__name__.replace('_', ' ')}: FAILED: {e}", flush=True)
        finally:
            os.chdir("/")
            shutil.rmtree(folder, ignore_errors=True)
    print(f"{passed} passed, {failed} failed")
    return 1 if failed else 0


if __name__ == "__main__":
    sys.exit(main())
