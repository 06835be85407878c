"""The check of the report, for the gate. Each part stops at the first thing that is wrong."""
import html
import re
import subprocess
import sys
import tempfile

from reporting import page, plain, refusals, tries, words
from reporting.losses import Losses
from reporting.picture import Picture
from reporting.story import Story, Unfit


class Wrong(Exception):
    """What the check found."""


def see(holds, words):
    if not holds:
        raise Wrong(words)


def stored(root, name):
    return (root / f"logs/{name}.log").read_bytes(), (root / f"logs/{name}.txt").read_text(encoding="ascii")


def followed(name, log, output):
    try:
        return Story(log, output)
    except Unfit as unfit:
        raise Wrong(f"{name}: {unfit}") from None


def shown(made):
    """The words of a page, without its marks."""
    body = re.sub(r"<style>.*?</style>", "", made, flags=re.S)
    return re.sub(r"\s+", " ", html.unescape(re.sub(r"<[^>]+>", " ", body)))


def run_on(text):
    """The words of the text, without its lines."""
    return re.sub(r"\s+", " ", text)


# ---- The numbers are those of the output's lines

def agree(name, output, story):
    """Counted in the plainest way."""
    lines = output.splitlines()[:-1]
    begin = lambda word: sum(line.startswith(word) for line in lines)
    flows, boxes = [row for _, row in story.flows()], [row for _, row in story.boxes()]
    low = sum(line.split()[0] == "refused" and int(line.split()[1]) <= 5 for line in lines)
    pairs = {
        "records": (len(lines), len(story.records)),
        "pdu": (begin("pdu"), sum(r[2] for r in flows), len(story.pdus("delivered")), story.count("pdu")),
        "msg": (begin("msg"), sum(r[1] for r in boxes), len(story.messages("delivered")), story.count("msg")),
        "held": (begin("held"), story.count("held")),
        "refused": (begin("refused"), sum(story.refusals().values()), low + sum(r[5] for r in flows) + sum(r[2] for r in boxes)),
        "dropped": (sum(line.endswith(" dropped") for line in lines), sum(r[4] for r in flows), len(story.pdus("dropped")), story.dropped()),
        "packets": (len(lines), low + sum(r[0] for r in flows) + sum(r[0] for r in boxes)),
    }
    for what, numbers in pairs.items():
        see(len(set(numbers)) == 1, f"{name}: {what} is counted {numbers}")


def bundled(root):
    """The logs of the second program: name, log, output."""
    bundle, place = (root / "crates/outside_logs/stdin").read_bytes(), 0
    outputs = re.split(r"^log \d+\n", (root / "crates/outside_logs/stdout").read_text(encoding="ascii"), flags=re.M)[1:]
    for number, output in enumerate(outputs):
        length = int.from_bytes(bundle[place:place + 4], "big")
        yield f"log {number + 1} of outside_logs", bundle[place + 4:place + 4 + length], output
        place += 4 + length


def check_stored(root):
    logs = list(bundled(root)) + [(name, *stored(root, name)) for name in ("paper", "wheels", "lost")]
    for name, log, output in logs:
        story = followed(name, log, output)
        agree(name, output, story)
        for made in (page.report(story, "<name>"), plain.report(story, name)):
            see("<name>" not in made, f"{name}: a name is not escaped")
    return len(logs)


# ---- Three lost wheels are three

LOST = [
    "Board 21, priority 0, cos 1: a scan between streams 1 and 3 lost its start. 3 packets of it came (records 15 to 20, refused 8). Do not judge this wheel.",
    "Board 22, priority 0, cos 1: stream 12 (between streams 11 and 13) lost 1 packet of its middle. 3 packets of it came (records 13 to 21, the last refused 11). "
    "Do not judge this wheel.",
    "Board 23, priority 0, cos 1: stream 22 (between streams 21 and 23) lost its end. 3 packets of it came (records 14 to 19). Do not judge this wheel.",
]


def check_three(root):
    """logs/lost.log, by text and page: on top, in words, three."""
    story = followed("lost", *stored(root, "lost"))
    for kind, made, heading in (("text", run_on(plain.report(story, "lost.log")), "AT LEAST 3 SCANS WERE LOST"),
                                ("page", shown(page.report(story, "lost.log")), "At least 3 scans were lost")):
        top = made[:made.index("Counts")]
        for words_ in (heading, "is not judged (docs/THREATS.md, condition 9)", "6 delivered scans came in two packets or more. Each could be a joint", *LOST):
            see(top.count(words_) == 1, f"the {kind} of lost.log does not say on top, once: {words_}")
        see(top.count("Do not judge") == 3, f"the {kind} of lost.log has other lost scans than three")
        see("Refusals" in made and "under 5 bytes" not in made, f"the {kind} of lost.log shows refusals that did not occur")


# ---- Logs whose losses are known

def check_case(case):
    lines = case.answers.split(", ") if case.answers else []
    output = "".join(line + "\n" for line in lines) + f"end {len(case.packets)}\n"
    story = followed(case.name, tries.log_of(case.packets), output)
    top = list(words.top(Losses(story)))
    see(top[0].heading == case.heading, f"{case.name}: {top[0].heading}")
    see(len(top[0].items) == len(case.lost), f"{case.name}: {len(top[0].items)} lost scans")
    for item, said in zip(top[0].items, case.lost):
        see(said in item.text, f"{case.name}: {item.text}")
    for made in (run_on(plain.report(story, "x")), shown(page.report(story, "x"))):
        for said in (*case.lost, *case.others):
            see(said.lower() in made.lower(), f"{case.name}: not said: {said}")
        for said in case.never:
            see(said.lower() not in made.lower(), f"{case.name}: said: {said}")


def check_true(pattern, losses):
    """What is said to be lost was lost, and is not counted twice. Streams count from 1."""
    hurt = {i + 1: lost for i, lost in enumerate(pattern.lost) if lost}
    count = {i + 1: -(-size // tries.MTU) for i, size in enumerate(pattern.sizes)}
    name = f"sizes {pattern.sizes}, lost {[sorted(lost) for lost in pattern.lost]}"
    untold = sum(gap.untold for gap in losses.gaps)
    see(losses.sure + untold <= len(hurt), f"{name}: {losses.sure} and {untold} said to be lost, of {len(hurt)}")
    named = [lost.stream for lost in losses.lost if lost.stream is not None]
    see(len(named) == len(set(named)) and set(named) <= set(hurt), f"{name}: {named} said to be lost")
    see(all(number in hurt for gap in losses.gaps for number in gap.missing), f"{name}: a gap has scans that came")
    if not any(i + 1 in hurt for i in hurt):
        check_exact(name, losses, hurt, count)


def check_exact(name, losses, hurt, count):
    """Where no two neighbours are hurt, every scan of which something came is told, with what it lost."""
    left = [i for i in sorted(hurt) if len(hurt[i]) < count[i]]
    waits = [i for i in left if i == max(count) and 0 not in hurt[i] and count[i] - 1 in hurt[i]]
    see([w[2].stream for w in losses.waiting] == waits, f"{name}: other scans are unfinished")
    left = [i for i in left if i not in waits]
    see(len(losses.lost) == len(left), f"{name}: {len(losses.lost)} lost scans in place of {len(left)}")
    for i, lost in zip(left, losses.lost):
        ended = count[i] - 1 not in hurt[i]
        inner = len(hurt[i] - {0, count[i] - 1})
        parts = ["start"] * (0 in hurt[i]) + ["middle"] * (ended and inner > 0) + ["end"] * (not ended and i < max(count))
        see(lost.stream == (None if 0 in hurt[i] else i) and lost.parts == parts, f"{name}: scan {i} is said to have lost {lost.parts}")
        see(not ended or lost.middle == inner, f"{name}: scan {i} lost {inner} of its middle, not {lost.middle}")
        see(bool(lost.doubt) == (0 in hurt[i] and (i == 1 or i == 2 and len(hurt.get(1, ())) == count[1])), f"{name}: scan {i}: {lost.doubt}")


def told(losses, flow):
    """What is said of a flow's lost scans, without the records."""
    return [(one.stream, one.before, one.after, one.parts, one.middle, one.cause, one.doubt) for one in losses.lost if one.flow == flow]


def check_pair(patterns):
    """Two flows that differ in priority alone, mixed: of each is said what is said of it alone."""
    flows = (2, 0, 5), tries.URGENT
    alone = [tries.sent(pattern, flow) for pattern, flow in zip(patterns, flows)]
    made = [Losses(followed(str(patterns), tries.log_of([one.packet for one in arrived]), tries.answered(arrived)))
            for arrived in (*alone, tries.in_turn(*alone))]
    for single, flow in zip(made, flows):
        see(told(single, flow) == told(made[2], flow), f"{patterns}: at priority {flow[1]} other losses are told")


def check_tries():
    for case in tries.CASES:
        check_case(case)
    for patterns in tries.pairs():
        check_pair(patterns)
    tried = 0
    for pattern in tries.patterns():
        arrived = tries.sent(pattern)
        story = followed(str(pattern), tries.log_of([one.packet for one in arrived]), tries.answered(arrived))
        check_true(pattern, Losses(story))
        tried += 1
    return len(tries.CASES), tried + len(list(tries.pairs()))


# ---- Stored pages, and outputs that do not fit

# The parts of the refusal table.
TABLE = ["reading/specs/Table.antt", "wire/specs/Head.antt", "streams/specs/Rows.antt", "rules/specs/Messages.antt", "messages/specs/Rows.antt"]


def check_pages(root):
    story = followed("lost", *stored(root, "lost"))
    top = plain.block(next(words.top(Losses(story))))
    see(f"```\n{top}\n```" in (root / "README.md").read_text(encoding="utf-8"), "README.md does not show how the text of logs/lost.log begins")
    made = {"docs/sample-report.html": page.report(story, "lost.log"), "docs/pictures/lost.svg": Picture(story, Losses(story)).svg()}
    for path, text in made.items():
        see((root / path).exists() and (root / path).read_text(encoding="utf-8") == text + "\n", f"{path} is not what the report makes of logs/lost.log")


def check_refusals(root):
    """docs/REFUSALS.md has the table, and the table has the words of the definitions."""
    see(refusals.page() in (root / "docs/REFUSALS.md").read_text(encoding="utf-8"), "docs/REFUSALS.md has not the table that tools/report --refusals prints")
    rows = [row for part in TABLE for row in re.findall(r"-- (.+)\n +(?:∷ |\+\+ \()?row (\d+) ", (root / "crates" / part).read_text(encoding="utf-8"))]
    see({int(number) for _, number in rows} == set(refusals.REFUSALS) - refusals.OTHER_CALLS, "the refusal table has other numbers")
    for said, number in rows:
        ours = refusals.REFUSALS[int(number)][0]
        see(number == "19" or said in {ours, *ours.split("; ")}, f"the refusal table says of {number}: {said}")


def check_unfit(root):
    log, output = stored(root, "wheels")
    wrong = [output.replace("held dropped", "held"), output.replace("pdu 21 1 1 100", "pdu 21 1 1 99"), output.replace("end 26", "end 25"),
             output.replace("msg 21 0 2 24", "held"), output.replace("pdu 23 1 21 100", "refused 11"), "held\n" + output]
    for text in wrong:
        try:
            Story(log, text)
        except Unfit:
            continue
        raise Wrong("an output that does not fit its log is taken")


# ---- The command

PYTHON = [sys.executable, "-S"]  # without what a machine adds to Python: that takes longer than the report


def check_command(root):
    """How it is called, and what it says where it is called wrongly. No answer is a traceback."""
    log, output = str(root / "logs/lost.log"), str(root / "logs/lost.txt")
    with tempfile.NamedTemporaryFile(suffix=".txt") as latin:
        latin.write("gehört\n".encode("latin-1"))
        latin.flush()
        # words of the call, status, in which of the two outputs, and what is said there
        how = "--help says how it is called"
        calls = [(["--help"], 0, "out", "tools/report LOG"), (["--text", log, output], 0, "out", "AT LEAST 3"), (["--picture", log, output], 0, "out", "<svg"),
                 ([log, output], 0, "out", "<!DOCTYPE html>"), (["--", log, output], 0, "out", "<!DOCTYPE html>"), ([], 2, "err", how),
                 (["--txt", log, output], 2, "err", how), (["--text", "--picture", log], 2, "err", how), ([log, output, log], 2, "err", how),
                 (["--check", log], 2, "err", how), (["no-such.log", output], 3, "err", "report: no-such.log: No such file"),
                 ([str(root), output], 3, "err", "Is a directory"), ([log, latin.name], 3, "err", "is no text in ascii"), ([log, log], 3, "err", "report: ")]
        runs = [subprocess.Popen([*PYTHON, root / "tools/report", *call], stdout=subprocess.PIPE, stderr=subprocess.PIPE, cwd=root)
                for call, *_ in calls]
        for run, (call, status, where, said) in zip(runs, calls):
            out, err = (said.decode("utf-8") for said in run.communicate())
            name = f"tools/report {' '.join(call)}"
            see(run.returncode == status, f"{name} ends with {run.returncode}")
            see(said in (out if where == "out" else err), f"{name} does not say: {said}")
            see(not (err if where == "out" else out), f"{name} speaks on the other output")
            see("Traceback" not in err, f"{name}: {err}")
    return len(calls)


def check_pipe(root):
    """A reader that goes away is no fault to speak of."""
    with subprocess.Popen([*PYTHON, root / "tools/report", root / "logs/lost.log", root / "logs/lost.txt"], stdout=subprocess.PIPE,
                          stderr=subprocess.PIPE) as run:
        run.stdout.close()
        see(run.stderr.read() == b"", "tools/report complains of a closed pipe")


def everything(root):
    logs = check_stored(root)
    check_three(root)
    cases, patterns = check_tries()
    check_pages(root)
    check_refusals(root)
    check_unfit(root)
    calls = check_command(root)
    check_pipe(root)
    return (f"report: the numbers of {logs:,} logs agree with their outputs; the losses of {cases} logs and {patterns:,} patterns are told rightly; "
            f"{calls} calls end as they should")
