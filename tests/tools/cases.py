"""Tests of tools/job and tools/draw. Prints a line for each group and fails where a case does."""
import importlib.machinery
import importlib.util
import subprocess
import sys
import tempfile
import xml.etree.ElementTree as xml
from pathlib import Path

ROOT = Path(__file__).resolve().parents[2]
SVG = "{http://www.w3.org/2000/svg}"


def load(name):
    loader = importlib.machinery.SourceFileLoader(name, str(ROOT / "tools" / name))
    module = importlib.util.module_from_spec(importlib.util.spec_from_loader(name, loader))
    loader.exec_module(module)
    return module


sys.path.insert(0, str(ROOT / "tools"))
job_tool, draw_tool = load("job"), load("draw")


def recorded():
    """Name, job, and sheet or refusal as the job program writes it."""
    for line in (ROOT / "tests/recorded/answers.txt").read_text().splitlines():
        if not line.startswith("#"):
            name, job, answer, _, _ = line.split(" ")
            refused = answer.startswith("refused-")
            wanted = answer.replace("-", " ").encode() + b"\n" if refused else bytes.fromhex(answer)
            yield name, bytes.fromhex(job.replace("-", "")), wanted


def fault_of(job):
    """The number by which tools/job refuses a job, or 0."""
    try:
        job_tool.read_job(job)
    except job_tool.Bad as bad:
        return bad.number
    return 0


def round_trips():
    """A recorded job is refused by its number, or comes back from its text. 15 and 16 are not judged."""
    for name, job, wanted in recorded():
        number = int(wanted.split()[1]) if wanted.startswith(b"refused") else 0
        if number in (0, 15, 16):
            text = job_tool.to_text(job_tool.read_job(job))
            yield name, job_tool.to_bytes(text.encode()) == job
        else:
            yield name, fault_of(job) == number


def pictures():
    """Every recorded job that can be read is drawn, with each of its marks and pillars."""
    for name, data, answer in recorded():
        if fault_of(data) == 0:
            job = job_tool.read_job(data)
            picture = xml.fromstring(draw_tool.draw(job, answer))
            marks = 0
            if not answer.startswith(b"refused"):
                marks = sum(len(zone.spots) for zone in draw_tool.read_sheet(answer)[1])
            words = "".join(text.text for text in picture.iter(SVG + "text"))
            drawn = len(list(picture.iter(SVG + "circle"))) == marks
            yield name, drawn and all(zone.key.decode() in words for zone in job.zones if any(map(any, zone.pieces)))


HEAD = """arrangement uniform
policy best-effort
radius auto
gap 0.25
boundary follows
precision 0.5
attempts 10
seed 18446744073709551615
"""
SQUARE = "piece\nring 0,0 4,0 4,4 0,4\n"
BAD_TEXTS = [
    # text, line, words of the message
    ("", 1, "arrangement is not stated"),
    (HEAD.replace("gap 0.25\n", ""), 8, "gap is not stated"),
    (HEAD + "gap 1\n", 9, "gap is stated twice"),
    (HEAD.replace("uniform", "hexagonal"), 1, "arrangement is one of"),
    (HEAD.replace("policy best-effort", "policy"), 2, "0 words behind it"),
    (HEAD.replace("auto", "1.0005"), 3, "1.0005 is no multiple of 1/1024"),
    (HEAD.replace("auto", "automatic"), 3, "automatic is no decimal number"),
    (HEAD.replace("auto", "1024.0009765625"), 3, "is not in 0..1024 (refused 4)"),
    (HEAD.replace("0.25", "-0.25"), 4, "gap -0.25 is not in 0..16 (refused 4)"),
    (HEAD.replace("follows", "17"), 5, "(refused 4)"),
    (HEAD.replace("precision 0.5", "precision 0"), 6, "(refused 4)"),
    (HEAD.replace("attempts 10", "attempts 2001"), 7, "(refused 4)"),
    (HEAD.replace("attempts 10", "attempts 99999999999"), 7, "(refused 4)"),
    (HEAD.replace("551615", "551616"), 8, "seed 18446744073709551616 is not in"),
    (HEAD + "# a comment\n\nzones A 1\n", 11, "no item is called zones"),
    (HEAD + "obstacle 0 0 1\n", 9, "3 words behind it, where 4 belong"),
    (HEAD + "obstacle 0 0 1 1024.5\n", 9, "(refused 8)"),
    (HEAD + "obstacle 0 0 1 1\n" * 65, 73, "the obstacle count 65 is not in 0..64 (refused 8)"),
    (HEAD + "zone A 1\nobstacle 0 0 1 1\n", 10, "obstacles come before the zones"),
    (HEAD + "".join(f"zone z{n:02} 0\n" for n in range(66)), 73, "the zone count 66 is not in 0..64 (refused 9)"),
    (HEAD + f"zone {'k' * 33} 1\n", 9, "the key length 33 is not in 1..32 (refused 9)"),
    (HEAD + "zone A-B 1\n", 9, "(refused 10)"),
    (HEAD + "zone B 1\nzone a 1\nzone a 1\n", 11, "key a is not above a in byte order (refused 11)"),
    (HEAD + "zone A 2001\n", 9, "the mark count 2001 is not in 0..2000 (refused 9)"),
    (HEAD + "zone A 1e3\n", 9, "1e3 is no whole number"),
    (HEAD + "zone A 1999\n" + SQUARE + "zone B 2\n", 12, "2001 marks so far are over 2000 (refused 12)"),
    (HEAD + "zone A 1\n" + SQUARE * 17, 42, "the piece count 17 is not in 0..16 (refused 9)"),
    (HEAD + "zone A 1\npiece\nzone B 1\n", 10, "the ring count 0 is not in 1..9 (refused 9)"),
    (HEAD + "zone A 1\npiece\n" + "ring\n" * 10, 20, "the ring count 10 is not in 1..9 (refused 9)"),
    (HEAD + "zone A 1\npiece\nring" + " 1,1" * 257, 11, "the vertex count 257 is not in 0..256 (refused 9)"),
    (HEAD + "zone A 1\npiece\nring 0,0 1024,-1024.125", 11, "-1024.125 is not in -1024..1024 (refused 13)"),
    (HEAD + "zone A 1\npiece\nring 0,0 1, 2\n", 11, "a vertex is X,Y without a space, not 1,"),
    (HEAD + "zone A 1\npiece\nring 0 1\n", 11, "a vertex is X,Y"),
    (HEAD + "piece\n", 9, "there is no zone above this piece"),
    (HEAD + "zone A 1\nring 0,0\n", 10, "there is no piece above this ring"),
    (HEAD + "".join(f"zone z{n:02} 0\npiece\nring" + " 1,1" * 256 + "\n" for n in range(32)), 104, "(refused 1)"),
]


def bad_texts():
    for text, line, words in BAD_TEXTS:
        try:
            job_tool.to_bytes(text.encode())
            yield words, False
        except job_tool.Bad as bad:
            yield f"{words}: line {bad.where}, {bad}", bad.where == line and words in str(bad)
    try:
        job_tool.to_bytes(HEAD.encode() + b"zone \xff 1\n")
    except job_tool.Bad as bad:
        yield "bytes that are no text", bad.where == 9


def programs():
    """The programs' output, messages and exit status, and the examples."""

    def run(*words, given=b""):
        return subprocess.run([str(ROOT / words[0]), *words[1:]], input=given, capture_output=True)

    _, job, sheet = next(recorded())
    example = run("tools/job", str(ROOT / "examples/one.txt"))
    yield "the worked example", example.returncode == 0 and example.stdout == job
    back = run("tools/job", "--back", "-", given=job)
    yield "back", back.returncode == 0 and run("tools/job", "-", given=back.stdout).stdout == job
    cut = run("tools/job", "--back", "-", given=job[:3] + bytes([job[3] - 1]) + job[4:-1])
    yield "a cut job", (cut.returncode, cut.stderr) == (1, b"-: byte 77: the job ends here (refused 6)\n")
    bad = run("tools/job", "-", given=b"arrangement uniform\nnonsense\n")
    yield "a bad text", (bad.returncode, bad.stdout, bad.stderr) == (1, b"", b"-: line 2: no item is called nonsense\n")
    yield "no words", run("tools/job").returncode == 2 and run("tools/draw").returncode == 2
    yield "no file", run("tools/job", "/no/such/file").returncode == 1
    with tempfile.NamedTemporaryFile() as file:
        file.write(sheet)
        file.flush()
        drawn = run("tools/draw", "-", file.name, given=job)
        yield "a drawn sheet", drawn.returncode == 0 and drawn.stdout.count(b"<circle ") == 1
        yield "a job that is none", run("tools/draw", "-", file.name, given=b"").returncode == 1
        yield "a sheet that is none", run("tools/draw", file.name, "-", given=job).returncode == 1
    for example in sorted((ROOT / "examples").glob("*.txt")):
        data = job_tool.to_bytes(example.read_bytes())
        job = job_tool.read_job(data)
        xml.fromstring(draw_tool.draw(job, b"refused 15\n"))
        yield example.name, job_tool.to_bytes(job_tool.to_text(job).encode()) == data


def main():
    failed = 0
    for group in (round_trips, bad_texts, pictures, programs):
        good = 0
        for name, right in group():
            good += right
            if not right:
                failed += 1
                print(f"  wrong: {name}")
        print(f"tools, {group.__name__.replace('_', ' ')}: {good} right")
    return failed > 0


if __name__ == "__main__":
    sys.exit(main())
