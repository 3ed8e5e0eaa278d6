"""What the tests of the tools share. A test says each thing that isn't so, and fails if there was one."""
import os
import subprocess
import sys

TOP = os.path.dirname(os.path.dirname(os.path.dirname(os.path.realpath(__file__))))
EXAMPLES = os.path.join(TOP, "examples")
failed = []
sys.path.insert(0, os.path.join(TOP, "tools"))


def run(tool, *words, given="", chor="/nowhere"):
    """What a tool writes, what it says on the error stream, and its exit status. There is no program but where the test has one."""
    done = subprocess.run(
        [os.path.join(TOP, "tools", tool), *words], input=given.encode(), capture_output=True, check=False, cwd=TOP, timeout=60,
        env={**os.environ, "CHOR": chor},
    )
    return done.stdout.decode(), done.stderr.decode(), done.returncode


def expect(is_so, what):
    if not is_so:
        failed.append(what)
        print(what)


def expect_text(got, name, what):
    """Compares with an expected text, which was checked by hand."""
    with open(os.path.join(TOP, "tools", "tests", "expected", name), encoding="utf-8") as file:
        expect(got == file.read(), f"{what}: not what expected/{name} has, but\n{got}")


def expect_error(answer, sentence, what):
    """The tool writes nothing, says one line that has the sentence, and fails."""
    written, said, status = answer
    is_one_line = said.count("\n") == 1 and "Traceback" not in said
    expect(written == "" and status != 0 and is_one_line and sentence in said, f"{what}: status {status}, says {said}")


def transcripts():
    """Each transcript of the examples, as its path and its lines."""
    names = sorted(name for name in os.listdir(EXAMPLES) if name.endswith((".run", ".events")))
    for name in names:
        path = os.path.join(EXAMPLES, name)
        with open(path, encoding="utf-8") as file:
            yield path, file.read().splitlines()


def finish():
    sys.exit(1 if failed else 0)
