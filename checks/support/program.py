"""The program, where it stands: checks compare with it what they can, and say so where it is missing."""
import os
import subprocess
import tempfile
from pathlib import Path

TOP = Path(__file__).resolve().parent.parent.parent
BUILT = TOP / "crates/streamscope/out/streamscope"


def program_of(path=None):
    """The program of an option, of the environment's STREAMSCOPE, or the one built here; None where there is none."""
    for it in (path, os.environ.get("STREAMSCOPE"), BUILT):
        if it and os.access(it, os.X_OK):
            return str(Path(it).resolve())
    return None


def run(program, words, folder):
    """Runs a command in a folder: its status, standard output and standard error."""
    ran = subprocess.run([program, *words], cwd=folder, stdin=subprocess.DEVNULL, capture_output=True, text=True, timeout=60)
    return ran.returncode, ran.stdout, ran.stderr


def played(program, play, acts=None):
    """What `play` prints of the first acts of a play, which the program makes in a folder of its own."""
    with tempfile.TemporaryDirectory() as folder:
        for name, text in {**play.files, "job.toml": play.job}.items():
            (Path(folder) / name).write_text(text)
        schedule = play.schedule if acts is None else play.schedule[:acts]
        (Path(folder) / "schedule.txt").write_text("".join(line + "\n" for line in schedule))
        status, out, err = run(program, ["play", "job.toml", "--schedule", "schedule.txt"], folder)
    if status != 0:
        raise ValueError(f"{play.name}: play ended with status {status}: {err}")
    return out
