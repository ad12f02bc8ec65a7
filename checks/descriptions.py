"""Descriptions of games and the commands that read them, for the scripts that try them."""
import re
import subprocess
from pathlib import Path

TOP = Path(__file__).resolve().parent.parent
DESCRIPTIONS = TOP / "games"
NAMES = TOP / "crates/game_syntax/src/fault_name.rt"

# A file that is refused by its first byte.
REFUSED = "="


def known_names():
    """The names of the errors of a description, and those of what the program can't take; `not-loaded` is none, since that is a fault of the program."""
    names = set(re.findall(r'=> "([a-z-]+)"', NAMES.read_text()))
    if "bad-toml" not in names:
        raise SystemExit(f"{NAMES} has no names of errors")
    return names | {"file-too-long", "not-yet"}


def error_in(said, names):
    """The name of the error that `check` told, as `PATH[:LINE:COLUMN]: NAME[: WORDS]`, or nothing."""
    for line in said.splitlines():
        for name in re.findall(r"(?=: ([a-z]+(?:-[a-z]+)*)(?:: |$))", line):
            if name in names:
                return name
    return None


def run(words, given=b"", seconds=None):
    """Runs a command: its status, none where it was stopped after so many seconds, and all that it printed."""
    try:
        ran = subprocess.run(words, input=given, stdout=subprocess.PIPE, stderr=subprocess.STDOUT, timeout=seconds, check=False)
    except subprocess.TimeoutExpired as stopped:
        return None, (stopped.stdout or b"").decode(errors="replace")
    return ran.returncode, ran.stdout.decode(errors="replace")


def check(program, file, *words, seconds=None):
    """Runs `check` on a file."""
    return run([program, "check", str(file), *words], seconds=seconds)


def status_of_refusal(program, folder):
    """The status with which `check` refuses a description."""
    file = Path(folder) / "refused.toml"
    file.write_text(REFUSED)
    status, said = check(program, file, seconds=60)
    if status is None or status <= 0 or error_in(said, known_names()) != "bad-toml":
        raise SystemExit(f"{program} check: a file that is no TOML has status {status}: {said.strip()}")
    return status
