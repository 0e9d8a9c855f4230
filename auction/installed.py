"""The places of the files that are installed with the command, and their versions."""
import hashlib
import pathlib
import shutil
import subprocess

TOP = pathlib.Path(__file__).resolve().parents[1]
PLACES = (
    TOP,  # a checkout, or a copy of its folders
    pathlib.Path("/usr/share/clock-auction"),  # the package
)


def installed(name: str) -> pathlib.Path:
    """The path of an installed file or folder, such as `services/nginx.conf`."""
    for place in PLACES:
        if (place / name).exists():
            return place / name
    looked = " and ".join(str(place) for place in PLACES)
    raise FileNotFoundError(f"{name} is not installed: it is not in {looked}")


def commit() -> str:
    """The commit that this command is of: the package's, or the checkout's."""
    if (TOP / "commit").is_file():
        return (TOP / "commit").read_text(encoding="utf-8").strip()
    try:
        command = ["git", "-C", str(TOP), "rev-parse", "HEAD"]
        ran = subprocess.run(command, capture_output=True, text=True, check=False)
    except OSError:
        return "unknown"
    return ran.stdout.strip() or "unknown"


def program_in_words() -> str:
    """The program on the path, and its SHA-256."""
    found = shutil.which("clock_auction")
    if not found:
        return "program: there is no clock_auction on the path"
    digest = hashlib.sha256(pathlib.Path(found).read_bytes()).hexdigest()
    return f"program {found}\nSHA-256 {digest}"
