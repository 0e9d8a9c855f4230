"""A Debian with systemd in a container, and a network that only it and the bidders have."""
import pathlib
import subprocess
import threading

from tests.lib.waiting import wait_for

NAME, INSIDE, OUTSIDE = "auction", "10.105.9.2", "10.105.9.1"
ADDRESS = f"https://{INSIDE}:8443/"
SECONDS = 780  # that one run of the container may take
CONTAINER = (
    "--boot",
    "--network-veth",
    f"--machine={NAME}",
    "--register=no",
    "--keep-unit",
    "--console=passive",
)
REBOOTED = 133  # the status of systemd-nspawn if the machine in it wants to start again
PATIENCE = 400


class Machine:
    """A container, which is started again when it reboots. Make it in a network of your own."""

    def __init__(self, root: pathlib.Path) -> None:
        self.root, self.starts = root, 0
        self.thread = threading.Thread(target=self.run)
        self.thread.start()

    def run(self) -> None:
        """Runs the container, at most three times."""
        words = ["systemd-nspawn", f"--directory={self.root}", *CONTAINER]
        bounded = ["timeout", "-k", "5", str(SECONDS), *words]
        with open(f"{self.root}.console", "wb") as console:
            for _ in range(3):
                self.child = subprocess.Popen(
                    bounded, stdin=subprocess.DEVNULL, stdout=console, stderr=console
                )
                self.connect()
                self.starts += 1
                if self.child.wait() != REBOOTED:
                    return

    def connect(self) -> None:
        """Gives this end of the network its address, once the container has begun."""
        link = ["ip", "address", "replace", f"{OUTSIDE}/24", "dev", f"ve-{NAME}"]

        def is_there() -> bool:
            ended = self.child.poll() is not None
            return ended or not subprocess.run(link, capture_output=True).returncode

        wait_for("the container has a network", is_there, PATIENCE)
        up = ["ip", "link", "set", f"ve-{NAME}", "up"]
        subprocess.run(up, capture_output=True, check=False)

    def seen(self) -> list[str]:
        """What inside.sh has seen."""
        file = self.root / "seen"
        return file.read_text().splitlines() if file.exists() else []

    def await_step(self, step: str) -> None:
        """Waits until inside.sh has seen this, or has ended."""

        def is_seen() -> bool:
            return f"seen: {step}" in self.seen() or not self.thread.is_alive()

        wait_for(step, is_seen, PATIENCE, every=0.2)
        assert f"seen: {step}" in self.seen(), "\n".join(self.seen()[-45:])

    def end(self, is_well: bool) -> None:
        """Waits until the container has ended, or ends it if something else has failed."""
        if not is_well and self.thread.is_alive():
            self.child.terminate()
        self.thread.join()
