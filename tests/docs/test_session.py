"""The session and the rehearsal of docs/session.md print what it shows."""
from collections.abc import Callable
from pathlib import Path

import pytest

from tests.docs.shell import Shell
from tests.lib.paths import TOP

JOURNAL = "/tmp/one.journal"


@pytest.mark.needs("curl")
def test_each_line_of_the_session_prints_what_is_below_it(
    shell: Callable[[], Shell], tmp_path: Path
) -> None:
    text, typed = (TOP / "docs/session.md").read_text(), shell()
    typed.type_text(text.replace(JOURNAL, str(tmp_path / "one.journal")))
    assert typed.counts == {"typed": 14}
    assert typed.say("wait $!") == ("", 0), "the second server ends by itself"
