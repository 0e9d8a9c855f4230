"""Collects the tests in Node, one for each `test(..)` of a file NAME.test.js. Node runs a file when
it is collected.
"""
import pathlib
import re
import subprocess
from collections.abc import Iterator

import pytest

from tests.conftest import is_there
from tests.lib.paths import PATHS

SECONDS = 120
RESULT = re.compile(r"^(ok|not ok) \d+ - (.*)$", re.M)


def pytest_collect_file(file_path: pathlib.Path, parent: pytest.Collector) -> pytest.File | None:
    if file_path.name.endswith(".test.js"):
        return NodeFile.from_parent(parent, path=file_path)
    return None


class NodeFile(pytest.File):
    """A file of tests in Node."""

    def collect(self) -> Iterator[pytest.Item]:
        if not is_there("node"):
            yield NodeTest.from_parent(self, name=self.path.stem, fault="", lacks_node=True)
            return
        command = ["node", "--test", "--test-reporter=tap", str(self.path)]
        done = subprocess.run(
            command, capture_output=True, text=True, timeout=SECONDS, env={"PATH": PATHS}
        )
        found = list(RESULT.finditer(done.stdout))
        if not found:
            raise self.CollectError(f"no test in {self.path}:\n{done.stdout}{done.stderr}")
        ends = [match.start() for match in found[1:]] + [len(done.stdout)]
        for match, end in zip(found, ends):
            fault = "" if match[1] == "ok" else done.stdout[match.start() : end]
            name = match[2].replace("\\#", "#").replace("\\\\", "\\")
            item = NodeTest.from_parent(self, name=name, fault=fault)
            item.add_marker("early")
            yield item


class NodeTest(pytest.Item):
    """One test in Node, which has run. `fault` is what Node says if it failed."""

    def __init__(self, *, fault: str, lacks_node: bool = False, **given: object) -> None:
        super().__init__(**given)  # type: ignore[arg-type]
        self.fault, self.lacks_node = fault, lacks_node

    def runtest(self) -> None:
        if self.lacks_node:
            pytest.skip("needs node")
        if self.fault:
            pytest.fail(self.fault, pytrace=False)

    def reportinfo(self) -> tuple[pathlib.Path, int, str]:
        return self.path, 0, self.name
