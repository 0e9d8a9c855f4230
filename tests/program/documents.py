"""Documents with one part changed."""
import copy
import json
from typing import Any

from tests.lib.paths import EXAMPLES


def example(name: str) -> Any:
    """The value of a document in examples/."""
    return json.loads((EXAMPLES / name).read_text())


def changed(document: Any, path: str, value: object) -> str:
    """A document in JSON, with the value at a path replaced.

    A path has keys and indices, such as `products 0 cap`.
    """
    *folders, last = [int(key) if key.isdigit() else key for key in path.split()]
    document = copy.deepcopy(document)
    part = document
    for key in folders:
        part = part[key]
    part[last] = value
    return json.dumps(document)
