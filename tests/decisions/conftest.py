"""The option of the explorer."""
import pytest


def pytest_addoption(parser: pytest.Parser) -> None:
    parser.addoption(
        "--two-troubles", action="store_true", help="also explore two troubles at once"
    )


def pytest_collection_modifyitems(config: pytest.Config, items: list[pytest.Item]) -> None:
    """Explorations of two troubles at once are asked for by an option."""
    if config.getoption("--two-troubles", False):
        return
    rest = [item for item in items if not item.name.startswith("test_two_troubles")]
    config.hook.pytest_deselected(items=[item for item in items if item not in rest])
    items[:] = rest
