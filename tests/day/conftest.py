"""The options of a day."""
import pytest


def pytest_addoption(parser: pytest.Parser) -> None:
    parser.addoption("--rounds", type=int, default=1, help="rounds of a day")
    parser.addoption("--window", type=int, default=10, help="seconds of a window, a multiple of 10")
