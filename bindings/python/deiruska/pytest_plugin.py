"""A plugin for pytest: the fixture `play_to_filter`, which plays a message to a filter. It is taken by the line
`pytest_plugins = ["deiruska.pytest_plugin"]` of conftest.py."""
from typing import Callable

import pytest

from .testing import Played, play


@pytest.fixture
def play_to_filter() -> Callable[..., Played]:
    """The function `deiruska.testing.play`."""
    return play
