"""A network for each test, and what was done in it as a schedule."""
import pathlib

import pytest

import someip

SETUP = pathlib.Path(__file__).parents[2] / "examples" / "runs" / "two.toml"


@pytest.fixture
def net(tmp_path):
    """All nodes of the setup, which begin for the test.

    What was done lies in the test's folder then. So a test that fails is
    played again by `someipctl run setup.toml schedule.txt`, and drawn by
    `someipctl chart`.
    """
    setup = SETUP.read_text(encoding="utf-8")
    with someip.Network(setup) as network:
        yield network
        (tmp_path / "setup.toml").write_text(setup, encoding="utf-8")
        (tmp_path / "schedule.txt").write_text(network.schedule(),
                                               encoding="utf-8")
