"""The lists of words that are put into the files of editors/."""

import pytest

from repo.editors import FILES, PLACE, List, put


def test_put() -> None:
    list_ = List("words ", "|", " end", ("one", "two"))
    assert put("words kept\nwords a|b|c end", list_) == "words kept\nwords one|two end"


@pytest.mark.parametrize("name", FILES)
def test_own_files(name: str) -> None:
    """Each list finds its own place: with words of its own in each, all of them stand in the file."""
    text = (PLACE / name).read_text()
    for number, it in enumerate(FILES[name]):
        text = put(text, it._replace(words=(f"word{number}", "other")))
    for number, it in enumerate(FILES[name]):
        assert f"{it.before}word{number}{it.between}other{it.behind}" in text
