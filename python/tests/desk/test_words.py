"""The words of the desk are read, and what is none is told."""
import pytest

from dedale.desk.words import WORDS, BadWord, Word, help_lines, is_word, read_word, rows_of, seconds_of

BAD = [
    ("\\shwo", "\\shwo is no word of the desk: is \\show meant? \\help lists them"),
    ("\\", "\\ is no word of the desk: is "),
    ("\\save", "it is \\save FILE"),
    ("\\save a b", "it is \\save FILE"),
    ("\\draw", "it is \\draw FILE [NAME]"),
    ("\\undo 2", "it is \\undo"),
    ("\\save 'a", "\\save: no closing quotation"),
    ("\\save a\0b", "a zero byte stands in no word of the desk"),
]


def test_words_are_read() -> None:
    assert is_word(b"  \\show\n") and not is_word(b"ask true; \\show")
    assert read_word(b"\\show\n") == Word("show", ())
    assert read_word(b" \\undo ;\n") == Word("undo", ())
    assert read_word(b"\\draw 'my map.svg' Land\n") == Word("draw", ("my map.svg", "Land"))
    assert read_word(b"\\save \xff\n") == Word("save", ("\udcff",))
    assert all(any(line.startswith(f"\\{word}") for line in help_lines()) for word in WORDS)


@pytest.mark.parametrize("line, told", BAD)
def test_what_is_no_word_is_told(line: str, told: str) -> None:
    with pytest.raises(BadWord) as caught:
        read_word(line.encode())
    assert str(caught.value).startswith(told)


def test_numbers() -> None:
    assert (rows_of("7"), seconds_of("0.5")) == (7, 0.5)
    for text in ("0", "-1", "x", "", "1.5", "10000000", "١"):
        with pytest.raises(BadWord):
            rows_of(text)
    for text in ("0", "-1", "x", "", "0.0", "nan", "1e3"):
        with pytest.raises(BadWord):
            seconds_of(text)
