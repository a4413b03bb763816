"""Logs as files have them: separators, compression, encodings, line ends, columns, and what is refused, with where and
what to do."""
from __future__ import annotations

import os
import subprocess
import sys
from pathlib import Path

import pytest
from conftest import TOP
from hypothesis import given
from hypothesis import strategies as st

from .given import COMPRESSED, read, refusal, written, zipped

pandas = pytest.importorskip("pandas")
from caladan.logs.log import Log  # noqa: E402
from caladan.refusal import Refusal  # noqa: E402

PLAIN = "time,service\n1,2\n5,7.5\n"
# What the program reads of PLAIN: times from the first on.
NORMAL = b"time,service\n0,2\n4,7.5\n"
SEPARATED = {",": "commas", ";": "semicolons", "\t": "tabs", "|": "bars", " ": "blanks"}


@pytest.mark.parametrize("separator", SEPARATED)
def test_separators_are_seen(tmp_path: Path, separator: str) -> None:
    log = read(tmp_path, PLAIN.replace(",", separator))
    assert log.text == NORMAL
    assert log.done == (() if separator == "," else (f"its fields are separated by {SEPARATED[separator]}",))


@pytest.mark.parametrize("word, character", [("tab", "\t"), ("semicolon", ";"), ("bar", "|"), ("comma", ","),
                                             ("blank", " "), (":", ":"), ("~", "~")])
def test_separators_are_named(tmp_path: Path, word: str, character: str) -> None:
    assert read(tmp_path, PLAIN.replace(",", character), separator=word).text == NORMAL


def test_a_comma_within_other_separators_is_no_separator(tmp_path: Path) -> None:
    assert read(tmp_path, "who;time;service\na,b;1;2\nc;5;7.5\n").text == NORMAL


@pytest.mark.parametrize("way", COMPRESSED)
def test_compressed_logs(tmp_path: Path, way: str) -> None:
    log = read(tmp_path, COMPRESSED[way](PLAIN.encode()))
    assert log.text == NORMAL and log.done == (f"compressed by {way}",)


@pytest.mark.parametrize("text", [PLAIN.replace("\n", "\r\n"), "\n\n" + PLAIN, PLAIN.replace("5,", "\n5,"),
                                  PLAIN.rstrip("\n"), "time, service\n1, 2\n5, 7.5\n",
                                  '"time","service"\n"1","2"\n5,7.5\n',
                                  "time,service,\n1,2,\n5,7.5,\n", "time,service,who\n1,2\n5,7.5,x\n"])
def test_forms_of_csv(tmp_path: Path, text: str) -> None:
    assert read(tmp_path, text).text == NORMAL


@pytest.mark.parametrize("encoding", ["utf-8-sig", "utf-16", "latin-1"])
def test_encodings(tmp_path: Path, encoding: str) -> None:
    text = PLAIN.replace("time,service", "time,service,Größe").replace("2\n", "2,ä\n").replace("7.5", "7.5,x")
    assert read(tmp_path, text.encode(encoding)).text == NORMAL


def test_columns_have_other_names_and_others_are_not_read(tmp_path: Path) -> None:
    text = "id,took,queue,llc,arrived,time\n7,2.5,b,30,12,x\n8,1,a,4,10,y\n"
    log = read(tmp_path, text, columns="time=arrived,service=took,task=queue,misses=llc")
    assert log.text == b"time,service,task\n0,1,a\n2,2.5,b\n"
    assert list(log.rows.misses or []) == [4, 30] and list(log.rows.numbers) == [3, 2]
    assert dict(log.columns) == {"time": "arrived", "service": "took", "task": "queue", "misses": "llc"}


def test_a_name_of_a_column_may_have_a_comma(tmp_path: Path) -> None:
    text = '"when, about",took\n1,2\n5,7.5\n'
    assert read(tmp_path, text, columns="time=when, about,service=took").text == NORMAL


def test_the_standard_input_and_a_pipe(tmp_path: Path) -> None:
    words = [sys.executable, "-c", "from caladan.logs.log import Log; print(Log.read('{}', 'us').text)"]
    environment = {**os.environ, "PYTHONPATH": str(TOP / "lab" / "src")}
    for name in ("-", "/dev/stdin"):
        ran = subprocess.run([*words[:2], words[2].format(name)], input=PLAIN, capture_output=True, text=True,
                             env=environment, check=True)
        assert ran.stdout == f"{NORMAL!r}\n"


HEADER = "separated by commas; --columns"


@pytest.mark.parametrize("text, said", [
    ("", "log.csv: it is empty; wanted: a line that names the columns, such as time,service, and a row for each "
         "request"),
    ("\n \n", "log.csv: it is empty; wanted: a line that names the columns, such as time,service, and a row for each "
              "request"),
    ("time,service\n", "log.csv: no row is below the header; wanted: one for each request"),
    ("5,13\n47,9\n", "log.csv: the header has no column `time`: its first line has only numbers; wanted: a line that "
                     "names the columns, such as time,service"),
    ("tim,service\n1,2\n", f"log.csv: the header has no column `time`: it has `tim`, `service`, {HEADER} time=NAME "
                           "says which it is\n  did you mean `tim`?"),
    ("arrived_us;took_us\n1;2\n", "log.csv: the header has no column `time`: it has `arrived_us`, `took_us`, separated "
                                  "by semicolons; --columns time=NAME says which it is"),
    ("time\ttook\n1\t2\n", "log.csv: the header has no column `service`: it has `time`, `took`, separated by tabs; "
                           "--columns service=NAME says which it is"),
    ("x\n1\n", "log.csv: the header has no column `time`: it has `x`; --columns time=NAME says which it is"),
    ("time,service,time\n1,2,3\n", "log.csv: the header has 2 columns `time`; each name may stand once"),
    ("time,service\n1,2\n3,4,5\n", "log.csv: line 3: 3 fields, and the header has 2; a field that has the separator in "
                                   "it stands in quotes"),
    ("time,service\n1,2,3\n3,4,5\n", "log.csv: its rows have more fields than its header, which has 2"),
    ('time,service\n"1,2\n3,4\n', "log.csv: row 2: a quote opens and does not close"),
    ("time,service\n1,\0002\n", "log.csv: it has bytes that are 0, and so is no text"),
    (COMPRESSED["gzip"](PLAIN.encode())[:-9], "log.csv: it begins as gzip, and cannot be decompressed: Compressed file "
                                              "ended before the end-of-stream marker was reached"),
    (zipped(PLAIN.encode(), "a", "b"), "log.csv: 2 files are in this zip; wanted: one"),
    (b"\xfd7zXZ\0spoiled", "log.csv: it begins as xz, and cannot be decompressed: Corrupt input data"),
])
def test_what_cannot_be_read(tmp_path: Path, text: "bytes | str", said: str) -> None:
    assert refusal(tmp_path, text) == said


def test_zstd_needs_its_package(tmp_path: Path) -> None:
    said = refusal(tmp_path, b"\x28\xb5\x2f\xfdspoiled")
    missing = "it is compressed by zstd: install python3-zstandard, or decompress it first (zstd -d)"
    assert said == f"log.csv: {missing}" or said.startswith("log.csv: it begins as zstd, and cannot be decompressed: ")


@pytest.mark.parametrize("word, said", [
    ("time", "--columns time: columns are named as time=arrived_us,service=took,task=queue,misses=llc"),
    ("when=time", "--columns when=time: columns are named as time=arrived_us,service=took,task=queue,misses=llc"),
    ("time=a,time=b", "--columns time=a,time=b: `time` is named twice"),
    ("time=a,service=a", "--columns: `a` cannot be both `time` and `service`"),
])
def test_columns_that_are_refused(tmp_path: Path, word: str, said: str) -> None:
    assert refusal(tmp_path, PLAIN, "us", word) == said


def test_a_role_that_there_is_not() -> None:
    with pytest.raises(Refusal, match="^--columns: there is no `when`; there are: time, service, task, misses$"):
        Log.of(pandas.DataFrame({"time": [1], "service": [2]}), "us", {"when": "time"})


def test_a_separator_that_is_refused(tmp_path: Path) -> None:
    assert refusal(tmp_path, PLAIN, "us", None, "colon") == (
        "--separator colon: a separator is one character, or one of comma, semicolon, tab, bar, blank")


@pytest.mark.parametrize("word, said", [
    ("h", "--unit h: a unit is ns, us, ms or s; where they differ, as time=s,service=us"),
    ("time=s", "--unit time=s: the unit of services is not said; wanted: as time=s,service=us"),
    ("time=s,time=us", "--unit time=s,time=us: a unit is ns, us, ms or s; where they differ, as time=s,service=us"),
])
def test_units_that_are_refused(tmp_path: Path, word: str, said: str) -> None:
    assert refusal(tmp_path, PLAIN, word) == said


def test_files_that_are_none(tmp_path: Path) -> None:
    for file, why in ((tmp_path, "Is a directory (os error 21)"),
                      (tmp_path / "none.csv", "No such file or directory (os error 2)")):
        with pytest.raises(Refusal) as it:
            Log.read(file, "us")
        assert it.value.line == f"{file}: {why}"


def test_too_many_rows(tmp_path: Path, monkeypatch: pytest.MonkeyPatch) -> None:
    monkeypatch.setattr("caladan.logs.reading.MOST_REQUESTS", 2)
    assert len(read(tmp_path, PLAIN)) == 2
    assert refusal(tmp_path, PLAIN + "6,1\n") == (
        "log.csv: more than 2 rows, the most requests of a run: take a part of the log")


@pytest.mark.parametrize("way", ["plain", "gzip"])
def test_too_much_text(tmp_path: Path, monkeypatch: pytest.MonkeyPatch, way: str) -> None:
    monkeypatch.setattr("caladan.logs.opening.MOST_BYTES", 60)
    text = (PLAIN + "6,1\n" * 300).encode()
    said = "log.csv: more than 1 GiB of text; a run takes 1,000,000 requests at most: cut the log"
    assert refusal(tmp_path, text if way == "plain" else COMPRESSED[way](text)) == said


@pytest.mark.parametrize("fault", [pandas.errors.ParserError("out of step"), ValueError("out of step")])
def test_what_pandas_cannot_read(tmp_path: Path, monkeypatch: pytest.MonkeyPatch, fault: Exception) -> None:
    def fails(*_: object, **__: object) -> None:
        raise fault
    monkeypatch.setattr(pandas, "read_csv", fails)
    assert refusal(tmp_path, PLAIN) == "log.csv: it cannot be read as CSV: out of step"


def test_a_header_without_end(tmp_path: Path) -> None:
    assert refusal(tmp_path, "x" * 200_000) == (
        "log.csv: its header cannot be read: field larger than field limit (131072)")


def test_without_pandas(tmp_path: Path, monkeypatch: pytest.MonkeyPatch) -> None:
    monkeypatch.setitem(sys.modules, "pandas", None)
    assert refusal(tmp_path, PLAIN) == ("log.csv: pandas is not installed, by which logs are read; on Debian: apt-get "
                                        "install python3-pandas")


def test_a_frame_is_read_as_its_file_is(tmp_path: Path) -> None:
    frame = pandas.read_csv(written(tmp_path, PLAIN))
    assert Log.of(frame, "us").text == NORMAL and repr(Log.of(frame, "us")) == "<Log frame: 2 requests over 4 us>"
    with pytest.raises(Refusal, match="^frame: the frame has 0 rows; wanted: one for each request, 1 to 1000000$"):
        Log.of(frame[:0], "us")
    moments = pandas.DataFrame({"at": pandas.to_datetime(["2026-11-30T19:00:01.5Z", "2026-11-30T19:00:00Z"]),
                                "service": [2.5, 1]})
    log = Log.of(moments, "us", {"time": "at"}, "traffic")
    assert log.text == b"time,service\n0,1\n1500000,2.5\n" and log.name == "traffic"


CELLS = st.text(st.characters(blacklist_categories=("Cs", "Cc")), max_size=6)


@given(st.lists(st.tuples(st.integers(0, 10 ** 6), st.integers(0, 10 ** 6), CELLS), min_size=1, max_size=20),
       st.permutations(["time", "service", "who"]), st.sampled_from(",;\t|"), st.sampled_from(["\n", "\r\n"]),
       st.sampled_from(["", "\ufeff"]), st.sampled_from([None, *COMPRESSED]))
def test_any_file_is_read_as_it_was_written(tmp_path_factory: pytest.TempPathFactory, rows: list[tuple[int, int, str]],
                                            order: list[str], separator: str, end: str, mark: str,
                                            way: "str | None") -> None:
    """Columns in any order, a column of other texts, any separator, line end and compression, with a byte order mark:
    the requests are those of the rows, in the order of their times."""
    import csv
    import io
    text = io.StringIO(newline="")
    writer = csv.writer(text, delimiter=separator, lineterminator=end)
    writer.writerow(order)
    for time, service, who in rows:
        writer.writerow([{"time": time, "service": service, "who": who}[it] for it in order])
    told = (mark + text.getvalue()).encode()
    log = read(tmp_path_factory.getbasetemp(), told if way is None else COMPRESSED[way](told))
    first = min(time for time, _, _ in rows)
    wanted = [(time - first, service) for time, service, _ in sorted(rows, key=lambda it: it[0])]
    assert [(int(a) // 10 ** 9, int(b) // 10 ** 9) for a, b in zip(log.rows.times, log.rows.services)] == wanted
    assert sorted(log.rows.numbers) == list(range(2, len(rows) + 2))
