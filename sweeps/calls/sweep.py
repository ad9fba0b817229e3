#!/usr/bin/env python3
"""calls: commands whose reads and writes move few bytes, and fail.

sweep.py PROGRAM makes each call of rows.py with `failing_calls.c` loaded, so that each read and each write to
standard output moves one byte. What comes then is judged, and after it

- each read of one of its files fails in turn: by an error of the system, which is told as `cannot read` with the
  file's name and status 4, and by want of memory, which is told as `out of memory` with status 3. Nothing was
  printed, or what the row says of a recording that is shown as it is read. A read that is not made changes nothing: a
  file of n bytes takes n + 1 of them, of which the last finds its end;
- each write fails in turn: by an error of the system, and by taking nothing. It is told as `cannot write` with status
  4, and what was written before is printed. A write that is not made changes nothing;
- the whole is written where writes take 7 bytes, and 1000.

Long lines, whose payloads end at the edges of what is turned into digits and held back at once, come whole through
writes of 7 bytes, of 5000 and of all, and a beginning of them where a write takes nothing.
"""
import concurrent.futures
import errno
import os
import shutil
import subprocess
import sys
import tempfile

from rows import ROWS, Row

HERE = os.path.dirname(os.path.abspath(__file__))
# Lengths of payloads, and the writes of 5000 bytes of which one takes nothing.
LENGTHS = (63, 64, 65, 127, 128, 129, 8100, 8140, 8191, 8192, 8193, 20000)
WRITES = 40
CANNOT_READ = "cannot read {}"
UNREAD = ((errno.EIO, CANNOT_READ, 4), (errno.ENOMEM, "out of memory", 3))
UNWRITTEN = (errno.EIO, 0)


class Sweep:
    """The calls that were made so far, and the findings."""

    def __init__(self, program, room):
        self.program, self.room, self.calls, self.findings = program, room, 0, []
        words = ["-O1", "-shared", "-fPIC", "-o", f"{room}/calls.so", f"{HERE}/failing_calls.c"]
        subprocess.run(["cc", *words], check=True)

    def call(self, row, folder, **how):
        """The status of a row's call, and what comes on standard output and on standard error."""
        words = [self.program, *row.words.split("|")]
        more = {name: str(value) for name, value in how.items()}
        given = {**os.environ, "LD_PRELOAD": f"{self.room}/calls.so", **more}
        ended = subprocess.run(words, cwd=folder, env=given, stdin=subprocess.DEVNULL, capture_output=True, timeout=60)
        self.calls += 1
        return ended.returncode, ended.stdout.decode("latin1"), ended.stderr.decode("latin1")

    def expect(self, row, folder, wanted, **how):
        """Judges a call of a row: its status, and both texts."""
        status, printed, told = wanted
        wanted = (status, printed, f"{told}\n" if told else "")
        came = self.call(row, folder, **how)
        if came != wanted:
            circumstances = " ".join(f"{name}={value}" for name, value in how.items())
            self.findings.append(f"{row.words} {circumstances}: expected {wanted}, got {came}")

    def sweep_row(self, row, folder):
        """Judges all calls of a row, whose files stand in a folder."""
        whole = (row.status, row.printed, row.told)
        self.expect(row, folder, whole, MOST_BYTES=1, CALLS_SEEN=f"{folder}/seen")
        with open(f"{folder}/seen", encoding="ascii") as file:
            reads, writes = map(int, file.read().split())
        if row.fails:
            self.sweep_reads(row, folder, whole, reads)
        if writes != len(row.printed):
            self.findings.append(f"{row.words}: {writes} writes of {len(row.printed)} bytes")
        for call in range(1, writes + 1):
            for error in UNWRITTEN:
                begun = (4, row.printed[: call - 1], "cannot write")
                self.expect(row, folder, begun, MOST_BYTES=1, FAILING_WRITE=call, FAILS_BY=error)
        self.expect(row, folder, whole, MOST_BYTES=1, FAILING_WRITE=writes + 1)
        for most in (7, 1000):
            self.expect(row, folder, whole, MOST_BYTES=most)

    def sweep_reads(self, row, folder, whole, reads):
        """Judges the calls of a row in which a read of its file fails."""
        earlier = 0
        for name, text in row.files.items():
            if name == row.fails:
                break
            earlier += len(text) + 1
        length = len(row.files[row.fails])
        for count in range(length + 1):
            printed = next((text for after, text in reversed(row.before) if after <= count), "")
            for error, told, status in UNREAD:
                wanted = (status, printed, told.format(row.fails))
                self.expect(row, folder, wanted, MOST_BYTES=1, FAILING_READ=earlier + count + 1, FAILS_BY=error)
        self.expect(row, folder, whole, MOST_BYTES=1, FAILING_READ=reads + 1, FAILS_BY=errno.EIO)

    def sweep_long_lines(self, folder):
        """Judges calls whose text is long."""
        row = long_lines()
        write_files(row, folder)
        whole = (0, row.printed, "")
        for most in (7, 5000, 1 << 20):
            self.expect(row, folder, whole, MOST_BYTES=most)
        for call in range(1, WRITES + 1):
            status, printed, told = self.call(row, folder, MOST_BYTES=5000, FAILING_WRITE=call, FAILS_BY=0)
            is_whole = (status, printed, told) == whole
            is_begun = (status, told) == (4, "cannot write\n") and row.printed.startswith(printed)
            if not (is_whole or is_begun and len(printed) < len(row.printed)):
                self.findings.append(f"long lines, write {call}: status {status}, {len(printed)} bytes, {told}")


def long_lines():
    """The call that shows a capture with a request of each length."""
    head = "{:08x}0001000101010000"
    told = "message 1234.0421 length {} client 0001 session 0001 interface 01 type REQUEST code 00 payload"
    capture = "".join(f"12340421{head.format(8 + length)}{'5A' * length}\n" for length in LENGTHS)
    shown = "".join(f"{at} {told.format(8 + length)} {'5a' * length}\n" for at, length in enumerate(LENGTHS, 1))
    return Row("show|capture", {"capture": capture}, "", shown)


def write_files(row, folder):
    """Makes a folder with the files of a row."""
    os.mkdir(folder)
    for name, text in row.files.items():
        with open(f"{folder}/{name}", "wb") as file:
            file.write(text if isinstance(text, bytes) else text.encode())


def main():
    with tempfile.TemporaryDirectory() as room:
        program = shutil.copy(sys.argv[1], f"{room}/someipctl")
        sweep = Sweep(program, room)
        folders = [f"{room}/{number}" for number in range(len(ROWS))]
        for row, folder in zip(ROWS, folders):
            write_files(row, folder)
        with concurrent.futures.ThreadPoolExecutor(os.cpu_count()) as pool:
            list(pool.map(sweep.sweep_row, ROWS, folders))
        sweep.sweep_long_lines(f"{room}/long")
    print("".join(f"calls: {finding}\n" for finding in sweep.findings), end="")
    if not sweep.findings:
        print(f"calls: {len(ROWS)} commands, {sweep.calls} calls, no finding")
    sys.exit(1 if sweep.findings else 0)


if __name__ == "__main__":
    main()
