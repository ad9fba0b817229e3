#!/usr/bin/env python3
"""extracts: what `extract` writes of recordings that are drawn, read again.

extracts.py PROGRAM [--seed WORD] [--count N] draws recordings and words as `packets` does. `recording` has to print of the
file that `extract` wrote what it prints of the recordings with the same words: the lines of the datagrams that are chosen,
with their times and endpoints. Its packets have to be some of those of the recordings, byte for byte, with their times, in
nanoseconds. A fragment without a time takes that of the packets before it, which may be others in the file: where one is
written, the packets alone are judged. Where `capinfos` is there, it has to count as many.
"""
import argparse
import os
import random
import re
import resource
import shutil
import signal
import struct
import subprocess
import sys
import tempfile

import draws

UNTIMED = b"extract: packets without a time have the time 0\n"


def call(program, folder, words):
    ended = subprocess.run([program, *words], cwd=folder, stdin=subprocess.DEVNULL, capture_output=True, timeout=60)
    return ended.returncode, ended.stdout, ended.stderr


def packets_of(data):
    """The packets of a file of pcapng: time, link type and bytes. One section, the lowest byte of each number first."""
    links, packets, place = [], [], 0
    while place < len(data):
        kind, size = struct.unpack_from("<II", data, place)
        body = data[place + 8:place + size - 4]
        assert struct.unpack_from("<I", data, place + size - 4)[0] == size
        if kind == 1:
            links.append(struct.unpack_from("<H", body)[0])
            assert body[8:13] == struct.pack("<HHB", 9, 1, 9)
        elif kind == 6:
            number, high, low, size_here, size_then = struct.unpack_from("<IIIII", body)
            assert size_here == size_then
            packets.append(((high << 32) + low, links[number], body[20:20 + size_here]))
        elif kind == 3:
            packets.append((None, links[0], body[4:4 + struct.unpack_from("<I", body)[0]]))
        else:
            assert kind == 0x0A0D0D0A and place == 0
        place += size
    return packets


def originals(files):
    """The same of the drawn files, as far as they are whole."""
    found = []
    for data in files:
        if data[:4] == b"\x0a\x0d\x0d\x0a":
            found += drawn_blocks(data)
            continue
        place = 24
        while place + 16 <= len(data):
            seconds, nanoseconds, size, _ = struct.unpack_from("<IIII", data, place)
            found.append((seconds * 10**9 + nanoseconds, 1, data[place + 16:place + 16 + size]))
            place += 16 + size
    return found


def drawn_blocks(data):
    whole, place = 0, 0
    while place + 12 <= len(data) and place + struct.unpack_from("<I", data, place + 4)[0] <= len(data):
        place += struct.unpack_from("<I", data, place + 4)[0]
        whole = place
    return packets_of(data[:whole])


def is_part(few, many):
    """Whether the packets are among those of the recordings, each as often as it came there."""
    left = list(many)
    for time, link, data in few:
        fits = [it for it in left if it[1:] == (link, data) and (it[0] == time or it[0] is None and time in (None, 0))]
        if not fits:
            return False
        left.remove(fits[0])
    return True


def is_untimed_fragment(packet):
    time, link, data = packet
    place = 0
    if link == 1:
        place = 12
        while data[place:place + 2] in (b"\x81\x00", b"\x88\xa8", b"\x91\x00"):
            place += 4
        place += 2
    return not time and int.from_bytes(data[place + 6:place + 8], "big") % 0x4000 != 0


def judge(program, folder, words, files, capinfos):
    """What is not so, or None; and how many packets were written."""
    names = []
    for index, data in enumerate(files):
        names.append(f"{index}.pcap")
        with open(os.path.join(folder, names[-1]), "wb") as file:
            file.write(data)
    status, written, told = call(program, folder, ["extract", *words, *names])
    shown_status, shown, shown_told = call(program, folder, ["recording", "--endpoints", *words, *names])
    is_untimed = UNTIMED in told
    if told.replace(UNTIMED, b"") != shown_told:
        return f"tells {told!r}, recording {shown_told!r}", 0
    has_fault = re.search(rb"(?m)^recording: .*\w+ at \d+$", told) is not None
    if status != (1 if has_fault else 0):
        return f"ends with {status}", 0
    packets = packets_of(written)
    if not is_part(packets, originals(files)):
        return f"has other packets: {packets!r}", 0
    if any(map(is_untimed_fragment, packets)):
        return None, len(packets)
    with open(os.path.join(folder, "part.pcapng"), "wb") as file:
        file.write(written)
    _, again, again_told = call(program, folder, ["recording", "--endpoints", "part.pcapng"])
    if is_untimed:
        again, shown = (re.sub(rb"(?m)^(-|0\.000000000) ", b"? ", text) for text in (again, shown))
    if again != shown:
        return f"is read as {again!r}, not {shown!r}", 0
    if again_told:
        return f"leaves out {again_told!r}", 0
    if capinfos and packets:
        _, counted, _ = call(capinfos, folder, ["-T", "-r", "-M", "-c", "part.pcapng"])
        if counted.split()[-1:] != [str(len(packets)).encode()]:
            return f"capinfos counts {counted!r}", 0
    return None, len(packets)


# ---- Limits

def classic(packets):
    """A file of classic pcap of raw IPv4, in nanoseconds: a packet each second."""
    head = struct.pack("<IHHIIII", 0xA1B23C4D, 2, 4, 0, 0, 65535, 101)
    return head + b"".join(struct.pack("<IIII", second, 0, len(it), len(it)) + it for second, it in packets)


def fragment(key, place, data, is_last):
    """A fragment of the IPv4 packet with this Identification, which has a datagram of port 30509."""
    return struct.pack(">BBHHHBBH", 0x45, 0, 20 + len(data), key, place // 8 | (0 if is_last else 0x2000), 64, 17, 0) \
        + bytes((10, 0, 0, 1, 10, 0, 0, 2)) + data


def front_of(size):
    return struct.pack(">HHHH", 30509, 30509, size + 8, 0) + bytes(size - 8)


def limit_rows():
    """Files, and which of their packets are written, by number from 0; and what is told."""
    front, back = fragment(7, 0, front_of(1480), False), fragment(7, 1480, bytes(8), True)
    # 322 packets of 1500 bytes, with 128 for each, are 524,216 bytes of 524,288.
    for count in (1, 322, 323):
        packets = [(1, front)] * count + [(2, back)]
        is_over = count * (1500 + 128) > 524288
        yield packets, [] if is_over else range(len(packets)), \
            b"extract: left out datagrams with more than 512 KiB of fragments\n" if is_over else b""
    # Of 200 packets in part the last 64 are held, and the others begin anew with their second fragments.
    firsts = [(1, fragment(key, 0, front_of(16), False)) for key in range(200)]
    seconds = [(1, fragment(key, 16, bytes(8), True)) for key in range(199, 135, -1)]
    written = [at for key in range(199, 135, -1) for at in (key, 200 + 199 - key)]
    yield firsts + seconds, written, b"recording: left out 136 fragments without the rest\n"
    # After 30 seconds a packet begins anew, and so it does after its rest came.
    first, rest = firsts[7][1], fragment(7, 16, bytes(8), True)
    yield [(1, first), (31, first), (32, first), (62, rest), (63, first), (63, rest)], [2, 3, 4, 5], \
        b"recording: left out 2 fragments without the rest\n"


def judge_limits(program, folder):
    """What is not so of the rows."""
    for packets, written, told in limit_rows():
        with open(os.path.join(folder, "limit.pcap"), "wb") as file:
            file.write(classic(packets))
        ended, out, err = call(program, folder, ["extract", "limit.pcap"])
        wanted = [(packets[at][0] * 10**9, 101, packets[at][1]) for at in written]
        if (ended, packets_of(out), err) != (0, wanted, told):
            yield f"of {len(packets)} packets writes {len(packets_of(out))}, not {len(wanted)}, and tells {err!r}"
    # Where the file may grow no more, it has a beginning.
    with open(os.path.join(folder, "limit.pcap"), "wb") as file:
        file.write(classic([(1, fragment(7, 0, front_of(16), False)), (1, fragment(7, 16, bytes(8), True))] * 400))
    _, whole, _ = call(program, folder, ["extract", "limit.pcap"])
    for size in (0, 100, 20000, len(whole) - 1, len(whole)):
        ended, out, err = call_into(program, folder, size)
        wanted = (0, b"") if size == len(whole) else (4, b"cannot write\n")
        if (ended, err) != wanted or out != whole[:len(out)]:
            yield f"in {size} bytes ends with {ended}, {err!r}, and {len(out)} bytes"


def call_into(program, folder, size):
    """`extract` into a file that may have so many bytes."""
    def bound():
        signal.signal(signal.SIGXFSZ, signal.SIG_IGN)
        resource.setrlimit(resource.RLIMIT_FSIZE, (size, size))
    path = os.path.join(folder, "bound.pcapng")
    with open(path, "wb") as file:
        ended = subprocess.run([program, "extract", "limit.pcap"], cwd=folder, stdin=subprocess.DEVNULL, stdout=file,
                               stderr=subprocess.PIPE, timeout=60, preexec_fn=bound)
    with open(path, "rb") as file:
        return ended.returncode, file.read(), ended.stderr


def main():
    parser = argparse.ArgumentParser()
    parser.add_argument("program")
    parser.add_argument("--seed", default="way out")
    parser.add_argument("--count", type=int, default=1000)
    asked = parser.parse_args()
    program = os.path.abspath(asked.program)
    capinfos = shutil.which("capinfos")
    findings = written = 0
    with tempfile.TemporaryDirectory() as folder:
        for told in judge_limits(program, folder):
            findings += 1
            print(f"extracts: extract {told}")
    for number in range(asked.count):
        chance = random.Random(f"{asked.seed} {number}")
        words = [word for word in draws.options(chance)[0] if word not in ("--frames", "--endpoints")]
        _, files = draws.recording(chance)
        with tempfile.TemporaryDirectory() as folder:
            told, count = judge(program, folder, words, files, capinfos)
        written += count
        if told:
            findings += 1
            print(f"extracts: case {number}: extract {' '.join(words)}: {told}")
            if findings == 5:
                break
    if findings:
        return 1
    skipped = "" if capinfos else ", skipped: capinfos"
    print(f"extracts: {asked.count} cases, {written} packets, no finding{skipped}")
    return 0


if __name__ == "__main__":
    sys.exit(main())
