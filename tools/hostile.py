#!/usr/bin/env python3
"""Gives the proved program hostile scripts, and stops at the first run that doesn't end with a status and line of its
own. Usage: tools/hostile.py [RANDOM [MUTATED [SEED]]], by default 100000 random byte strings and 10000 mutated scripts.

Each run must end within ten seconds by itself with
  0 and a report on standard output, or
  3, 6 or 8, the one line for it on standard error, and nothing on standard output."""

import concurrent.futures
import json
import os
import random
import re
import subprocess
import sys

TOP = os.path.dirname(os.path.dirname(os.path.abspath(__file__)))
PROGRAM = os.path.join(TOP, "crates", "hops_cli", "out", "hops_cli")
LINES = {
    3: re.compile(rb"hops: bad script, rule ([1-9]|1[0-6]), at \d+, call \d+\n"),
    6: re.compile(rb"hops: input too large\n"),
    8: re.compile(rb"hops: not built yet, client \d+, call \d+\n"),
}
MOST = 16 * 1024 * 1024
JSON_BYTES = b'{}[]",:\\/u0123456789-+.eEtruefalsn \n'
TOKENS = [
    b"{", b"}", b"[", b"]", b",", b":", b'"', b"null", b"true", b"false", b"0", b"-1", b"1", b"17", b"1e3", b"0.5",
    b"18446744073709551616", b"9" * 400, b'""', b'"/"', b'"/a"', b'"/a/../b"', b'"/' + b"a/" * 1001 + b'"', b'"\\u0000"',
    b'"\\ud834"', b'"\xff"', b"\xef\xbb\xbf", b'"version"', b'"namenodes"', b'"clients"', b'"user"', b'"calls"',
    b'"stops"', b'"tries"', b'"grace"', b'"persist"', b'"mkdirs"', b'"create"', b'"append"', b'"grow"', b'"close"',
    b'"stat"', b'"list"', b'"delete"', b'"rename"', b'"chmod"', b'"set_quota"', b'"usage"',
]


def fault_in(done):
    """What is wrong with how a run ended, or nothing."""
    if done.returncode == 0:
        lines = done.stdout.split(b"\n")
        if lines[-1] != b"" or json.loads(lines[0]).get("report") != 1 or json.loads(lines[-2])[0] != "end":
            return "status 0 and no report"
    elif done.returncode not in LINES:
        return f"status {done.returncode}"
    elif done.stdout:
        return f"status {done.returncode} and something written"
    elif not LINES[done.returncode].fullmatch(done.stderr):
        return f"status {done.returncode} and the line {done.stderr!r}"
    return None


def tried(script):
    """The status of a run of the script, and what is wrong with it."""
    try:
        done = subprocess.run([PROGRAM, "run"], input=script, capture_output=True, timeout=10)
    except subprocess.TimeoutExpired:
        return None, "no end within ten seconds"
    return done.returncode, fault_in(done)


def random_bytes(draw):
    """Bytes of no form, or bytes that JSON is made of, or its words one after another."""
    kind = draw.randrange(3)
    if kind == 0:
        return draw.randbytes(draw.randrange(200))
    if kind == 1:
        return bytes(draw.choices(JSON_BYTES, k=draw.randrange(200)))
    return b"".join(draw.choices(TOKENS, k=draw.randrange(40)))


def changed_value(draw, script):
    """The script with one value of a call, or of its own, put in the place of another."""
    value = json.loads(script)
    calls = [call for client in value["clients"] for call in client["calls"]]
    values = [True, False, None, -1, 0, 1, 511, 512, 2**32, 0.5, "", "/", "/a", "/a/b", "a", "/.", "/\u0000", [], {}]
    names = ["mkdirs", "create", "append", "stat", "list", "delete", "chmod", "usage", "nothing"]
    change = draw.randrange(4)
    if change == 0 or not calls:
        value[draw.choice([*value, "other"])] = draw.choice(values)
        return json.dumps(value).encode()
    call = draw.choice(calls)
    if change == 1:
        call[0] = draw.choice(names)
    elif change == 2:
        call[draw.randrange(len(call))] = draw.choice(values)
    else:
        call[1] = draw.choice(calls)[1]
    return json.dumps(value).encode()


def mutated(draw, scripts):
    """A script with a value changed, or with one to four changes of a byte, a span or a word."""
    if draw.randrange(2) == 0:
        return changed_value(draw, draw.choice(scripts))
    text = bytearray(draw.choice(scripts))
    for _ in range(draw.randrange(1, 5)):
        at = draw.randrange(len(text) + 1)
        end = min(len(text), at + draw.choice([1, 1, 2, 8, 40]))
        change = draw.randrange(5)
        if change == 0:
            text[at:end] = draw.randbytes(end - at)
        elif change == 1:
            del text[at:end]
        elif change == 2:
            text[at:at] = draw.choice(TOKENS)
        elif change == 3:
            text[at:end] = draw.choice(TOKENS)
        else:
            other = draw.randrange(len(text) + 1)
            text[other:other] = text[at:end]
    return bytes(text)


def extremes():
    """Scripts at the ends of what is allowed, and of what a reader can bear."""
    for depth in (100, 127, 128, 129, 10_000, 1_000_000, MOST):
        yield b"[" * depth
        yield b'{"version":' * (depth // 11)
        yield b"[" * (depth // 2) + b"]" * (depth // 2)
    for count in (MOST - 1, MOST, MOST + 1, 2 * MOST):
        yield b" " * count
        yield b'"' + b"a" * (count - 2) + b'"'
        yield b"9" * count
        yield b"[" + b"0," * ((count - 2) // 2) + b"0]"
    yield b"1e999999999"
    yield b'{"version":1,"version":1,"namenodes":1,"clients":[]}'
    calls = b",".join([b'["stat","/"]'] * 65_537)
    yield b'{"version":1,"namenodes":1,"clients":[{"user":"ann","calls":[' + calls + b"]}]}"


def seeds():
    """The examples, and generated scripts of one client."""
    folder = os.path.join(TOP, "examples")
    for name in sorted(os.listdir(folder)):
        with open(os.path.join(folder, name), "rb") as file:
            yield file.read()
    for seed in range(8):
        yield subprocess.run([PROGRAM, "gen", str(seed), "1", "6"], capture_output=True, check=True).stdout


def run_all(name, scripts):
    """Tries the scripts, and says how many ended with which status."""
    counts = {}
    with concurrent.futures.ThreadPoolExecutor(os.cpu_count()) as pool:
        window = []
        for script in scripts:
            window.append((script, pool.submit(tried, script)))
            if len(window) >= 256:
                settle(window, counts)
        settle(window, counts)
    told = ", ".join(f"{count} with status {status}" for status, count in sorted(counts.items()))
    print(f"{name}: {told}", flush=True)


def settle(window, counts):
    """Waits for the runs, and stops at the first that is wrong."""
    for script, future in window:
        status, fault = future.result()
        if fault:
            with open("hostile_script", "wb") as file:
                file.write(script)
            sys.exit(f"{fault}; the script is in the file hostile_script")
        counts[status] = counts.get(status, 0) + 1
    window.clear()


def main():
    numbers = [int(word) for word in sys.argv[1:]]
    randoms, mutants, seed = (numbers + [100_000, 10_000, 1][len(numbers):])[:3]
    proved = {**os.environ, "HOPS_PROVED": "1"}
    subprocess.run([os.path.join(TOP, "hops"), "gen", "1", "1", "1"], env=proved, stdout=subprocess.DEVNULL, check=True)
    draw = random.Random(seed)
    scripts = list(seeds())
    run_all("extremes", extremes())
    run_all("random byte strings", (random_bytes(draw) for _ in range(randoms)))
    run_all("mutated scripts", (mutated(draw, scripts) for _ in range(mutants)))


if __name__ == "__main__":
    main()
