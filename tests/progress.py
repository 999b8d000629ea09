#!/usr/bin/env python3
"""The line of progress: `tests/progress.py PROGRAM [SECONDS]`.

A run that takes a while, by one worker and by three, with standard error on a terminal (a pseudo-terminal that this script
holds) shows how many pieces are done, at most four times a second and not in its first two seconds, and erases the line; on a
pipe, and where it is quick, it shows nothing. The picture is made of so many columns that a run takes SECONDS (4).
"""
import os, pty, re, subprocess, sys, tempfile, threading, time

PROGRAM = os.path.abspath(sys.argv[1])
SECONDS = float(sys.argv[2]) if len(sys.argv) > 2 else 4.0
HEIGHT = 64
TEXT = """pipeline slow;
input in u8 [{width}, 64];
func sum u32 (x, y) = 0u32;
update sum over (r 0..2047) [x, y] = sum[x, y] + u32(in[x, y]) * u32(r);
func out u8 (x, y) = u8(sum[x, y]);
output out [{width}, 64];
"""
SCHED = "sum.compute_at(out, y);\nout.parallel(y);\n"
LINE = re.compile(rb"\r(\d+) of 64 pieces\x1b\[K")
ERASED = b"\r\x1b[K"

passed = failed = 0


def tell(name, good, what=""):
    global passed, failed
    if good:
        passed += 1
    else:
        failed += 1
        print(f"FAILED {name}: {what}")


def on_pipe(words):
    begun = time.monotonic()
    done = subprocess.run([PROGRAM, *words], stdin=subprocess.DEVNULL, capture_output=True)
    return done.returncode, done.stderr, time.monotonic() - begun


def on_terminal(words):
    ours, theirs = pty.openpty()
    said = []

    def listen():
        while True:
            try:
                some = os.read(ours, 65536)
            except OSError:
                return
            if not some:
                return
            said.append(some)

    begun = time.monotonic()
    run = subprocess.Popen([PROGRAM, *words], stdin=subprocess.DEVNULL, stdout=subprocess.DEVNULL, stderr=theirs)
    listener = threading.Thread(target=listen)
    listener.start()
    status = run.wait()
    took = time.monotonic() - begun
    os.close(theirs)
    listener.join()
    os.close(ours)
    return status, b"".join(said), took


def write(width):
    open("slow.alg", "w").write(TEXT.format(width=width))
    open("slow.sched", "w").write(SCHED)
    open("slow.pgm", "wb").write(b"P5\n%d %d\n255\n" % (width, HEIGHT) + bytes(width * HEIGHT))
    made = subprocess.run([PROGRAM, "compile", "slow.alg", "slow.sched", "slow.plan"], capture_output=True)
    assert made.returncode == 0, made.stderr


def look_at(name, said, took):
    """What a terminal was told in so many seconds: lines whose counts never fall, and at last the erased one."""
    lines = LINE.findall(said)
    left = LINE.sub(b"", said).replace(ERASED, b"")
    tell(f"{name}: nothing else", left == b"", left)
    tell(f"{name}: some lines", len(lines) > 0, said)
    tell(f"{name}: at most four a second", len(lines) <= 4 * max(0.0, took - 2) + 1, (len(lines), took))
    tell(f"{name}: none is whole", all(0 < int(count) < HEIGHT for count in lines), lines)
    counts = [int(count) for count in lines]
    tell(f"{name}: no count is smaller than one before it", counts == sorted(counts), counts)
    tell(f"{name}: erased at last", said.endswith(ERASED), said[-40:])


def main():
    width = 64
    while True:
        write(width)
        status, said, took = on_pipe(["run", "slow.alg", "slow.plan", "slow.pgm", "out.pgm"])
        tell(f"pipe {width}", status == 0 and said == b"", (status, said))
        if took >= SECONDS or width == 8192:
            break
        width = min(8192, max(2 * width, int(width * SECONDS / max(took, 0.01) * 1.2)))
    whole = open("out.pgm", "rb").read()
    for workers in ("1", "3"):
        words = ["run", "slow.alg", "slow.plan", "slow.pgm", "out.pgm", "--workers", workers]
        status, said, took = on_terminal(words)
        tell(f"terminal {workers}", status == 0 and open("out.pgm", "rb").read() == whole, status)
        if took > 3.5:
            look_at(f"terminal {workers}", said, took)
    write(16)
    status, said, _ = on_terminal(["run", "slow.alg", "slow.plan", "slow.pgm", "out.pgm"])
    tell("a quick run", status == 0 and said == b"", (status, said))
    print(f"{passed} passed, {failed} failed")
    return failed != 0


if __name__ == "__main__":
    with tempfile.TemporaryDirectory() as room:
        os.chdir(room)
        sys.exit(main())
