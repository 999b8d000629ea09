"""The picture of an array, tile by tile on a Dask cluster: `picture(client, DIR, array)`.

DIR is what `stencil tiles ALG TW TH DIR` wrote, with a plan DIR/K.plan for each kind where they were compiled; all
workers see it. The array has 8 or 16 bits without a sign, as ALG's input, and rows first.
"""
import os, subprocess
import numpy as np

def pnm(array):
    header = (6 if array.ndim == 3 else 5, *array.shape[1::-1], np.iinfo(array.dtype).max)
    return b"P%d\n%d %d\n%d\n" % header + array.astype(array.dtype.newbyteorder(">")).tobytes()

def samples(file):
    sort, sides, most, raster = file.split(b"\n", 3)
    width, height = map(int, sides.split())
    kind = np.dtype(">u2" if int(most) > 255 else "u1")
    shape = (height, width, 3) if sort == b"P6" else (height, width)
    return np.frombuffer(raster, kind).reshape(shape).astype(kind.newbyteorder("="))

def tile(folder, kind, part):
    name, plan = f"{folder}/{kind}.alg", f"{folder}/{kind}.plan"
    words = ["run", name, plan, "-", "-"] if os.path.exists(plan) else ["plain", name, "-", "-"]
    for _ in range(3):
        done = subprocess.run([os.environ.get("STENCIL", "stencil"), *words], input=pnm(part), capture_output=True)
        if done.returncode not in (4, 5, 6):  # these alone may be tried again
            break
    if done.returncode:
        raise RuntimeError(f"status {done.returncode}: {done.stderr.decode()}")
    return samples(done.stdout)

def picture(client, folder, array):
    lines = [tuple(map(int, line.split())) for line in open(f"{folder}/list")]
    parts = [array[y : y + h, x : x + w] for _, _, _, _, x, y, w, h, _ in lines]
    made = client.gather([client.submit(tile, folder, line[8], part) for line, part in zip(lines, parts)])
    height, width = max(y + h for _, y, _, h, *_ in lines), max(x + w for x, _, w, *_ in lines)
    whole = np.empty((height, width) + made[0].shape[2:], made[0].dtype)
    for (x, y, w, h, *_), part in zip(lines, made):
        whole[y : y + h, x : x + w] = part
    return whole
