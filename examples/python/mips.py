"""Uploads all levels of an image, and reads them back: a trace that is written, judged and replayed from Python."""

import sys
from pathlib import Path

sys.path.insert(0, str(Path(__file__).resolve().parents[2] / "tools"))

import zorthewin

t = zorthewin.Trace()
texture = t.image("R8G8B8A8_UINT", 16, 16, levels=5, name="texture")
places, size = texture.packed()
upload = t.buffer(size, memory="HOST_COHERENT", usage="TRANSFER_SRC", name="upload")
download = t.buffer(size, memory="HOST_COHERENT", usage="TRANSFER_DST", name="download")
done = t.semaphore()
texels = bytes(k % 251 for k in range(size))
t.map(upload)
t.write(upload, texels)

with t.batch(queue=0, signals=[(done, 1)]) as b:
    b.transition(texture, "UNDEFINED", "TRANSFER_DST_OPTIMAL", dst="TRANSFER:TRANSFER_WRITE")
    b.copy_in(upload, texture)
    b.transition(
        texture,
        "TRANSFER_DST_OPTIMAL",
        "TRANSFER_SRC_OPTIMAL",
        src="TRANSFER:TRANSFER_WRITE",
        dst="TRANSFER:TRANSFER_READ",
    )
    b.copy_out(texture, download)
    b.barrier(src="TRANSFER:TRANSFER_WRITE", dst="HOST:HOST_READ")

t.wait((done, 1))
t.map(download)
t.read(download)

print(t.judge())
print([place for place in places], t.replay().reads[0][1] == texels)
