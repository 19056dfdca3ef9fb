"""What a user's checker says of the package: `mypy --strict` has to find each error that is ignored here, and no
other."""
import io

import hound_bindings as hound

samples, info = hound.read_with_info("a.wav", dtype="float32")
hound.write("b.wav", samples, like=info, bits=16, dither=True)
hound.read(io.BytesIO(), dtype=float)
hound.read("a.wav", dtype="flot32")  # type: ignore[arg-type]
hound.open("a.wav").read(1, "int64")  # type: ignore[arg-type]
hound.write("b.wav", samples, like="a.wav")  # type: ignore[arg-type]
with hound.create(io.BytesIO(), like=info) as writer, hound.open("a.wav") as reader:
    for block in reader.blocks(100, "f4"):
        writer.write(block)
    frames: int = writer.tell() + writer.info.frames
    seconds: float = info.duration
    name: str = info.frames  # type: ignore[assignment]
hound.create("a.wav", 8000, 2, 24, True)  # type: ignore[misc]
hound.create("a.wav", 8000, 2, 24, split="1h")  # type: ignore[arg-type]
hound.resume("a.wav", 8000, 2, 24, durable=True).close()
hound.resume("a.wav", split="1h")  # type: ignore[arg-type]
hound.resume(io.BytesIO(), 8000, 2, 24)  # type: ignore[arg-type]
hound.write("a.wav", samples, 8000, 2, 24, 4)  # type: ignore[misc]
hound.append("a.wav", samples, True)  # type: ignore[misc]
hound.read("a.wav", 0, -1, "int16", always_2d=True)
for block in hound.follow("a.wav", 4096, "float32", timeout=1, parts=True):
    hound.write("b.wav", block, like=info)
hound.follow("a.wav", 4096, "flot32")  # type: ignore[arg-type]
with hound.Follower("a.wav") as follower:
    hound.write("b.wav", follower.read(100, "int16"), like=follower.info)
    added: int = follower.find_damage().added
hound.Follower(io.BytesIO())  # type: ignore[arg-type]
