"""The calls of firmware.c by ctypes. It prints what examples/firmware.txt has.

    make firmware
    cc -shared -o dist/libmlgd.so -Wl,--whole-archive dist/lib/libmlgd.a -Wl,--no-whole-archive
    python3 examples/firmware.py dist/libmlgd.so
"""
import ctypes
import struct
import sys

# Code A: seven bits and seven checks, three bits in each check and three checks on each bit.
N, M, RHO, GAMMA = 7, 7, 3, 3
ROWS = [0, 1, 3, 1, 2, 4, 2, 3, 5, 3, 4, 6, 0, 4, 5, 1, 5, 6, 0, 2, 6]
LEVEL_STEP = 0
FILLING = 0xEE


def load(path):
    """The function of the shared library, its argument types declared as in include/mlgd.h."""
    decode = ctypes.CDLL(path).mlgd_decode
    number, length = ctypes.c_uint16, ctypes.c_size_t
    read, written = ctypes.c_char_p, ctypes.POINTER(ctypes.c_char)
    matrix = [number] * 4 + [read, length]
    setting = [number] * 3 + [ctypes.c_uint32]
    decode.argtypes = matrix + setting + [read, length] + [written, length] * 3
    decode.restype = ctypes.c_uint32
    return decode


def filled(count):
    """A buffer to be written to, filled before, to show what a refusal leaves."""
    return (ctypes.c_char * count)(*[FILLING] * count)


def show(decode, name, setting, samples):
    """Decodes a block by a width, a limit and a level step, and prints a line."""
    bits, limit, size = setting
    listed = struct.pack(f"<{M * RHO}H", *ROWS)
    block = struct.pack(f"<{N}f", *samples)
    (step,) = struct.unpack("<I", struct.pack("<f", size))
    word, levels, report = filled((N + 7) // 8), filled(2 * N), filled(8)
    returned = decode(
        N, M, RHO, GAMMA, listed, len(listed), bits, limit, LEVEL_STEP, step, block, len(block),
        word, len(word), levels, len(levels), report, len(report),
    )
    refusal, place = returned >> 16, returned & 0xFFFF
    if refusal:
        kept = set(word.raw + levels.raw + report.raw) == {FILLING}
        left = "nothing" if kept else "something"
        print(f"{name}: refused {refusal} at {place}, {left} written")
        return
    outcome = "failed" if returned else "decoded"
    rounds, failing, changed, _ = struct.unpack("<4H", report.raw)
    signed = " ".join(map(str, struct.unpack(f"<{N}h", levels.raw)))
    counts = f"rounds {rounds}, failing {failing}, changed {changed}"
    print(f"{name}: {outcome}, {counts}, word {word.raw.hex()}, levels {signed}")


def main():
    decode = load(sys.argv[1] if len(sys.argv) > 1 else "dist/libmlgd.so")
    samples = [0.5] + [-1.0] * (N - 1)
    coarse, fine, none = (3, 5, 0.5), (12, 255, 0.5 / 512), (3, 0, 0.5)
    show(decode, "limit 5", coarse, samples)
    show(decode, "12 bits", fine, samples)
    show(decode, "limit 0", none, samples)
    samples[4] = float("nan")
    show(decode, "sample 4 not a number", coarse, samples)


if __name__ == "__main__":
    main()
