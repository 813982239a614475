# Plans a job of numbers and writes the columns of each extract: ./build-library && python3 examples/plan.py
import ctypes
import pathlib

library = ctypes.CDLL(str(pathlib.Path(__file__).resolve().parent.parent / "target/dist/libvjolthar.so"))
library.vjolthar_plan.restype = ctypes.c_uint16
AND, OR, END = 16, 17, 18


def lent(numbers):
    return (ctypes.c_uint16 * len(numbers))(*numbers), ctypes.c_size_t(len(numbers))


columns = ["steward", "born", "home", "duty", "illness", "panel"]
forbidden = lent([0b000100, 0b010001, 0b010010])
needs = lent([0, 2, OR, END] + [3, 4, AND, END] + [1, 4, 5, OR, AND, END])
extracts, places = lent([0] * 8)
count = ctypes.c_uint16()
refusal = library.vjolthar_plan(ctypes.c_size_t(len(columns)), *forbidden, *needs, extracts, places, ctypes.byref(count))
if refusal != 0:
    raise SystemExit(f"refused: {refusal}")
for k, extract in enumerate(extracts[: count.value]):
    print(f"extract {k + 1}:", *[name for i, name in enumerate(columns) if extract >> i & 1])
