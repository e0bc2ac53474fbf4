"""Every entry, from Python by ctypes: prints what program.c prints. The arguments are the shared library and the folder of the case sheets."""
import ctypes
import sys
from ctypes import POINTER, c_size_t, c_uint8, c_uint32, c_uint64
from pathlib import Path


class Task(ctypes.Structure):
    """A task record."""

    _fields_ = [(name, c_uint32) for name in ("period", "lock", "frame_count")] + [
        (name, c_uint32 * 8) for name in ("frames", "deadlines")
    ]


BYTES, NUMBERS, TASKS = (c_uint8, POINTER(c_uint8)), (c_uint32, POINTER(c_uint32)), (Task, POINTER(Task))
library = ctypes.CDLL(sys.argv[1])


def entry(name, answer, *arguments):
    """An entry of the library with the types of its declaration; a lent buffer goes as a pointer and a length."""
    function = library["burrbeech_" + name]
    function.restype = answer
    function.argtypes = [t for a in arguments for t in ((a[1], c_size_t) if isinstance(a, tuple) else (a,))]
    return function


check_sheet = entry("check_sheet", c_uint32, BYTES, BYTES)
read_list = entry("read_list", c_uint64, BYTES, TASKS)
write_list = entry("write_list", c_uint64, c_uint32, c_uint32, TASKS, BYTES)
convert = entry("convert", c_uint64, c_uint32, BYTES, BYTES)
analyse_list = entry("analyse_list", c_uint64, c_uint32, TASKS, NUMBERS)
analyse_sheet = entry("analyse_sheet", c_uint64, BYTES, NUMBERS)
report = entry("report", c_uint64, BYTES, BYTES)
play = entry("play", c_uint64, BYTES, BYTES)
worst_run = entry("worst_run", c_uint64, BYTES, BYTES)
trace = entry("trace", c_uint64, BYTES, BYTES, BYTES)


def opened(answer):
    """The refusal and the detail."""
    return answer & 0xFF, answer >> 8


def print_check(name, sheet):
    times = (c_uint8 * 512)()
    answer = check_sheet(sheet, len(sheet), times, len(times))
    if answer >= 100:
        print(f"{name} checked: missed {(answer - 100) // 17} {(answer - 100) % 17}")
    elif answer > 0:
        print(f"{name} checked: refused {answer}")
    else:
        print(f"{name} checked: holds, {int.from_bytes(bytes(times[32:36]), 'big')} in task 1")


def print_analysis(name, answer, times):
    refusal, detail = opened(answer)
    if refusal:
        task, frame, length, other = detail.to_bytes(4, "little")
        why = f", frame {frame}, length {length}, other frame {other}" if refusal == 11 else ""
        print(f"{name}: refused {refusal}, task {task}{why}")
        return
    outcome, tasks = detail & 0xFFFF, detail >> 16 & 0xFF
    verdict = f"missed {(outcome - 1) // 17} {(outcome - 1) % 17}" if outcome else "holds"
    print(f"{name}: {verdict},", *(times[8 * task] for task in range(tasks)))


def print_lists(name, sheet):
    tasks, times, back = (Task * 16)(), (c_uint32 * 128)(), (c_uint8 * 732)()
    refusal, detail = opened(read_list(sheet, len(sheet), tasks, len(tasks)))
    count, policy, version = (0, 0, 0) if refusal else detail.to_bytes(3, "little")
    print(f"{name} read: refusal {refusal}, {count} tasks, policy {policy}, version {version}")
    print_analysis(f"{name} list", analyse_list(policy, tasks, count, times, len(times)), times)
    refusal, written = opened(write_list(version, policy, tasks, count, back, len(back)))
    same = "the same" if not refusal and back[:written] == sheet[:] else "other ones"
    print(f"{name} written: refusal {refusal}, {written} bytes, {same}")


def print_converted(name, sheet):
    there, back = (c_uint8 * 732)(), (c_uint8 * 732)()
    refusal, detail = opened(convert(2, sheet, len(sheet), there, len(there)))
    length = 0 if refusal else detail
    print(f"{name} converted: refusal {refusal}, {length} bytes")
    refusal, detail = opened(convert(1, there, length, back, len(back)))
    same = "the same" if not refusal and back[:detail] == sheet[:] else "other ones"
    print(f"{name} and back: refusal {refusal}, {same}")


def print_deadlines(name, sheet):
    tasks, times, back = (Task * 16)(), (c_uint32 * 128)(), (c_uint8 * 732)()
    refusal, detail = opened(read_list(sheet, len(sheet), tasks, len(tasks)))
    count = detail & 0xFF
    for task in tasks[:count]:
        task.deadlines = task.frames
    print_analysis(f"{name} with its times as deadlines", analyse_list(0, tasks, count, times, len(times)), times)
    print(f"{name} in version 1: refusal {opened(write_list(1, 0, tasks, count, back, len(back)))[0]}")
    print(f"{name} in version 2: {opened(write_list(2, 0, tasks, count, back, len(back)))[1]} bytes")


def print_runs(name, sheet):
    script, ticks = (c_uint8 * 64)(), (c_uint8 * 64)()
    refusal, detail = opened(worst_run(sheet, len(sheet), script, len(script)))
    length = 0 if refusal else detail
    print(f"{name} worst run: {length} bytes")
    refusal, detail = opened(play(sheet, len(sheet), script, length))
    if refusal:
        print(f"{name} played: refused {refusal}, item {detail if refusal == 14 else 0}")
        return
    print(f"{name} played: task {detail >> 32} at {detail & 0xFFFFFFFF}")
    refusal, detail = opened(trace(sheet, len(sheet), script, length, ticks, len(ticks)))
    print(f"{name} traced:", *(f"{tick & 31}{'L' if tick & 32 else ''}" for tick in ticks[: detail & 0xFFFFFFFF]))


def read_sheet(name):
    content = Path(sys.argv[2], name + ".sheet").read_bytes()
    return (c_uint8 * len(content))(*content)


for name in ("f", "g", "i", "n"):
    sheet, times, text = read_sheet(name), (c_uint32 * 128)(), (c_uint8 * 2048)()
    print_check(name, sheet)
    print_analysis(f"{name} sheet", analyse_sheet(sheet, len(sheet), times, len(times)), times)
    print_lists(name, sheet)
    print_converted(name, sheet)
    print(bytes(text[: opened(report(sheet, len(sheet), text, len(text)))[1]]).decode("ascii"), end="")
    print_runs(name, sheet)
print_deadlines("j", read_sheet("j"))
