"""A host in Python: report.py LIBRARY TABLE RECORDING

Loads the shared library and prints the report on a recording. It also gives the same records to a monitor, one call after
the other, and checks that the monitor says the same.
"""
import ctypes
import sys

KEPT = 1
REPORT_LIMIT = 1024


def load(path):
    """Returns the library, with the types of its calls as include/delkuthi.h declares them."""
    library = ctypes.CDLL(path)
    data, length, monitor, number = ctypes.c_char_p, ctypes.c_size_t, ctypes.c_void_p, ctypes.c_uint64
    calls = {
        "delkuthi_fresh_2": (number, [monitor, data, length]),
        "delkuthi_event": (ctypes.c_uint8, [monitor, ctypes.c_uint8, number]),
        "delkuthi_coloured_event": (ctypes.c_uint8, [monitor, ctypes.c_uint8, ctypes.c_uint8, number]),
        "delkuthi_tick": (ctypes.c_uint8, [monitor, number]),
        "delkuthi_close": (ctypes.c_uint8, [monitor]),
        "delkuthi_row_verdict": (ctypes.c_uint8, [monitor, number]),
        "delkuthi_row_step": (number, [monitor, number]),
        "delkuthi_rows": (number, [monitor]),
        "delkuthi_report_2": (length, [data, length, data, length, data, length]),
        "delkuthi_monitor_size": (number, []),
    }
    for name, (result, arguments) in calls.items():
        call = getattr(library, name)
        call.restype, call.argtypes = result, arguments
    return library


def report(library, table, recording):
    """The report, as the library writes it."""
    buffer = ctypes.create_string_buffer(REPORT_LIMIT)
    written = library.delkuthi_report_2(table, len(table), recording, len(recording), buffer, REPORT_LIMIT)
    return buffer.raw[:written].decode("ascii")


def records(recording):
    """The records of a recording: the bytes before the time (a kind, a kind and a colour, or none for a tick), and the time."""
    place = 1
    while place < len(recording):
        size = int.from_bytes(recording[place : place + 2], "big")
        body = recording[place + 2 : place + 2 + size]
        yield body[:-8], int.from_bytes(body[-8:], "big")
        place += 2 + size


def step_by_step(library, table, recording):
    """The same report, made of single calls; none of them may be refused."""
    monitor = (ctypes.c_uint64 * (library.delkuthi_monitor_size() // 8))()
    answers = [library.delkuthi_fresh_2(monitor, table, len(table))]
    calls = [library.delkuthi_tick, library.delkuthi_event, library.delkuthi_coloured_event]
    for before, time in records(recording):
        answers.append(calls[len(before)](monitor, *before, time))
    answers.append(library.delkuthi_close(monitor))
    assert not any(answers), answers
    lines = [f"closed {len(answers) - 1}"]
    for row in range(library.delkuthi_rows(monitor)):
        kept = library.delkuthi_row_verdict(monitor, row) == KEPT
        lines.append(f"{row} kept" if kept else f"{row} broken {library.delkuthi_row_step(monitor, row)}")
    return "".join(line + "\n" for line in lines)


def main():
    library = load(sys.argv[1])
    with open(sys.argv[2], "rb") as file:
        table = file.read()
    with open(sys.argv[3], "rb") as file:
        recording = file.read()
    text = report(library, table, recording)
    assert text == step_by_step(library, table, recording)
    print(text, end="")


main()
