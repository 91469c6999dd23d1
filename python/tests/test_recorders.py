"""What trace recorders and network tools write: CTF, pcap and pcapng, MDF 4, TeSSLa's traces."""
import gc
import gzip
import random
import re
import struct
import sys
from types import SimpleNamespace

import pytest

from delkuthi import Table
from delkuthi.check import check
from delkuthi.fleet_commands import logs_of
from delkuthi.logs import Log, LogError, Policy


def read(path, table, **policy):
    """The lines of a log: stamp, names of events, place."""
    log = Log(path, Table.from_text(table), Policy(**policy))
    return [(time, [log.table.event_name(kind) for kind in kinds], place) for time, kinds, place in log.reader.checked_lines()]


def error(path, table="unit us\nevent a\n", **policy):
    with pytest.raises(LogError) as found:
        read(path, table, **policy)
    return str(found.value).replace(f"{path.parent}/", "")


# TeSSLa

TESSLA = """unit us
event pedal
event fast from column speed rises above 5
event gear from column gear becomes "R"
event on from column pedal becomes "true"
"""


def test_tessla(tmp_path):
    path = tmp_path / "a.tessla"
    path.write_text('# a comment\n$timeunit = "ms"\n10: pedal = false\n12.5: pedal = true\n\n13: speed = 4\n14: speed = 5.5\n15: gear = "N"\n'
                    '15: gear = "R"\n16: other = ()\n17: pedal\n')
    assert read(path, TESSLA) == [(10000, ["pedal"], 3), (12500, ["pedal", "on"], 4), (13000, [], 6), (14000, ["fast"], 7), (15000, [], 8),
                                  (15000, ["gear"], 9), (16000, [], 10), (17000, ["pedal"], 11)]
    path.write_text("10: pedal\n")
    assert read(path, TESSLA) == [(10, ["pedal"], 1)]


@pytest.mark.parametrize("text, said", [
    ("pedal\n", ":1: expected a line of a TeSSLa trace, such as 10: pedal = true"),
    ("1: speed = fast\n", ":1: expected a number for speed, found fast"),
    ("$timeunit = eons\n", ":1: expected $timeunit with one of ns, us"), ("-1: pedal\n", ":1: expected a line of a TeSSLa"),
    ('$timeunit = "ns"\n1: pedal\n', ":2: the stamp 1 ns is not a whole number of us")])
def test_tessla_errors(tmp_path, text, said):
    (tmp_path / "a.input").write_text(text)
    assert error(tmp_path / "a.input", TESSLA).startswith(f"a.input{said}")


# pcap and pcapng

BUS = """unit ns
event brake from can 0x1A0 data 01
event lamp from can 0x18FF0001
event offer from udp 30490
event find from udp 30490 data ..FF
event changed from udp 30491 data 01 on change
"""


def can_frame(identifier, data, extended=False, flags=0):
    return struct.pack(">IBBBB", identifier | (0x80000000 if extended else 0) | flags, len(data), 0, 0, 0) + data


def udp(port, data, version=4, vlan=False):
    """A datagram in Ethernet, made by dpkt."""
    dpkt = pytest.importorskip("dpkt", reason="dpkt is missing (Debian: python3-dpkt)")
    inner = dpkt.udp.UDP(sport=30490, dport=port, data=data, ulen=8 + len(data))
    if version == 4:
        packet = dpkt.ip.IP(src=b"\x0a\0\0\1", dst=b"\xe0\0\0\1", p=17, data=inner, len=28 + len(data))
    else:
        packet = dpkt.ip6.IP6(src=b"\xfe\x80" + b"\0" * 14, dst=b"\xff\x02" + b"\0" * 14, nxt=17, plen=8 + len(data), data=inner)
    frame = dpkt.ethernet.Ethernet(src=b"\2" * 6, dst=b"\1" * 6, type=0x0800 if version == 4 else 0x86DD, data=packet)
    raw = bytes(frame)
    return raw[:12] + b"\x81\x00\x00\x05" + raw[12:] if vlan else raw


FRAMES = [can_frame(0x1A0, b"\x01"), can_frame(0x1A0, b"\x02"), can_frame(0x18FF0001, b"", True), can_frame(0x1A0, b"\x01", flags=0x40000000),
          can_frame(4, b"", flags=0x20000000)]


def written(path, packets, link, nano=False):
    """A pcap file that dpkt writes."""
    dpkt = pytest.importorskip("dpkt", reason="dpkt is missing (Debian: python3-dpkt)")
    with path.open("wb") as file:
        writer = dpkt.pcap.Writer(file, linktype=link, nano=nano)
        for number, packet in enumerate(packets):
            writer.writepkt_time(packet, 1_600_000 + number / 4)
    return path


SECOND = 10**9


def test_pcap_of_dpkt(tmp_path):
    start = 1_600_000 * SECOND
    expected = [["brake"], [], ["lamp"], [], []]
    for nano in (False, True):
        path = written(tmp_path / "a.pcap", FRAMES, 227, nano)
        assert read(path, BUS) == [(start + number * SECOND // 4, kinds, number + 1) for number, kinds in enumerate(expected)]
    packed = tmp_path / "a.pcap.gz"
    packed.write_bytes(gzip.compress(path.read_bytes()))
    assert [kinds for _, kinds, _ in read(packed, BUS)] == expected
    datagrams = [udp(30490, b"\x01\xff"), udp(30490, b"\x01\x02", 6), udp(30490, b"\xff\xff", vlan=True), udp(9, b""), udp(30491, b"\x02"),
                 udp(30491, b"\x01"), udp(30491, b"\x01"), b"\0" * 60]
    path = written(tmp_path / "b.pcap", datagrams, 1)
    log = Log(path, Table.from_text(BUS))
    assert [kinds for _, kinds, _ in read(path, BUS)] == [["offer", "find"], ["offer"], ["offer", "find"], [], [], ["changed"], [], []]
    list(log.steps())
    assert log.counts.other_lines == 1
    warnings = check(Table.from_text(BUS.replace("30490 data ..FF", "30490 data AA") + "Order find -> lamp\nevent x from udp 7\nOrder x -> lamp\n"),
                     str(path)).warnings
    assert f"{path}: the log has no find: datagrams to the port 30490 came, but never with data AA" in warnings
    assert f"{path}: the log has no x: no datagram to the port 7 came" in warnings


def test_pcapng_of_dpkt(tmp_path):
    dpkt = pytest.importorskip("dpkt", reason="dpkt is missing (Debian: python3-dpkt)")
    pcapng = dpkt.pcapng
    for resolution, second in ((6, 10**6), (9, 10**9), (0x80 | 10, 1024)):
        options = [pcapng.PcapngOptionLE(code=pcapng.PCAPNG_OPT_IF_TSRESOL, data=bytes([resolution])), pcapng.PcapngOptionLE()]
        can = pcapng.InterfaceDescriptionBlockLE(linktype=227, opts=options)
        with (tmp_path / "a.pcapng").open("wb") as file:
            writer = pcapng.Writer(file, idb=can)
            for number, packet in enumerate(FRAMES):
                block = pcapng.EnhancedPacketBlockLE(pkt_data=packet, caplen=len(packet), pkt_len=len(packet))
                time = 1_600_000_000 * second + number * (second // 4)
                block.ts_high, block.ts_low = time >> 32, time & 0xFFFFFFFF
                file.write(bytes(block))
            writer.close()
        found = read(tmp_path / "a.pcapng", BUS)
        assert found == [(1_600_000_000 * SECOND + number * SECOND // 4, kinds, number + 1)
                         for number, kinds in enumerate([["brake"], [], ["lamp"], [], []])]
    with (tmp_path / "b.pcapng").open("wb") as file:
        pcapng.Writer(file, idb=pcapng.InterfaceDescriptionBlockLE(linktype=1)).writepkts([(7.5, udp(30490, b"\x01"))])
    assert read(tmp_path / "b.pcapng", BUS) == [(7_500_000_000, ["offer"], 1)]


def block(order, kind, body):
    size = struct.pack(f"{order}I", 12 + len(body))
    return struct.pack(f"{order}I", kind) + size + body + size


def pcapng(order="<", *interfaces):
    """A section of pcapng with interfaces: link type, name, and the seconds that stamps count from."""
    magic = struct.pack(f"{order}IHHq", 0x1A2B3C4D, 1, 0, -1)
    out = block(order, 0x0A0D0D0A, magic)
    for link, name, offset in interfaces:
        options = struct.pack(f"{order}HH", 2, len(name)) + name + b"\0" * (-len(name) % 4) + struct.pack(f"{order}HHqI", 14, 8, offset, 0)
        out += block(order, 1, struct.pack(f"{order}HHI", link, 0, 0) + options)
    return out


def packet(order, interface, time, data):
    head = struct.pack(f"{order}5I", interface, time >> 32, time & 0xFFFFFFFF, len(data), len(data))
    return block(order, 6, head + data + b"\0" * (-len(data) % 4))


@pytest.mark.parametrize("order", "<>")
def test_pcapng_of_several_interfaces(tmp_path, order):
    """By the words of the standard: each interface has its own link type, name and start; SocketCAN in cooked packets; blocks of no packets."""
    path = tmp_path / "a.pcapng"
    cooked = struct.pack(">HHH8sH", 0, 280, 0, b"", 0x000C) + FRAMES[0]
    newer = struct.pack(">HHIHBB8s", 0x000C, 0, 1, 280, 0, 0, b"") + FRAMES[0]
    path.write_bytes(pcapng(order, (227, b"can0", 0), (113, b"any", 5), (276, b"any2", 0)) + packet(order, 0, 1_000_000, FRAMES[0])
                     + block(order, 4, b"\0" * 8) + packet(order, 1, 1_500_000, cooked) + packet(order, 2, 7_000_000, newer)
                     + pcapng(order, (101, b"", 0)) + packet(order, 0, 8_000_000, udp(30490, b"\1")[14:]))
    table = BUS.replace("0x1A0 data 01", "0x1A0 bus any data 01")
    assert read(path, table) == [(SECOND, [], 1), (6_500_000_000, ["brake"], 2), (7 * SECOND, [], 3), (8 * SECOND, ["offer"], 4)]
    log = Log(path, Table.from_text(table))
    list(log.steps())
    assert log.counts.skipped == 1 and log.buses == {"can0", "any", "any2", "1"}


HEAD = struct.pack("<IHHiIII", 0xA1B2C3D4, 2, 4, 0, 0, 65535, 227)


@pytest.mark.parametrize("data, said", [
    (b"", ": packet 1: expected a pcap or pcapng file, found one that begins with nothing"), (b"GIF8", ": packet 1: expected a pcap or pcapng"),
    (HEAD[:10], ": packet 1: the file ends within it"), (HEAD + b"\1" * 7, ": packet 1: the file ends within it"),
    (HEAD + struct.pack("<4I", 1, 0, 9, 9) + b"\0" * 4, ": packet 1: the file ends within it"),
    (HEAD + struct.pack("<4I", 1, 10**6, 0, 0), ": packet 1: expected a stamp, found 1 s and 1000000 parts"),
    (HEAD + struct.pack("<4I", 1, 1, 1 << 30, 0), ": packet 1: expected a packet, found one of 1073741824 bytes"),
    (b"\x0a\x0d\x0d\x0a" + b"\0" * 8, ": packet 1: expected a section of pcapng"),
    (pcapng() + packet("<", 3, 1, b""), ": packet 1: a packet of the interface 3 with 0 bytes"),
    (pcapng() + block("<", 3, b"\0" * 4), ": packet 1: a packet without a stamp"),
    (pcapng() + block("<", 1, b""), ": packet 1: the file ends within it"),
    (pcapng() + struct.pack("<2I", 6, 13), ": packet 1: expected a block of pcapng, found one of 13 bytes"),
    (pcapng("<", (227, b"", 0)) + packet("<", 0, 1, FRAMES[0])[:-8], ": packet 1: the file ends within it"),
], ids=map(str, range(13)))
def test_pcap_errors(tmp_path, data, said):
    (tmp_path / "a.pcap").write_bytes(data)
    assert error(tmp_path / "a.pcap", BUS).startswith(f"a.pcap{said}")


def test_pcap_on_the_standard_input(tmp_path, command):
    path = written(tmp_path / "a.pcap", FRAMES, 227)
    (tmp_path / "t.txt").write_text(BUS + "Order brake -> lamp\n")
    status, printed, _ = command("check", "t.txt", "-", stdin=path.open("rb"))
    assert status == 0 and "2 events in 5 packets" in printed


# CTF


def ctf_trace(folder, events, discarded=False):
    """A CTF trace that babeltrace's own library writes: events with a name, a stamp in ns and fields."""
    bt2 = pytest.importorskip("bt2", reason="bt2 is missing (Debian: python3-bt2)")

    class Messages(bt2._UserMessageIterator):
        def __init__(self, config, port):
            trace_class, self._stream_class, classes = port.user_data
            self._stream = trace_class().create_stream(self._stream_class)
            begin, end = self._create_stream_beginning_message(self._stream), self._create_stream_end_message(self._stream)
            if discarded:
                # Three events are lost between a packet with the first event and one with the others.
                first, last = events[0][1], events[-1][1]
                lost = self._create_discarded_events_message(self._stream, 3, first, last)
                self._messages = [begin, *self._packet(classes, events[:1]), lost, *self._packet(classes, events[1:]), end]
            else:
                self._messages = [begin, *self._events(classes, events, self._stream), end]

        def _packet(self, classes, some):
            packet = self._stream.create_packet()
            return [self._create_packet_beginning_message(packet, some[0][1]), *self._events(classes, some, packet),
                    self._create_packet_end_message(packet, some[-1][1])]

        def _events(self, classes, some, parent):
            for name, stamp, fields in some:
                message = self._create_event_message(classes[name], parent, default_clock_snapshot=stamp)
                for key, value in fields.items():
                    message.event.payload_field[key] = value
                yield message

        def __next__(self):
            if not self._messages:
                raise StopIteration
            return self._messages.pop(0)

    class Source(bt2._UserSourceComponent, message_iterator_class=Messages):
        def __init__(self, config, params, obj):
            trace_class, clock = self._create_trace_class(), self._create_clock_class(frequency=SECOND)
            packets = dict.fromkeys(("supports_packets", "packets_have_beginning_default_clock_snapshot", "packets_have_end_default_clock_snapshot",
                                     "supports_discarded_events", "discarded_events_have_default_clock_snapshots"), discarded)
            stream_class = trace_class.create_stream_class(default_clock_class=clock, **packets)
            classes = {}
            for name, _, fields in events:
                if name not in classes:
                    payload = trace_class.create_structure_field_class()
                    for key, value in fields.items():
                        kind = {int: trace_class.create_signed_integer_field_class, str: trace_class.create_string_field_class,
                                float: trace_class.create_double_precision_real_field_class}[type(value)]()
                        payload += [(key, kind)]
                    classes[name] = stream_class.create_event_class(name=name, payload_field_class=payload)
            self._add_output_port("out", (trace_class, stream_class, classes))

    graph = bt2.Graph()
    source = graph.add_component(Source, "source")
    sink = graph.add_component(bt2.find_plugin("ctf").sink_component_classes["fs"], "sink", {"path": str(folder), "quiet": True})
    graph.connect_ports(source.output_ports["out"], sink.input_ports["in"])
    graph.run()
    # The trace is whole once the graph is gone.
    del graph, source, sink
    gc.collect()
    return next(path.parent for path in folder.rglob("metadata"))


CTF = """unit us
event pedal_pressed
event light from csv "light_on"
event fast from column "speed.value" rises above 5
event door from column "door.state" becomes "open"
"""
TRACE = [("pedal_pressed", 1_000_000, {}), ("speed", 2_000_000, {"value": 5}), ("speed", 3_000_000, {"value": 6}),
         ("door", 3_500_000, {"state": "shut"}),
         ("light_on", 4_000_000, {"level": 0.5}), ("door", 4_000_000, {"state": "open"}), ("other", 5_000_000, {})]


def test_ctf_of_babeltrace(tmp_path, command):
    trace = ctf_trace(tmp_path / "trace", TRACE)
    expected = [(1000, ["pedal_pressed"], 1), (2000, [], 2), (3000, ["fast"], 3), (3500, [], 4), (4000, ["light"], 5),
                (4000, ["door"], 6), (5000, [], 7)]
    assert read(trace, CTF) == expected
    (tmp_path / "t.txt").write_text(CTF + "Delay pedal_pressed -> light, 0 ms .. 2 ms\n")
    status, printed, _ = command("check", "t.txt", trace, "--width", "0")
    assert status == 1 and "the pedal_pressed at 1 ms (event 1) was answered 1 ms late, by the light at 4 ms (event 5)" in printed


def test_ctf_with_lost_events(tmp_path):
    trace = ctf_trace(tmp_path / "trace", TRACE, True)
    assert len(read(trace, CTF)) == 7
    outcome = check(Table.from_text(CTF + "Delay pedal_pressed -> light, 0 ms .. 4 ms\n"), str(trace))
    assert outcome.warnings == [f"{trace}: the recorder lost 3 events; rows may read differently with them"]


def test_traces_in_a_folder_of_logs(tmp_path):
    """A folder with a file metadata is one log, and the files in it are none."""
    (tmp_path / "a/kernel").mkdir(parents=True)
    for name in ("a/kernel/metadata", "a/kernel/stream.log", "a/b.csv", "a/c.txt"):
        (tmp_path / name).write_text("")
    assert logs_of(str(tmp_path)) == [f"{tmp_path}/a/b.csv", f"{tmp_path}/a/kernel"] and logs_of(f"{tmp_path}/a/kernel") == [f"{tmp_path}/a/kernel"]


def test_ctf_that_is_none(tmp_path):
    pytest.importorskip("bt2", reason="bt2 is missing (Debian: python3-bt2)")
    (tmp_path / "trace").mkdir()
    (tmp_path / "trace/metadata").write_text("/* CTF 1.8 */\nnonsense { } ;")
    assert error(tmp_path / "trace", CTF).startswith("trace: babeltrace cannot read it: ")


def test_damaged_traces_are_read_or_refused(tmp_path):
    """Each of thirty damaged traces is read or refused, also where babeltrace itself gives up (the last one)."""
    trace, rng, refused = ctf_trace(tmp_path / "trace", TRACE), random.Random(3), 0
    whole = {path: path.read_bytes() for path in trace.iterdir() if path.is_file()}
    for number in range(31):
        changed = rng.choice(sorted(whole))
        for path, data in whole.items():
            path.write_bytes(damaged(data, rng) if path == changed and number < 30 else data)
        if number == 30:
            # The size of the packet, in bits.
            stream = trace / "stream"
            stream.write_bytes(whole[stream].replace(struct.pack("<Q", len(whole[stream]) * 8), b"\0" * 7 + b"\x80", 1))
        try:
            read(trace, CTF, round=True)
        except LogError as found:
            said = str(found)
            refused += said.startswith(f"{trace}: babeltrace cannot read it: ") and "\n" not in said
    assert refused > 10 and said.endswith("it ended with the signal 6")


@pytest.mark.parametrize("name, module, said", [
    ("a.ctf", "bt2", "reading CTF needs babeltrace 2 for Python (Debian: python3-bt2)"),
    ("a.mf4", "asammdf", "reading .mf4 needs asammdf (pip install asammdf; Debian has no package of it)")])
def test_packages_that_are_missing(tmp_path, monkeypatch, name, module, said):
    monkeypatch.setitem(sys.modules, module, None)
    (tmp_path / name).write_bytes(b"")
    assert error(tmp_path / name, CTF) == f"{name}: {said}"


# MDF 4, with a stand-in of asammdf: an object with what its documentation says of MDF and Signal


class Values(list):
    def tolist(self):
        return list(self)


CHANNELS = {"Brake": ([0.0, 0.01, 0.02, 0.03], [0.0, 4.0, 6.5, float("nan")]), "Gear": ([0.005, 0.02], [b"N", b"R\0"])}


@pytest.fixture
def asammdf(monkeypatch):
    class MDF:
        channels_db = {**CHANNELS, "Twice": ()}

        def __init__(self, path):
            if open(path, "rb").read(3) != b"MDF":
                raise ValueError(f"{path} is not a valid ASAM MDF file")

        def __enter__(self):
            return self

        def __exit__(self, *_):
            return None

        def get(self, name):
            if name == "Twice":
                raise ValueError('Multiple occurrences for channel "Twice"')
            return SimpleNamespace(timestamps=Values(CHANNELS[name][0]), samples=Values(CHANNELS[name][1]))

    monkeypatch.setitem(sys.modules, "asammdf", SimpleNamespace(MDF=MDF))


def test_mdf(tmp_path, asammdf):
    path = tmp_path / "a.mf4"
    path.write_bytes(b"MDF     4.10")
    table = 'unit us\nevent brake from column "brake" rises above 5\nevent back from column Gear becomes "R"\n'
    assert read(path, table) == [(0, [], 1), (5000, [], 2), (10000, [], 3), (20000, ["brake"], 4), (20000, ["back"], 5), (30000, [], 6)]
    assert error(path, "unit us\nevent a from column braek changes\n") == "a.mf4: it has no channel braek (did you mean brake?)"
    assert error(path, "unit us\nevent a from column twice changes\n").startswith("a.mf4: asammdf cannot read the channel Twice: Multiple occ")
    assert error(path, "unit us\nevent a from can 0x1\n").startswith("a.mf4: the frames of .mf4 need asammdf and a python-can that has MF4Reader")
    path.write_bytes(b"no measurement")
    assert error(path, table).startswith("a.mf4: asammdf cannot read it: ")


def test_sources_of_ports_are_written_and_read():
    text = Table.from_text(BUS).text()
    assert "from udp 30490 data ..FF\n" in text and "from udp 30491 data 01 on change\n" in text and Table.from_text(text).text() == text
    with pytest.raises(Exception, match="expected a port from 0 to 65535, found 65536"):
        Table.from_text("event a from udp 65536\n")


def test_steps_of_formats_in_one_drive(tmp_path):
    """Files of several formats are one log."""
    (tmp_path / "a.tessla").write_text('$timeunit = "s"\n1: pedal\n')
    written(tmp_path / "b.pcap", [FRAMES[0]], 227)
    log = Log([str(tmp_path / "a.tessla"), str(tmp_path / "b.pcap")], Table.from_text("unit ns\nevent pedal\nevent brake from can 0x1A0\n"))
    assert [log.table.event_name(step.signal) for step in log.steps()] == ["pedal", "brake"]


# Sheets with a preamble or a line of units

SHEET = 'unit us\nevent rise from column "CH1" rises above 2\nevent back from column "CH2" becomes "R"\n'
SCOPE = "Model,MSO44\nFirmware Version,1.2\nDate,2026-11-17\nTime,12:30:01\n\nTIME,CH1,CH2\n{}-0.001,0.5,N\n0,2.5,N\n0.001,2.5,R\n"
RISES = [(-1000, []), (0, ["rise"]), (1000, ["back"])]


def both_ways(path, table, **policy):
    """What is read line by line, and in blocks: it is the same."""
    slow = read(path, table, **policy)
    log = Log(path, Table.from_text(table), Policy(as_stamped=True, **policy))
    fast = [(log.time_format.stamp(step.time), step.place) for step in log.steps() if step.signal is not None]
    assert fast == [(time, place) for time, kinds, place in slow for _ in kinds]
    assert log.counts.skipped == log.reader.skipped
    return [(time, kinds) for time, kinds, _ in slow], [place for _, _, place in slow], log.counts.skipped


@pytest.mark.parametrize("units, skipped", [("s,V,\n", 6), ("[s],[V],[-]\n", 6), ("(s);(V);()\n", 6)])
def test_a_preamble_and_units(tmp_path, units, skipped):
    """As oscilloscopes write it: what stands above the header is skipped and counted, and the line of units is read."""
    path = tmp_path / "a.csv"
    text = SCOPE.format(units.replace(";", ","))
    path.write_text(text.replace(",", ";") if ";" in units else text)
    assert both_ways(path, SHEET) == (RISES, [8, 9, 10], skipped)
    packed = tmp_path / "b.csv.gz"
    packed.write_bytes(gzip.compress(path.read_bytes()))
    assert both_ways(packed, SHEET) == (RISES, [8, 9, 10], skipped)


def test_units_by_the_head_or_the_option(tmp_path):
    path = tmp_path / "a.csv"
    path.write_text(SCOPE.format("").replace("TIME,", "Time [s],"))
    assert both_ways(path, SHEET) == (RISES, [7, 8, 9], 5)
    path.write_text(SCOPE.format("ms,V,\n"))
    assert both_ways(path, SHEET, time_unit="s")[0] == RISES
    path.write_text(SCOPE.format("s,V,\n").replace("TIME,", "time_ms,"))
    assert error(path, SHEET) == "a.csv:7: the times are in s here, but in ms in the head of their column"
    path.write_text(SCOPE.format("parsecs,V,\n"))
    assert error(path, SHEET) == "a.csv:7: expected a time, found parsecs"


def test_a_preamble_in_other_encodings_and_workbooks(tmp_path):
    path = tmp_path / "a.csv"
    path.write_text(SCOPE.format("s,V,\n"), encoding="utf-16")
    assert [(time, kinds) for time, kinds, _ in read(path, SHEET, encoding="utf-16")] == RISES
    openpyxl = pytest.importorskip("openpyxl")
    book = openpyxl.Workbook()
    for line in SCOPE.format("s,V,\n").splitlines():
        book.active.append([float(cell) if re.fullmatch(r"-?[0-9.]+", cell) else cell for cell in line.split(",")])
    book.save(tmp_path / "a.xlsx")
    assert [(time, kinds) for time, kinds, _ in read(tmp_path / "a.xlsx", SHEET)] == RISES


def test_a_header_that_never_comes(tmp_path):
    path = tmp_path / "a.csv"
    path.write_text("Model,MSO44\n" * 300 + "TIME,CH1\n")
    assert error(path, SHEET) == "a.csv:1: expected a column time, found Model, MSO44"


def test_pages_of_what_has_no_lines(tmp_path, command):
    """A page on a CTF folder and on a pcap file."""
    trace = ctf_trace(tmp_path / "trace", TRACE)
    (tmp_path / "t.txt").write_text(CTF + "Delay pedal_pressed -> light, 0 ms .. 2 ms\n")
    assert command("check", "t.txt", trace, "--html", "a.html", "--plot", "a.svg", "--trace", "a.json", "--junit", "a.xml")[0] == 1
    written(tmp_path / "a.pcap", FRAMES, 227)
    (tmp_path / "u.txt").write_text(BUS + "Delay brake -> lamp, 0 ms .. 2 ms\n")
    assert command("check", "u.txt", "a.pcap", "--html", "b.html")[0] == 1
    assert all("broken" in (tmp_path / name).read_text(encoding="utf-8") for name in ("a.html", "b.html"))


def test_the_frames_of_mdf_by_python_can(tmp_path, monkeypatch):
    """With a stand-in of python-can's reader of MDF 4."""
    can = pytest.importorskip("can")

    class Frames(list):
        def __enter__(self):
            return self

        def __exit__(self, *_):
            return None

    frames = Frames([can.Message(timestamp=0.5, arbitration_id=0x1A0, is_extended_id=False, data=b"\x01", channel=1)])
    monkeypatch.setattr(can, "MF4Reader", object, raising=False)
    monkeypatch.setattr(can, "LogReader", lambda name: frames)
    (tmp_path / "a.mf4").write_bytes(b"MDF     4.10")
    assert read(tmp_path / "a.mf4", BUS) == [(500_000_000, ["brake"], 1)]


def damaged(data, rng):
    """The data with a few bytes changed, taken out or put in, or cut short."""
    data = bytearray(data)
    for _ in range(rng.randint(1, 4)):
        place = rng.randrange(len(data) + 1)
        data[place : place + rng.randint(0, 3)] = rng.randbytes(rng.randint(0, 3))
    return bytes(data[: rng.randint(0, len(data))]) if rng.random() < 0.3 else bytes(data)


@pytest.mark.parametrize("name", ["a.pcap", "a.pcapng", "a.tessla", "a.csv"])
def test_damaged_files_are_read_or_refused(tmp_path, name):
    """Each of a thousand damaged files is read, or refused with an error of the log."""
    rng, path, refused = random.Random(name), tmp_path / name, 0
    whole = {"a.pcap": HEAD + b"".join(struct.pack("<4I", at, 5, len(one), len(one)) + one for at, one in enumerate(FRAMES)),
             "a.pcapng": pcapng("<", (227, b"can0", 0), (1, b"eth", 7)) + b"".join(packet("<", 0, at, one) for at, one in enumerate(FRAMES)),
             "a.tessla": b'$timeunit = "us"\n10: pedal = true\n12: speed = 5.5\n13: gear = "R"\n', "a.csv": SCOPE.format("s,V,\n").encode()}[name]
    table = {"a.tessla": TESSLA, "a.csv": SHEET}.get(name, BUS)
    for _ in range(1000):
        path.write_bytes(damaged(whole, rng))
        try:
            read(path, table, round=True)
        except LogError as found:
            refused += str(found).startswith(str(path))
    assert 100 < refused < 1000
