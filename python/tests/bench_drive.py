"""The drive of ``examples/bench``: what the bus, the scheduler and the measuring amplifier saw of it, as the files of a bench.

The brake is pressed at 400 ms and at 1400 ms; the second time the light comes 12 ms late. The door is opened at 700 ms. One run of
the task T10 takes 0.6 ms too long.
"""

DBC = """\
VERSION ""

NS_ :

BS_:

BU_: Brake Door Gateway

BO_ 209 Wheel: 3 Brake
 SG_ Counter : 0|4@1+ (1,0) [0|15] "" Gateway
 SG_ Speed : 15|16@0+ (0.01,0) [0|655.35] "km/h" Gateway

BO_ 416 Brake: 4 Brake
 SG_ Pedal : 0|12@1+ (0.1,0) [0|100] "%" Gateway
 SG_ Pressure : 23|16@0- (0.01,0) [-10|250] "bar" Gateway

BO_ 692 Light: 1 Gateway
 SG_ Brake : 0|1@1+ (1,0) [0|1] "" Door
 SG_ Cabin : 1|1@1+ (1,0) [0|1] "" Door

BO_ 944 Door: 2 Door
 SG_ Side M : 0|4@1+ (1,0) [0|15] "" Gateway
 SG_ Left m0 : 8|2@1+ (1,0) [0|3] "" Gateway
 SG_ Right m1 : 8|2@1+ (1,0) [0|3] "" Gateway

VAL_ 944 Left 0 "closed" 1 "open" 3 "unknown" ;
VAL_ 944 Right 0 "closed" 1 "open" 3 "unknown" ;
"""


def pedal(time):
    """How far the pedal is down, in per cent: pressed within 40 ms, held for 300 ms."""
    for begin in (400_000, 1_400_000):
        if begin <= time < begin + 340_000:
            return min((time - begin) // 400, 80) + 4
    return 0


def light(time):
    """Is the brake light on? The second time it takes 62 ms."""
    return 430_000 <= time < 760_000 or 1_462_000 <= time < 1_760_000


def frames():
    """The frames of the bus: time, identifier and data."""
    for at in range(0, 2_000_000, 10_000):
        wobble = (at // 10_000 * 37) % 500
        speed = 5000 - max(at - 400_000, 0) // 500
        yield at + wobble, 0x0D1, bytes([at // 10_000 % 16]) + speed.to_bytes(2, "big")
    for at in range(2_000, 2_000_000, 4_000):
        pressure = round(pedal(at - 30_000) * 100 - 50)
        yield at, 0x1A0, (pedal(at) * 10).to_bytes(2, "little") + pressure.to_bytes(2, "big", signed=True)
        yield at + 700, 0x2B4, bytes([light(at + 700) + 2 * (at >= 900_000)])
    for at in range(5_300, 2_000_000, 20_000):
        yield at, 0x3B0, bytes([0, 1 if at >= 700_000 else 0])
        yield at + 400, 0x3B0, bytes([1, 3])


def bus_log():
    """The bus as candump writes it."""
    lines = sorted((time, number, identifier, data) for number, (time, identifier, data) in enumerate(frames()))
    return "".join(f"({time // 10**6}.{time % 10**6:06d}) can0 {identifier:03X}#{data.hex().upper()}\n" for time, _, identifier, data in lines)


def task_trace():
    """The scheduler: a timer's interrupt routine activates T10 every 10 ms, which is preempted by T1 now and then."""
    lines = ["#version 2.1.5", "#creator bench", "#timeScale ns"]
    found = []
    for count in range(30):
        at, run = count * 10_000, 5_600 if count == 17 else 3_000 + count * 137 % 1_500
        found += [(at, "Timer", "I", "start"), (at + 20, "T10", "T", "activate"), (at + 40, "Timer", "I", "terminate"),
                  (at + 60 + count % 7 * 90, "T10", "T", "start")]
        begin = found[-1][0]
        if count % 3 == 1:
            found += [(begin + 1_000, "T10", "T", "preempt"), (begin + 1_010, "T1", "T", "start"), (begin + 2_800, "T1", "T", "terminate"),
                      (begin + 2_900, "T10", "T", "resume")]
            run += 1_900
        found += [(begin + 500, "Filter", "R", "start"), (begin + 900, "Filter", "R", "terminate")]
        found.append((begin + run, "T10", "T", "terminate"))
    for time, target, letter, event in sorted(found):
        lines.append(f"{time * 1000},Core_1,0,{letter},{target},0,{event}")
    return "\n".join(lines) + "\n"


def samples():
    """What the amplifier sampled, every 5 ms, with the time of day."""
    lines = ["time;brake [%];lamp [V];gear"]
    for at in range(0, 2_000_000, 5_000):
        gear = "P" if at < 200_000 else "D" if at < 1_900_000 else "R"
        seconds, part = divmod(at, 1_000_000)
        lamp = "13,8" if light(at - 2_000) else "0,1"
        lines.append(f"14:05:{seconds + 7:02d}.{part // 1000:03d};{pedal(at)};{lamp};{gear}")
    return "\n".join(lines) + "\n"


BUS_TABLE = """\
# What the bus says, by the names of drive.dbc.
unit us
dbc "drive.dbc"
event pedal_pressed  from signal Brake.Pedal rises above 5
event brake_light    from signal Light.Brake becomes 1
event pressure_up    from signal Brake.Pressure rises above 20.5
event door_opened    from signal Door.Left becomes "open"
event cabin_light    from signal Light.Cabin rises above 0
event wheel          from signal Wheel.Counter changes
"brake light"     Delay pedal_pressed -> brake_light, 0 ms .. 50 ms
"brake pressure"  StrongDelay pedal_pressed -> pressure_up, 5 ms .. 60 ms
"cabin light"     Delay door_opened -> cabin_light, 0 ms .. 250 ms
"wheel"           Repeat wheel span 1, 9 ms .. 11 ms
"""

TASK_TABLE = """\
# What the scheduler did.
unit us
event timer      from isr "Timer" start
event activated  from task "T10" activate
event started    from task "T10" start
"T10 runs"    ExecutionTime task "T10", 2 ms .. 5 ms
"T10 starts"  StrongDelay activated -> started, 0 ms .. 1 ms
"timer"       Repeat timer span 1, 10 ms .. 10 ms
"""

SAMPLE_TABLE = """\
# What was sampled every 5 ms.
unit ms
event pedal  from column "brake [%]" rises above 5
event lamp   from column "lamp [V]" rises above 6
event gear   from column gear changes
"lamp"         Delay pedal -> lamp, 0 ms .. 55 ms
"lamp order"   Order pedal -> lamp
"gear change"  Burst gear maximum 1, length 500 ms, minimum 0
"""

FILES = {"drive.dbc": lambda: DBC, "bus.txt": lambda: BUS_TABLE, "bus.log": bus_log, "tasks.txt": lambda: TASK_TABLE,
         "tasks.btf": task_trace, "samples.txt": lambda: SAMPLE_TABLE, "samples.csv": samples}
