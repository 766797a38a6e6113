"""The same line on SimPy (Debian's python3-simpy, the 2.3 interface): each event is a process that waits for its time, runs, and writes the 24 bytes that a commit would.

    line_simpy.py STATIONS FAN NOISE READERS EVENTS

prints how many events ran and the nanoseconds of each. SimPy runs events of one time in the order in which they were activated, so the log is not byte for byte
the engine's; the work is the same.
"""
import struct
import sys
import time

from SimPy.Simulation import Process, activate, hold, initialize, now, simulate, stopSimulation

STATIONS, FAN, NOISE, READERS, EVENTS = map(int, sys.argv[1:])
POSTED = 65535
PARENT = [max(s - 1, 0) // FAN for s in range(STATIONS)]
HOP = [250 + s % 50 for s in range(STATIONS)]
draw = [1000 + 7 * s for s in range(STATIONS)]
level = [0] * STATIONS
heard = [0] * STATIONS
lost = [0] * STATIONS
sent = [0] * STATIONS
last = [None] * STATIONS
log = []
ran = 0


class Event(Process):
    def __init__(self, station, source, number, kind, value):
        Process.__init__(self)
        self.about = station, source, number, kind, value

    def wait(self, delay):
        yield hold, self, delay
        run(*self.about)


def send(delay, to, source, kind, value):
    event = Event(to, source, sent[source], kind, value)
    sent[source] += 1
    activate(event, event.wait(delay))


def run(station, source, number, kind, value):
    global ran
    if kind == 1 and station > 0:
        send(60000 if level[station] >= 5000 else 300000, station, station, 1, 0)
        send(HOP[station], PARENT[station], station, 2, station)
    elif kind == 2:
        draw[station] = 16807 * draw[station] % 2147483647
        if draw[station] <= NOISE:
            lost[station] += 1
            if value // 256 < 3:
                send(HOP[station], station, station, 2, value + 256)
        else:
            heard[station] += 1
            last[station] = int(now())
            if station > 0:
                send(HOP[station], PARENT[station], station, 2, value % 256)
    elif kind == 3:
        level[station] = value
    log.append(struct.pack("<QIIHHI", int(now()), number, value, station, source, kind))
    ran += 1
    if ran == EVENTS:
        stopSimulation()


initialize()
for k in range(READERS):
    post = Event(STATIONS - 1 - k, POSTED, k, 1, 0)
    activate(post, post.wait(k * 300000 // READERS))
start = time.perf_counter_ns()
simulate(until=2**40)
print(ran, round((time.perf_counter_ns() - start) / ran, 1))
