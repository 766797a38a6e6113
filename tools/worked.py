#!/usr/bin/env python3
"""Worked lists of calls for crate rules_worked, from a reading of documents 01 and 02 that shares nothing with the crates.

  python3 tools/worked.py > crates/rules_worked/proofs/Lists.antt

Events stand in a dictionary by their key; undone is a difference of sets; a commit sorts. Before it writes, it runs many random lists and holds the
joined logs and the records against a sequential machine with a heap.
"""
import heapq
import random
import sys

H = 1099511627775
LARGEST = 4294967295
POSTED = 65535


def run_event(config, state, key, matter):
    time, station = key[0], key[1]
    after, sends = dict(state), []

    def send(at, to, what):
        if at <= H:
            sends.append(((at, to, station, after["sent"]), what))
            after["sent"] += 1

    kind, value = matter
    if kind == 1 and station > 0:
        spring = after["level"] >= config["threshold"]
        send(time + config["spring" if spring else "calm"], station, (1, 0))
        send(time + config["hop"], config["parent"], (2, station))
    if kind == 2:
        after["draw"] = 16807 * after["draw"] % 2147483647
        if after["draw"] <= config["noise"]:
            after["lost"] += 1
            if value // 256 < 3:
                send(time + config["hop"], station, (2, value + 256))
        else:
            after["heard"] += 1
            after["last"], after["reached"] = time, True
            if station > 0:
                send(time + config["hop"], config["parent"], (2, value % 256))
    if kind == 3:
        after["level"] = value
    return after, sends


def initial(plan):
    return [dict(draw=c["seed"], level=0, heard=0, lost=0, sent=0, last=0, reached=False) for c in plan]


def steps(plan, posts, until):
    """The plain machine's steps: after each the event that ran, the states and the events that wait."""
    states, waiting = initial(plan), list(posts.items())
    heapq.heapify(waiting)
    while waiting and waiting[0][0][0] < until:
        key, matter = heapq.heappop(waiting)
        states[key[1]], sends = run_event(plan[key[1]], states[key[1]], key, matter)
        for sent in sends:
            heapq.heappush(waiting, sent)
        yield key, matter, states, waiting


def machine(plan, posts, until):
    states, log = initial(plan), []
    for key, matter, states, _ in steps(plan, posts, until):
        log.append((key, matter))
    return log, states


def words_read(arity, width, floor, times):
    """The bitmap words that lowest reads: roots from the floor's block on to the first with a registered time, and a node; the 16 roots where none has one."""
    block = width * arity * arity
    first = floor // block
    taken = {t // block for t in times}
    for i in range(16):
        if first + i in taken:
            return i + 1 + 1
    return 16


class Engine:
    def __init__(self, plan, arity, width, capacity):
        self.plan, self.arity, self.width, self.capacity, self.next, self.now = plan, arity, width, capacity, 0, 0
        self.states = initial(plan)
        self.matter, self.before, self.sends = {}, {}, {}  # all held; of the run ones

    def free(self):
        return self.capacity - len(self.matter)

    def undo(self, key):
        self.states[key[1]] = self.before.pop(key)
        for sent in self.sends.pop(key):
            self.remove(sent)

    def undo_later(self, key):
        while later := [k for k in self.before if k[1] == key[1] and k > key]:
            self.undo(max(later))

    def remove(self, key):
        if key in self.before:
            self.undo_later(key)
            self.undo(key)
        del self.matter[key]

    def add(self, key, matter):
        self.undo_later(key)
        self.matter[key] = matter

    def unrun(self):
        return [k for k in self.matter if k not in self.before]

    def post(self, station, time, kind, value):
        suits = {1: value == 0, 2: value % 256 < len(self.plan) and value // 256 <= 3, 3: value <= LARGEST}
        if station >= len(self.plan):
            return ("Refused", 9)
        if not suits.get(kind, False):
            return ("Refused", 10)
        if time > H:
            return ("Refused", 11)
        if time < self.now:
            return ("Refused", 12)
        if self.next > LARGEST:
            return ("Refused", 16)
        if self.free() < 1:
            return ("Refused", 17)
        ran = set(self.before)
        self.add((time, station, POSTED, self.next), (kind, value))
        self.next += 1
        return ("Posted", self.next - 1, len(ran - set(self.before)))

    def retract(self, number):
        found = [k for k in self.matter if k[2:] == (POSTED, number)]
        if not found:
            return ("Refused", 13)
        ran = set(self.before)
        self.remove(found[0])
        return ("Retracted", len(ran - set(self.before)))

    def run(self, station):
        if station >= len(self.plan):
            return ("Refused", 9)
        mine = [k for k in self.unrun() if k[1] == station]
        if not mine:
            return ("Refused", 14)
        key = min(mine)
        after, sends = run_event(self.plan[station], self.states[station], key, self.matter[key])
        if max(after["heard"], after["lost"], after["sent"]) > LARGEST:
            return ("Refused", 16)
        if self.free() < len(sends):
            return ("Refused", 17)
        ran = set(self.before)
        self.before[key], self.states[station] = self.states[station], after
        self.sends[key] = [k for k, _ in sends]
        for sent in sends:
            self.add(*sent)
        return ("Ran", station, len(ran - set(self.before)))

    def lowest(self):
        """Of the stations of the least time the lowest-numbered: a key begins with the time and the target. The words are those of the state that it finds."""
        if not self.unrun():
            return ("Refused", 14)
        least = [min((k[0] for k in self.unrun() if k[1] == s), default=None) for s in range(len(self.plan))]
        words = words_read(self.arity, self.width, self.now, [t for t in least if t is not None])
        said = self.run(min(self.unrun())[1])
        return ("RanLowest", *said[1:], words) if said[0] == "Ran" else said

    def commit(self, time, room):
        if time > H + 1:
            return ("Refused", 11)
        if time < self.now:
            return ("Refused", 12)
        if any(k[0] < time for k in self.unrun()):
            return ("Refused", 15)
        log = sorted(k for k in self.matter if k[0] < time)
        if room < 24 * len(log):
            return ("Refused", 18)
        self.now = time
        events = [(k, self.matter.pop(k)) for k in log]
        for k in log:
            del self.before[k], self.sends[k]
        return ("Committed", events, room)

    def record(self, station):
        if station >= len(self.plan):
            return ("Refused", 9)
        run = [k for k in self.before if k[1] == station]
        return ("Recorded", self.before[min(run)] if run else self.states[station])


def pick(dice, engine, stations, unit):
    """A call that is likely to be accepted, and to take something back."""
    roll = dice.random()
    if roll < 0.24 or not engine.matter:
        time = max(0, engine.now + unit * dice.randrange(-2, 90))
        return ("post", dice.randrange(stations + (roll < 0.02)), time, *dice.choice([(1, 0), (1, 0), (2, 0), (2, 1 + 256 * dice.randrange(5)), (3, 9), (3, 1), (dice.randrange(5), dice.randrange(7))]))
    if roll < 0.32:
        return ("retract", dice.randrange(engine.next + 1))
    if roll < 0.62:
        return ("run", dice.randrange(stations))
    if roll < 0.84:
        return ("lowest",)
    if roll < 0.94:
        times = [k[0] for k in engine.unrun()] or [engine.now + unit * 10]
        return ("commit", max(0, min(times) + unit * dice.choice([0, 0, 0, 1, -3])), dice.choice([240, 240, 24]))
    return ("record", dice.randrange(stations))


def scenario(seed, length, arity=16, width=1, unit=1):
    """The seed draws times as so many units of milliseconds: the unit changes nothing but them and the counts of words read."""
    dice = random.Random(seed)
    stations = dice.choice([2, 3, 4])
    plan = [
        dict(
            parent=dice.randrange(s) if s else 0,
            calm=unit * dice.choice([40, 100]),
            spring=unit * dice.choice([15, 30]),
            threshold=5,
            hop=unit * dice.choice([5, 7, 20]),
            noise=dice.choice([0, 10**9, 1500000000]),
            seed=dice.randrange(1, 2147483647),
        )
        for s in range(stations)
    ]
    engine, made, posts, log = Engine(plan, arity, width, dice.choice([10, 16, 40])), [], {}, []
    for _ in range(length):
        name, *words = call = pick(dice, engine, stations, unit)
        answer = getattr(engine, name)(*words)
        made.append((call, answer))
        if answer[0] == "Posted":
            posts[(words[1], words[0], POSTED, answer[1])] = tuple(words[2:])
        if answer[0] == "Retracted":
            posts = {k: m for k, m in posts.items() if k[3] != words[0]}
        if answer[0] == "Committed":
            log += answer[1]
    end, states = machine(plan, posts, engine.now)
    assert end == log, seed
    assert [engine.record(s)[1] for s in range(stations)] == states, seed
    return plan, engine.capacity, made


# ---- the file


def matter_text(matter):
    kind, value = matter
    return {1: "Read", 2: f"(Frame {value % 256} {value // 256})", 3: f"(Level {value})"}[kind]


def answer_text(answer):
    name, *words = answer
    if name == "Committed":
        events, room = words
        log = " ∷ ".join([f"at {k[0]} {k[1]} {k[2]} {k[3]} {matter_text(m)}" for k, m in events] + ["[]"])
        return f"Committed {len(events)} (entries ({log}) ++ zeros {room - 24 * len(events)})"
    if name == "Recorded":
        return "Recorded (record { " + "; ".join(f"{k} = {str(v).lower()}" for k, v in words[0].items()) + " })"
    return " ".join([name, *map(str, words)])


def call_text(call):
    name, *words = call
    if name == "commit":
        return f"Commit {words[0]} (zeros {words[1]})"
    return " ".join([{"post": "Post", "retract": "Retract", "run": "RunStation", "lowest": "RunLowest", "record": "Record"}[name], *map(str, words)])


def config_text(config):
    return "record { " + "; ".join(f"{k} = {v}" for k, v in config.items()) + " }"


def list_of(texts):
    return "\n    ∷ ".join(list(texts) + ["[]"])


HEAD = """-- Lists of calls with the answers that an independent program gave (tools/worked.py, which writes this file).
use mathlib.Core.Path.{refl}
use mathlib.Core.Bool.{true, false}
use mathlib.Core.List.{List, [], ◌∷◌, ◌++◌}
use Rattle.words.specs.Le.{bytes_of}
use Rattle.refusal.specs.Tests.{or_next, judged}
use Rattle.generator.specs.Draw.{next_draw}
use Rattle.line.specs.declared.Config.{Config}
use Rattle.line.specs.declared.Matter.TheVariants.{Read, Frame, Level}
use Rattle.line.specs.Event.{decide, lex, before}
use Rattle.line.specs.Matter.{frame_of, matter_of}
use Rattle.line.specs.Station.{parent_out, number_out, update, initial, send, silent, period, run_read, drawn_state, lose, hear, repeat, pass, run_frame, run_level, run_matter, run_at, run_event}
use Rattle.calendar_ring.specs.WordsRead.{none_in, words_from, words_read}
use Rattle.rules.specs.Held.{same, delete, place, least_unrun, mark, time_of, registered, as_time, registered_from, is_run, undone, held_post, none_unrun, unrun_before, logged, kept, record_of}
use Rattle.rules.specs.Engine.{chosen, opened, Call, Post, Retract, RunStation, RunLowest, Commit, Record, Answer, Refused, Posted, Retracted, Ran, RanLowest, Committed, Recorded}
use Rattle.rules.specs.Checks.{checks}
use Rattle.entry.specs.Entry.{entry, entries}
use Rattle.rules.specs.Calls.{post_of, with, lowest_words}
use Rattle.rules.specs.Executable.{runs, beyond, or_this, latest, remove_each, undo_found, undo_within, undo_from, removing, adding, add_all, run_least}
use Rattle.rules.proofs.Calls.Compute.{settle, post_step, retract_step, run_step, station_step, lowest_of, counting, counting_step, commit_step, answer_to, answers_to}
use Rattle.rules_worked.proofs.Check.{nth, all_in, in_range, at, zeros, pairs, Gives, computed}
"""

UNFOLDING = """    settle post_step retract_step run_step station_step lowest_of counting counting_step lowest_words commit_step answer_to answers_to
    runs beyond or_this latest remove_each undo_found undo_within undo_from removing adding add_all run_least
    post_of with entry entries bytes_of checks or_next judged opened frame_of matter_of
    none_in words_from words_read time_of registered as_time registered_from
    same delete place least_unrun mark is_run undone held_post none_unrun unrun_before logged kept record_of
    decide lex before update initial send silent period run_read drawn_state lose hear repeat pass run_frame run_level run_matter run_at run_event next_draw"""

# seed, length, arity, leaf width, unit: the first meets eight of the numbers, the second takes back seventeen events at once; both give a frame up. The units are such
# that nine different counts of words read occur in the first and twelve in the second.
LISTS = [(253, 70, 16, 1, 50), (2870, 70, 8, 8, 80)]


def main():
    for seed in range(2000):
        scenario(seed, 120)
    out = [HEAD]
    for k, (seed, length, arity, width, unit) in enumerate(LISTS, 1):
        plan, capacity, made = scenario(seed, length, arity, width, unit)
        out.append(f"""
plan_{k} : List Config
plan_{k} =
    {list_of(map(config_text, plan))}

calls_{k} : List Call
calls_{k} =
    {list_of(call_text(c) for c, _ in made)}

answers_{k} : List Answer
answers_{k} =
    {list_of(answer_text(a) for _, a in made)}

list_{k} : Gives plan_{k} (chosen {arity} {width} {capacity}) calls_{k} answers_{k}
unfolding plan_{k} calls_{k} answers_{k} all_in parent_out number_out nth pairs zeros
{UNFOLDING}
list_{k} = computed plan_{k} (chosen {arity} {width} {capacity}) calls_{k} answers_{k} (in_range plan_{k} tt tt tt) refl
""")
    sys.stdout.write("".join(out))


if __name__ == "__main__":
    main()
