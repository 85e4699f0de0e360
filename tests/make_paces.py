#!/usr/bin/env python3
"""Writes the steps that the program `paces` and its comparison tests/paces.rs play, to crates/paces/stdin:

    tests/make_paces.py >crates/paces/stdin

The form of a step stands at the top of crates/paces/src/main.rt. Nothing here knows what a step should give."""
import sys

out = bytearray()

# Kinds and their values, as in document 01.
ON, OFF = (1, 1), (1, 0)
START, STOP = (2, 1), (2, 0)
FREE, FORCE_OFF, FORCE_ON = (4, 0), (4, 2), (4, 3)
LOCK, UNLOCK = (5, 1), (5, 0)
NIGHT, DAY = (6, 1), (6, 0)
BUS_FAILS, BUS_RETURNS = (7, 0), (7, 1)
POWER_FAILS, POWER_RETURNS = (8, 0), (8, 1)

# The wall buttons, and the status that the sensor alone takes: document 02, request 1.
PRESS_1, LET_GO_1 = (11, 1), (11, 0)
PRESS_2, LET_GO_2 = (12, 1), (12, 0)
STATUS_OFF, STATUS_ON = (13, 0), (13, 1)

LAST = 864000

# The longest time that a state may have, in tenths.
LONGEST = 655350


def recall(number):
    return (3, number)


def learn(number):
    return (3, 128 + number)


# The steps.

def title(text):
    out.extend(b'T' + bytes([len(text)]) + text.encode())


def pair(state, sensor):
    out.extend(b'P' + image(state) + sensor)


def fresh_sensor(octets):
    out.extend(b'N' + bytes([len(octets)]) + bytes(octets))


def sensor_octets(stamp, kind, value, zeros=(0, 0)):
    out.extend(b'E' + input_octets(stamp, kind, value, zeros))


def pair_octets(stamp, kind, value, zeros=(0, 0)):
    out.extend(b'J' + input_octets(stamp, kind, value, zeros))


def pair_clock(stamp):
    out.extend(b'M' + stamp.to_bytes(4, 'big'))


def input_octets(stamp, kind, value, zeros=(0, 0)):
    return stamp.to_bytes(4, 'big') + bytes([kind, value, *zeros])


def single(stamp, kind, value, zeros=(0, 0)):
    out.extend(b'S' + input_octets(stamp, kind, value, zeros))


def clock(stamp):
    out.extend(b'C' + stamp.to_bytes(4, 'big'))


def change(octets):
    out.extend(b'H' + bytes([len(octets)]) + octets)


def keep():
    out.extend(b'K')


def back():
    out.extend(b'B')


# States and sensors, by their fields. A state is written as its image (include/house.h), whatever its fields say.

TIMES = ('on', 'off', 'timed', 'prewarning')
MODES = ('locking', 'unlocking', 'failure', 'returning', 'power', 'learning')
FLAGS = ('version', 'night', 'lock', 'force', 'link', 'atlocking', 'atfailure', 'phase')
MOMENTS = ('clock', 'deadline')

FORCED_ON = 3
POWER_DOWN = 2
DARK, LIT, STARTING, STARTING_TIMED, TIMED, WARNING, ENDING = range(7)


def image(state):
    table = list(state['scenes']) + [(255, 0)] * (8 - len(state['scenes']))
    octets = b''.join(state[name].to_bytes(4, 'big') for name in TIMES)
    octets += bytes(state[name] for name in MODES) + bytes(2)
    octets += bytes(octet for entry in table for octet in entry)
    octets += bytes(state[name] for name in FLAGS)
    return octets + b''.join(state[name].to_bytes(4, 'big') for name in MOMENTS)


def in_tenths(on, off, timed, prewarning, **fields):
    """The fresh state of version 1 with four times in tenths, but for these fields."""
    fresh = dict.fromkeys(MODES + FLAGS + MOMENTS, 0)
    fresh.update(on=on, off=off, timed=timed, prewarning=prewarning, version=1, scenes=())
    return {**fresh, **fields}


def seconds(on=2, off=5, timed=60, prewarning=10, **fields):
    """Version 1: four times in seconds."""
    return in_tenths(10 * on, 10 * off, 10 * timed, 10 * prewarning, **fields)


def tenths(on=7, off=13, timed=61, prewarning=25, **fields):
    """Version 2: four times in tenths."""
    return in_tenths(on, off, timed, prewarning, version=2, **fields)


def sensor(actions, clock=0, value=0):
    return bytes(actions) + clock.to_bytes(4, 'big') + bytes([value])


# Scenes and orders that a pair is handed.

SCENES = ((1, 2), (2, 3), (3, 1), (63, 0))

ORDERS = [ON, OFF, START, STOP, recall(1), recall(2), recall(3), recall(63), recall(4), learn(2), learn(3), learn(4), FREE, (4, 1),
          FORCE_OFF, FORCE_ON, LOCK, UNLOCK, NIGHT, DAY, BUS_FAILS, BUS_RETURNS, POWER_FAILS, POWER_RETURNS]

EDGES = (PRESS_1, LET_GO_1, PRESS_2, LET_GO_2)

# each action on one edge: button 1 toggles and sends Off, button 2 sends On and nothing
ONE_OF_EACH = (3, 1, 2, 0)

TOGGLE = (3, 0, 0, 0)

SILENT = (0, 0, 0, 0)


# 1. Sensors: the octets of their actions, and edges and statuses to a sensor alone.

def action_refusals():
    title('actions of another length')
    for size in (0, 1, 3, 5, 8, 255):
        fresh_sensor([3] * size)
    fresh_sensor([9] * 5)
    title('actions in range and above, octet by octet')
    for place in range(4):
        for octet in (0, 1, 2, 3, 4, 5, 128, 255):
            octets = [0, 1, 2, 3]
            octets[place] = octet
            fresh_sensor(octets)
    title('several actions above 3: the lowest')
    for octets in ((0, 4, 9, 0), (255, 0, 0, 4), (3, 3, 4, 4), (4, 4, 4, 4)):
        fresh_sensor(octets)
    title('a refusal gives a sensor that takes edges and sends nothing')
    fresh_sensor(b'\4\3\3\3')
    for edge in EDGES:
        sensor_octets(5, *edge)
    sensor_octets(6, *STATUS_ON)


def sensor_alone():
    for place, edge in enumerate(EDGES):
        for action in range(4):
            title('sensor: action %d on edge %d, before any, after each status, again' % (action, place))
            fresh_sensor([action if other == place else (action + 2) % 4 for other in range(4)])
            sensor_octets(1, *edge)
            sensor_octets(2, *STATUS_ON)
            sensor_octets(2, *edge)
            sensor_octets(3, *STATUS_OFF)
            sensor_octets(3, *edge)
            sensor_octets(4, *edge)
    title('sensor: equal stamps keep their order')
    fresh_sensor(TOGGLE)
    for event in (STATUS_ON, PRESS_1, STATUS_ON, STATUS_OFF, PRESS_1, PRESS_1, STATUS_OFF, PRESS_1):
        sensor_octets(LAST, *event)
    title('sensor: every send counts, whichever edge it is from')
    fresh_sensor(ONE_OF_EACH)
    for stamp, edge in enumerate((PRESS_2, PRESS_1, PRESS_1, LET_GO_1, PRESS_1, LET_GO_2, PRESS_1, PRESS_2, PRESS_2, PRESS_1)):
        sensor_octets(stamp, *edge)


def sensor_refusals():
    title('refused inputs to the sensor: kinds, values, zero octets, stamps')
    fresh_sensor(ONE_OF_EACH)
    sensor_octets(100, *STATUS_ON)
    for kind in (0, 1, 2, 3, 4, 5, 6, 7, 8, 9, 10, 14, 15, 127, 128, 255):
        sensor_octets(100, kind, 1)
    for kind in (11, 12, 13):
        for value in (2, 3, 128, 255):
            sensor_octets(100, kind, value)
        for zeros in ((1, 0), (0, 1), (255, 255)):
            sensor_octets(100, kind, 1, zeros)
    for kind in (11, 12, 13):
        for stamp in (0, 99, LAST + 1, 2**31, 2**32 - 1):
            sensor_octets(stamp, kind, 0)
    sensor_octets(99, 14, 0)
    sensor_octets(LAST + 1, 11, 2)
    title('edges and statuses move the clock of the sensor')
    sensor_octets(110, *LET_GO_2)
    sensor_octets(109, *PRESS_1)
    sensor_octets(120, *STATUS_OFF)
    sensor_octets(119, *STATUS_ON)
    sensor_octets(65536, *PRESS_1)
    sensor_octets(LAST, *PRESS_1)
    sensor_octets(LAST - 1, *PRESS_1)
    sensor_octets(LAST, *STATUS_ON)


def handed_sensors():
    title('sensors of every action on every edge, and of each value')
    for place in range(4):
        for action in range(4):
            pair(seconds(), sensor([action if other == place else ONE_OF_EACH[other] for other in range(4)]))
            for edge in EDGES:
                sensor_octets(0, *edge)
    for value in (0, 1):
        pair(seconds(), sensor(ONE_OF_EACH, 0, value))
        for edge in EDGES:
            sensor_octets(0, *edge)
    title('sensors of every clock, those above 864,000 unsound')
    for clock in (1, 65536, LAST, LAST + 1, 2**31, 2**32 - 1):
        pair(seconds(), sensor(ONE_OF_EACH, clock))
        for event in (PRESS_1, STATUS_ON, (14, 0), (11, 2)):
            for stamp in (clock, LAST):
                sensor_octets(stamp, *event)


# 2. The pair: the actuator and its sensor.

def fresh_pair(state, actions):
    """A pair with a fresh sensor."""
    pair(state, sensor(SILENT))
    fresh_sensor(actions)


def pair_script(text, state, actions, items, *stamps):
    """Items to a pair with a fresh sensor, then clock moves of it."""
    title(text)
    fresh_pair(state, actions)
    for stamp, item in items:
        pair_octets(stamp, *item)
    for stamp in stamps:
        pair_clock(stamp)


def readings():
    pair_script('every send counts', seconds(2, 0, 1, 0), (2, 0, 3, 0), [(0, PRESS_1), (5, PRESS_2)], 100)
    pair_script('a dropped telegram was sent', seconds(0, 0, 1, 0), TOGGLE,
                [(0, BUS_FAILS), (10, PRESS_1), (20, BUS_RETURNS), (30, PRESS_1)], 100)
    pair_script('a cue is not heard', seconds(2, 0, 1, 0), TOGGLE, [(0, ON), (5, PRESS_1)], 100)
    pair_script('a record of attributes alone is heard', seconds(2, 0, 60, 0), TOGGLE, [(0, PRESS_1), (5, NIGHT), (10, PRESS_1)], 19, 20)
    pair_script('the record of an Off may say on', seconds(0, 5, 60, 10), TOGGLE,
                [(0, NIGHT), (10, PRESS_1), (100, PRESS_1), (120, PRESS_1)], 149, 150)
    pair_script('the same at one stamp', seconds(0, 5, 60, 10), TOGGLE,
                [(0, NIGHT), (10, PRESS_1), (100, PRESS_1), (100, PRESS_1)], 149, 150)
    pair_script('a timer at the stamp of a press is heard before it', seconds(0, 0, 1, 0), TOGGLE, [(0, START), (10, PRESS_1)], 100)
    pair_script('and at that of a silent edge', seconds(0, 0, 1, 0), TOGGLE, [(0, START), (10, LET_GO_1)], 100)
    pair_script('each record is heard once', seconds(2, 5, 1, 0), TOGGLE, [(0, PRESS_1), (20, PRESS_1), (30, PRESS_1)], 100)
    pair_script('timers between two presses are heard', seconds(0, 0, 6, 1), TOGGLE, [(0, NIGHT), (10, PRESS_1), (100, PRESS_1)], LAST)
    pair_script('the record of a bus failure is heard', seconds(0, 0, 1, 0, failure=2), TOGGLE, [(10, BUS_FAILS), (20, PRESS_1)], 30)
    pair_script('the records of a power failure are heard', seconds(0, 0, 1, 0), TOGGLE,
                [(0, PRESS_1), (10, POWER_FAILS), (20, PRESS_1), (30, POWER_RETURNS), (40, PRESS_1)], 50)
    title('the value before any is off, though the actuator is lit')
    fresh_pair(seconds(0, 0, 1, 0, phase=LIT), TOGGLE)
    pair_octets(10, *PRESS_1)
    pair_octets(11, *PRESS_1)
    pair_script('the end is heard', seconds(0, 0, 6, 1), TOGGLE, [(0, START)], 69, 70, 71)
    pair_script('edges are not paired', seconds(2, 0, 1, 0), TOGGLE, [(0, PRESS_1), (5, PRESS_1), (6, LET_GO_1), (7, LET_GO_1)], 100)


def noted():
    """Nights and forces that are noted under a lock or a force: document 02, request 4. A telegram is dropped there, and the record of a
    noted value is heard as any other."""
    at_once = seconds(0, 0, 60, 10)
    pair_script('a night under a force, and its release', at_once, TOGGLE,
                [(10, FORCE_ON), (15, PRESS_1), (20, NIGHT), (25, PRESS_1), (30, FREE), (35, PRESS_1), (36, PRESS_1)], 629, 630, 735, 736)
    pair_script('a night under a lock that is dark', at_once, TOGGLE,
                [(0, LOCK), (10, PRESS_1), (15, NIGHT), (20, PRESS_1), (30, UNLOCK), (40, PRESS_1)], LAST)
    pair_script('a night under a lock that is lit', at_once, TOGGLE,
                [(0, PRESS_1), (5, LOCK), (10, PRESS_1), (15, NIGHT), (15, NIGHT), (20, PRESS_1), (30, UNLOCK)], 629, 630, 729, 730)
    for unlocking in range(4):
        pair_script('forces under a lock, unlocking %d' % unlocking, seconds(0, 0, 60, 10, locking=1, unlocking=unlocking), TOGGLE,
                    [(0, FORCE_ON), (10, LOCK), (20, FORCE_OFF), (21, PRESS_1), (25, FORCE_ON), (26, FORCE_ON), (30, (4, 1)), (30, FREE),
                     (31, PRESS_1), (40, UNLOCK), (41, PRESS_1)], LAST)
    pair_script('a force under a lock stands after it', at_once, TOGGLE,
                [(0, LOCK), (10, FORCE_ON), (20, UNLOCK), (21, PRESS_1), (30, FREE), (31, PRESS_1)], LAST)
    pair_script('a bus that is down drops, and what was noted before it stays', at_once, TOGGLE,
                [(0, PRESS_1), (5, LOCK), (10, NIGHT), (20, BUS_FAILS), (25, DAY), (26, FORCE_OFF), (30, BUS_RETURNS), (40, UNLOCK)], LAST)
    pair_script('a power failure clears what was noted', seconds(0, 0, 60, 10, power=2), TOGGLE,
                [(0, LOCK), (10, FORCE_ON), (20, NIGHT), (30, POWER_FAILS), (35, NIGHT), (40, POWER_RETURNS), (50, PRESS_1)], LAST)


def clocks_apart():
    title('the clock of the sensor after that of the actuator')
    fresh_pair(seconds(10, 5, 60, 10, phase=STARTING, clock=100, deadline=200), TOGGLE)
    sensor_octets(500, *STATUS_OFF)
    pair_octets(600, *PRESS_1)
    pair_octets(600, *ON)
    pair_clock(600)
    for clock in (499, 500):
        title('the sensor at 500, the actuator at %d' % clock)
        pair(seconds(10, 5, 60, 10, phase=LIT, clock=clock), sensor(TOGGLE, 500))
        pair_octets(600, *PRESS_1)
    title('and before it')
    pair(seconds(10, 5, 60, 10, phase=LIT, clock=700), sensor(TOGGLE, 600, 1))
    pair_octets(699, *PRESS_1)
    pair_octets(700, *PRESS_1)


def pair_actions():
    for place, edge in enumerate(EDGES):
        for action in range(4):
            pair_script('pair: action %d on edge %d' % (action, place), seconds(0, 0, 60, 10),
                        [action if other == place else (action + 1) % 4 for other in range(4)],
                        [(0, edge), (5, ON), (10, edge), (15, OFF), (20, edge), (25, edge), (25, edge)])


def pair_grid(text, state, items, stamp, timers=True):
    """Each edge at one stamp, and a press after it, after the same items."""
    pair_script(text, state, ONE_OF_EACH, items)
    keep()
    for edge in EDGES:
        back()
        pair_octets(stamp, *edge)
        pair_octets(stamp, *PRESS_1)
        if timers:
            pair_clock(LAST)


def pair_phases():
    full = seconds()
    at_once = seconds(on=0, off=0, prewarning=0)
    for name, first in (('by day', []), ('by night', [(0, NIGHT)])):
        pair_grid('edges in Dark ' + name, full, first, 5)
        pair_grid('edges in Starting, steady, ' + name, full, first + [(0, PRESS_2)], 5)
        pair_grid('edges in Starting, timed, ' + name, full, first + [(0, START)], 5)
        pair_grid('edges in Timed ' + name, full, first + [(0, START), (20, LET_GO_2)], 30)
        pair_grid('edges in Warning ' + name, full, first + [(0, START), (620, LET_GO_2)], 630)
        pair_grid('edges in Ending ' + name, full, first + [(0, START), (30, LET_GO_1)], 40)
        pair_grid('edges at once in Dark ' + name, at_once, first, 5)
        pair_grid('edges at once in Timed ' + name, at_once, first + [(0, START)], 5)
        for stamp in (19, 20, 21, 619, 620, 719, 720, LAST):
            pair_grid('edges at %d of a timed light %s' % (stamp, name), full, first + [(0, START)], stamp)
        for stamp in (69, 70):
            pair_grid('edges at %d of an ending %s' % (stamp, name), full, first + [(0, PRESS_2), (20, LET_GO_1)], stamp)
    pair_grid('edges in Lit by day', full, [(0, PRESS_1), (20, LET_GO_2)], 30)


def pair_held():
    full = seconds(unlocking=3)
    lit = [(0, PRESS_1), (20, LET_GO_2)]
    for text, items in (('a lock, dark', [(0, LOCK)]),
                        ('a lock, lit', lit + [(21, LOCK)]),
                        ('a lock, lit by night', lit + [(20, NIGHT), (21, LOCK)]),
                        ('force Off', lit + [(21, FORCE_OFF)]),
                        ('force On', [(0, FORCE_ON)]),
                        ('a lock over force Off', lit + [(21, FORCE_OFF), (22, LOCK)]),
                        ('a bus that is down', lit + [(21, BUS_FAILS)]),
                        ('a bus that is down, starting', [(0, PRESS_1), (1, BUS_FAILS)]),
                        ('power that is down', lit + [(21, POWER_FAILS)])):
        pair_grid('edges under ' + text, full, items, 30, timers=False)
        for end in (UNLOCK, FREE, BUS_RETURNS, POWER_RETURNS):
            pair_octets(40, *end)
        pair_octets(50, *PRESS_1)


def pair_orders():
    full = seconds(learning=1, scenes=SCENES, unlocking=3, failure=2, returning=1, power=2)
    for text, items, timers in (('in Dark', [], True), ('in Lit', [(0, PRESS_2)], True),
                                ('in Timed by night', [(0, NIGHT), (0, START)], True), ('under a lock', [(0, LOCK)], False),
                                ('under force On', [(0, FORCE_ON)], False), ('with the bus down', [(0, BUS_FAILS)], False),
                                ('with the power down', [(0, POWER_FAILS)], False)):
        pair_script('a press after every order ' + text, full, ONE_OF_EACH, items)
        keep()
        for order in ORDERS:
            back()
            pair_octets(30, *order)
            pair_octets(30, *PRESS_1)
            if timers:
                pair_clock(LAST)


def orders_in_phases():
    """Each order to a pair in each phase, and what the timers make of it: what it gives to the actuator alone."""
    for name, night in (('by day', 0), ('by night', 1)):
        for text, phase in (('Dark', DARK), ('Lit', LIT), ('Starting, steady,', STARTING), ('Starting, timed,', STARTING_TIMED),
                            ('Timed', TIMED), ('Warning', WARNING), ('Ending', ENDING)):
            if night and phase == LIT:
                continue
            title('orders in %s %s' % (text, name))
            deadline = 90 if phase >= STARTING else 0
            for order in ORDERS:
                pair(seconds(learning=1, scenes=SCENES, phase=phase, night=night, clock=20, deadline=deadline), sensor(ONE_OF_EACH, 20))
                pair_octets(30, *order)
                pair_clock(LAST)


def pair_tenths():
    for stamp in (624, 625):
        pair_script('a press at %d of a prewarning of 2.5 seconds' % stamp, tenths(0, 13, 600, 25), TOGGLE, [(0, START), (stamp, PRESS_1)], LAST)
    pair_script('in tenths: presses within delays and at their ends', tenths(), TOGGLE,
                [(0, PRESS_1), (6, PRESS_1), (20, PRESS_1), (27, PRESS_1), (39, PRESS_1), (40, PRESS_1)], 46, 47)
    pair_script('in tenths: by night', tenths(on=0), TOGGLE, [(0, NIGHT), (10, PRESS_1), (40, PRESS_1), (52, PRESS_1), (53, PRESS_1)], 139, LAST)
    full = tenths()
    for stamp in (6, 7, 67, 68, 92, 93):
        pair_grid('in tenths: edges at %d of a timed light' % stamp, full, [(0, START)], stamp)


# 3. Refusals of the pair.

def pair_refusals():
    title('refused inputs to the pair: kinds, values, zero octets, stamps')
    fresh_pair(seconds(scenes=SCENES), ONE_OF_EACH)
    pair_octets(0, *START)
    pair_octets(100, *LET_GO_2)
    for kind in (0, 9, 10, 13, 14, 15, 127, 128, 255):
        for value in (0, 1):
            pair_octets(100, kind, value)
    for kind in (1, 2, 5, 6, 7, 8, 11, 12):
        for value in (2, 3, 128, 255):
            pair_octets(100, kind, value)
    for value in (64, 255):
        pair_octets(100, 3, value)
    for value in (4, 255):
        pair_octets(100, 4, value)
    for kind in (1, 11, 12):
        for zeros in ((1, 0), (0, 1), (5, 0), (255, 255)):
            pair_octets(100, kind, 1, zeros)
    for stamp in (0, 99, LAST + 1, 2**31, 2**32 - 1):
        pair_octets(stamp, *PRESS_1)
        pair_octets(stamp, *LET_GO_2)
        pair_octets(stamp, *OFF)
        pair_octets(stamp, 11, 2)
        pair_octets(stamp, *STATUS_ON)
        pair_clock(stamp)
    for stamp in (100, 256, 65536, LAST):
        pair_clock(stamp)
    pair_octets(LAST, *PRESS_1)
    pair_octets(LAST - 1, *PRESS_1)
    pair_clock(LAST - 1)
    title('a refusal gives a sensor that plays, beside the state that a refusal gives')
    fresh_pair(seconds(0, 0, 1, 0), b'\3')
    pair_octets(5, *PRESS_1)
    pair_octets(5, *ON)
    pair_clock(LAST)


def handed_pair(text, state_fields, sensor_fields, stamp=1000):
    """A pair at 1000 but for these fields, handed to edges, a cue, a bad kind and a clock move."""
    title(text)
    state = seconds(learning=1, scenes=((10, 2), (11, 3)), clock=1000)
    pair({**state, **state_fields}, sensor(**{'actions': ONE_OF_EACH, 'clock': 1000, **sensor_fields}))
    pair_octets(stamp, *PRESS_1)
    pair_octets(stamp, *LET_GO_2)
    pair_octets(stamp, *ON)
    pair_octets(stamp, *STATUS_ON)
    pair_clock(stamp)
    pair_clock(LAST)


def handed_pairs():
    handed_pair('sound: nothing changed', {}, {})
    for clock in (0, 999, 1000):
        handed_pair('sound: the sensor at %d, the actuator at 1000' % clock, {}, dict(clock=clock))
    for clock in (1001, LAST, LAST + 1, 2**32 - 1):
        handed_pair('the sensor at %d, the actuator at 1000' % clock, {}, dict(clock=clock))
    handed_pair('sound: both at 864,000', dict(clock=LAST), dict(clock=LAST), LAST)
    handed_pair('both at 864,001', dict(clock=LAST + 1), dict(clock=LAST + 1), LAST + 1)
    handed_pair('the sensor sound, the actuator at 864,001', dict(clock=LAST + 1), {}, LAST + 1)
    handed_pair('the sensor at 1000, the actuator at 999', dict(clock=999), {})
    handed_pair('OnDelay not whole seconds', dict(on=15), {})
    handed_pair('TimedOn 0', dict(timed=0), {})
    handed_pair('sound: tenths in version 2', dict(version=2, on=15, timed=1), {})
    handed_pair('sound: 655,350 tenths in version 2', dict(version=2, off=LONGEST), {})
    handed_pair('655,351 tenths in version 2', dict(version=2, off=LONGEST + 1), {})
    for version in (0, 3, 255):
        handed_pair('version %d' % version, dict(version=version), {})
    handed_pair('BehaviourAtLocking 3', dict(locking=3), {})
    handed_pair('scene 64', dict(scenes=((64, 0), (11, 3))), {})
    handed_pair('Timed until the clock', dict(phase=TIMED, deadline=1000), {})
    handed_pair('sound: Timed until 1 after the clock', dict(phase=TIMED, deadline=1001), {})
    handed_pair('lock and Starting', dict(lock=1, phase=STARTING, deadline=1050), {})
    handed_pair('force On and Dark', dict(force=FORCED_ON), {})
    handed_pair('night and Lit', dict(night=1, phase=LIT), {})
    handed_pair('power down and Lit', dict(link=POWER_DOWN, phase=LIT), {})
    handed_pair('sound: a lock, force On and Dark', dict(lock=1, force=FORCED_ON), {})
    handed_pair('sound: a lock, night and Lit', dict(lock=1, night=1, phase=LIT), {})
    handed_pair('the actuator and the sensor both unsound', dict(force=FORCED_ON), dict(clock=LAST + 1))
    for value in (0, 1):
        handed_pair('sound: Lit, the value of the sensor %d' % value, dict(phase=LIT), dict(value=value))
        handed_pair('sound: Dark, the value of the sensor %d' % value, {}, dict(value=value))
    for action in range(4):
        handed_pair('sound: action %d for the press' % action, {}, dict(actions=(action,) + ONE_OF_EACH[1:]))


# 4. The actuator alone: a few inputs of each kind to each call. (tests/compare_live.rs has the others.)

EVENING = [(0, START), (20, OFF), (20, ON), (100, recall(2)), (130, learn(3)), (150, NIGHT), (160, LOCK), (165, DAY), (170, OFF),
           (171, FORCE_ON), (172, FREE), (180, UNLOCK), (190, FORCE_OFF), (195, ON), (196, NIGHT), (200, FREE), (210, BUS_FAILS), (220, ON),
           (230, BUS_RETURNS), (240, POWER_FAILS), (250, LOCK), (260, POWER_RETURNS), (300, START), (1100, DAY)]


def inputs_of(items):
    return b''.join(input_octets(stamp, *item) for stamp, item in items)


def evenings():
    for name, state in (('seconds', seconds(learning=1, scenes=SCENES)), ('tenths', tenths(learning=1, scenes=SCENES))):
        title('an evening in %s, input by input, each after a clock move' % name)
        pair(state, sensor(SILENT))
        for stamp, item in EVENING:
            clock(stamp)
            single(stamp, *item)
        clock(LAST)
        for step in range(5):
            title('the same, %d inputs at a time' % step)
            pair(state, sensor(SILENT))
            for first in range(0, len(EVENING), step) if step else [0]:
                change(inputs_of(EVENING[first:first + step]))


def refused_alone(text, state, stamp):
    """Good and bad inputs, moves and changes to a state: the refusals in their order."""
    title(text)
    pair(state, sensor(SILENT))
    keep()
    good, wrong, early, late = ((stamp, ON), (stamp, (9, 0)), (stamp - 1, ON), (LAST + 1, ON))
    for at, item in (wrong, early, late, (stamp - 1, (1, 2)), good):
        single(at, *item)
        back()
    for at in (stamp - 1, stamp, LAST, LAST + 1):
        clock(at)
        back()
    for bad in (wrong, early, late):
        for place in range(4):
            change(inputs_of([good] * place + [bad] + [good] * (3 - place)))
            back()
    change(inputs_of([wrong, early]))
    back()
    change(inputs_of([(LAST, ON), good]))
    back()
    for size in (1, 7, 9, 31, 33, 40, 41, 248, 255):
        change(inputs_of([wrong] * 32)[:size])
        back()


def refusals_alone():
    refused_alone('refused, of the actuator alone', seconds(phase=LIT, clock=1000), 1000)
    refused_alone('and where a timer is due', seconds(phase=TIMED, clock=1000, deadline=1100), 1200)
    refused_alone('an unsound actuator alone', seconds(phase=LIT, clock=1000, night=1), 1000)


action_refusals()
sensor_alone()
sensor_refusals()
handed_sensors()
readings()
noted()
clocks_apart()
pair_actions()
pair_phases()
pair_held()
pair_orders()
orders_in_phases()
pair_tenths()
pair_refusals()
handed_pairs()
evenings()
refusals_alone()
sys.stdout.buffer.write(out)
