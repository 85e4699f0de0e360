#!/usr/bin/env python3
"""Writes the cue files of this folder, NAME.cue, and its wall lists, NAME.wall, from the lists below:  python3 shows/make.py

The printout that each must give, NAME.txt, is not made here: README.md says where it is from.
"""
import os
import struct

HERE = os.path.dirname(os.path.abspath(__file__))

# ---- the kinds of input

SWITCH, TIMED, SCENE, FORCED, LOCK, NIGHT, BUS, POWER = range(1, 9)

OFF, ON = 0, 1                      # SwitchOnOff; NightMode
STOP, START = 0, 1                  # TimedStartStop
RELEASE, FORCE_OFF, FORCE_ON = 0, 2, 3
UNLOCK_IT, LOCK_IT = 0, 1
FAILURE, RETURN = 0, 1

# ---- the edges of a wall list, and the actions of its sensor

BUTTON_1, BUTTON_2 = 11, 12
RISING, FALLING = 1, 0
NOTHING, SEND_OFF, SEND_ON, TOGGLE = 0, 1, 2, 3


def learn(number):
    return 128 + number


# ---- the modes

KEEP, MODE_OFF, MODE_ON, AS_BEFORE_LOCKING = 0, 1, 2, 3
AS_BEFORE_FAILURE = 0

# ---- the scene flags

NOT_TAUGHT, TAUGHT_OFF, TAUGHT_ON = 0, 2, 3


# ---- the octets of a file

def parameters(on_delay=0, off_delay=0, timed_on=1, prewarning=0, locking=KEEP, unlocking=KEEP, bus_failure=KEEP,
               bus_return=KEEP, power_return=AS_BEFORE_FAILURE, learning=0, scenes=(), times='>4H'):
    """Four times, the modes, two zeros, eight scene entries: with the times of version 1, in seconds, 32 octets."""
    octets = struct.pack(times, on_delay, off_delay, timed_on, prewarning)
    octets += struct.pack('6B2x', locking, unlocking, bus_failure, bus_return, power_return, learning)
    entries = list(scenes) + [(255, 0)] * (8 - len(scenes))
    return octets + b''.join(struct.pack('2B', number, flags) for number, flags in entries)


def in_tenths(**named):
    """The parameters of version 2, 40 octets: the four times in tenths of a second."""
    return parameters(times='>4I', **named)


# the version that has parameters of so many octets
VERSIONS = {32: 1, 40: 2}


def cue_file(params, inputs, end, version=None, actuators=1):
    """Header, parameters, then an input of eight octets for each (stamp, kind, value)."""
    header = struct.pack('>2H4I', version or VERSIONS[len(params)], actuators, 20, len(inputs), 20 + len(params), end)
    return header + params + b''.join(struct.pack('>I2B2x', *i) for i in inputs)


def wall_list(params, items, end, actions):
    """A cue file in which an input may also be an edge, then the actions: button 1 rising, 1 falling, 2 rising, 2 falling."""
    return cue_file(params, items, end) + bytes(actions)


def write(name, octets):
    """A cue file, unless the name says otherwise."""
    with open(os.path.join(HERE, name if '.' in name else name + '.cue'), 'wb') as f:
        f.write(octets)


# ---- example: the one of the requirements, where the printout is given

EXAMPLE_PARAMETERS = parameters(timed_on=60, prewarning=10)
EXAMPLE_INPUTS = [
    (0, TIMED, START),
    (700, SWITCH, ON),
    (700, SWITCH, OFF),
]
EXAMPLE = cue_file(EXAMPLE_PARAMETERS, EXAMPLE_INPUTS, end=1000)
write('example', EXAMPLE)

# ---- evening: a theatre from the doorkeeper's light to the next morning. Stamps are in tenths of a second

PRESET, HOUSE_TO_HALF, INTERVAL, UNKNOWN = 1, 2, 3, 5
write('evening', cue_file(
    parameters(on_delay=2, off_delay=5, timed_on=300, prewarning=30, locking=MODE_OFF, unlocking=MODE_ON, learning=1,
               scenes=[(PRESET, TAUGHT_ON), (HOUSE_TO_HALF, TAUGHT_OFF), (INTERVAL, NOT_TAUGHT)]),
    [
        (0, TIMED, START),                      # 0: the foyer, by the doorkeeper
        (1200, TIMED, START),                   # 1: and once more, two minutes later
        (18000, SCENE, PRESET),                 # 2: doors open
        (36000, SCENE, HOUSE_TO_HALF),          # 3: the show starts
        (36000, SCENE, learn(INTERVAL)),        # 4: at that moment the house is still lit, and this is learned
        (36020, SWITCH, OFF),                   # 5: an impatient Off: it is going off already
        (36100, LOCK, LOCK_IT),                 # 6: first act
        (48000, SWITCH, ON),                    # 7: somebody leans on the wall switch
        (50000, TIMED, START),                  # 8
        (72000, LOCK, UNLOCK_IT),               # 9: the interval
        (82800, SCENE, HOUSE_TO_HALF),          # 10
        (82850, LOCK, LOCK_IT),                 # 11: second act, locked when the light has just gone
        (108000, SCENE, INTERVAL),              # 12: too early
        (110000, LOCK, UNLOCK_IT),              # 13: applause
        (110000, SCENE, INTERVAL),              # 14: it is lit already
        (126000, NIGHT, ON),                    # 15: the house is empty: five minutes of light from here
        (128000, SWITCH, ON),                   # 16: five minutes more
        (140000, TIMED, START),                 # 17: the night watch
        (140300, TIMED, STOP),                  # 18
        (150000, SCENE, learn(UNKNOWN)),        # 19: not in the table
        (160000, SCENE, PRESET),                # 20: by night this too is timed
        (200000, NIGHT, OFF),                   # 21: morning, after three timers
    ],
    end=216000))

# ---- ties: several inputs at one stamp, and a timer due at it

write('ties', cue_file(
    parameters(on_delay=2, off_delay=5, timed_on=60, prewarning=10, unlocking=AS_BEFORE_LOCKING),
    [
        (0, TIMED, START),      # 0: starts until 20
        (20, SWITCH, OFF),      # 1: it is Timed by now
        (20, SWITCH, ON),       # 2
        (20, SWITCH, ON),       # 3: changes nothing
        (100, TIMED, START),    # 4: until 700
        (700, TIMED, START),    # 5: it is in Warning by now; until 1300
        (1400, NIGHT, ON),      # 6: Warning at 1300, Dark at 1400, then night
        (1400, SWITCH, ON),     # 7: starts until 1420
        (1400, SWITCH, ON),     # 8: does not start again
        (1420, SWITCH, OFF),    # 9: it is Timed by now, for it is night
        (1470, SWITCH, OFF),    # 10: it is Dark by now
        (1470, NIGHT, OFF),     # 11
        (1480, SWITCH, ON),     # 12: starts until 1500, which is the end time
    ],
    end=1500))

# ---- lock_and_force: who outranks whom

write('lock_and_force', cue_file(
    parameters(timed_on=60, prewarning=10, locking=MODE_ON, unlocking=AS_BEFORE_LOCKING),
    [
        (0, FORCED, FORCE_ON),      # 0
        (10, SWITCH, OFF),          # 1: stopped by the force
        (20, NIGHT, ON),            # 2: noted under the force
        (30, LOCK, LOCK_IT),        # 3: no force stops a lock
        (40, FORCED, FORCE_OFF),    # 4: noted under the lock; a force stands as before, so there is no record
        (50, SCENE, 1),             # 5: by both: the lock answers
        (60, FORCED, RELEASE),      # 6: noted: no force stands any more
        (70, LOCK, UNLOCK_IT),      # 7: on as before locking, and timed, for it is night: it would end at 770
        (80, FORCED, FORCE_OFF),    # 8
        (90, LOCK, LOCK_IT),        # 9: on by the mode
        (100, LOCK, LOCK_IT),       # 10: locked already
        (110, LOCK, UNLOCK_IT),     # 11: the force decides: off
        (120, TIMED, START),        # 12: stopped by the force
        (130, FORCED, RELEASE + 1), # 13: no control, whatever the other bit says
        (140, FORCED, RELEASE),     # 14: no force stands
        (150, TIMED, START),        # 15
        (160, LOCK, LOCK_IT),       # 16: the timer is gone
        (170, SWITCH, OFF),         # 17: stopped by the lock
        (180, LOCK, UNLOCK_IT),     # 18: on as before locking, and timed anew
        (190, FORCED, FORCE_OFF),   # 19
        (190, FORCED, FORCE_ON),    # 20
        (200, FORCED, RELEASE),     # 21: stays on, timed
        (210, SWITCH, OFF),         # 22
    ],
    end=1000))

# ---- night_under_force: a festival's night. Night and force keep their last value while something stronger stands, and it holds when that
# goes: what the house clock sends is not lost, unless the bus is down

write('night_under_force', cue_file(
    parameters(timed_on=300, prewarning=30, locking=MODE_OFF, unlocking=MODE_ON),
    [
        (0, SWITCH, ON),                # 0: the first show is over
        (6000, FORCED, FORCE_ON),       # 1: the cleaners hold the house lit
        (9000, SWITCH, OFF),            # 2: the last usher's Off is stopped
        (12000, NIGHT, ON),             # 3: the house clock's night, while they sweep: noted
        (15000, NIGHT, ON),             # 4: it sends that again: nothing is new
        (24000, FORCED, RELEASE),       # 5: the cleaners go: by night lit for five minutes, and dark at 27300
        (36000, NIGHT, OFF),            # 6: day again, for the late show
        (36000, SWITCH, ON),            # 7: its doors
        (54000, LOCK, LOCK_IT),         # 8: it starts, dark and locked
        (72000, NIGHT, ON),             # 9: the clock's night once more: noted
        (90000, LOCK, UNLOCK_IT),       # 10: applause: lit, by night for five minutes, with the house full
        (90600, NIGHT, OFF),            # 11: so the desk sends day, which lets the time run on
        (90600, SWITCH, ON),            # 12: and On, which ends that
        (108000, LOCK, LOCK_IT),        # 13: the film at midnight
        (126000, FORCED, FORCE_OFF),    # 14: the riggers want it dark when that is over: noted
        (126010, FORCED, FORCE_OFF),    # 15: pressed twice
        (144000, LOCK, UNLOCK_IT),      # 16: the end: the force decides: it stays dark, where the mode says on
        (150000, SWITCH, ON),           # 17: somebody looks for a coat, and is stopped by the force
        (162000, FORCED, RELEASE),      # 18: the riggers are done
        (165600, FORCED, FORCE_ON),     # 19: the cleaners again
        (168000, BUS, FAILURE),         # 20: the force stands: no mode
        (180000, NIGHT, ON),            # 21: the clock's night: the bus is down, so this one is lost
        (183000, BUS, RETURN),          # 22
        (189000, FORCED, RELEASE),      # 23: the cleaners go, and the light stays: nobody told the house of the night
        (201000, NIGHT, ON),            # 24: the watch sends it: five minutes from here, and dark at 204300
        (252000, NIGHT, OFF),           # 25: morning
    ],
    end=288000))

# ---- power_cut: bus and power fail and return

EMERGENCY = 3
write('power_cut', cue_file(
    parameters(off_delay=5, timed_on=60, prewarning=10, bus_return=MODE_ON, learning=1, scenes=[(EMERGENCY, NOT_TAUGHT)]),
    [
        (0, SWITCH, ON),                # 0
        (10, SCENE, learn(EMERGENCY)),  # 1: learned: on
        (20, BUS, FAILURE),             # 2: keeps the light
        (30, SWITCH, OFF),              # 3: the bus is down
        (35, BUS, FAILURE),             # 4: it is down already
        (40, BUS, RETURN),              # 5: on by the mode
        (50, SWITCH, OFF),              # 6: ends at 100, but
        (60, POWER, FAILURE),           # 7: this is earlier
        (70, SWITCH, ON),               # 8: power is down
        (80, BUS, RETURN),              # 9: power is down
        (85, POWER, FAILURE),           # 10: it is down already
        (90, POWER, RETURN),            # 11: on as before the failure
        (100, TIMED, START),            # 12
        (110, NIGHT, ON),               # 13
        (120, LOCK, LOCK_IT),           # 14
        (130, BUS, FAILURE),            # 15: the lock stands: no mode
        (140, POWER, FAILURE),          # 16: from bus down; night and lock are gone
        (150, BUS, RETURN),             # 17: power is down
        (160, POWER, RETURN),           # 18: the link is up, bus and all
        (170, SWITCH, OFF),             # 19: ends at 220
        (300, SCENE, EMERGENCY),        # 20: scenes outlive a power cut
        (310, BUS, RETURN),             # 21: it is up already
        (320, POWER, RETURN),           # 22: it is up already
        (330, TIMED, START),            # 23: Warning at 930, Dark at 1030
        (340, BUS, FAILURE),            # 24: timers run on
        (350, TIMED, STOP),             # 25: the bus is down
    ],
    end=1100))

# ---- drag: what an editor sends at a drag of the mouse, two inputs at a stamp. examples/live.c plays these sixty in one call, to the same
# parameters, and then moves the clock to this end

DRAGGED = [
    (SWITCH, ON), (SWITCH, OFF), (TIMED, START), (NIGHT, ON), (SWITCH, ON), (NIGHT, OFF), (LOCK, LOCK_IT), (SWITCH, OFF), (LOCK, UNLOCK_IT),
    (SWITCH, OFF),
]
write('drag', cue_file(
    parameters(on_delay=1, off_delay=2, timed_on=10, prewarning=3),
    [(8 * (i - i % 2), *DRAGGED[i % 10]) for i in range(60)],
    end=800))

# ---- tenths: an evening in a studio whose actuators are set in tenths of a second: on after 0.7 seconds, off after 1.5, a timed light
# of 60.5, and a prewarning of 2.5

TENTHS = cue_file(
    in_tenths(on_delay=7, off_delay=15, timed_on=605, prewarning=25, locking=MODE_OFF, unlocking=MODE_ON),
    [
        (0, TIMED, START),          # 0: the stage manager's round: on at 7, Warning at 612, which would end at 637
        (625, TIMED, START),        # 1: once more in the prewarning: until 1230, and to 1255 with it
        (1254, SWITCH, ON),         # 2: doors, in the last tenth of it: the light stays
        (18000, SWITCH, OFF),       # 3: the show starts: it goes out at 18015
        (18010, SWITCH, OFF),       # 4: an impatient Off: it is going off already
        (18015, LOCK, LOCK_IT),     # 5: first act, locked just as the light goes
        (20000, SWITCH, ON),        # 6: a latecomer at the wall switch
        (36000, LOCK, UNLOCK_IT),   # 7: the interval
        (45000, TIMED, START),      # 8: its last minute: Warning at 45605, which would end at 45630
        (45610, SWITCH, OFF),       # 9: Off in the prewarning: 45625 is the earlier end
        (45626, LOCK, LOCK_IT),     # 10: second act
        (60000, LOCK, UNLOCK_IT),   # 11: applause
        (66000, NIGHT, ON),         # 12: the house is empty: Warning at 66605, which would end at 66630
        (66629, TIMED, START),      # 13: the cleaner, in the last tenth of it: until 67234, and to 67259 with it
        (67259, SWITCH, ON),        # 14: again, but a tenth late: it is Dark by now, and starts until 67266
        (67880, TIMED, STOP),       # 15: by night it was timed, Warning since 67871 until 67896: 67895 is the earlier end
        (72000, NIGHT, OFF),        # 16: morning
    ],
    end=80000)
write('tenths', TENTHS)

# ---- refused_1 to refused_7: one damaged file for each refusal number

# under 52 octets
write('refused_1', EXAMPLE[:51])
# version 2, and under its 60 octets
write('refused_1_tenths', TENTHS[:59])
# version 3
write('refused_2', cue_file(EXAMPLE_PARAMETERS, EXAMPLE_INPUTS, end=1000, version=3))
# two actuators
write('refused_3', cue_file(EXAMPLE_PARAMETERS, EXAMPLE_INPUTS, end=1000, actuators=2))
# an octet too many
write('refused_4', EXAMPLE + b'\0')
# scene 7 in entry 0, which is octet 16 of the parameters, and again in entry 2, which is octet 20
write('refused_5', cue_file(
    parameters(timed_on=60, scenes=[(7, TAUGHT_ON), (8, TAUGHT_OFF), (7, TAUGHT_OFF)]), EXAMPLE_INPUTS, end=1000))
# OffDelay a tenth too long, which is octets 4 to 7 of the parameters, and a TimedOn of 0, octets 8 to 11
write('refused_5_tenths', cue_file(in_tenths(off_delay=655351, timed_on=0), EXAMPLE_INPUTS, end=1000))
# a night of 2 in input 2; its stamp is wrong too, but 6 comes before 7
write('refused_6', cue_file(EXAMPLE_PARAMETERS, [(0, TIMED, START), (50, SWITCH, ON), (40, NIGHT, 2)], end=1000))
# stamps 50, 49
write('refused_7', cue_file(EXAMPLE_PARAMETERS, [(50, SWITCH, ON), (49, SWITCH, OFF)], end=1000))

# ---- foyer: wall buttons beside the cues, from the first guest to the next morning. Button 1 is by the door and toggles; button 2 is
# the switch of the cloakroom: On when it is turned on, Off when it is turned off

FOYER_ACTIONS = (TOGGLE, NOTHING, SEND_ON, SEND_OFF)
FOYER_PARAMETERS = parameters(off_delay=5, timed_on=300, prewarning=30, locking=MODE_OFF, unlocking=MODE_ON)
write('foyer.wall', wall_list(
    FOYER_PARAMETERS,
    [
        (0, BUTTON_1, RISING),          # 0: the first to come presses at the door: On
        (3, BUTTON_1, FALLING),         # 1: and lets go, which sends nothing
        (6000, BUTTON_1, RISING),       # 2: Off: it goes out at 6050
        (6020, BUTTON_1, RISING),       # 3: no, stay: On, for the last that was sent is Off
        (18000, BUTTON_2, RISING),      # 4: the cloakroom opens: On, and it is lit already
        (30000, SWITCH, OFF),           # 5: a cue that no button sent: it goes out at 30050, and the sensor hears that
        (30060, BUTTON_1, RISING),      # 6: somebody wants it back: On
        (36000, LOCK, LOCK_IT),         # 7: first act: the foyer is dark and stays so
        (40000, BUTTON_1, RISING),      # 8: a latecomer presses: On is sent, and dropped
        (40004, BUTTON_1, FALLING),     # 9
        (72000, LOCK, UNLOCK_IT),       # 10: the interval: lit
        (72000, BUTTON_1, RISING),      # 11: at that moment a press: it has heard the light, and sends Off
        (72030, BUTTON_1, RISING),      # 12: On again
        (110000, BUTTON_2, FALLING),    # 13: the cloakroom closes: Off, dark at 110050
        (110050, BUTTON_1, RISING),     # 14: just as it goes out a press: On
        (126000, NIGHT, ON),            # 15: the house is empty: five minutes and a half from here
        (129300, BUTTON_1, RISING),     # 16: the porter presses as the light goes out: the timer first, so On, timed by night
        (129800, BUTTON_1, RISING),     # 17: Off: it goes out at 129850, and until then its status is on
        (129820, BUTTON_1, RISING),     # 18: so this is Off once more, and does not start the delay again
        (140000, BUTTON_2, RISING),     # 19: the cleaner: On, for five minutes and a half
        (143300, BUTTON_2, FALLING),    # 20: Off as the time is up: nothing is left to do
        (160000, BUS, FAILURE),         # 21
        (160100, BUTTON_1, RISING),     # 22: On is sent, and dropped: the bus is down
        (160200, BUS, RETURN),          # 23
        (160300, BUTTON_1, RISING),     # 24: the last that was sent is On, so Off: nobody told the sensor of the loss
        (160310, BUTTON_1, RISING),     # 25: On
        (200000, NIGHT, OFF),           # 26: morning, after two timers
    ],
    end=216000, actions=FOYER_ACTIONS))

# ---- stage_door: version 2 with a button: by night it lights the stair for 20.5 seconds, and a prewarning of 2.5 seconds ends it

write('stage_door.wall', wall_list(
    in_tenths(off_delay=15, timed_on=205, prewarning=25),
    [
        (0, NIGHT, ON),             # 0
        (10, BUTTON_1, RISING),     # 1: On: Warning at 215, which would end at 240
        (239, BUTTON_1, RISING),    # 2: in its last tenth a press: the light is on, so Off, and 240 is the earlier end
        (240, BUTTON_1, RISING),    # 3: a tenth later it has just gone out: On, until 470 with its prewarning
        (469, BUTTON_1, FALLING),   # 4: sends nothing
        (470, BUTTON_1, RISING),    # 5: it has just gone out: On, until 700
        (700, NIGHT, OFF),          # 6: and out again, then morning
    ],
    end=1000, actions=(TOGGLE, NOTHING, NOTHING, NOTHING)))

# actions 4 and 9: the place is the lower one, button 1 falling
write('refused_11.wall', wall_list(FOYER_PARAMETERS, [(0, BUTTON_1, RISING)], end=1000, actions=(TOGGLE, 4, 9, NOTHING)))
