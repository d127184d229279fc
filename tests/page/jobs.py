"""Sheets that the page is tried with. The refusals are written from docs/METHOD.md."""

AXIS = '''axis 0 pan
  half period          30
  weight               113
  speed limit          40
  acceleration limit   2
  start position       -350
  start velocity       0
  target               still
  target position      2050
'''
JOB = 'arrival earliest\n' + AXIS


def changed(sheet, *changes):
    """A sheet with parts of it replaced, each of which must be there."""
    for old, new in changes:
        assert old in sheet, old
        sheet = sheet.replace(old, new)
    return sheet


# A job in which every field of a job is shown.
FULL_JOB = '''# A job with everything.
tick 20 ms
unit 0.01 degree
arrival 12 s
dwell 0.5 s
window 1 s 19 s
axis 0 pan
  swings               10 in 11.9 s
  shrinks              0.8
  second half period   0.22 s
  speed limit          20 degree/s
  acceleration limit   50 degree/s²
  start position       -3.5 degree
  start velocity       1 degree/s
  target               moving
  target position      20.5 degree
  target velocity      0.5 degree/s
  target acceleration  0 degree/s²
  target tick          1 s
axis 1 tilt
  frequency            0.93 Hz
  peaks                31 24
  speed limit          12.5 degree/s
  acceleration limit   30 degree/s²
  start position       4.2 degree
  start velocity       0
  target               still
  target position      -4.33 degree
axis 2 slide
  unit                 0.1 mm
  period               1.1 s
  weight               113
  second swings        20 in 9.1 s
  speed limit          400 mm/s
  acceleration limit   1500 mm/s²
  start position       0
  start velocity       0
  target               still
  target position      12.3 mm
'''

FULL_TOUR = '''tick 20 ms
unit 0.01 degree
axis 0 pan
  half period          0.6 s
  weight               113
  speed limit          20 degree/s
  acceleration limit   50 degree/s²
  start position       -3.5 degree
axis 3 tilt
  half period          27
  shrinks              0.8
  speed limit          25
  acceleration limit   1
  start position       420
stop 20.5 degree -430 dwell 1 s # oak
stop 3 degree 100 dwell 20
'''

TOUR = '''axis 1 pan
  half period          0
  weight               128
  speed limit          10
  acceleration limit   1
  start position       0
stop 4 dwell 5
stop 9 dwell 0
'''

# Number, words that are told, sheet.
REFUSED = [
    (3, ['tick 4097', '4096'], changed(JOB, ('arrival earliest', 'arrival 4097'))),
    (4, ['a limit of pan'], changed(JOB, ('speed limit          40', 'speed limit          0'))),
    (4, ['a limit of pan'], changed(JOB, ('acceleration limit   2', 'acceleration limit   65537'))),
    (12, ['damping of pan'], changed(JOB, ('weight               113', 'shrinks              1.5'))),
    (12, ['damping of pan'], changed(JOB, ('weight               113', 'peaks                24 31'))),
    (5, ['half period or weight of pan'], changed(JOB, ('half period          30', 'half period          257'))),
    (5, ['half period or weight of pan'], changed(JOB, ('weight               113', 'weight               129'))),
    (15, ['second half period of pan'], changed(JOB,
        ('weight               113', 'weight 113\n  second half period 0'))),
    (6, ['start or target of pan'], changed(JOB, ('start velocity       0', 'start velocity       41'))),
    (6, ['start or target of pan'], changed(JOB, ('target position      2050', 'target position      17179869184'))),
    (16, ['the target of pan accelerates'], changed(JOB,
        ('weight               113', 'weight 113\n  second half period 11'),
        ('still', 'moving\n  target velocity 0\n  target acceleration 1\n  target tick 0'))),
    (17, ['the fixed target of pan has a velocity'], changed(JOB, ('still', 'flying\n  target velocity 3'))),
    (13, ['the windows cannot be used'], changed(JOB, ('arrival earliest', 'arrival earliest\ndwell 5\nwindow 20 10'))),
    (13, ['the windows cannot be used'], changed(JOB,
        ('arrival earliest', 'arrival earliest\ndwell 4097\nwindow 10 20'))),
    # Four units from rest to rest take four ticks at one unit per tick².
    (8, ['cannot arrive at tick 3', 'Earliest: tick 4', 'acceleration limit by'], changed(
        JOB, ('arrival earliest', 'arrival 3'), ('half period          30', 'half period          0'), ('-350',
            '0'), ('2050', '4'),
        ('acceleration limit   2', 'acceleration limit   1'))),
    (8, ['fits no window'], changed(JOB, ('arrival earliest', 'arrival 1000\ndwell 5\nwindow 10 20'))),
    (9, ['pan can arrive at no tick'], changed(JOB, ('2050', '17179869183'))),
    (9, ['fits a window'], changed(JOB, ('arrival earliest', 'arrival earliest\ndwell 1\nwindow 1 3'))),
    (11, ['there are 65 stops'], changed(TOUR, ('stop 4 dwell 5\n', 'stop 4 dwell 5\n' * 64))),
    (11, ['the dwell of stop 1'], changed(TOUR, ('stop 9 dwell 0', 'stop 9 dwell 4097'))),
    (9, ['No plan for the leg to stop 1', 'pan can arrive at no tick'], changed(TOUR, ('stop 9', 'stop 100000000'))),
    (4, ['No plan for the leg to stop 0'], changed(TOUR, ('speed limit          10', 'speed limit          0'))),
    (12, ['No plan for the leg to stop 0'], changed(TOUR, ('weight               128', 'shrinks              0'))),
    (5, ['No plan for the leg to stop 0'], changed(TOUR, ('half period          0', 'half period          300'))),
    (15, ['No plan for the leg to stop 0'], changed(TOUR,
        ('weight               128', 'weight 128\n  second half period 300'))),
    (6, ['No plan for the leg to stop 1'], changed(TOUR, ('stop 9', 'stop -17179869185'))),
]

# Six axes to the latest arrival, each with a blend of two rates.
SIX_AXES = 'tick 5 ms\nunit 0.001 degree\narrival 4096\n' + ''.join(f'''axis {number} drive {number}
  half period          {200 + number}
  shrinks              0.8
  second half period   {30 + number}
  speed limit          900
  acceleration limit   3
  start position       {100 * number}
  start velocity       0
  target               still
  target position      {1000000 + 9000 * number}
''' for number in range(6))
