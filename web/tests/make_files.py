#!/usr/bin/python3
"""Makes the files of the browser's tests in a directory, and expected.json: what a person must see of them, worked out here from the numbers that the files are made of.
   make_files.py directory"""
import json, math, os, random, sys

out = sys.argv[1]
os.makedirs(out, exist_ok=True)
rng = random.Random(7)
expected = {}


def lat_text(c):  # thousandths of a minute
    return '%02d%05d%s' % (abs(c) // 60000, abs(c) % 60000, 'S' if c < 0 else 'N')


def lon_text(c):
    return '%03d%05d%s' % (abs(c) // 60000, abs(c) % 60000, 'W' if c < 0 else 'E')


def height(m):
    return '%05d' % m if m >= 0 else '-%04d' % -m


def hms(s):
    return '%02d%02d%02d' % (s // 3600, s // 60 % 60, s % 60)


def clock(s):
    return '%02d:%02d:%02d' % (s // 3600, s // 60 % 60, s % 60)


def flight(n, step, start, corners, tow=80, base=120, top=1900):
    """n fixes, one each `step` seconds: legs between corners with climbs in circles; (seconds, lat, lon, pressure, gnss, noise)."""
    fixes, t, h, circle, left = [], start, base, 0.0, 0
    lengths = [math.hypot(b[0] - a[0], (b[1] - a[1]) * 0.62) for a, b in zip(corners, corners[1:])]
    total = sum(lengths)
    # two thirds of the fixes go on, one third circles
    gone, climbing, rise = 0.0, 0, 0.0
    per = total / (n * 0.66)
    for i in range(n):
        if i < tow:
            h += 6 * step if h < base + 700 else 0
        elif climbing > 0:
            climbing -= 1
            h += rise * step
            circle += 0.35 * step
        else:
            h -= 1.05 * step * (1 + 0.25 * math.sin(i / 37))
            if h < base + 450 and i < n * 0.93 or (i % 331 == 0 and h < top - 500 and i < n * 0.9):
                rise = rng.uniform(1.2, 3.1)
                climbing = int((rng.uniform(top - 350, top) - h) / rise / step)
        if climbing <= 0 or i < tow:
            gone = min(total * 0.99999, gone + per)
        h = max(base, h)
        k, g = 0, gone
        while k < len(lengths) - 1 and g > lengths[k]:
            g -= lengths[k]
            k += 1
        part = g / lengths[k]
        a, b = corners[k], corners[k + 1]
        ends = math.sin(math.pi * part)  # corners are reached, between them the way winds
        wide = 2600 * ends * math.sin(gone / 3300) + 1500 * ends * math.sin(gone / 1370)
        lat = a[0] + (b[0] - a[0]) * part + 110 * math.cos(circle) + wide * 0.6
        lon = a[1] + (b[1] - a[1]) * part + 180 * math.sin(circle) - wide + 25 * ends * circle % 900
        noise = 35 + int(20 * rng.random()) + (700 if n * 0.88 < i < n * 0.9 else 0)
        fixes.append((t, round(lat), round(lon), round(h), round(h + 46 + 3 * math.sin(i / 50)), min(999, noise)))
        t += step
    return fixes


def b_line(f, columns='', mark='A'):
    return 'B' + hms(f[0] % 86400) + lat_text(f[1]) + lon_text(f[2]) + mark + height(f[3]) + height(f[4]) + columns


def put(name, lines):
    data = ('\r\n'.join(lines) + '\r\n').encode('latin1')
    with open(os.path.join(out, name), 'wb') as w:
        w.write(data)
    return data


def facts(date, fixes):
    a, b = fixes[0], fixes[-1]
    d = b[0] - a[0]
    day = (lambda s: clock(s % 86400) + (' +%d\u202fd' % (s // 86400) if s >= 86400 else ''))
    return {'date': date, 'first': day(a[0]) + ' UTC', 'last': day(b[0]) + ' UTC', 'duration': '%d:%02d:%02d' % (d // 3600, d // 60 % 60, d % 60),
            'highest': max(f[3] for f in fixes), 'lowest': min(f[3] for f in fixes), 'gnss': max(f[4] for f in fixes), 'fixes': len(fixes)}


HOME = (3090000, -15000)
TRIANGLE = [HOME, (3120000, 30000), (3140000, -60000), HOME]
HEADS = ['HFPLTPILOTINCHARGE:Ada Example', 'HFCM2CREW2:NIL', 'HFGTYGLIDERTYPE:LS 4', 'HFGIDGLIDERID:D-1234', 'HFCIDCOMPETITIONID:AE',
    'HFDTM100GPSDATUM:WGS-1984', 'HFFTYFRTYPE:Club,Recorder']
POINTS = ['C' + lat_text(a) + lon_text(b) + t for a, b,
    t in [(0, 0, ''), (*HOME, 'AIRFIELD'), (*TRIANGLE[1], 'CHURCH TOWER'), (*TRIANGLE[2], 'LAKE, NORTH'.replace(',', '')), (*HOME, 'AIRFIELD'), (0, 0, '')]]

# the officer's file: 10,000 fixes at 2 s, ENL and MOP, a declaration, evening notes
fixes = flight(10000, 2, 9 * 3600 + 1234, TRIANGLE)
lines = ['AXYZ001CLUB', 'HFDTE150724', *HEADS, 'I023638ENL3941MOP', 'C150724081500150724000102Two corners', *POINTS]
body = [b_line(f, '%03d%03d' % (f[5], 3)) for f in fixes]
lines += body[:5000] + ['LXYZ inside the file'] + body[5000:] + ['GABCDEF0123456789', 'GABCDEF0123456789', 'LCLBpoints seen by the tower',
    'LCLBlanded at 16:02 local']
put('officer.igc', lines)
expected['officer'] = {**facts('2024-07-15', fixes), 'evening': ['CLBpoints seen by the tower', 'CLBlanded at 16:02 local'],
    'pilot': 'PILOTINCHARGE:Ada Example',
                       'points': [('Take-off', '–'), ('Start', 'AIRFIELD'), ('Turn point 1', 'CHURCH TOWER'), ('Turn point 2', 'LAKE NORTH'),
                           ('Finish', 'AIRFIELD'), ('Landing', '–')],
                       'place1': lat_text(TRIANGLE[1][0])[:2] + '°' + '%06.3f' % (TRIANGLE[1][0] % 60000 / 1000) + '′N', 'row1': fixes[0]}
csv = ['time,latitude,longitude,validity,pressure,gnss']
for i, f in enumerate(fixes):
    csv.append('2024-07-15T%sZ,%.6f,%.6f,A,%d,%d' % (clock(f[0]), f[1] / 60000, f[2] / 60000, f[3], f[4]))
with open(os.path.join(out, 'officer.csv.expected'), 'wb') as w:
    w.write(('\n'.join(csv) + '\n').encode())


def apart(a, b):
    """Metres between two fixes on the sphere of 6,371 km, by the chord between them: another formula than the page's."""
    u, v = [(math.cos(la) * math.cos(lo), math.cos(la) * math.sin(lo), math.sin(la)) for la,
        lo in [(math.radians(f[1] / 60000), math.radians(f[2] / 60000)) for f in (a, b)]]
    return 6371000 * 2 * math.asin(math.dist(u, v) / 2)


def between(low, high):
    a, b = fixes[low], fixes[high]
    noise = max(f[5] for f in fixes[min(low, high):max(low, high) + 1])
    seconds = abs(b[0] - a[0])
    metres = apart(a, b)
    return {'low': low, 'high': high, 'pressure': b[3] - a[3], 'gnss': b[4] - a[4],
        'time': '%d:%02d:%02d' % (seconds // 3600, seconds // 60 % 60, seconds % 60), 'noise': noise,
            'distance': '%.2f\u202fkm' % (metres / 1000) if metres >= 9999.5 else '%d\u202fm' % round(metres)}


# the greatest gain: of every low point with the highest point behind it
peak, best = len(fixes) - 1, (0, 0, 0)
for i in range(len(fixes) - 1, -1, -1):
    if fixes[i][3] >= fixes[peak][3]:
        peak = i
    best = max(best, (fixes[peak][3] - fixes[i][3], -peak, -i))
low, high = min(range(2000, 4000), key=lambda i: fixes[i][3]), max(range(5000, 7000), key=lambda i: fixes[i][3])
expected['gain'] = {'set': between(low, high), 'back': between(high, low), 'greatest': best[0]}

# refused: a latitude past 90 degrees in a line far down
bad = list(lines)
k = 4320
bad[k] = bad[k][:7] + '9000001N' + bad[k][15:]
put('refused.igc', bad)
expected['refused'] = {'rule': '23 POSITION', 'line': k + 1, 'byte': 8, 'quote': bad[k][:80] + '\n' + ' ' * 7 + '^'}

# no G line
put('not_signed.igc', ['AXYZ001', 'HFDTE150724', 'LXYZ no recorder key'] + [b_line(f) for f in fixes[:1200]])
expected['not_signed'] = facts('2024-07-15', fixes[:1200])

# a night flight with finer digits, some fixes marked V
night = flight(9000, 1, 22 * 3600 + 1800, [HOME, (3070000, 20000), HOME], top=2600)
marks = ['V' if 700 <= i < 760 else 'A' for i in range(len(night))]
put('midnight.igc', ['AXYZ002', 'HFDTE311223', 'I043638ENL3939TDS4041LAD4243LOD'] + [b_line(f, '%03d5%02d%02d' % (f[5], i % 100, 7), marks[i]) for i,
    f in enumerate(night)] + ['GAB'])
expected['midnight'] = {**facts('2023-12-31', night), 'gnss': max(f[4] for f, m in zip(night, marks) if m == 'A')}

# columns that nobody has heard of, and texts that would be markup
put('unlisted.igc', ['AXYZ001', 'HFDTE150724', "HFPLTPILOT:<img src=x onerror=document.title='X'><b>Eve</b>", 'I033637QQQ3840R2D4143ENL']
    + [b_line(f, '%02s%03d%03d' % ('a<' if i % 2 else '} ', i % 900, f[5])) for i, f in enumerate(fixes[:3000])] + ['GABC',
        "L<script>document.title='Y'</script>"])

# as long as a file may be: 370,000 fixes, four a second, over midnight
n = 370000
slow = flight(n // 4, 1, 6 * 3600, [HOME, (3200000, 90000), (3100000, 300000), (3010000, 60000), HOME], top=3100)
lines = ['AXYZ003', 'HFDTE200624', 'I043638ENL3939TDS4042MOP4343QQ1']
peak = 200001
for i in range(n):
    f = slow[i // 4]
    lines.append(b_line((f[0], f[1], f[2], 4321 if i == peak else f[3], f[4]), '%03d%d%03d%d' % (f[5], i % 4 * 2, 1, 8)))
data = put('big.igc', lines + ['GAB'])
assert 16 << 20 >= len(data) > 16600000, len(data)
e = facts('2024-06-20', slow)
expected['big'] = {**e, 'highest': 4321, 'fixes': n, 'bytes': len(data)}
with open(os.path.join(out, 'too_long.igc'), 'wb') as w:
    w.write(data + b'LX\r\n' * 40000)

# two copies of one file
same = ['AXYZ001', 'HFDTE150724'] + [b_line(f) for f in fixes[:600]] + ['GABC']
one, two = ['LCLBretrieve by road', 'LCLBtow 600 m'], ['LCLBwheel was up', 'LCLBtow 600 m', 'LCLBtow 600 m']
put('copy1.igc', same + one)
put('copy2.igc', same + two)
put('copy3.igc', same[:-1] + ['GABD'] + two)
merged = sorted(['LCLBretrieve by road', 'LCLBwheel was up', 'LCLBtow 600 m', 'LCLBtow 600 m'])
put('copies.expected', same + merged)
expected['merged'] = [m[1:] for m in merged]

# a declaration and notes that no sheet has room for, with texts as long as lines may have
points = ['C' + lat_text(3090000 + 900 * k) + lon_text(-15000 + 700 * k) + 'POINT %d ' % k + 'W' * 200 for k in range(34)]
long = ['AXYZ001', 'HFDTE150724', *['HFPLTPILOTINCHARGE:' + 'Ada ' * 50] * 30, 'I013638ENL', 'C150724081500150724000130' + 'long ' * 40, *points,
    *[b_line(f, '%03d' % f[5]) for f in fixes[:2000]], 'GABC', *['LCLB note %d ' % k + 'word ' * 11 for k in range(60)]]
put('long.igc', long)

# no fix at all; and a recorder without a pressure sensor
put('no_fixes.igc', ['AXYZ001', 'HFDTE150724', 'GABC'])
put('no_sensor.igc', ['AXYZ001', 'HFDTE150724'] + [b_line((f[0], f[1], f[2], 0, f[4])) for f in fixes[:1500]] + ['GABC'])
expected['no_sensor'] = {'gnss': max(f[4] for f in fixes[:1500])}

# four fixes whose distances are known: along a meridian, along the equator, over a pole, around half the world
spots = [(0, 0), (60000, 0), (0, 5400000), (0, 10799999)]
put('spots.igc', ['AXYZ001', 'HFDTE150724'] + ['B1200%02d' % k + lat_text(a) + lon_text(b) + 'A0010000100' for k, (a, b) in enumerate(spots)] + ['GABC'])

# a shelf of 40,000 bytes: flights 7 and 3 put on it, 7 taken off, then packed; by the rules, each at the smallest start where it fits
first, second = ['\r\n'.join(['AXYZ001', 'HFDTE%02d0724' % d, *[b_line(f) for f in fixes[:n]], 'GABC', '']).encode() for d, n in ((15, 200), (16, 300))]
open(os.path.join(out, 'shelf1.igc'), 'wb').write(first)
open(os.path.join(out, 'shelf2.igc'), 'wb').write(second)


def shelf(entries, bodies):
    table = b''.join(b''.join(n.to_bytes(4, 'little') for n in e) for e in entries).ljust(768, b'\0')
    whole = bytearray(table.ljust(1 << 20, b'\0'))
    for start, body in bodies:
        whole[start:start + len(body)] = body
    return bytes(whole)


after = 768 + len(first)
open(os.path.join(out, 'both.shelf'), 'wb').write(shelf([(7, 768, len(first)), (3, after, len(second))], [(768, first), (after, second)]))
# packing moves the body down; what it does not cover of the old bytes stays
packed = bytearray(shelf([(0, 0, 0), (3, 768, len(second))], [(768, first), (after, second)]))
packed[768:768 + len(second)] = second
open(os.path.join(out, 'packed.shelf'), 'wb').write(packed)
open(os.path.join(out, 'unsound.shelf'), 'wb').write(shelf([(7, 768, 100), (7, 900, 100)], []))
expected['shelf'] = {'first': len(first), 'second': len(second), 'after': after}

# two copies with so many notes that a merge takes a while
many = ['AXYZ001', 'HFDTE150724'] + [b_line(f) for f in fixes[:5]] + ['GABC']
for k in (1, 2):
    put('many_notes%d.igc' % k, many + ['L%08X' % (i * 2654435761 * k % (1 << 32)) for i in range(150000)])

# a thousand small files, in folders
for k in range(1000):
    folder = os.path.join(out, 'thousand', 'day%d' % (k % 5))
    os.makedirs(folder, exist_ok=True)
    put(os.path.join('thousand', 'day%d' % (k % 5), 'f%03d.igc' % k),
        ['AXYZ%03d' % k, 'HFDTE%02d0724' % (1 + k % 28)] + [b_line(f) for f in fixes[k:k + 20]] + ['GABC'])
open(os.path.join(out, 'thousand', 'day0', 'readme.txt'), 'w').write('no flight')

# byte strings: of chance, and good files with a few bytes changed
os.makedirs(os.path.join(out, 'hostile'), exist_ok=True)
whole = '\r\n'.join(['AXYZ001', 'HFDTE150724', 'HFPLT:<b>x', 'I023638ENL3941MOP', 'C150724081500150724000102Two corners', *POINTS,
    *[b_line(f, '%03d003' % f[5]) for f in fixes[:12]], 'E120000PEV', 'GABC', 'LCLBnote', '']).encode()
for k in range(1000):
    if k % 2:
        data = bytearray(whole)
        for _ in range(rng.randrange(1, 4)):
            at = rng.randrange(len(data))
            data[at:at + rng.randrange(2)] = bytes([rng.choice([rng.randrange(256), rng.randrange(32, 126)])])
    else:
        data = bytes(rng.randrange(256) for _ in range(rng.choice([0, 1, 2, 9, 60, 700])))
        data = rng.choice([b'', b'A', b'AXYZ001\r\n', b'AXYZ001\r\nHFDTE150724\r\n']) + data
    with open(os.path.join(out, 'hostile', '%03d.igc' % k), 'wb') as w:
        w.write(data)

# the scorer's hundred
table = []
os.makedirs(os.path.join(out, 'hundred'), exist_ok=True)
for k in range(100):
    name = '%02d_%s.igc' % (k, ['LS', 'DG', 'AS', 'K6'][k % 4])
    day = 1 + k % 28
    fx = flight(1500 + 37 * k, 4, 8 * 3600 + 61 * k, [HOME, (3090000 + 400 * k, 30000 - 90 * k), (3130000, -50000), HOME], top=1500 + 11 * k)
    ls = ['AXYZ%03d' % k, 'HFDTE%02d0724' % day, 'I013638ENL'] + [b_line(f, '%03d' % f[5]) for f in fx]
    if k % 9 != 4:
        ls.append('GABC%d' % k)
    row = {'file': name, **facts('2024-07-%02d' % day, fx), 'signed': k % 9 != 4, 'check': 'accepted'}
    if k % 20 == 7:
        ls[100] = ls[100][:1] + '246060' + ls[100][7:]
        row['check'] = '22 TIME'
    put(os.path.join('hundred', name), ls)
    table.append(row)
expected['hundred'] = table
json.dump(expected, open(os.path.join(out, 'expected.json'), 'w'))
