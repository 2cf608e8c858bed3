"""Contrast of the page's colours, and whether lines and verdicts are told apart by people with three kinds of colour blindness."""

# Machado, Oliveira and Fernandes 2009, severity 1
SIGHT = {'usual': [[1, 0, 0], [0, 1, 0], [0, 0, 1]],
         'protanopia': [[0.152286, 1.052583, -0.204868], [0.114503, 0.786281, 0.099216], [-0.003882, -0.048116, 1.051998]],
         'deuteranopia': [[0.367322, 0.860646, -0.227968], [0.280085, 0.672501, 0.047413], [-0.011820, 0.042940, 0.968881]],
         'tritanopia': [[1.255528, -0.076749, -0.178779], [-0.078411, 0.930809, 0.147602], [0.004733, 0.691367, 0.303900]]}
NAMES = 'paper ground ink ink2 accent accent-ink good good-ground bad bad-ground pressure gnss noise cursor point low high'.split()
PAIRS = [('ink', 'paper', 7), ('ink', 'ground', 7), ('ink2', 'paper', 4.5), ('ink2', 'ground', 4.5), ('accent-ink', 'accent', 4.5),
    ('good', 'paper', 4.5), ('good', 'good-ground', 4.5), ('bad', 'paper', 4.5),
         ('bad', 'bad-ground', 4.5), ('ink', 'bad-ground', 7), ('accent', 'paper', 4.5), ('pressure', 'paper', 3), ('gnss', 'paper', 3), ('noise',
             'paper', 3), ('cursor', 'paper', 3), ('point', 'paper', 3), ('low', 'paper', 4.5), ('high', 'paper', 4.5)]


def light(c):
    v = [int(c[k:k + 2], 16) / 255 for k in (1, 3, 5)]
    return [x / 12.92 if x <= 0.04045 else ((x + 0.055) / 1.055) ** 2.4 for x in v]


def luminance(rgb):
    return 0.2126 * rgb[0] + 0.7152 * rgb[1] + 0.0722 * rgb[2]


def contrast(a, b):
    x, y = sorted([luminance(light(a)), luminance(light(b))])
    return (y + 0.05) / (x + 0.05)


def lab(c, m):
    r = light(c)
    r = [min(1, max(0, sum(a * b for a, b in zip(row, r)))) for row in m]
    xyz = [(0.4124 * r[0] + 0.3576 * r[1] + 0.1805 * r[2]) / 0.9505, luminance(r), (0.0193 * r[0] + 0.1192 * r[1] + 0.9505 * r[2]) / 1.089]
    f = [v ** (1 / 3) if v > 0.008856 else 7.787 * v + 16 / 116 for v in xyz]
    return [116 * f[1] - 16, 500 * (f[0] - f[1]), 200 * (f[1] - f[2])]


def contrasts(p, theme):
    v = {k: p.variable('--' + k) for k in NAMES}
    for a, b, least in PAIRS:
        p.hold(f'{theme}: contrast of {a} on {b}', contrast(v[a], v[b]) >= least, contrast(v[a], v[b]))
    for name, m in SIGHT.items():
        for a, b in [('pressure', 'gnss'), ('good', 'bad')]:
            far = sum((x - y) ** 2 for x, y in zip(lab(v[a], m), lab(v[b], m))) ** 0.5
            p.hold(f'{theme}: {a} and {b} told apart, {name}', far > 25, far)
