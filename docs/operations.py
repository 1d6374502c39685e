#!/usr/bin/env python3
"""Draws operations.svg: a rejoin as a cycle, with what each step awaits, and on each arrow the outcome that leads along it."""
import os

W, H = 1180, 640
BOX_W, BOX_H = 210, 62

# name: (x, y of the middle), its two lines
BOXES = {
    'idle': (150, 320, 'no operation', 'awaits nothing'),
    'send': (520, 90, 'try: rejoin request', 'awaits the transmission'),
    'polls': (960, 90, 'try: polls, at most 20', 'awaits a poll'),
    'leave': (960, 320, 'leave announced', 'awaits the transmission'),
    'next': (520, 320, 'the try has failed', 'what comes next?'),
    'scan': (520, 550, 'scan', 'awaits a scan'),
}

# the points of an arrow, the words on it, and where they stand: x, y, anchor
ARROWS = [
    ([(150, 289), (150, 90), (415, 90)], ['rejoin, with a remembered parent'], (282, 80, 'middle')),
    ([(150, 351), (150, 550), (415, 550)], ['rejoin, with no parent', 'and some channel'], (165, 520, 'start')),
    ([(625, 78), (855, 78)], ['sent'], (740, 70, 'middle')),
    ([(500, 121), (500, 289)], ['not sent:', 'MacError'], (490, 190, 'end')),
    ([(855, 112), (620, 289)], ['response of another status,', 'or 20 polls without one: MacError'], (690, 258, 'start')),
    ([(940, 121), (940, 289)], ['leave request', 'accepted'], (930, 205, 'end')),
    ([(985, 289), (985, 121)], ['sent or not:', 'polls are left'], (995, 205, 'start')),
    ([(855, 330), (625, 330)], ['sent or not, but no poll is', 'left, or no parent: MacError'], (740, 352, 'middle')),
    ([(1065, 75), (1120, 75), (1120, 105), (1065, 105)], ['no response yet'], (1150, 142, 'end')),
    ([(960, 59), (960, 25), (90, 25), (90, 289)], ['response of status 0: set address, confirm Success'], (640, 18, 'middle')),
    ([(415, 320), (255, 320)], ['no channel, or no', 'candidate left: confirm', "with the try's status"], (335, 268, 'middle')),
    ([(500, 351), (500, 519)], ['the scan was not made yet,', 'and there is a channel'], (490, 430, 'end')),
    ([(545, 289), (545, 121)], ['the scan was made:', 'next candidate, set channel'], (555, 150, 'start')),
    ([(625, 550), (1163, 550), (1163, 42), (600, 42), (600, 59)], ['a candidate is there: the first one, set channel'], (880, 542, 'middle')),
    ([(415, 575), (110, 575), (110, 351)], ['failed: confirm MacError; no candidate: confirm NotPermitted'], (120, 596, 'start')),
]


def escaped(text):
    return text.replace('&', '&amp;').replace('<', '&lt;').replace('>', '&gt;')


out = [
    f'<svg xmlns="http://www.w3.org/2000/svg" viewBox="0 0 {W} {H}" font-family="sans-serif" font-size="14">',
    '<title>A rejoin, step by step</title>',
    '<defs><marker id="head" markerWidth="10" markerHeight="8" refX="9" refY="4" orient="auto"><path d="M0,0 L10,4 L0,8 z" fill="#335"/></marker></defs>',
    f'<rect width="{W}" height="{H}" fill="white"/>',
]
for points, words, (x, y, anchor) in ARROWS:
    line = ' '.join(f'{a},{b}' for a, b in points)
    out.append(f'<polyline points="{line}" fill="none" stroke="#335" stroke-width="1.5" marker-end="url(#head)"/>')
for name, (x, y, what, awaits) in BOXES.items():
    fill = '#fff4dc' if name in ('idle', 'next') else '#e8f0fb'
    out.append(f'<rect x="{x - BOX_W // 2}" y="{y - BOX_H // 2}" width="{BOX_W}" height="{BOX_H}" rx="8" fill="{fill}" stroke="#335"/>')
    out.append(f'<text x="{x}" y="{y - 5}" text-anchor="middle" font-weight="bold">{escaped(what)}</text>')
    out.append(f'<text x="{x}" y="{y + 16}" text-anchor="middle" fill="#555">{escaped(awaits)}</text>')
for points, words, (x, y, anchor) in ARROWS:
    for i, text in enumerate(words):
        out.append(f'<text x="{x}" y="{y + 17 * i}" text-anchor="{anchor}" stroke="white" stroke-width="4" paint-order="stroke">{escaped(text)}</text>')
out.append('</svg>')
with open(os.path.join(os.path.dirname(os.path.abspath(__file__)), 'operations.svg'), 'w') as f:
    f.write('\n'.join(out) + '\n')
