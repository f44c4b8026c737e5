#!/usr/bin/env python3
"""check_views.py: computes the contrast of what omid_view draws, by the colours that stand in its styles, light and dark.

Of the pictures (crates/history_view/src/style.rt) and of the page (crates/history_page/src/html.rt) it checks that each text has a contrast
of 4.5 with what it stands on, each letter with its sign, and each sign with the page and with every bar that it can stand on; and that
edges of bars, arrows and rings have 3. A colour is taken from the style, so one that is changed there is checked anew. The contrast is
that of WCAG 2: (lighter + 0.05) / (darker + 0.05) of the relative luminances."""
import os
import re
import sys

ROOT = os.path.dirname(os.path.dirname(os.path.abspath(__file__)))
# what a reader must read or tell apart by its colour, and what only leads the eye
TEXT, EDGE = 4.5, 3.0
SIGNS = ('own', 'done', 'grant', 'bad', 'mark', 'step')
# a bar's kind, and which colours fill it: what it is hatched or crossed with stands between its ground, and signs stand on both
BARS = ('committed', 'refused', 'aborted', 'dead', 'open', 'lease')
RULE = re.compile(r'([^{}]+)\{([^{}]*)\}')


def luminance(colour):
    digits = colour.lstrip('#')
    if len(digits) == 3:
        digits = ''.join(digit * 2 for digit in digits)
    parts = [int(digits[at:at + 2], 16) / 255 for at in (0, 2, 4)]
    red, green, blue = (part / 12.92 if part <= 0.03928 else ((part + 0.055) / 1.055) ** 2.4 for part in parts)
    return 0.2126 * red + 0.7152 * green + 0.0722 * blue


def contrast(one, other):
    lighter, darker = sorted((luminance(one), luminance(other)), reverse=True)
    return (lighter + 0.05) / (darker + 0.05)


def constant(path, name):
    """The text of a constant of a source file."""
    with open(f'{ROOT}/{path}', encoding='utf-8') as file:
        text = file.read()
    found = re.search(rf'const {name}: &str =\s*(?:r##"(.*?)"##;|"(.*?)"\s*;)', text, re.S)
    return found[1] or found[2]


def rules(style):
    """What is set for each selector."""
    found = {}
    for selectors, body in RULE.findall(style):
        for selector in selectors.rsplit('>', 1)[-1].split(','):
            words = dict(word.strip().split(':', 1) for word in body.split(';') if ':' in word)
            found.setdefault(selector.strip(), {}).update(words)
    return found


def both(style):
    """What is set by day, and by night over it."""
    light, dark = style.split('@media(prefers-color-scheme:dark){', 1)
    day = rules(light)
    night = {selector: dict(words) for selector, words in day.items()}
    for selector, words in rules(dark).items():
        night.setdefault(selector, {}).update(words)
    return {'light': day, 'dark': night}


def picture_colours(style):
    """The colours of a picture by the names that the page has for them."""
    fill = lambda selector: style[selector]['fill']
    edge = lambda selector: style[selector]['stroke']
    named = {'page': fill('.page'), 'text': fill('text'), 'dim': fill('.n'), 'again': fill('.again'), 'letter': fill('circle+text'), 'step': fill('circle'),
             'arrow': edge('.link'), 'why': edge('path.bad'), 'hatch': edge('.hatch-line'), 'cross': edge('.cross-line'),
             'refused': fill('.hatch'), 'dead': fill('.cross')}
    named.update({sign: fill(f'.{sign} circle') for sign in SIGNS if sign != 'step'})
    named.update({bar: fill(f'.{bar} rect') for bar in BARS if bar not in ('refused', 'dead')})
    named.update({bar + '-edge': edge(f'.{bar} rect') for bar in BARS if bar != 'lease'})
    return named


def page_colours(style):
    named = {name[2:]: value for name, value in style[':root'].items() if name.startswith('--')}
    return {**named, 'arrow': named['step'], 'why': named['refused-edge']}


def pairs(named):
    """What stands on what, and the least contrast of the two."""
    grounds = ['page', *BARS]
    panel = [ground for ground in ('page', 'panel', 'rule') if ground in named]
    yield from ((text, ground, TEXT) for text in ('text', 'dim', 'again') if text in named for ground in panel if (text, ground) != ('dim', 'rule'))
    yield from (('letter', sign, TEXT) for sign in SIGNS)
    yield from ((sign, ground, TEXT) for sign in SIGNS for ground in grounds)
    if 'panel' in named:
        yield from (('bad', ground, TEXT) for ground in ('page', 'panel'))
    yield from ((bar + '-edge', 'page', EDGE) for bar in BARS if bar != 'lease')
    yield from ((lead, ground, EDGE) for lead in ('arrow', 'why') for ground in grounds)


def main():
    sets = [('picture', both(constant('crates/history_view/src/style.rt', 'STYLE')), picture_colours),
            ('page', both(constant('crates/history_page/src/html.rt', 'HEAD')), page_colours)]
    faults, count, least = [], 0, {}
    for name, styles, colours in sets:
        for light, style in styles.items():
            named = colours(style)
            for one, other, wanted in pairs(named):
                has, count = contrast(named[one], named[other]), count + 1
                least[wanted] = min(least.get(wanted, (99, '')), (has, f'{name}, {light}: {one} on {other}'))
                if has < wanted:
                    faults.append(f'{name}, {light}: {one} {named[one]} on {other} {named[other]} has {has:.2f}, and {wanted} is wanted')
    for wanted, (has, where) in least.items():
        print(f'check_views: of those that want {wanted} the least is {has:.2f} ({where})')
    print('\n'.join(faults) or f'check_views: {count} pairs have the contrast that is wanted')
    sys.exit(1 if faults else 0)


if __name__ == '__main__':
    main()
