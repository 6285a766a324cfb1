"""Compares the markup reader with expat (acceptance and number of tags) and with the second judge (number, place, tags) on
seeded texts, and what the program catalogue_check prints with expat's tags, names and places. The arguments are the driver, built by
compare_markup.sh, and the program. Exit status 1 where they disagree.

Each text for expat is wrapped in one outermost tag. Known differences, which are left out and counted:
  nesting      the reader does not compare the names of opens and closes: such a text must be refused by expat
  ]]>          right in text for the reader, never for expat
  twice        the reader does not compare attribute names, expat refuses a name that comes twice in a tag
  long name    the reader refuses a name's 65th byte
  other form   the reader refuses <? and <! but for comments: processing instructions, CDATA sections, declarations
  &#           the reader refuses references to characters by number
  letters      expat takes letters beyond ASCII into names, the reader no byte from 128 up (the texts are read as ISO 8859-1,
               so that all bytes from 128 up are right elsewhere for expat too)
"""
import random
import re
import subprocess
import sys
from xml.parsers import expat

from judge_markup import TAG, judge

NAMES = ['a', 'box', 'reel', 'x:y', '_n', 'b-1', 'c.d', 'n' * 63, 'm' * 64]
WORDS = ['text', ' and ', '\n', '\t', '&amp;', '&lt;', '&gt;', '&quot;', '&apos;', '>', '"', "'", '=', '/', '-', ';', '\x7f', '\xe9', '\xff', ']', '\r\n']
BREAKS = ['<', '>', '/', '&', '"', "'", '=', '-', '!', '?', ';', ' ', 'a', '1', '.', ':', '\x00', '\x0b', '\x1f', '<!--', '-->', '--', '&am', '&x;', '&#65;', ']]>', '</a>',
          '<a>', '<a/>', '<a b="c">', "<a b='", '<?p?>', '<![CDATA[', 'n' * 65]


def space(rnd, least):
    return ''.join(rnd.choice(' \t\n\r') for _ in range(least + rnd.choice([0, 0, 0, 1, 2])))


def value(rnd):
    quote = rnd.choice('"\'')
    words = [w for w in WORDS if quote not in w]
    return quote + ''.join(rnd.choice(words) for _ in range(rnd.randint(0, 4))) + quote


def attributes(rnd):
    names = rnd.sample(NAMES, rnd.choice([0, 0, 1, 1, 2, 3]))
    if rnd.random() < 0.02:
        names = names + names[:1]
    return ''.join(space(rnd, 1) + n + space(rnd, 0) + '=' + space(rnd, 0) + value(rnd) for n in names)


def content(rnd, depth):
    out = ''
    for _ in range(rnd.randint(0, 5)):
        kind = rnd.random()
        name = rnd.choice(NAMES)
        if kind < 0.4 or depth > 4:
            out += rnd.choice(WORDS)
        elif kind < 0.5:
            out += '<!--' + ''.join(rnd.choice(['text', ' ', '<', '&', '- ', '-a', '\xff', '>']) for _ in range(rnd.randint(0, 4))) + '-->'
        elif kind < 0.7:
            out += '<' + name + attributes(rnd) + space(rnd, 0) + '/>'
        else:
            out += '<' + name + attributes(rnd) + space(rnd, 0) + '>' + content(rnd, depth + 1) + '</' + name + space(rnd, 0) + '>'
    return out


def changed(rnd, text):
    """A text with some small damage, or none."""
    for _ in range(rnd.choice([0, 0, 1, 1, 1, 2, 3])):
        i = rnd.randint(0, len(text))
        how = rnd.random()
        if how < 0.3:
            text = text[:i] + text[i + 1:]
        elif how < 0.75:
            text = text[:i] + rnd.choice(BREAKS) + text[i:]
        elif how < 0.9:
            text = text[:i] + rnd.choice(BREAKS) + text[i + 1:]
        else:
            text = text[:i]
    return text


def fragments(rnd):
    begin = rnd.choice(['', '', '<', '<a ', '<a b="', '<!--', '</', '&', '<' + 'b' * 60])
    return begin + ''.join(rnd.choice(BREAKS + WORDS + ['a' * 63, '<b c = "d"']) for _ in range(rnd.randint(0, 9)))


def answers(driver, texts):
    stdin = b''.join(len(t).to_bytes(4, 'little') + t for t in texts)
    lines = subprocess.run([driver], input=stdin, capture_output=True, check=True).stdout.decode().splitlines()
    assert len(lines) == len(texts)
    return [tuple(map(int, line.split())) for line in lines]


def expat_tags(text):
    """The number of tags, or None where expat refuses the text."""
    count = 0

    def note(*_):
        nonlocal count
        count += 1
    parser = expat.ParserCreate('iso-8859-1')
    parser.StartElementHandler = note
    parser.EndElementHandler = note
    try:
        parser.Parse(b'<outermost>' + text + b'</outermost>', True)
    except expat.ExpatError:
        return None
    return count - 2


def nested(text):
    names = []
    for m in TAG.finditer(text):
        if m.group(2) is not None and not m.group(3):
            names.append(m.group(2))
        elif m.group(4) is not None:
            if not names or names.pop() != m.group(4):
                return False
    return not names


def twice(text):
    for m in TAG.finditer(text):
        if m.group(2) is not None:
            found = re.findall(rb'[ \t\r\n]([A-Za-z_:][A-Za-z0-9_:.\-]*)[ \t\r\n]*=[ \t\r\n]*(?:"[^"]*"|\'[^\']*\')', m.group(0))
            if len(found) != len(set(found)):
                return True
    return False


def difference(text, number, place):
    """The known difference that makes a text unfit to compare, or None."""
    if number == 23:
        return 'other form'
    if number == 24:
        return 'long name'
    if number == 25 and text[place:place + 2] == b'&#':
        return '&#'
    if number == 22 and text[place] >= 128:
        return 'letters'
    if number == 0 and b']]>' in text:
        return ']]>'
    if number == 0 and twice(text):
        return 'twice'
    return None


def expat_lines(text):
    """What catalogue_check prints of a right text, by expat's tags and byte offsets; at the close of an empty tag
    expat stands behind the tag, the reader at its `<`."""
    lines, places = [], []
    head = b'<outermost>'
    whole = head + text + b'</outermost>'
    parser = expat.ParserCreate('iso-8859-1')

    def start(name, _):
        places.append(parser.CurrentByteIndex)
        lines.append((len(places) - 2, parser.CurrentByteIndex, 'open', name))

    def end(name):
        at = parser.CurrentByteIndex
        opened = places.pop()
        empty = lines[-1][1:3] == (opened, 'open') and whole[at - 2:at] == b'/>'
        lines.append((len(places) - 1, opened if empty else at, 'close', name))
    parser.StartElementHandler = start
    parser.EndElementHandler = end
    parser.Parse(whole, True)
    tags = lines[1:-1]
    return ''.join('  ' * d + '%d %s %s\n' % (at - len(head), kind, name) for d, at, kind, name in tags) + 'tags %d\n' % len(tags)


def compare_program(program, texts, answered):
    """Whole outputs for right texts, last lines for refused ones, and the exit status."""
    wrong = right = 0
    for text, (number, place, _) in zip(texts, answered):
        if number == 0 and (difference(text, number, place) is not None or not nested(text)):
            continue
        run = subprocess.run([program], input=text, capture_output=True)
        found = run.stdout.decode()
        if number == 0:
            right += 1
            same = found == expat_lines(text) and run.returncode == 0
        else:
            same = found.splitlines()[-1] == 'refused %d at %d' % (number, place) and run.returncode == 1
        if not same:
            wrong += 1
            if wrong <= 10:
                print('DIFFERENT output:', text, found, run.returncode)
    print('catalogue_check: %d texts, %d of them right' % (len(texts), right))
    return wrong


def main(driver, program):
    wrong = 0
    rnd = random.Random(20000)
    texts = [changed(rnd, content(rnd, 0)).encode('latin-1') for _ in range(20000)]
    left_out, both, neither = {}, 0, 0
    answered = answers(driver, texts)
    for text, (number, place, count) in zip(texts, answered):
        why = difference(text, number, place)
        if why is not None:
            left_out[why] = left_out.get(why, 0) + 1
            continue
        accepted = number == 0
        if accepted and not nested(text):
            left_out['nesting'] = left_out.get('nesting', 0) + 1
            accepted = False
        found = expat_tags(text)
        if (found is not None) != accepted or (accepted and found != count):
            wrong += 1
            if wrong <= 10:
                print('DIFFERENT from expat:', text, 'reader', (number, place, count), 'expat', found)
        elif accepted:
            both += 1
        else:
            neither += 1
    print('expat: %d texts, %d accepted by both, %d by neither; known differences: %s'
          % (len(texts), both, neither, ', '.join('%s %d' % (k, v) for k, v in sorted(left_out.items()))))
    wrong += compare_program(program, texts[:600], answered[:600])
    texts = [(fragments(rnd) if i % 2 else changed(rnd, content(rnd, 2))).encode('latin-1') for i in range(4000)]
    numbers = {}
    for text, found in zip(texts, answers(driver, texts)):
        expected = judge(text)
        numbers[expected[0]] = numbers.get(expected[0], 0) + 1
        if found != expected:
            wrong += 1
            if wrong <= 20:
                print('DIFFERENT from the judge:', text, 'reader', found, 'judge', expected)
    print('judge: %d texts, by number: %s' % (len(texts), ', '.join('%d: %d' % (k, v) for k, v in sorted(numbers.items()))))
    print('%d differences' % wrong)
    return 1 if wrong else 0


if __name__ == '__main__':
    sys.exit(main(sys.argv[1], sys.argv[2]))
