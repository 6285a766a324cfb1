"""A second judge of catalogue text, written from the rules of docs/CATALOGUE-TEXT.md and sharing no code with the reader.

A right text is one that a regular expression matches whole. A text is viable if some completion of a short list makes it
right, which is enough: each way to be in the middle of a text has one of them. The fault is at the first byte with which the
text is no longer viable; its number and place follow from what stands before that byte.

    python3 host/judge_markup.py cases LONG-TEXT-SOURCE < crates/markup_cases/stdin   prints what the program markup_cases must print
"""
import re
import sys

NAME = rb'[A-Za-z_:][A-Za-z0-9_:.\-]{0,63}'
SPACE = rb'[ \t\n\r]'
BYTE = rb'[\x09\x0a\x0d\x20-\xff]'


def but(signs):
    return rb'(?:(?![' + signs + rb'])' + BYTE + rb')'


REFERENCE = rb'&(?:amp|lt|gt|quot|apos);'
VALUE = rb'(?:"(?:' + but(rb'<&"') + rb'|' + REFERENCE + rb')*"|\'(?:' + but(rb"<&'") + rb'|' + REFERENCE + rb')*\')'
ATTRIBUTES = rb'(?:' + SPACE + rb'+' + NAME + SPACE + rb'*=' + SPACE + rb'*' + VALUE + rb')*'
COMMENT = rb'<!--(?:' + but(rb'\-') + rb'|-' + but(rb'\-') + rb')*-->'
PIECE = (rb'(?:' + but(rb'<&') + rb'|' + REFERENCE + rb'|' + COMMENT + rb'|<' + NAME + ATTRIBUTES + SPACE + rb'*/?>|</' + NAME
         + SPACE + rb'*>)')
RIGHT = re.compile(rb'(?:' + PIECE + rb')*\Z', re.S)
TAG = re.compile(rb'(' + COMMENT + rb')|<(' + NAME + rb')' + ATTRIBUTES + SPACE + rb'*(/?)>|</(' + NAME + rb')' + SPACE + rb'*>', re.S)
REFERENCES = [b'&amp;', b'&lt;', b'&gt;', b'&quot;', b'&apos;']
ENDS = [b''] + sorted({r[i:] for r in REFERENCES for i in range(1, len(r))})
COMPLETIONS = [e + c for c in (b'', b'">', b"'>") for e in ENDS] + [
    b'>', b'a>', b'---->', b'--->', b'-->', b'->', b'="">', b'"">', b'/>']
NAME_BYTE = re.compile(rb'[A-Za-z0-9_:.\-]\Z')
FULL_NAME = re.compile(rb'[A-Za-z_:][A-Za-z0-9_:.\-]{63}\Z')


def right(text):
    return RIGHT.match(text) is not None


def viable(text):
    return any(right(text + c) for c in COMPLETIONS)


def tags(text):
    """The number of tags of a right text, an empty one counted as two."""
    count = 0
    for m in TAG.finditer(text):
        if m.group(1) is None:
            count += 2 if m.group(3) else 1
    return count


def tags_before(text):
    """Those of the longest right beginning."""
    for k in range(len(text), -1, -1):
        if right(text[:k]):
            return tags(text[:k])


def judge(text, known=0):
    """Number, place and tags; the first `known` bytes are known to be viable."""
    if right(text):
        return 0, 0, tags(text)
    if viable(text):
        return 21, len(text), tags_before(text)
    p = known
    while viable(text[:p + 1]):
        p += 1
    u, b = text[:p], text[p:p + 1]
    k = tags_before(u)
    for begin in (b'<', b'<!', b'<!-'):
        if u.endswith(begin) and right(u[:-len(begin)]) and (b == b'?' if begin == b'<' else b != b'-'):
            return 23, p - len(begin), k
    for j in range(1, min(p, 5) + 1):
        w, v = u[p - j:], u[:p - j]
        begun = w[:1] == b'&' and any(r.startswith(w) and len(r) > j for r in REFERENCES)
        if begun and not any(r.startswith(w + b) for r in REFERENCES) and viable(v + b'&') and not viable(v + b'&&'):
            return 25, p - j, k
    if NAME_BYTE.match(b) and p >= 64 and FULL_NAME.match(u[p - 64:]) and viable(u + b' '):
        return 24, p, k
    return 22, p, k


def unescape(line):
    return re.sub(rb'\\(n|r|t|\\|x[0-9a-f]{2})',
                  lambda m: {b'n': b'\n', b'r': b'\r', b't': b'\t', b'\\': b'\\'}.get(m.group(1)) or bytes([int(m.group(1)[1:], 16)]), line)


def counted(title, numbers):
    n = {k: 0 for k in (0, 21, 22, 23, 24, 25)}
    for k in numbers:
        n[k] += 1
    print('%s: %d right, 21: %d, 22: %d, 23: %d, 24: %d, 25: %d' % (title, n[0], n[21], n[22], n[23], n[24], n[25]))


def cases(source):
    for line in sys.stdin.buffer.read().splitlines():
        number, place, count = judge(unescape(line))
        sys.stdout.write('%d %d %d %s\n' % (number, place, count, line.decode()))
    literal = re.search(rb'\n    b"(.*)"\n', open(source, 'rb').read()).group(1)
    text = re.sub(rb'\\"', b'"', unescape(literal))
    assert right(text)
    counted('prefixes', [judge(text[:n])[0] for n in range(len(text) + 1)])
    counted('changes', [judge(text[:i] + bytes([b]) + text[i + 1:], i)[0] for i in range(len(text)) for b in range(256) if b != text[i]])


if __name__ == '__main__':
    if sys.argv[1:2] == ['cases']:
        cases(sys.argv[2])
    else:
        sys.exit(__doc__)
