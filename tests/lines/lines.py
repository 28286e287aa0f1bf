"""What the models of the programs that answer one line share: how a line is read, lines that are damaged, and the file of cases.

A model calls `main` with its groups of inputs and its answer to an input; it then prints the cases, a line each,
INPUT|OUTPUT, as `printf %b` reads them, or with --check says whether the stored ones are these. An output longer than
1,000 bytes stands as its SHA-256 sum behind an @.
"""
import hashlib
import os
import re
import sys


def read(data, count):
    """The numbers of the first line, as many as `count`; nothing where it is another line."""
    line, newline, _ = data.partition(b'\n')
    if len(line + newline) > 64 or not re.fullmatch(rb' '.join([rb'[0-9]+'] * count), line):
        return None
    numbers = [int(word) for word in line.split(b' ')]
    return numbers if max(numbers) <= 65535 else None


def digits(n, k, a):
    return [a // n ** i % n for i in range(k + 1)]


def padded(line, size, newline):
    """The line with zeros before its first number, so that it has `size` bytes with its newline."""
    return b'0' * (size - len(line) - len(newline)) + line + newline


def damaged(worked):
    """Groups of inputs made of a line that is answered: how it may end, and how it may not be written."""
    words = worked.split(b' ')
    count = len(words)

    def put(place, word):
        return b' '.join(words[:place] + [word] + words[place + 1:]) + b'\n'

    def last(word):
        return put(count - 1, word)

    yield 'the worked line, and how it may end', [worked + e for e in (b'\n', b'', b'\nrest', b'\n\n', b'\n' + worked[::-1] + b'\n', b'\n\0', b'\n' + b'x' * 200)]
    yield 'nothing, and a lone newline', [b'', b'\n', b'\n' + worked + b'\n', b'\n\n']
    yield 'carriage returns, tabs, signs and other bytes', [
        worked + b'\r\n', b'\t'.join(words) + b'\n', b' '.join(words[:-1]) + b'\t' + words[-1] + b'\n', worked + b'\t\n', b'+' + worked + b'\n', put(2, b'-1'),
        b'-' + worked + b'\n', last(b'-0'), last(b'0x9'), worked + b'a\n', last(b'5 21'), last(b'52/'), last(b'52:'), b','.join(words) + b'\n', put(0, words[0] + b'.0'),
        worked + b'.\n', b'abc\n', put(0, words[0] + b'_0'), worked + b'\x0b\n', worked + b'\x0c\n', b'"' + worked + b'"\n']
    yield 'NUL and high bytes', [
        b'\0', b'\0\n', worked + b'\0\n', worked + b'\0', worked.replace(b' ', b'\0', 1) + b'\n', b'\0' + worked + b'\n', worked[:-1] + b'\xb1\n', b'\xff\n',
        b'\xff' * 80, last(b'\xff'), b'\xef\xbb\xbf' + worked + b'\n', worked.replace(b' ', b'\xc2\xa0', 1) + b'\n', put(0, b'\xd9\xa8'), worked + b'\x80']
    yield 'double, leading and trailing spaces', [b' '.join(words[:i]) + b'  ' + b' '.join(words[i:]) + b'\n' for i in range(1, count)] + [
        b' ' + worked + b'\n', worked + b' \n', worked + b' ', b' \n', b' ', b'   \n', last(b''), put(0, b'')]
    yield 'too few and too many numbers', [b' '.join(words[:i]) + b'\n' for i in range(1, count)] + [
        worked + b' 0\n', worked + b' 0 0\n', worked + b' ' + worked + b'\n', worked.replace(b' ', b'\n') + b'\n', b' '.join(words[:2]) + b'\n' + b' '.join(words[2:]) + b'\n']
    yield 'leading zeros', [
        b' '.join(b'0' + w for w in words) + b'\n', b' '.join(b'000' + w for w in words) + b'\n', b'0' * 19 + worked + b'\n', last(b'0000000065535'), last(b'0000000065536')]
    for size in (63, 64, 65, 66):
        yield '%d bytes with and without a newline' % size, [
            padded(worked, size, b'\n'), padded(worked, size, b''), padded(worked, size, b'\n') + b'rest', b'1' * size, b'1' * (size - 1) + b'\n', b' ' * size,
            b'x' * (size - 1) + b'\n', padded(last(b'65535')[:-1], size, b'\n'), padded(last(b'65535')[:-1], size, b'')]
    yield 'longer lines', [padded(worked, 100, b'\n'), padded(worked, 4096, b'\n'), padded(worked, 100, b'') + b'\n' + worked + b'\n', b'9' * 5000]
    yield '65,535 and 65,536', [put(i, b'%d' % v) for i in range(count) for v in (65535, 65536)] + [
        b' '.join([b'65535'] * count) + b'\n', b' '.join([b'65535'] * (count - 1) + [b'65536']) + b'\n', put(0, b'%d' % (2 ** 64 + int(words[0])))] + [
        last(b'%d' % v) for v in (65537, 99999, 100000, 2 ** 32 + int(words[-1]), 2 ** 64, 2 ** 64 + int(words[-1]), 2 ** 128 + int(words[-1]))]


def escaped(data):
    text = ''
    for b in data:
        c = chr(b)
        text += '\\n' if c == '\n' else '\\t' if c == '\t' else c if 32 <= b < 127 and c not in '\\|#@' else '\\x%02x' % b
    return text


def stored(output):
    return escaped(output) if len(output) <= 1000 else '@' + hashlib.sha256(output).hexdigest()


def main(file, groups, answer):
    folder = os.path.dirname(os.path.abspath(file))
    cases = ''.join('# %s\n' % name + ''.join('%s|%s\n' % (escaped(i), stored(answer(i))) for i in inputs) for name, inputs in groups)
    if sys.argv[1:] == ['--check']:
        name = 'tests/' + os.path.basename(folder)
        sys.exit(0 if open(os.path.join(folder, 'cases')).read() == cases else '%s/cases is not what %s/model.py prints' % (name, name))
    sys.stdout.write(cases)
