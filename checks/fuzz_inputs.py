"""The inputs of checks/fuzz: good ones, and what is made of them. Each depends on the seed, its kind and its number alone."""
import glob, os, random, re

HEADER = b'instance of OMI_ConfigurationDocument{Version="2.0.0";};'
ESCAPES = {'n': b'\n', 't': b'\t', 'r': b'\r', '\\': b'\\', '0': b'\0', 'a': b'\a', 'b': b'\b', 'f': b'\f', 'v': b'\v'}
DOCUMENTS, METAS = ('canon', 'check', 'order', 'test', 'push'), ('meta',)
TOKEN = re.compile(rb'"(?:\\.|[^"\\])*"|[A-Za-z_][A-Za-z0-9_]*|[0-9]+|\s+|.', re.DOTALL)
WORDS = [b'instance', b' of ', b'as', b'$a', b'{', b'}', b';', b'=', b'"', b'\\', b'NULL', b'TRUE', b'False', b'ResourceID', b'DependsOn', b'[File]A',
         b'MSFT_FileDirectoryConfiguration', b'MSFT_EnvironmentResource', b'MSFT_LogResource', b'MSFT_DSCMetaConfiguration',
         b'MSFT_PartialConfiguration', b'MSFT_WebDownloadManager', b'MSFT_WebReportManager', b'DestinationPath', b'Contents', b'Ensure', b'Absent',
         b'Present', b'Type', b'Directory', b'Force', b'Value', b'Path', b'ModuleName', b'ModuleVersion', b'\\x', b'\\xD800', b'//', b'/*', b'*/',
         b'/..', b'C:\\\\', b'-', b'0x', b'1b', b'07', b'18446744073709551615', b'18446744073709551616', b'-9223372036854775809', b'1.5', b"'a'",
         b'#pragma', b'class', b'\xef\xbb\xbf', b'\xff', b'\xc3', b'\0', b'\xed\xa0\x80', b'\xf4\x90\x80\x80', HEADER,
         b'HTTP/1.1', b'\r\n', b'\n', b'\r\n\r\n', b'Content-Length: ', b'Transfer-Encoding: chunked\r\n', b'0\r\n\r\n', b'ffffffffffffffff\r\n', b': ',
         b'ProtocolVersion: 2.0\r\n', b'Checksum: ', b'ChecksumAlgorithm: SHA-256\r\n', b'Expect: 100-continue\r\n', b'Content-Encoding: gzip\r\n',
         b'Authorization: Shared ', b'x-ms-date: ', b'%2e%2e', b'%', b"'", b"''", b'(', b')', b'/', b'../', b'[', b']', b'null', b'true', b'1e999', b'"\\ud800"',
         b'{"', b'":', b',', b'ClientStatus', b'NodeStatus', b'Details', b'GetConfiguration', b'RETRY', b'Ok', b'100', b'204', b'401', b'404', b'500']
NUMBERS = [b'0', b'1', b'7', b'65535', b'65536', b'131072', b'131073', b'8388608', b'62914561', b'67108864', b'4294967295', b'4294967296', b'18446744073709551615']

def unescaped(text):
    """The bytes of a text with the escapes of a row."""
    def byte(match):
        return bytes([int(match[1], 16)]) if match[1] else ESCAPES.get(match[2].decode('latin-1'), match[0])
    return re.sub(rb'\\(?:x([0-9A-Fa-f]{1,2})|(.))', byte, text.encode())

def rows(commands):
    """The inputs of the rows of checks/rows for these commands."""
    found, before = [], '-'
    for path in sorted(glob.glob('checks/rows/*.tsv')):
        with open(path, encoding='utf-8') as file:
            for line in file:
                fields = line.rstrip('\n').split('\t')
                if line.startswith('#') or len(fields) < 5:
                    continue
                before = before if fields[4] == '=' else fields[4]
                if fields[0].split(' ')[0] in commands and before != '-':
                    found.append(unescaped(before[1:]) if before.startswith('%') else before.encode())
    return sorted(set(found))

def files(*patterns):
    found = []
    for path in sorted(path for pattern in patterns for path in glob.glob(pattern)):
        with open(path, 'rb') as file:
            found.append(file.read())
    return found

def documents():
    return rows(DOCUMENTS) + files('examples/*.mof', 'examples/shelf/configurations/*')

def scripts():
    return rows(('compile',)) + files('examples/*.ps1')

def metas():
    return rows(METAS) + files('examples/*.meta.mof')

# ---- what is changed

def span(rng, size, most=None):
    begin = rng.randrange(size + 1)
    return begin, min(size, begin + rng.choice((0, 1, 1, 2, 4, 16, rng.randrange(1, 1 + (most or 200)))))

def flip(rng, data, _):
    if not data:
        return b'x'
    at = rng.randrange(len(data))
    return data[:at] + bytes([data[at] ^ (1 << rng.randrange(8))]) + data[at + 1:]

def any_byte(rng, data, _):
    at = rng.randrange(len(data) + 1)
    return data[:at] + bytes([rng.choice((0, 1, 9, 10, 13, 32, 34, 92, 127, 128, 165, 255, rng.randrange(256)))]) + data[at + rng.randrange(2):]

def leave_out(rng, data, _):
    begin, end = span(rng, len(data))
    return data[:begin] + data[end:]

def cut(rng, data, _):
    return data[:rng.randrange(len(data) + 1)]

def repeat(rng, data, _):
    begin, end = span(rng, len(data))
    return data[:end] + data[begin:end] * rng.choice((1, 1, 2, 8, 300)) + data[end:]

def word(rng, data, _):
    at = rng.randrange(len(data) + 1)
    return data[:at] + rng.choice(WORDS) + data[at + rng.choice((0, 0, 1, 3)):]

def number(rng, data, _):
    places = [match.span() for match in re.finditer(rb'[0-9]+', data)]
    if not places:
        return data
    begin, end = rng.choice(places)
    return data[:begin] + rng.choice(NUMBERS + [data[begin:end] + b'0', b'0' + data[begin:end]]) + data[end:]

def splice(rng, data, others):
    other = rng.choice(others)
    begin, end = span(rng, len(other), len(other))
    at = rng.randrange(len(data) + 1)
    return data[:at] + other[begin:end] + data[at + rng.choice((0, end - begin)):]

def tokens(rng, data, others):
    pieces = TOKEN.findall(data[:20000])
    if not pieces:
        return data
    at = rng.randrange(len(pieces))
    other = TOKEN.findall(rng.choice(others)[:20000]) or [b'']
    pieces[at] = rng.choice((b'', pieces[at] * 2, rng.choice(pieces), rng.choice(other), rng.choice(WORDS), pieces[at].swapcase()))
    return b''.join(pieces) + data[20000:]

BYTES = (flip, any_byte, leave_out, cut, repeat, word, number, splice)
TEXTS = BYTES[2:] + (tokens, tokens, tokens, tokens)

def changed(rng, data, others, ways, most=200_000):
    """Some bytes, changed in no way or in a few."""
    for _ in range(rng.choice((0, 1, 1, 1, 1, 2, 2, 3, 5, 8))):
        data = rng.choice(ways)(rng, data, others)[:most]
    return data

def instances(rng, others):
    """A text of instances of several others, with a header at times."""
    parts = [part + b'};' for text in rng.sample(others, min(len(others), 4)) for part in text.split(b'};')[:-1]]
    rng.shuffle(parts)
    parts = parts[:rng.randrange(1, 12)]
    if rng.random() < 0.9:
        parts = [part for part in parts if b'OMI_ConfigurationDocument' not in part]
        parts.insert(rng.randrange(len(parts) + 1), HEADER)
    return b''.join(parts)

PATHS = (b'/a', b'/a/f', b'/a/b', b'/etc/x', b'C:\\\\Temp\\\\x', b'/new/deep/er', b'/a/..', b'\\\\\\\\server\\\\x', b'/', b'x', b'/\xc3\xa4', b'/.nimchout-staged')
TRUTHS = (b'TRUE', b'False', b'true', b'NULL', b'"yes"')

def made(rng, _):
    """A document of a few resources of each kind, with values of all sorts: most are taken."""
    ids, parts = [], []
    for number in range(rng.choice((0, 1, 2, 3, 5, 30))):
        kind = rng.choice((b'File', b'Environment', b'Log'))
        ids.append(b'[%s]R%d' % (kind, number))
        parts.append(b'instance of MSFT_%s as $r%d{%s};' % ({b'File': b'FileDirectoryConfiguration', b'Environment': b'EnvironmentResource', b'Log': b'LogResource'}[kind],
                                                         number, b''.join(b'%s=%s;' % item for item in properties(rng, kind, ids))))
    rng.shuffle(parts)
    parts.insert(rng.randrange(len(parts) + 1), rng.choice((HEADER, b'instance of OMI_ConfigurationDocument{Version="%s";Name="n";};' % (b'v' * rng.choice((0, 1, 64, 65))))))
    return rng.choice((b'', b'\n', b'/* c */', b'// c\n')).join(parts)

def properties(rng, kind, ids):
    """The properties of a resource, whose id is the last of those."""
    text = lambda *values: b'"%s"' % rng.choice(values)
    some = lambda *items: [item for item in items if rng.random() < 0.4]
    found = [(b'ResourceID', b'"%s"' % ids[-1])]
    if kind == b'File':
        found += [(b'DestinationPath', text(*PATHS))] + some((b'Type', text(b'File', b'Directory', b'file')), (b'Ensure', text(b'Present', b'Absent')),
                  (b'Contents', text(b'', b'text', b'a\\nb', b'x' * 5000)), (b'Force', rng.choice(TRUTHS)))
    elif kind == b'Environment':
        found += [(b'Name', text(b'V', b'PATH', b'v', b'n' * 200, b'', b'A=B', b'\xc3\xa4'))] + some((b'Value', text(b'', b'1', b'/a;/b', b';;')),
                  (b'Ensure', text(b'Present', b'Absent')), (b'Path', rng.choice(TRUTHS)))
    else:
        found += [(b'Message', text(b'', b'm', b'a\\nb'))]
    found += some((b'ModuleName', text(b'm')), (b'ConfigurationName', text(b'c', b'd')), (b'SourceInfo', text(b'f.ps1::1::1')))
    if len(ids) > 1 and rng.random() < 0.6:
        found.append((b'DependsOn', b'{%s}' % b','.join(b'"%s"' % it for it in rng.sample(ids[:-1], min(len(ids) - 1, rng.randrange(1, 4))))))
    rng.shuffle(found)
    return found

def text_of(rng, others, make=None):
    """A text of instances, most of which were changed."""
    if make and rng.random() < 0.4:
        text = make(rng, others)
        text = text if rng.random() < 0.6 else tokens(rng, text, others)
    else:
        text = changed(rng, rng.choice(others) if rng.random() < 0.5 else instances(rng, others), others, TEXTS)
    if rng.random() < 0.05:
        mark, encoding = rng.choice(((b'\xff\xfe', 'utf-16-le'), (b'\xfe\xff', 'utf-16-be')))
        text = changed(rng, mark + text.decode('utf-8', 'replace').encode(encoding), others, BYTES) if rng.random() < 0.5 \
            else mark + text.decode('utf-8', 'replace').encode(encoding)
    return text

# ---- stores

BANK, BEGIN = 67_108_864, 8

def cells_of(store):
    """The bodies of the live bank of a store."""
    found, at = [], BEGIN + (BANK if store[7:8] == b'2' else 0)
    while store[at:at + 1] == b'\xa5':
        size = int.from_bytes(store[at + 1:at + 5], 'big')
        found.append(store[at + 5:at + 5 + size])
        at += 5 + size
    return found

def in_full(store):
    """The store in the format before: each document in full, and none under its digest."""
    texts, bodies = {}, []
    for body in cells_of(store):
        if body[0] == 16:
            texts[body[1:33]] = body[33:]
        elif body[0] in (17, 18):
            at = body[0] - 16
            full, at = bytes([4 if at == 1 else 13]) + body[1:at + 1], at + 1
            while at < len(body):
                end = at + 34 + int.from_bytes(body[at:at + 2], 'big')
                text = texts[body[end - 32:end]]
                full, at = full + body[at:end] + len(text).to_bytes(4, 'big') + text, end
            bodies.append(full)
        elif body[0] != 15:
            bodies.append(body)
    return store_of_cells(bodies)

def store_of_cells(bodies, end=b'\0'):
    return b'DSCSTOR1' + b''.join(b'\xa5' + len(body).to_bytes(4, 'big') + body for body in bodies) + end

def store_of(rng, others):
    """A store that was changed: in its bytes, or in its events, which then stand in right cells."""
    store = rng.choice(others)
    bodies = cells_of(store)
    if rng.random() < 0.25:
        return store_of_cells(bodies[:rng.randrange(len(bodies) + 1)], b'\0' + rng.randbytes(rng.choice((0, 0, 1, 5, 40))))
    if rng.random() < 0.3 or not bodies:
        return changed(rng, store, others, BYTES, 2_000_000)
    for _ in range(rng.choice((1, 1, 2, 3))):
        at = rng.randrange(len(bodies)) if bodies else 0
        how = rng.randrange(6)
        if how == 0:
            del bodies[at:at + 1]
        elif how == 1:
            bodies.insert(at, rng.choice(cells_of(rng.choice(others)) or [b'']))
        elif how == 2 and bodies:
            bodies.append(bodies.pop(at))
        elif how == 3 and bodies:
            bodies.insert(at, bodies[at])
        elif bodies:
            bodies[at] = rng.choice(BYTES)(rng, bodies[at], others)[:2_000_000]
    return store_of_cells(bodies, rng.choice((b'\0', b'\0', b'\0', b'', b'\1', b'\0' * 9, b'\0\xa5\0\0\0\0')))
