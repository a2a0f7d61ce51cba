"""The messages of the pull server and its nodes, written from the protocol, for the checks that run a server."""
import base64, hashlib, hmac, json, random, socket

PHRASES = {200: 'OK', 204: 'No Content', 400: 'Bad Request', 401: 'Unauthorized', 404: 'Not Found', 405: 'Method Not Allowed',
           411: 'Length Required', 413: 'Payload Too Large', 500: 'Internal Server Error', 501: 'Not Implemented'}
DATE = b'2026-01-02T03:04:05.0000000Z'

# A port that nobody listens at, below those that the system gives to connections that go out: another one could take it before a server does.
def free_port():
    while True:
        port = random.SystemRandom().randrange(20000, 32000)
        with socket.socket() as probe:
            try:
                probe.bind(('127.0.0.1', port))
                return port
            except OSError:
                continue

def answer(code, body=b'', headers=()):
    lines = ['HTTP/1.1 %d %s' % (code, PHRASES[code]), 'Connection: close', 'ProtocolVersion: 2.0', *headers]
    if code != 204:
        lines.append('Content-Length: %d' % len(body))
    return '\r\n'.join(lines + ['', '']).encode() + body

def content(body):
    digest = hashlib.sha256(body).hexdigest().upper()
    return answer(200, body, ('Content-Type: application/octet-stream', 'Checksum: ' + digest, 'ChecksumAlgorithm: SHA-256'))

# The answer to a query, in its compact text with members in the order of their names.
def statuses(node, *details):
    details = ','.join('{"ConfigurationName":%s,"Status":"%s"}' % (json.dumps(name, ensure_ascii=False), status) for name, status in details)
    body = '{"Details":[%s],"NodeStatus":"%s"}' % (details, node)
    return answer(200, body.encode(), ('Content-Type: application/json',))

def request(method, target, body=None, headers=()):
    lines = ['%s /PSDSCPullServer.svc/%s HTTP/1.1' % (method, target), 'Host: s', 'ProtocolVersion: 2.0', *headers]
    if body is not None:
        lines.append('Content-Length: %d' % len(body))
    return '\r\n'.join(lines + ['', '']).encode() + (body or b'')

def agent(number):
    return '00000000-0000-0000-0000-%012x' % number

def node(number, rest=''):
    return "Nodes(AgentId='%s')%s" % (agent(number), rest)

def fetch(number, name):
    return request('GET', node(number, "/Configurations(ConfigurationName='%s')/ConfigurationContent" % name))

def module(name, version):
    return request('GET', "Modules(ModuleName='%s',ModuleVersion='%s')/ModuleContent" % (name, version))

def registration(names):
    return json.dumps({'AgentInformation': {'LCMVersion': '2.0', 'NodeName': 'n', 'IPAddress': '::1'}, 'ConfigurationNames': names,
                       'RegistrationInformation': {'RegistrationMessageType': 'ConfigurationRepository'}}).encode()

def signature(key, body, date=DATE):
    text = base64.b64encode(hashlib.sha256(body).digest()) + b'\n' + date
    return base64.b64encode(hmac.new(key, text, hashlib.sha256).digest()).decode()

def register(number, names=('Web',), key=b'k0', body=None):
    body = registration(list(names)) if body is None else body
    signed = ('x-ms-date: ' + DATE.decode(), 'Authorization: Shared ' + signature(key, body))
    return request('PUT', node(number), body, signed)

def query(number, *clients):
    clients = [{'Checksum': sum_, 'ConfigurationName': name, 'ChecksumAlgorithm': 'SHA-256'} for name, sum_ in clients]
    return request('POST', node(number, '/GetDscAction'), json.dumps({'ClientStatus': clients}).encode())

def in_chunks(target, body, size):
    pieces = [body[at:at + size] for at in range(0, len(body), size)]
    framed = b''.join(b'%04x;a=b\r\n%s\r\n' % (len(piece), piece) for piece in pieces)
    return request('POST', target, headers=('Transfer-Encoding: Chunked',)) + framed + b'0\r\nTrailer: t\r\n\r\n'

def report_body(job, status='Success', pad=0):
    return (json.dumps({'JobId': agent(job), 'OperationType': 'Consistency', 'Status': status, 'Errors': []}) + ' ' * pad).encode()

# The answer to a request for the numbers of agents.
def fleet(compliant=0, failed=0, other=0, silent=0):
    agents = compliant + failed + other + silent
    body = '{"Agents":%d,"Compliant":%d,"Failed":%d,"Other":%d,"Silent":%d}' % (agents, compliant, failed, other, silent)
    return answer(200, body.encode(), ('Content-Type: application/json',))

def kept(number, job):
    return request('GET', node(number, "/Reports(JobId='%s')" % agent(job)))

def report(number, job, pad=0, status='Success'):
    body = report_body(job, status, pad).decode()
    return request('POST', node(number, '/SendReport'), body.encode())
