# Writes datagrams with pysnmp and pyasn1's BER encoder, a line each as tests/datagrams/vectors.c reads them; the numbers stand here by the clauses of E2.
#
#   python3 tests/datagrams/write_by_pysnmp.py >tests/datagrams/pysnmp.txt        (Debian's python3-pysnmp4)
#
# Debian ships neither library's tests, so there are no published octets of theirs to take.
from pyasn1.codec.ber import encoder
from pyasn1.type import univ
from pysnmp.proto import api, rfc1902, rfc1905

v1, v2 = (api.protoModules[v] for v in (api.protoVersion1, api.protoVersion2c))
BRIDGE = (1, 3, 6, 1, 2, 1, 17)
NULL = v2.Null('')


def pdu_of(kind, bindings, request_id=7, status=0, index=0, of=v2):
    pdu = kind()
    of.apiPDU.setDefaults(pdu)
    of.apiPDU.setRequestID(pdu, request_id)
    if status or index:
        pdu.setComponentByPosition(1, univ.Integer(status), verifyConstraints=False, matchTags=False, matchConstraints=False)
        pdu.setComponentByPosition(2, univ.Integer(index), verifyConstraints=False, matchTags=False, matchConstraints=False)
    of.apiPDU.setVarBinds(pdu, bindings)
    return pdu


def message_of(pdu, community='public', of=v2):
    message = of.Message()
    of.apiMessage.setDefaults(message)
    of.apiMessage.setCommunity(message, community)
    of.apiMessage.setPDU(message, pdu)
    return message


def line(request, captured, title, message, **how):
    print(request, captured, title, encoder.encode(message, **how).hex())


def fewest(number):
    # pyasn1 0.4.8 writes -128, -2^15, -2^23 and -2^31 with an octet too many (-128 as FF80), which BER does not allow: 16.
    return 16 if number in (-128, -2**15, -2**23, -2**31) else 0


def get(*names, **how):
    return pdu_of(v2.GetRequestPDU, [(name, NULL) for name in names], **how)


def set_to(value, **how):
    return pdu_of(v2.SetRequestPDU, [(BRIDGE + (2, 2, 0), value)], **how)


def response(*bindings, **how):
    return pdu_of(v2.ResponsePDU, bindings, **how)


PORTS = BRIDGE + (1, 2, 0)
line(0, 0, 'get-1', message_of(get(PORTS)))
line(0, 0, 'get-0', message_of(get()))
line(0, 0, 'get-16', message_of(get(*[BRIDGE + (2, 15, 1, 2, port) for port in range(1, 17)])))
line(8, 8, 'get-17', message_of(get(*[BRIDGE + (2, 15, 1, 2, port) for port in range(1, 18)])))
line(0, 0, 'get-next', message_of(pdu_of(v2.GetNextRequestPDU, [(BRIDGE, NULL)])))
for request_id in (0, 1, 127, 128, 255, 256, 32767, 32768, 8388607, 8388608, 2147483647, -1, -128, -129, -2147483648):
    line(fewest(request_id), fewest(request_id), 'id:%d' % request_id, message_of(get(PORTS, request_id=request_id)))
for number in (0, 127, 128, 65535, 2147483647, -1, -32769, -2147483648):
    line(fewest(number), fewest(number), 'integer:%d' % number, message_of(set_to(v2.Integer32(number))))
for number in (0, 128, 2147483648, 4294967295):
    line(0, 0, 'unsigned:%d' % number, message_of(set_to(v2.Unsigned32(number))))
    line(0, 0, 'counter:%d' % number, message_of(set_to(v2.Counter32(number))))
for count, number in ((0, 0), (1, 0), (127, 0), (128, 0), (255, 0), (256, 19), (1400, 19)):
    line(number, number, 'string-of-%d' % count, message_of(set_to(v2.OctetString('s' * count))))
for title, value in (('ip-address', v2.IpAddress('192.0.2.1')), ('time-ticks', v2.TimeTicks(1)), ('counter-64', v2.Counter64(1)), ('opaque', v2.Opaque('o')),
                     ('object-identifier', v2.ObjectIdentifier(BRIDGE)), ('null', NULL)):
    line(19, 19, 'set-to-%s' % title, message_of(set_to(value)))
line(19, 19, 'get-with-a-number', message_of(pdu_of(v2.GetRequestPDU, [(PORTS, v2.Integer32(1))])))
for count, number in ((0, 0), (127, 0), (128, 0), (255, 0), (256, 0), (1433, 0), (1434, 20), (1500, 20)):
    line(number, number, 'community-of-%d' % count, message_of(get(PORTS), community='c' * count))
for name, number in (((0, 0), 0), ((0, 39), 0), ((1, 39, 1), 0), ((2, 40), 0), ((2, 999, 3), 0), ((1, 3, 4294967295), 0), ((1, 3) + (1,) * 126, 0), ((1, 3) + (1,) * 127, 19)):
    line(number, number, 'name-of-%d:%s' % (len(name), '.'.join(map(str, name[:4]))), message_of(get(name)))
for status, index in ((5, 0), (0, 1), (300, 0)):
    line(7, 7, 'get-with-status-%d-index-%d' % (status, index), message_of(get(PORTS, status=status, index=index)))
line(18, 0, 'response', message_of(response((PORTS, v2.Integer32(4)), (BRIDGE + (1, 1, 0), v2.OctetString(hexValue='001122334455')))))
line(18, 0, 'response-without-bindings', message_of(response(status=1)))
for title, value in (('no-such-object', rfc1905.noSuchObject), ('no-such-instance', rfc1905.noSuchInstance), ('end-of-mib-view', rfc1905.endOfMibView), ('null', NULL),
                     ('gauge', rfc1902.Gauge32(4294967295)), ('counter', v2.Counter32(4294967295))):
    line(18, 0, 'response-%s' % title, message_of(response((PORTS, value))))
for status, index, number in ((18, 16, 0), (255, 255, 0), (256, 1, 19), (1, 256, 19)):
    line(18, number, 'response-status-%d-index-%d' % (status, index), message_of(response((PORTS, NULL), status=status, index=index)))
for title, kind in (('get-bulk', v2.GetBulkRequestPDU), ('inform', v2.InformRequestPDU), ('trap', v2.SNMPv2TrapPDU), ('report', v2.ReportPDU)):
    pdu = kind()
    (v2.apiBulkPDU if title == 'get-bulk' else v2.apiPDU).setDefaults(pdu)
    v2.apiPDU.setRequestID(pdu, 7)
    v2.apiPDU.setVarBinds(pdu, [(PORTS, NULL)])
    line(18, 18, title, message_of(pdu))
line(17, 17, 'version-1', message_of(pdu_of(v1.GetRequestPDU, [(PORTS, v1.Null(''))], of=v1), of=v1))
line(16, 16, 'indefinite-lengths', message_of(get(PORTS)), defMode=False)
line(16, 16, 'community-in-pieces', message_of(get(PORTS)), maxChunkSize=2)
