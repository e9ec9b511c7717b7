#!/usr/bin/env python3
"""The other end of the tunnel: stories of clients of a server, with cryptography that is not the repository's own.

    acceptance/other_end.py key                     the static key of all stories, which is that of examples/office.key
    acceptance/other_end.py STORY configuration     the server's configuration in a story
    acceptance/other_end.py STORY schedule          the schedule of a story
    acceptance/other_end.py STORY transcript        what the server has to print for it
    acceptance/other_end.py write                   writes what is stored of all stories, in examples/ and acceptance/stories/

Stories are listed at the end of this file. Each says what its clients send, and conversation.py computes what the server
answers, from the formats in docs/ alone. It needs Python's `cryptography`; the gate does not run it, but compares with what
is stored.
"""
import hashlib
import pathlib
import sys

from conversation import (ACK, CLIENT_RESET, CONTROL, PING, PUSH_REQUEST, SERVER_RESET, SOFT_RESET, STATIC_KEY, Client, Run, control_text,
                          inner, static_key, wrapped)


def hashed(words, times=1):
    """Bytes that stand for text of the TLS engine."""
    return hashlib.sha256(words.encode()).digest() * times


def one_client():
    """A client comes, is established, sends a ping and a packet for the device."""
    run = Run()
    alice = Client(run, "192.0.2.7:40000", "alice")
    alice.comes()
    alice.sends(PING, "report ping 0")
    packet = inner("10.8.0.2", "10.8.0.1")
    alice.sends(packet)
    run.event("deviceready", f"device {packet.hex()}")
    return run


def renegotiations():
    """Nine renegotiations by the client; then a datagram of session 1 comes while session 8 has its key id."""
    run = one_client()
    alice = run.clients[0]
    old = None
    for number in range(1, 10):
        alice.renegotiates()
        if number == 1:
            old = alice.seals(inner("10.8.0.2", "10.8.0.1"))
        if number == 8:
            run.event(alice.datagram(old), "report not-sealed 0")
    return run


def office():
    """Two clients come and exchange packets, one moves, one forges a source, one renegotiates, one leaves."""
    run = Run("client-to-client", seed=2026, pushes=["route 192.168.1.0 255.255.255.0"])
    run.is_about("Some seconds of a server for an office, as examples/office.conf has it. Two clients come: alice, from 192.0.2.7, and bob.",
                 "Their TLS engine is not here: its texts stand for themselves.")
    run.says("Alice's first datagram: a reset. The server admits her as client 0, and opens connection 0 of the TLS engine for her.")
    alice = Client(run, "192.0.2.7:40000", "alice")
    s = alice.begins(CLIENT_RESET, SERVER_RESET)
    run.says("What her TLS engine says goes to the server's, whose answer of 1,280 bytes goes to her in two pieces.")
    alice.control(s, CONTROL, hashed("hello of alice"))
    alice.engine_says(s, hashed("answer to alice", 40))
    run.says("The engine has checked her certificate. Her key exchange message comes, and the server's is written; then she asks for",
             "what is pushed to her, and is established at 10.8.0.2.")
    alice.exchanges(s)
    alice.requests(s)
    run.moment = 2500
    run.says("Bob, who has AES-128-GCM alone: client 1, connection 1, 10.8.0.3.")
    bob = Client(run, "198.51.100.20:1194", "bob", cipher="AES-128-GCM", both=False)
    bob.comes()
    run.moment = 4000
    run.says("Alice writes to Bob, and he to her. The server opens each packet and seals it to the other.")
    packet = inner("10.8.0.2", "10.8.0.3", b"hello bob")
    alice.sends(packet, bob.gets(packet))
    packet = inner("10.8.0.3", "10.8.0.2", b"hello alice")
    bob.sends(packet, alice.gets(packet))
    run.says("Bob has something printed in the office behind the server: the packet waits until the packet device is ready. The",
             "printer's answer comes from the device.")
    request = inner("10.8.0.3", "192.168.1.10", b"print this")
    bob.sends(request)
    run.event("deviceready", f"device {request.hex()}")
    answer = inner("192.168.1.10", "10.8.0.3", b"printed")
    run.device(answer, bob.gets(answer))
    run.moment = 5000
    run.says("A packet of Alice comes a second time; it was seen. Bob sends a packet from Alice's address; it goes nowhere.")
    packet = inner("10.8.0.2", "192.168.1.10")
    again = alice.seals(packet)
    run.event(alice.datagram(again))
    run.event(alice.datagram(again), "report stale 0 seen 2 2")
    bob.sends(inner("10.8.0.2", "192.168.1.10"), "report bad-source 1 0")
    run.event("deviceready", f"device {packet.hex()}")
    run.moment = 6000
    run.says("Alice is on a train now, at another address: the server answers to it from here on.")
    alice.moves("203.0.113.9:55555")
    packet = inner("10.8.0.2", "10.8.0.3", b"from the train")
    alice.sends(packet, "report moved 0 203.0.113.9:55555", bob.gets(packet))
    run.moment = 8000
    run.says("Bob makes new keys, on connection 2. A packet under his old keys still opens; what goes to him is sealed under the new ones.")
    packet = inner("10.8.0.3", "10.8.0.2", b"under the old key")
    old = bob.seals(packet)
    t = bob.renegotiates()
    run.event(bob.datagram(old), alice.gets(packet))
    packet = inner("10.8.0.2", "10.8.0.3", b"under the new key")
    alice.sends(packet, bob.gets(packet))
    run.moment = 9000
    run.says("Strangers: a datagram that is too short, and one that nobody wrapped under the static key. A packet for nobody.")
    run.event("datagram 192.0.2.66:9 38", "report malformed short 38")
    run.event(f"datagram 192.0.2.66:9 38{'00' * 53}", "report not-wrapped")
    run.device(inner("192.168.1.10", "10.8.0.9"), "report no-route")
    run.moment = 9500
    run.says("Bob's TLS engine ends his connection, and so he ends. Nobody owns his address any more.")
    bob.goes()
    run.device(inner("192.168.1.10", "10.8.0.3"), "report no-route")
    return run


def pool():
    """Five clients take the five addresses of a small network, and a sixth finds none. One goes, and the next one gets what it had."""
    run = Run(network="10.8.0.0/29")
    clients = [Client(run, f"192.0.2.{7 + i}:40000", f"client{i}") for i in range(7)]
    for client in clients[:6]:
        client.comes()
    clients[2].goes()
    clients[6].comes()
    run.device(inner("10.8.0.1", "10.8.0.4"), clients[6].gets(inner("10.8.0.1", "10.8.0.4")))
    return run


def full():
    """One client may be here: the reset of a second is refused until the first has gone. Want of room is judged before the wrap's id."""
    run = Run("max-clients 1")
    alice, bob = Client(run, "192.0.2.7:40000", "alice"), Client(run, "192.0.2.8:40000", "bob")
    alice.comes()
    reset = control_text([], b"", 0, b"")
    run.event(bob.datagram(bob.wrap(CLIENT_RESET, 0, reset)), "report full 1")
    unnumbered = wrapped(STATIC_KEY[128:], CLIENT_RESET << 3, bob.sid, 0, 1, reset)
    run.event(bob.datagram(unnumbered), "report full 1")
    alice.goes()
    run.event(bob.datagram(unnumbered), "report replayed 1 0")
    bob.comes()
    return run


def transition():
    """Older keys are usable until the transition window of 3,600 seconds since the newer ones' begin is over."""
    run = Run(reneg=0)
    alice = Client(run, "192.0.2.7:40000", "alice")
    alice.comes()
    run.moment = 10000
    alice.renegotiates()
    old = alice.sessions[0]
    run.says("The last moment at which the older keys count, for data and for control packets.")
    run.moment = 10000 + 3599999
    alice.gets_pieces(old)
    alice.sends(inner("10.8.0.2", "10.8.0.1"), s=old)
    run.event("deviceready", f"device {inner('10.8.0.2', '10.8.0.1').hex()}")
    alice.acknowledges(old)
    run.tick()
    run.says("And one millisecond later. The tick closes the older session.")
    run.moment += 1
    alice.sends(inner("10.8.0.2", "10.8.0.1"), "report bad-key 0 0", s=old)
    run.event(alice.datagram(alice.wrap(ACK, 0, control_text([0], alice.server_sid, None, b""))), "report bad-key 0 0")
    run.tick()
    alice.sends(inner("10.8.0.2", "10.8.0.1"))
    run.event("deviceready", f"device {inner('10.8.0.2', '10.8.0.1').hex()}")
    return run


def queue():
    """64 packets wait for the device, and no more: the 65th is refused until one was given. They are given in order."""
    run = Run()
    alice = Client(run, "192.0.2.7:40000", "alice")
    alice.comes()
    packets = [inner("10.8.0.2", "10.8.0.1", b"%d" % i) for i in range(68)]
    for packet in packets[:64]:
        alice.sends(packet)
    run.says("One too many; then as many again as the device has taken.")
    alice.sends(packets[64], "report queue-full 0")
    run.event("deviceready", f"device {packets[0].hex()}")
    alice.sends(packets[65])
    alice.sends(packets[66], "report queue-full 0")
    run.says("A forged source is refused as that, and a ping is heard.")
    alice.sends(inner("10.8.0.9", "10.8.0.1"), "report bad-source 0 none")
    alice.sends(PING, "report ping 0")
    for packet in [*packets[1:64], packets[65]]:
        run.event("deviceready", f"device {packet.hex()}")
    run.says("Nothing waits.")
    run.event("deviceready")
    alice.sends(packets[67])
    run.event("deviceready", f"device {packets[67].hex()}")
    return run


def files():
    """Files of clients: addresses, networks behind them, pushes of their own, the file for all; two files give one address."""
    run = Run("client-config-dir clients", "client-to-client", pushes=["route 192.168.1.0 255.255.255.0"])
    alice, bob = Client(run, "192.0.2.7:40000", "alice"), Client(run, "192.0.2.8:40000", "bob")
    carol, dave = Client(run, "192.0.2.9:40000", "carol"), Client(run, "192.0.2.10:40000", "dave", cipher="AES-128-GCM", both=False)
    run.says("Alice's file gives an address and a network. Her key exchange message comes before the file, and waits for it.")
    s = alice.begins(CLIENT_RESET, SERVER_RESET)
    alice.is_asked_for(s)
    run.event(f"engineplain {s.conn} {alice.message(s).hex()}")
    held = alice.has_file(fixed=("10.8.0.9", "255.255.255.0"), networks=["10.9.0.0/16"])
    alice.is_held(held, *alice.makes_keys(s))
    alice.requests(s)
    run.says("A host of that network talks, and is reached; so is one that was not heard of. Another client's network is not hers.")
    packet = inner("10.9.0.5", "10.8.0.1")
    alice.sends(packet)
    run.event("deviceready", f"device {packet.hex()}")
    for host in ("10.9.0.5", "10.9.200.1", "10.8.0.9"):
        packet = inner("10.8.0.1", host)
        run.device(packet, alice.gets(packet))
    alice.sends(inner("10.10.0.5", "10.8.0.1"), "report bad-source 0 none")
    run.says("Bob's file gives him the same address, and other pushes in place of all others. He owns it from here on.")
    s = bob.begins(CLIENT_RESET, SERVER_RESET)
    bob.is_asked_for(s)
    held = bob.has_file(fixed=("10.8.0.9", "255.255.255.0"), own=["route 10.9.0.0 255.255.0.0"], reset=True)
    bob.is_held(held)
    bob.gives_message(s)
    bob.requests(s)
    packet = inner("10.8.0.1", "10.8.0.9")
    run.device(packet, bob.gets(packet))
    alice.sends(inner("10.8.0.9", "10.8.0.1"), "report bad-source 0 1")
    packet = inner("10.8.0.9", "10.9.0.5")
    bob.sends(packet, alice.gets(packet))
    run.says("Carol has no file of her own. What the one for all pushes takes two parts.")
    s = carol.begins(CLIENT_RESET, SERVER_RESET)
    carol.is_asked_for(s)
    carol.is_missing(f"ask {carol.number} DEFAULT")
    run.event(f"engineplain {s.conn} {carol.message(s, protocol=6).hex()}")
    held = carol.has_file(own=[f"setenv opt{i} {'x' * 190}" for i in range(5)])
    run.says("Her message, which waits for the file, asks to be established at once.")
    keys = carol.makes_keys(s)
    carol.is_held(held, *keys, *carol.establishing(s))
    run.says("Dave has neither, and a third answer was not asked for.")
    s = dave.begins(CLIENT_RESET, SERVER_RESET)
    dave.is_asked_for(s)
    dave.is_missing(f"ask {dave.number} DEFAULT")
    dave.is_missing()
    dave.is_missing(f"report unasked {dave.number}")
    dave.gives_message(s)
    dave.requests(s)
    run.says("Bob goes: the address is Alice's again, who has had it all the time.")
    bob.goes()
    packet = inner("10.8.0.1", "10.8.0.9")
    run.device(packet, alice.gets(packet))
    packet = inner("10.8.0.9", "10.8.0.3")
    alice.sends(packet, dave.gets(packet))
    run.says("Alice goes, and her network with her.")
    alice.goes()
    for host in ("10.8.0.9", "10.9.0.5"):
        run.device(inner("10.8.0.1", host), "report no-route")
    return run


def texts():
    """Control text in both directions: out of order, again, too far ahead; more pieces than may be on their way."""
    run = Run()
    alice = Client(run, "192.0.2.7:40000", "alice")
    s = alice.begins(CLIENT_RESET, SERVER_RESET)
    parts = [hashed(f"part {i}") for i in range(14)]
    run.says("Packets 2 and 12 are held, 13 is too far ahead. Packet 1 brings 2 along; an empty one, 3, is not put to the engine.")
    for number in (2, 12, 13):
        alice.control(s, CONTROL, parts[number], packet_id=number)
    alice.control(s, CONTROL, parts[1], packet_id=1)
    alice.control(s, CONTROL, b"", packet_id=3)
    run.says("Packets 2 and 12 come again, with other text: the first stands. Packet 13 is no longer too far ahead.")
    alice.control(s, CONTROL, parts[0], packet_id=2)
    alice.control(s, CONTROL, parts[0], packet_id=12)
    alice.control(s, CONTROL, parts[13], packet_id=13)
    for number in range(4, 12):
        alice.control(s, CONTROL, parts[number], packet_id=number)
    run.says("The engine's answer takes eight pieces, of which five go out beside the reset, whose acknowledgement came.")
    alice.engine_says(s, hashed("a long answer", 242))
    run.says("Pieces 2 and 3 are acknowledged, which lets none go: the first that is not is piece 1. An ACK whose session id is not the",
             "server's does not count, nor do ids of pieces that were not sent or are not there.")
    s.unacknowledged = [2, 3]
    alice.acknowledges(s)
    run.event(alice.datagram(alice.wrap(ACK, 0, control_text([1], alice.sid, None, b""))))
    s.unacknowledged = [8, 99]
    alice.acknowledges(s)
    run.says("Piece 1 is acknowledged on a control packet: all go.")
    s.unacknowledged = [1]
    alice.control(s, CONTROL, hashed("more"), packet_id=14)
    run.says("What follows the last field of an ACK is passed over. The pieces that are not acknowledged are sent again when two seconds",
             "have passed, then after four more, and no longer once they are.")
    s.unacknowledged = []
    plain = control_text([4, 5], alice.server_sid, None, b"")
    run.event(alice.datagram(alice.wrap(ACK, 0, plain + b"passed over")), *alice.receives(s, [4, 5], None, b""))
    for moment in (1999, 2000, 5999, 6000):
        run.moment = moment
        run.tick()
    alice.gets_pieces(s)
    alice.acknowledges(s)
    run.moment = 14000
    run.tick()
    return run


def time():
    """What time brings: repetitions, pings, new keys, a session that is closed, sessions that are not finished in time."""
    run = Run(reneg=100, tran=50, hand=30)
    alice, bob = Client(run, "192.0.2.7:40000", "alice"), Client(run, "192.0.2.8:40000", "bob")
    run.says("A reset that is not acknowledged is sent again after 2, 4, 8 and 16 seconds. A ping goes out every 10 seconds to a client that is",
             "established.")
    a = alice.comes()
    run.moment = 1000
    b = bob.begins(CLIENT_RESET, SERVER_RESET)
    for moment in (1999, 2000, 3000, 6000, 9999, 10000):
        run.moment = moment
        run.tick()
    alice.gets_pieces(a)
    alice.acknowledges(a)
    run.moment = 15000
    run.tick()
    run.says("Bob's session is not finished after 30 seconds.")
    for moment in (30999, 31000):
        run.moment = moment
        run.tick()
    run.says("A packet to Alice puts off her ping.")
    packet = inner("10.8.0.1", "10.8.0.2")
    run.device(packet, alice.gets(packet))
    for moment in (40000, 40999, 41000):
        run.moment = moment
        run.tick()
    run.says("Her keys are 100 seconds old: the server begins new ones. She answers, and they are made.")
    for moment in (99999, 100000):
        run.moment = moment
        run.tick()
    a = alice.sessions[-1]
    alice.answers_reset(a)
    alice.exchanges(a)
    alice.sends(PING, "report ping 0")
    run.says("The older ones are closed when 50 seconds have passed since the newer ones began.")
    for moment in (149999, 150000):
        run.moment = moment
        run.tick()
    run.says("Again new keys are due. The reset is not answered, and 30 seconds later she ends.")
    for moment in (200000, 202000, 229999, 230000):
        run.moment = moment
        run.tick()
    return run


def refusals():
    """Everything that a client or a stranger may send and that is refused, each beside what is judged behind it."""
    run = Run("client-to-client")
    alice, bob = Client(run, "192.0.2.7:40000", "alice"), Client(run, "192.0.2.8:40000", "bob")
    s = alice.comes()
    bob.comes()

    def stranger(packet, note):
        run.event(f"datagram 203.0.113.5:999 {packet.hex() or '-'}", f"report {note}")

    def wrapped_by(client, plain, first=CONTROL << 3, wrap_id=7, time=1):
        return wrapped(STATIC_KEY[128:], first, client.sid, wrap_id, time, plain)

    def of(client, packet, *notes):
        run.event(client.datagram(packet), *[f"report {note}" for note in notes])

    def control_of(client, opcode, kid, plain, *notes):
        of(client, client.wrap(opcode, kid, plain), *notes)

    def turned(packet):
        return packet[:-1] + bytes([packet[-1] ^ 1])

    sid = alice.sid.hex()
    run.says("No packets: no byte, an opcode that is not served, too few bytes. The opcode is judged before the length.")
    stranger(b"", "malformed empty -")
    for first in (0x00, 0x08, 0x30, 0x50, 0xf8):
        stranger(bytes([first]) + bytes(53 if first < 0x40 else 0), f"malformed opcode {first:02x}")
    stranger(b"\x38" + bytes(47), "malformed short 38")
    stranger(b"\x48" + bytes(22), "malformed short 48")
    run.says("One byte more: a control packet that nobody wrapped, and a data packet of nobody.")
    stranger(b"\x38" + bytes(48), "not-wrapped")
    stranger(b"\x48" + bytes(2) + b"\x07" + bytes(20), "unknown-peer 7")
    run.says("Control packets that are wrapped, with a plain text that is none: nothing at all, 9 acknowledgements, too few of them, no",
             "session id behind one, no packet id. Each is judged before the sender, and the wrap before each.")
    for plain, kind in ((b"", "short"), (b"\x09" + bytes(48), "acks"), (b"\x02" + bytes(7), "short"), (b"\x01" + bytes(11), "no-remote"),
                        (b"\x00" + bytes(3), "short")):
        stranger(wrapped_by(alice, plain), f"malformed {kind} 20")
        stranger(turned(wrapped_by(alice, plain)), "not-wrapped")
    stranger(wrapped_by(alice, b"\x01" + bytes(12), first=ACK << 3), f"unknown-session {sid}")
    run.says("The server's own half of the key wraps nothing for the server.")
    stranger(wrapped(STATIC_KEY[:128], CONTROL << 3, alice.sid, 7, 1, control_text([], b"", 0, b"")), "not-wrapped")
    run.says("Nobody is known at this address, and only a client's reset with key id 0 and packet id 0 begins somebody.")
    for opcode, kid, packet_id in ((CONTROL, 0, 0), (SERVER_RESET, 0, 0), (SOFT_RESET, 0, 0), (CLIENT_RESET, 1, 0), (CLIENT_RESET, 0, 1)):
        stranger(wrapped_by(alice, control_text([], b"", packet_id, b""), first=opcode << 3 | kid), f"unknown-session {sid}")
    run.says("A wrap id of 0 was never used. It is judged behind the sender.")
    stranger(wrapped_by(alice, control_text([], b"", 0, b""), first=CLIENT_RESET << 3, wrap_id=0), "replayed 1 0")
    stranger(wrapped_by(alice, control_text([], b"", 0, b""), wrap_id=0), f"unknown-session {sid}")
    run.says("Alice's wraps: one that came before, an earlier time, the id 0. Then key ids that no session has, and a reset with the next key",
             "id whose packet id is not 0. The wrap of such a packet is accepted.")
    nothing = control_text([], b"", s.sent, b"")
    of(alice, wrapped_by(alice, nothing, wrap_id=1), "replayed 1 1")
    of(alice, wrapped_by(alice, nothing, wrap_id=9, time=0), "replayed 0 9")
    of(alice, wrapped_by(alice, nothing, wrap_id=0), "replayed 1 0")
    control_of(alice, CONTROL, 5, nothing, "bad-key 0 5")
    of(alice, wrapped_by(alice, nothing, first=CONTROL << 3 | 5, wrap_id=alice.wraps), f"replayed 1 {alice.wraps}")
    control_of(alice, SOFT_RESET, 1, control_text([], b"", 1, b""), "bad-key 0 1")
    control_of(alice, SOFT_RESET, 2, control_text([], b"", 0, b""), "bad-key 0 2")
    control_of(alice, CONTROL, 1, control_text([], b"", 0, b""), "bad-key 0 1")
    run.says("A later time is fresh with any id, and earlier ones are old from there on.")
    of(alice, wrapped_by(alice, nothing, first=CONTROL << 3 | 6, wrap_id=3, time=2), "bad-key 0 6")
    of(alice, wrapped_by(alice, nothing, wrap_id=99), "replayed 1 99")
    run.says("New keys begin only where the newest are finished: not at a client that is not established, nor while new ones are made.")
    carol = Client(run, "192.0.2.9:40000", "carol")
    c = carol.begins(CLIENT_RESET, SERVER_RESET)
    carol.exchanges(c)
    control_of(carol, SOFT_RESET, 1, control_text([], b"", 0, b""), "bad-key 2 1")
    carol.requests(c)
    c = carol.begins(SOFT_RESET, SOFT_RESET)
    control_of(carol, SOFT_RESET, 2, control_text([], b"", 0, b""), "bad-key 2 2")

    run.says("Data packets. No client has the peer id; no session the key id; a bit is turned; the id is 0, with a bit turned and without.")
    ping = alice.seals(PING)
    stranger(b"\x49\xff\xff\xff" + ping[4:], "unknown-peer 16777215")
    of(alice, b"\x4f" + ping[1:], "bad-key 0 7")
    of(alice, b"\x49" + ping[1:], "bad-key 0 1")
    of(carol, b"\x49" + carol.seals(PING)[1:], "bad-key 2 1")
    of(alice, turned(ping), "not-sealed 0")
    of(alice, ping[:3] + b"\x01" + ping[4:], "not-sealed 1")
    zero = alice.seals(PING, packet_id=0)
    of(alice, turned(zero), "not-sealed 0")
    of(alice, zero, "stale 0 zero 0 0")
    run.says("The window has 64 ids: behind 70 the id 6 is old, and 7 is not. An id counts once.")
    of(alice, alice.seals(PING, packet_id=70), "ping 0")
    of(alice, alice.seals(PING, packet_id=6), "stale 0 old 6 70")
    of(alice, turned(alice.seals(PING, packet_id=6)), "not-sealed 0")
    of(alice, alice.seals(PING, packet_id=7), "ping 0")
    of(alice, alice.seals(PING, packet_id=7), "stale 0 seen 7 70")
    of(alice, alice.seals(PING, packet_id=70), "stale 0 seen 70 70")
    run.says("Late ids count for 15 seconds.")
    run.moment = 15000
    of(alice, alice.seals(PING, packet_id=8), "ping 0")
    run.moment = 15001
    of(alice, alice.seals(PING, packet_id=9), "stale 0 late 9 70")
    of(alice, alice.seals(PING, packet_id=8), "stale 0 seen 8 70")
    of(alice, alice.seals(PING, packet_id=71), "ping 0")
    run.says("What does not open, or is stale, moves nobody. What opens does, be it forged within.")
    alice.sessions[0].sealed = 71
    home = alice.address
    alice.moves("203.0.113.9:55555")
    of(alice, turned(ping), "not-sealed 0")
    of(alice, alice.seals(PING, packet_id=71), "stale 0 seen 71 71")
    of(alice, alice.seals(inner("10.8.0.3", "10.8.0.1")), "moved 0 203.0.113.9:55555", "bad-source 0 1")
    packet = inner("10.8.0.1", "10.8.0.2")
    run.device(packet, alice.gets(packet))
    alice.moves(home)
    of(alice, alice.seals(PING), f"moved 0 {home}", "ping 0")

    run.says("Inner packets: too short for IP or of another version, too long, to many, from an address that is not the sender's.")
    own, other = "10.8.0.2", "10.8.0.3"
    version6 = b"\x60" + inner(own, "10.8.0.1", bytes(1481))[1:]
    for packet, note in ((b"", "not-ip"), (inner(own, "10.8.0.1")[:19], "not-ip"), (version6, "not-ip"),
                         (inner(own, "224.0.0.1", bytes(1481)), "too-long"), (inner(other, "224.0.0.1"), "multicast"),
                         (inner(other, "239.255.255.255"), "multicast"), (inner(other, "255.255.255.255"), "multicast"),
                         (inner(other, "10.8.0.255"), "multicast")):
        of(alice, alice.seals(packet), f"{note} 0")
        run.device(packet, f"report {note} device")
    of(alice, alice.seals(inner(other, own)), "bad-source 0 1")
    of(alice, alice.seals(inner("10.9.0.5", own)), "bad-source 0 none")
    for packet in (inner(own, "240.0.0.1"), inner(own, "223.255.255.255", bytes(1480))):
        of(alice, alice.seals(packet))
        run.event("deviceready", f"device {packet.hex()}")
    for address in ("240.0.0.1", "10.8.0.1", "10.8.0.77"):
        run.device(inner("10.8.0.1", address), "report no-route")

    run.says("The TLS engine: connections that nobody has, a second name, messages that mean nothing. An empty message is passed over, and a",
             "second request has the same reply.")
    for what in ("enginetext 9 16", "engineplain 9 00", "engineup 9 nobody", "enginedown 9"):
        run.event(what, "report unknown-conn 9")
    run.event("engineup 0 alice", "report ignored 0")
    run.event("engineup 0 mallory", "report ignored 0")
    run.event(f"engineplain 0 {b'OCC_EXIT'.hex()}")
    run.event("engineplain 0 00", "report ignored 0")
    run.event(f"engineplain 0 0000{b'push_request'.hex()}00{PUSH_REQUEST.hex()}", "report ignored 0", *alice.writes_reply(s))
    alice.requests(s)
    run.says("Files that nobody has asked for.")
    for what in ("file 0 held -", "file 1 missing", "file 9 failed"):
        run.event(what, f"report unasked {what[5]}")
    return run


def twins():
    """Two clients have the same session id, at two addresses. The packet of one from the address of the other opens, and it does not move."""
    run = Run("duplicate-cn")
    alice, twin = Client(run, "192.0.2.7:40000", "alice"), Client(run, "192.0.2.8:40000", "alice")
    s = alice.comes()
    twin.comes()
    alice.address = twin.address
    packet = inner("10.8.0.2", "10.8.0.1")
    alice.sends(packet)
    run.event("deviceready", f"device {packet.hex()}")
    alice.address = "192.0.2.7:40000"
    packet = inner("10.8.0.1", "10.8.0.2")
    run.device(packet, alice.gets(packet))
    run.says("A control packet goes to the one of its address.")
    alice.control(s, CONTROL, hashed("of the first"))
    twin.control(twin.sessions[0], CONTROL, hashed("of the second"))
    run.says("Once the other has gone, the same packet moves it.")
    twin.goes()
    alice.moves(twin.address)
    alice.sends(PING, f"report moved 0 {twin.address}", "report ping 0")
    return run


def endings():
    """Why clients end: their names, their messages, their files, silence."""
    run = Run("client-config-dir clients", "ccd-exclusive")
    ports = iter(range(40000, 40100))

    def comes(name, **how):
        client = Client(run, f"192.0.2.7:{next(ports)}", name, known_as=f"session {len(run.clients)}", **how)
        return client, client.begins(CLIENT_RESET, SERVER_RESET)

    def is_established(name):
        client, s = comes(name)
        client.is_asked_for(s)
        client.is_held(b"")
        client.gives_message(s)
        client.requests(s)
        return client, s

    def ends(client, what, cause, before=()):
        run.event(what, *before, *client.ending(cause))

    run.says("Names: none, a folder's, one of 65 letters, one of 64, one with bytes that no name of a file has.")
    for name in ("", ".", "..", "n" * 65):
        client, s = comes(name)
        ends(client, f"engineup {s.conn} {name}", "bad-name")
    client, s = comes("n" * 64)
    client.is_asked_for(s)
    client.goes()
    client, s = comes("a b/c:d")
    run.event(f"engineup {s.conn} a b/c:d", f"ask {client.number} a_b_c_d")
    run.says("Its file is refused at its second line.")
    text = b"# a comment\npush-reset now\n"
    ends(client, f"file {client.number} held {text.hex()}", "ccd-refused 2")
    run.says("Files: missing where each client needs one, unreadable, one that turns the client away.")
    for name, answer, cause in (("bob", "missing", "no-ccd"), ("carol", "failed", "ccd-failed"),
                                ("dave", f"held {b'disable'.hex()}", "disabled")):
        client, s = comes(name)
        client.is_asked_for(s)
        ends(client, f"file {client.number} {answer}", cause)
    run.says("Messages: the first byte is not 0, the fifth not the method, the last one of the options not 0.")
    for name, place, byte in (("erin", 0, 7), ("frank", 4, 1), ("grace", 134, 1)):
        client, s = comes(name)
        message = bytearray(client.message(s))
        message[place] = byte
        client.is_asked_for(s)
        ends(client, f"engineplain {s.conn} {message.hex()}", f"bad-message {place}")
    run.says("A message in pieces, and no cipher that the server has. It is chosen once the file is known.")
    client, s = comes("heidi", cipher="CHACHA20-POLY1305", both=False)
    client.is_asked_for(s)
    message = client.message(s)
    run.event(f"engineplain {s.conn} {message[:100].hex()}")
    run.event(f"engineplain {s.conn} {message[100:].hex()}")
    ends(client, f"file {client.number} held -", "no-cipher")
    run.says("8,192 bytes may stay unread, and not one more.")
    client, s = is_established("ivan")
    run.event(f"engineplain {s.conn} {'61' * 8192}")
    ends(client, f"engineplain {s.conn} 61", "unread")
    run.says("The same before there are keys: the message is whole, and waits for the file.")
    client, s = comes("judy")
    client.is_asked_for(s)
    ends(client, f"engineplain {s.conn} {(client.message(s) + bytes(8193 - len(client.message(s)))).hex()}", "unread")
    run.says("Another name in a later session. Both sessions are closed.")
    client, s = is_established("kate")
    s = client.begins(SOFT_RESET, SOFT_RESET)
    ends(client, f"engineup {s.conn} Kate", "name-changed")
    run.says("A client of the same name replaces one that is established.")
    first, s = is_established("leo")
    second, s = is_established("leo")
    run.says("The engine ends the connection of an older session.")
    second.renegotiates()
    second.goes(conn=s.conn)
    run.says("A session that is not finished in time; and a client that is silent for twice the restart time.")
    run.moment = 1000
    silent, s = is_established("mia")
    late, t = comes("nick")
    for client, session in ((silent, s), (late, t)):
        client.gets_pieces(session)
        client.acknowledges(session)
    late.is_asked_for(t)
    for moment in (60999, 61000, 240999, 241000):
        run.moment = moment
        run.tick()
    return run


def early():
    """Plain text that comes before the name is held until the name is known."""
    run = Run("client-config-dir clients")
    alice, bob = Client(run, "192.0.2.7:40000", "alice"), Client(run, "192.0.2.8:40000", "bob")
    run.says("Alice's key exchange message comes in two pieces, one before her name and one behind it.")
    s = alice.begins(CLIENT_RESET, SERVER_RESET)
    message = alice.message(s)
    run.event(f"engineplain {s.conn} {message[:100].hex()}")
    alice.is_asked_for(s)
    alice.is_held(b"")
    run.event(f"engineplain {s.conn} {message[100:].hex()}", *alice.makes_keys(s))
    alice.requests(s)
    run.says("Bob's is no message, which is judged once his name is known, before his file is asked for.")
    s = bob.begins(CLIENT_RESET, SERVER_RESET)
    message = bytearray(bob.message(s))
    message[4] = 1
    run.event(f"engineplain {s.conn} {message.hex()}")
    run.event(f"engineup {s.conn} bob", *bob.ending("bad-message 4"))
    run.says("In a later session of Alice all of her message comes before her name.")
    s = alice.begins(SOFT_RESET, SOFT_RESET)
    run.event(f"engineplain {s.conn} {alice.message(s).hex()}")
    alice.is_named(s, *alice.makes_keys(s))
    return run


def text_full():
    """65,536 bytes of the TLS engine's text may wait for a client, and not one more."""
    run = Run()
    alice = Client(run, "192.0.2.7:40000", "alice")
    s = alice.begins(CLIENT_RESET, SERVER_RESET)
    alice.engine_says(s, b"\x16")
    run.event(f"enginetext {s.conn} {'00' * 65536}", *alice.ending("text-full"))
    bob = Client(run, "192.0.2.8:40000", "bob")
    s = bob.begins(CLIENT_RESET, SERVER_RESET)
    bob.engine_says(s, bytes(65536))
    run.event(f"enginetext {s.conn} -")
    run.event(f"enginetext {s.conn} 16", *bob.ending("text-full"))
    return run


STORIES = {story.__name__: story for story in (
    one_client, office, renegotiations, pool, full, transition, queue, files, texts, time, refusals, twins, endings, early, text_full)}
# What stands in a stored schedule for a text of the greatest length.
LONGEST = "0" * 131072


def write_all():
    """Writes what is stored of all stories: the office's among the examples, the others beside this script."""
    here = pathlib.Path(__file__).resolve().parent
    (here / "stories").mkdir(exist_ok=True)
    examples = here.parent / "examples"
    (examples / "office.key").write_text(static_key())
    for name, story in STORIES.items():
        run = story()
        if name == "office":
            (examples / "office.schedule").write_text(run.schedule())
            (here / "office.transcript").write_text(run.transcript())
        else:
            (here / "stories" / f"{name}.conf").write_text(run.configuration())
            (here / "stories" / f"{name}.schedule").write_text(run.schedule().replace(LONGEST, "ZEROS"))
            (here / "stories" / f"{name}.transcript").write_text(run.transcript())


if __name__ == "__main__":
    words = sys.argv[1:]
    if words == ["key"]:
        print(static_key(), end="")
    elif words == ["write"]:
        write_all()
    elif len(words) == 2 and words[0] in STORIES and words[1] in ("configuration", "schedule", "transcript"):
        print(getattr(STORIES[words[0]](), words[1])(), end="")
    else:
        sys.exit(__doc__)
