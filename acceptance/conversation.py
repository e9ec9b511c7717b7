"""Conversations of clients with a server, with cryptography that is not the repository's own: what the clients send, and what
the server has to answer, computed from the formats in docs/ alone. It needs Python's `cryptography`.

A conversation grows call by call: a call says what a client, the TLS engine, the packet device or time does, and adds the event
to the schedule and what the server does about it to the transcript. Where a story knows better than the call, it gives the
effects itself.
"""
import hashlib
import hmac
import struct

from cryptography.hazmat.primitives.ciphers import Cipher, algorithms, modes
from cryptography.hazmat.primitives.ciphers.aead import AESGCM

SOFT_RESET, CONTROL, ACK, CLIENT_RESET, SERVER_RESET, DATA = 3, 4, 5, 7, 8, 9
PING = bytes.fromhex("2a187bf3641eb4cb07ed2d0a981fc748")
OPTIONS = b"V4,dev-type tun"
PUSH_REQUEST = b"PUSH_REQUEST\0"
# The bytes of control text in a piece, and how many pieces may be on their way.
PIECE, IN_FLIGHT = 1100, 6
# How many ids above the least missing one a control packet may have.
AHEAD = 12
# The static key of the stories: SHA-256 of a counter, eight times.
STATIC_KEY = b"".join(hashlib.sha256(b"static key %d" % i).digest() for i in range(8))


# ---- bytes

def chacha20_block(key, counter):
    """One block of ChaCha20 with stream 0."""
    nonce = struct.pack("<QQ", counter, 0)
    return Cipher(algorithms.ChaCha20(key, nonce), None).encryptor().update(bytes(64))


def draw(seed, event):
    """The random bytes of an event of a schedule: 30 words from word 32 times its number on."""
    key = struct.pack("<Q", seed) + bytes(24)
    return (chacha20_block(key, 2 * event) + chacha20_block(key, 2 * event + 1))[:120]


def wrapped(half, first, sid, wrap_id, time, plain):
    """A control packet as it stands on the wire, by tls-crypt under a half of the static key."""
    cipher_key, auth_key = half[:32], half[64:96]
    head = bytes([first]) + sid + struct.pack(">II", wrap_id, time)
    tag = hmac.new(auth_key, head + plain, "sha256").digest()
    return head + tag + Cipher(algorithms.AES(cipher_key), modes.CTR(tag[:16])).encryptor().update(plain)


def control_text(acks, remote, packet_id, payload):
    """The plain text of a control packet; one that only acknowledges has neither packet id nor payload."""
    text = bytes([len(acks)]) + b"".join(struct.pack(">I", i) for i in acks)
    if acks:
        text += remote
    if packet_id is not None:
        text += struct.pack(">I", packet_id) + payload
    return text


def p_hash(name, secret, seed, length):
    """P_MD5 or P_SHA1."""
    out, a = b"", seed
    while len(out) < length:
        a = hmac.new(secret, a, name).digest()
        out += hmac.new(secret, a + seed, name).digest()
    return out[:length]


def prf(secret, label, seed, length):
    """The pseudorandom function of TLS 1.0."""
    half = (len(secret) + 1) // 2
    md5 = p_hash("md5", secret[:half], label + seed, length)
    sha1 = p_hash("sha1", secret[-half:], label + seed, length)
    return bytes(a ^ b for a, b in zip(md5, sha1))


def text(body):
    """A text of a key exchange message: its length with the NUL, then both; an empty one is a length of 0."""
    return struct.pack(">H", len(body) + 1) + body + b"\0" if body else b"\0\0"


def inner(source, destination, payload=b""):
    """An IP packet of 20 bytes and a payload."""
    octets = bytes(int(n) for address in (source, destination) for n in address.split("."))
    return bytes.fromhex("4500") + struct.pack(">H", 20 + len(payload)) + bytes(4) + bytes.fromhex("40000000") + octets + payload


def sealed(keys, cipher, kid, peer, packet_id, packet):
    """A data packet under 64 cipher bytes and 64 HMAC bytes."""
    size = 16 if cipher == "AES-128-GCM" else 32
    head = bytes([DATA << 3 | kid]) + peer.to_bytes(3, "big") + struct.pack(">I", packet_id)
    out = AESGCM(keys[:size]).encrypt(head[4:] + keys[64:72], packet, head)
    return head + out[-16:] + out[:-16]


def source(packet):
    """The source of an IP packet."""
    return ".".join(str(n) for n in packet[12:16])


def destination(packet):
    """The destination of an IP packet."""
    return ".".join(str(n) for n in packet[16:20])


def number_of(address):
    """An address as a number."""
    return int.from_bytes(bytes(int(n) for n in address.split(".")), "big")


def address_of(number):
    """A number as an address."""
    return ".".join(str(n) for n in number.to_bytes(4, "big"))


def mask_of(length):
    """The mask of a length."""
    return address_of(2**32 - 2 ** (32 - length))


# ---- what is kept

class Run:
    """A schedule and its transcript, as they grow, and what the server keeps of all clients."""

    def __init__(self, *lines, seed=0, network="10.8.0.0/24", pushes=(), keepalive=(10, 120), hand=60, tran=3600, reneg=3600, timeout=2):
        self.seed, self.keepalive, self.pushes, self.lines = seed, keepalive, list(pushes), list(lines)
        self.hand, self.tran, self.reneg, self.timeout = hand, tran, reneg, timeout
        self.net, self.length = number_of(network.split("/")[0]), int(network.split("/")[1])
        self.moment = self.connections = self.count = 0
        self.title, self.written, self.printed, self.clients = [], [], [], []
        self.rows, self.queue = [], []      # who owns which networks, in the order in which they were added; packets for the device

    def has(self, line):
        """Whether the configuration has this line."""
        return line in self.lines

    def configuration(self):
        """The server's configuration."""
        lines = [f"server {address_of(self.net)} {mask_of(self.length)}", "topology subnet", "dev tun", "tls-crypt examples/office.key"]
        if self.keepalive:
            lines.append("keepalive %d %d" % self.keepalive)
        lines += [f'push "{option}"' for option in self.pushes] + self.lines
        for name, value, default in (("hand-window", self.hand, 60), ("tran-window", self.tran, 3600), ("reneg-sec", self.reneg, 3600),
                                     ("tls-timeout", self.timeout, 2)):
            if value != default:
                lines.append(f"{name} {value}")
        return "\n".join(lines) + "\n"

    def is_about(self, *comments):
        """Comments above the schedule."""
        self.title = [f"# {comment}" for comment in comments]

    def says(self, *comments):
        """Comments within the schedule, behind an empty line."""
        self.written += ["", *[f"# {comment}" for comment in comments]]

    def event(self, what, *effects):
        """An event at the moment of now, with what it does; answers its random bytes."""
        number = self.count
        self.count += 1
        self.written.append(f"at {self.moment} {what}")
        self.printed += [f"{number} {effect}" for effect in effects]
        return draw(self.seed, number)

    def next_draw(self):
        """The random bytes of the next event."""
        return draw(self.seed, self.count)

    def schedule(self):
        """The whole schedule."""
        seed = [f"seed {self.seed}"] if self.seed else []
        return "\n".join([*self.title, "vpn-schedule 1", *seed, *self.written, "end"]) + "\n"

    def transcript(self):
        """The whole transcript."""
        return "\n".join(self.printed + [f"{self.count} stop", f"done {self.count + 1} lost 0"]) + "\n"

    def here(self):
        """The clients that have not ended, in order."""
        return [client for client in self.clients if client.is_here]

    def free_address(self):
        """The least address of the pool that no established client has, or none."""
        taken = [client.inside for client in self.here()]
        for number in range(self.net + 2, self.net + 2 ** (32 - self.length) - 1):
            if address_of(number) not in taken:
                return address_of(number)
        return None

    def owner(self, address):
        """The client that owns an address: of the longest prefix, and of equally long ones the last."""
        found, longest = None, -1
        for network, length, client in self.rows:
            if number_of(address) >> 32 - length == network >> 32 - length and length >= longest:
                found, longest = client, length
        return found

    def refuses(self, packet):
        """Why a packet goes nowhere, whoever sent it, or nothing."""
        if len(packet) < 20 or packet[0] >> 4 != 4:
            return "not-ip"
        if len(packet) > 1500:
            return "too-long"
        to = number_of(destination(packet))
        if to >> 28 == 14 or to in (2**32 - 1, self.net + 2 ** (32 - self.length) - 1):
            return "multicast"
        return None

    def device(self, packet, *effects):
        """A packet of the packet device comes."""
        self.event(f"devicein {packet.hex() or '-'}", *effects)

    def device_says(self, packet):
        """The same, with what the server does about it."""
        why, target = self.refuses(packet), None
        if why is None:
            target = self.owner(destination(packet))
        self.device(packet, f"report {why} device" if why else target.gets(packet) if target else "report no-route")

    def device_is_ready(self):
        """The packet device takes the packet that waits longest, if one does."""
        self.event("deviceready", *([f"device {self.queue.pop(0).hex()}"] if self.queue else []))

    def tick(self):
        """Time has passed, for each client in order."""
        effects, datagrams = [], []
        for client in self.here():
            done, sent = client.ticked()
            effects += done
            datagrams += sent
        self.event("tick", *effects, *datagrams)


class Piece:
    """A piece of control text: how often it was sent, when last, and whether the client has acknowledged it."""

    def __init__(self, payload):
        self.payload, self.sendings, self.last, self.acknowledged = payload, 0, 0, False


class Session:
    """A key session of a client, with the counts of both ends."""

    def __init__(self, number, conn, began, first):
        self.number, self.conn, self.began, self.first = number, conn, began, first
        self.kid = 0 if number == 0 else 1 + (number - 1) % 7
        self.pieces = [Piece(b"")]          # of the server; piece 0 is its reset
        self.sent = 0                       # control packets of the client
        self.unacknowledged = []            # pieces that the client has and has not acknowledged
        self.taken, self.read = {}, 0       # control packets that the server has, and how many of them it has read
        self.sealed = self.answered = 0     # data packets of the client and of the server
        self.keys, self.is_open = None, True


class Client:
    """One client, and what the server knows of it."""

    def __init__(self, run, address, name, cipher="AES-256-GCM", both=True, known_as=None):
        self.run, self.name, self.cipher = run, name, cipher
        self.moves(address)
        self.offered = "AES-256-GCM:AES-128-GCM" if both else cipher
        self.sid = hashlib.sha256(b"session " + (known_as or name).encode()).digest()[:8]
        self.server_sid = b""
        self.wraps = self.server_wraps = 0
        self.sessions, self.is_here = [], False
        self.inside = None                  # its address in the tunnel, once it is established
        self.networks, self.own, self.reset, self.fixed = [], [], False, None    # of its file

    def moves(self, address):
        """The client is at this address, and the server knows it by its next data packet that opens, or its first datagram."""
        self.address = self.seen_at = address

    # ---- bytes

    def wrap(self, opcode, kid, plain, time=1):
        """A control packet of the client."""
        self.wraps += 1
        return wrapped(STATIC_KEY[128:], opcode << 3 | kid, self.sid, self.wraps, time, plain)

    def server_wrap(self, opcode, kid, plain):
        """A control packet of the server, as an effect."""
        self.server_wraps += 1
        packet = wrapped(STATIC_KEY[:128], opcode << 3 | kid, self.server_sid, self.server_wraps, self.since, plain)
        return f"wire {self.seen_at} {packet.hex()}"

    def source(self, s):
        """What the client brings to a key exchange."""
        return b"".join(hashlib.sha256(b"%s %d %d" % (self.name.encode(), s.number, i)).digest() for i in range(4))[:112]

    def message(self, s, protocol=2):
        """The client's key exchange message."""
        info = f"IV_VER=2.6.0\nIV_PLAT=linux\nIV_PROTO={protocol}\nIV_CIPHERS={self.offered}\n"
        return bytes(4) + b"\2" + self.source(s) + text(OPTIONS) + text(b"") + text(b"") + text(info.encode())

    def datagram(self, packet):
        """A datagram of the client, as an event."""
        return f"datagram {self.address} {packet.hex() or '-'}"

    # ---- the control channel of the server

    def sends_piece(self, s, number, acks=()):
        """A piece is sent, with acknowledgements on it."""
        piece = s.pieces[number]
        piece.sendings, piece.last = piece.sendings + 1, self.run.moment
        return self.server_wrap(CONTROL if number else s.first, s.kid, control_text(list(acks), self.sid, number, piece.payload))

    def sends_ready(self, s, acks=()):
        """All pieces that may go out for the first time; acknowledgements ride on the first, or go alone."""
        least = next((i for i, piece in enumerate(s.pieces) if not piece.acknowledged), len(s.pieces))
        wires = []
        for number, piece in enumerate(s.pieces):
            if not piece.sendings and number < least + IN_FLIGHT:
                wires.append(self.sends_piece(s, number, acks))
                acks = ()
        if acks:
            wires.append(self.server_wrap(ACK, s.kid, control_text(list(acks), self.sid, None, b"")))
        return wires

    def receives(self, s, acks, packet_id, payload):
        """The server takes a control packet: what it puts to the engine, and what it sends."""
        for number in acks:
            if number < len(s.pieces) and s.pieces[number].sendings:
                s.pieces[number].acknowledged = True
        puts, confirmed = [], []
        if packet_id is not None and packet_id < s.read + AHEAD:
            confirmed = [packet_id]
            if packet_id >= s.read:
                s.taken.setdefault(packet_id, payload)
        while s.read in s.taken:
            body = s.taken.pop(s.read)
            if s.read and body:
                puts.append(f"engineput {s.conn} {body.hex()}")
            s.read += 1
        self.heard = self.run.moment
        return [*puts, *self.sends_ready(s, confirmed)]

    # ---- the control channel of the client

    def control(self, s, opcode, payload=b"", packet_id=None, before=()):
        """A control packet of the client comes; it acknowledges what the client has. A packet id gives one out of its turn."""
        acks, s.unacknowledged = s.unacknowledged[:4], s.unacknowledged[4:]
        if packet_id is None:
            packet_id = s.sent
            s.sent += 1
        packet = self.wrap(opcode, s.kid, control_text(acks, self.server_sid if acks else b"", packet_id, payload))
        self.run.event(self.datagram(packet), *before, *self.receives(s, acks, packet_id, payload))
        return packet

    def acknowledges(self, s):
        """The client acknowledges what it has, and sends nothing else."""
        acks, s.unacknowledged = s.unacknowledged[:8], s.unacknowledged[8:]
        packet = self.wrap(ACK, s.kid, control_text(acks, self.server_sid, None, b""))
        self.run.event(self.datagram(packet), *self.receives(s, acks, None, b""))

    def begins(self, opcode, server_opcode):
        """A key session begins by the client's reset. The server's session id is of the draw of the event that admits it."""
        run = self.run
        s = Session(len(self.sessions), run.connections, run.moment, server_opcode)
        run.connections += 1
        if not self.sessions:
            self.number = len(run.clients)
            self.peer = min(set(range(len(run.clients) + 1)) - {client.peer for client in run.here()})
            run.clients.append(self)
            self.is_here = True
            self.server_sid, self.since = run.next_draw()[:8], run.moment // 1000 % 2**32
        self.sessions.append(s)
        self.control(s, opcode, before=[f"engineopen {s.conn} server"])
        s.unacknowledged = [0]
        return s

    def is_begun_by_server(self):
        """The server begins the next key session: the connection, and its reset."""
        run = self.run
        s = Session(len(self.sessions), run.connections, run.moment, SOFT_RESET)
        run.connections += 1
        self.sessions.append(s)
        return f"engineopen {s.conn} server", self.sends_piece(s, 0)

    def answers_reset(self, s):
        """The client's reset of a key session that the server has begun."""
        s.unacknowledged = [0]
        self.control(s, SOFT_RESET)

    def engine_says(self, s, answer):
        """The engine answers with text for the client: in as many pieces as it takes, of which six at most are on their way."""
        s.pieces += [Piece(answer[at:at + PIECE]) for at in range(0, len(answer), PIECE)]
        self.run.event(f"enginetext {s.conn} {answer.hex() or '-'}", *self.sends_ready(s))

    def gets_pieces(self, s):
        """The client has all pieces that were sent and that it has not acknowledged."""
        s.unacknowledged = [i for i, piece in enumerate(s.pieces) if piece.sendings and not piece.acknowledged]

    # ---- keys

    def keyed(self):
        """Its key sessions that have or had keys."""
        return [s for s in self.sessions if s.keys]

    def makes_keys(self, s):
        """The server makes the keys of a session from the next event's random bytes, writes its message, and closes the third session."""
        randoms = self.run.next_draw()[8:72]
        reply = bytes(4) + b"\2" + randoms + text(OPTIONS) + bytes(6)
        source = self.source(s)
        master = prf(source[:48], b"OpenVPN master secret", source[48:80] + randoms[:32], 48)
        s.keys = prf(master, b"OpenVPN key expansion", source[80:] + randoms[32:] + self.sid + self.server_sid, 256)
        usable = [t for t in self.keyed() if t.is_open]
        closed = usable[:-2]
        for t in closed:
            t.is_open = False
        return [f"enginewrite {s.conn} {reply.hex()}", *[f"engineclose {t.conn}" for t in closed]]

    def is_named(self, s, *effects):
        """The engine has checked the client."""
        self.run.event(f"engineup {s.conn} {self.name}", *effects)

    def exchanges(self, s, protocol=2, behind=b"", then=()):
        """The engine has checked the client and hands its key exchange message on, with what stands behind it; the server writes its own."""
        self.is_named(s)
        self.gives_message(s, protocol, behind, then)

    def gives_message(self, s, protocol=2, behind=b"", then=()):
        """The engine hands the client's key exchange message on; the server writes its own."""
        message = self.message(s, protocol) + behind
        self.run.event(f"engineplain {s.conn} {message.hex()}", *self.makes_keys(s), *then)

    # ---- its file

    def is_asked_for(self, s, name=None):
        """The engine has checked the client, whose file is asked for."""
        self.is_named(s, f"ask {self.number} {name or self.name}")

    def has_file(self, fixed=None, networks=(), own=(), reset=False):
        """The text of a file of the client's own; what it says counts from here on."""
        self.fixed, self.networks, self.own, self.reset = fixed, list(networks), list(own), reset
        lines = ["ifconfig-push %s %s" % fixed] if fixed else []
        for network in networks:
            address, length = network.split("/")
            lines.append(f"iroute {address} {mask_of(int(length))}")
        lines += ["push-reset"] if reset else []
        lines += [f'push "{option}"' for option in own]
        return "".join(line + "\n" for line in lines).encode()

    def is_held(self, text, *effects):
        """The file that was asked for has this text."""
        self.run.event(f"file {self.number} held {text.hex() or '-'}", *effects)

    def is_missing(self, *effects):
        """There is no such file."""
        self.run.event(f"file {self.number} missing", *effects)

    # ---- establishing

    def options(self):
        """What the server pushes to the client."""
        run = self.run
        shared = [*run.pushes, f"route-gateway {address_of(run.net + 1)}", "topology subnet"]
        if run.keepalive:
            shared += ["ping %d" % run.keepalive[0], "ping-restart %d" % run.keepalive[1]]
        mask = self.fixed[1] if self.fixed else mask_of(run.length)
        return [*([] if self.reset else shared), *self.own, f"ifconfig {self.inside} {mask}", f"peer-id {self.peer}", f"cipher {self.cipher}"]

    def reply_parts(self):
        """The reply with these options, in parts where it is more than 1,024 bytes."""
        whole = ",".join(["PUSH_REPLY", *self.options()])
        if len(whole) <= 1024:
            return [whole]
        parts = ["PUSH_REPLY"]
        for option in self.options():
            if len(parts[-1]) + 1 + len(option) > 1004:
                parts.append("PUSH_REPLY")
            parts[-1] += "," + option
        return [part + ",push-continuation 2" for part in parts[:-1]] + [parts[-1] + ",push-continuation 1"]

    def writes_reply(self, s):
        """The reply, written on the connection of a session."""
        return [f"enginewrite {s.conn} {part.encode().hex()}00" for part in self.reply_parts()]

    def establishing(self, s):
        """The client is established: who is replaced, its reply, and what a manager is told."""
        run, replaced = self.run, []
        for client in run.here():
            if client.inside and client.name == self.name and not run.has("duplicate-cn"):
                replaced = client.ending(f"replaced {self.number}")
        self.inside = self.fixed[0] if self.fixed else run.free_address()
        if self.inside is None:
            return [*replaced, *self.ending("pool-empty")]
        self.sealed_at = run.moment
        run.rows.append((number_of(self.inside), 32, self))
        for network in self.networks:
            run.rows.append((number_of(network.split("/")[0]), int(network.split("/")[1]), self))
        says = [f"say >CLIENT:ESTABLISHED,{self.number}", f"say >CLIENT:ADDRESS,{self.number},{self.inside},1"]
        says += [f"say >CLIENT:ADDRESS,{self.number},{network},0" for network in self.networks]
        return [*replaced, *self.writes_reply(s), *says]

    def requests(self, s):
        """The client asks for its push reply, and is established unless it is already."""
        effects = self.writes_reply(s) if self.inside else self.establishing(s)
        self.run.event(f"engineplain {s.conn} {PUSH_REQUEST.hex()}", *effects)

    def comes(self, protocol=2):
        """The client comes and is established, with no text between it and the TLS engine."""
        s = self.begins(CLIENT_RESET, SERVER_RESET)
        self.exchanges(s, protocol)
        self.requests(s)
        return s

    def renegotiates(self):
        """The client begins new keys, which are made."""
        s = self.begins(SOFT_RESET, SOFT_RESET)
        self.exchanges(s)
        return s

    # ---- data

    def seals(self, packet, s=None, packet_id=None):
        """A data packet of the client under its newest keys."""
        s = s or self.keyed()[-1]
        if packet_id is None:
            s.sealed += 1
            packet_id = s.sealed
        return sealed(s.keys[:128], self.cipher, s.kid, self.peer, packet_id, packet)

    def sends(self, packet, *effects, s=None, packet_id=None):
        """A data packet of the client comes."""
        self.heard = self.run.moment
        self.run.event(self.datagram(self.seals(packet, s, packet_id)), *effects)

    def talks(self, packet, s=None, packet_id=None):
        """A data packet of the client comes that opens and is fresh: what the server does about it."""
        run, moved = self.run, []
        sealed_packet = self.seals(packet, s, packet_id)
        self.heard = run.moment
        if self.seen_at != self.address:
            self.seen_at = self.address
            moved = [f"report moved {self.number} {self.address}"]
        run.event(self.datagram(sealed_packet), *moved, *self.passes(packet))

    def passes(self, packet):
        """Where an inner packet of the client goes."""
        run = self.run
        if packet == PING:
            return [f"report ping {self.number}"]
        why = run.refuses(packet)
        if why:
            return [f"report {why} {self.number}"]
        owner, target = run.owner(source(packet)), run.owner(destination(packet))
        if owner is not self:
            return [f"report bad-source {self.number} {owner.number if owner else 'none'}"]
        if target and run.has("client-to-client"):
            return [target.gets(packet)]
        if len(run.queue) == 64:
            return [f"report queue-full {self.number}"]
        run.queue.append(packet)
        return []

    def gets(self, packet):
        """The server seals an inner packet to the client, as an effect."""
        s = self.keyed()[-1]
        s.answered += 1
        self.sealed_at = self.run.moment
        return f"wire {self.seen_at} {sealed(s.keys[128:], self.cipher, s.kid, self.peer, s.answered, packet).hex()}"

    # ---- time and endings

    def goes(self, conn=None):
        """The engine ends a connection of the client, and so it ends."""
        self.run.event(f"enginedown {self.sessions[-1].conn if conn is None else conn}", *self.ending("engine-down"))

    def ending(self, cause):
        """The client ends: its effects."""
        closed = [f"engineclose {s.conn}" for s in self.sessions if s.is_open]
        told = [f"say >CLIENT:DISCONNECT,{self.number}"] if self.inside else []
        self.is_here, self.inside = False, None
        self.run.rows = [row for row in self.run.rows if row[2] is not self]
        return [f"report ended {self.number} {cause}", *told, *closed]

    def ticked(self):
        """Time has passed for the client: what is done, and the control datagrams."""
        run, newest = self.run, self.sessions[-1]
        is_finished = newest.keys and (newest.number > 0 or self.inside)
        if not is_finished and run.moment >= newest.began + 1000 * run.hand:
            return self.ending("hand-window"), []
        if run.keepalive and run.moment >= self.heard + 2000 * run.keepalive[1]:
            return self.ending("ping-restart"), []
        keyed, retired = self.keyed(), None
        if len(keyed) > 1 and keyed[-2].is_open and run.moment >= keyed[-1].began + 1000 * run.tran:
            retired = keyed[-2]
        effects, datagrams = [], []
        for s in self.sessions:
            if s.is_open and s is not retired:
                for number, piece in enumerate(s.pieces):
                    interval = 1000 * min(run.timeout * 2 ** max(piece.sendings - 1, 0), 60)
                    if piece.sendings and not piece.acknowledged and run.moment >= piece.last + interval:
                        datagrams.append(self.sends_piece(s, number))
        if retired:
            retired.is_open = False
            effects.append(f"engineclose {retired.conn}")
        if is_finished and self.inside and run.reneg and run.moment >= newest.began + 1000 * run.reneg:
            opened, reset = self.is_begun_by_server()
            effects.append(opened)
            datagrams.append(reset)
        if run.keepalive and self.inside and run.moment >= self.sealed_at + 1000 * run.keepalive[0]:
            effects.append(self.gets(PING))
        return effects, datagrams


def static_key():
    """The text of the static key."""
    digits = STATIC_KEY.hex()
    lines = [digits[at:at + 32] for at in range(0, 512, 32)]
    comment = ["#", "# A key made for the example and for what is tried with it. Everybody has it: never use it.", "#"]
    return "\n".join([*comment, "-----BEGIN OpenVPN Static key V1-----", *lines, "-----END OpenVPN Static key V1-----"]) + "\n"
