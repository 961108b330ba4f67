"""Runs real clients against a `login serve` of its own, and compares what they print (bench/real_clients)."""

import os
import shutil
import subprocess
import sys
import tempfile
import time

MANAGER = "/org/freedesktop/login1"
NAME = "org.freedesktop.login1"
PROPERTIES = "org.freedesktop.DBus.Properties"
MACHINE = ("/login/model/machine", "login.model.Machine1")

USER = 1000
INPUT = f"login-recording 1\nuser {USER} {USER} alice\ngo\nadd 226 0 drm seat0\nadd 13 64 evdev seat0\n"


class Server:
    """A running server, with a folder of its own for its sockets and what it writes."""

    def __init__(self, program):
        self.folder = tempfile.mkdtemp(prefix="login-clients-")
        os.chmod(self.folder, 0o711)
        self.sockets = os.path.join(self.folder, "sockets")
        self.recording = os.path.join(self.folder, "recording")
        self.program = program
        with open(self.recording, "wb") as recording:
            self.process = subprocess.Popen(
                [program, "serve", "--dir", self.sockets],
                stdin=subprocess.PIPE,
                stdout=recording,
                stderr=subprocess.PIPE,
            )
        self.say(INPUT)
        while not os.path.exists(os.path.join(self.sockets, f"uid-{USER}")):
            if self.process.poll() is not None:
                sys.exit(f"the server ended: {self.process.stderr.read().decode()}")
            time.sleep(0.01)

    def say(self, text):
        self.process.stdin.write(text.encode())
        self.process.stdin.flush()

    def address(self, uid=0):
        return f"unix:path={self.sockets}/uid-{uid}"

    def stop(self):
        """What is wrong with the run: nothing where it ended well, and its recording plays again."""
        self.say("stop\n")
        self.process.stdin.close()
        errors = self.process.stderr.read().decode()
        status = self.process.wait()
        with open(self.recording, "rb") as recording:
            replay = subprocess.run([self.program, "replay"], stdin=recording, capture_output=True)
        shutil.rmtree(self.folder)
        strange = [line for line in errors.splitlines() if line.split()[2:3] not in (["closed"], ["stopped"])]
        if status or replay.returncode or strange:
            return f"status {status}, {replay.returncode} of its replay, {strange}"
        return ""


# Each command is a connection of its own: what it creates or takes ends with it.


def busctl(address, path, interface, member, signature="", *words):
    typed = [signature, *words] if signature else []
    return ["busctl", f"--address={address}", "call", NAME, path, interface, member, *typed]


def gdbus(address, path, method, *words):
    return ["gdbus", "call", "--address", address, "--dest", NAME, "--object-path", path, "--method", method, *words]


def dbus_send(address, path, member, *words):
    return ["dbus-send", f"--bus={address}", "--print-reply=literal", f"--dest={NAME}", path, member, *words]


def loginctl(*words):
    # It wants to see a machine that systemd has started.
    shown = "mount -t tmpfs none /run && mkdir -p /run/systemd/system && exec \"$@\""
    return ["unshare", "--mount", "sh", "-c", shown, "sh", "loginctl", "--no-pager", *words]


def commands(address, address_of_user):
    """Commands in their order, each with the words of its answer that it has to print."""
    as_user = ["setpriv", f"--reuid={USER}", f"--regid={USER}", "--clear-groups"]
    manager, session, seat = f"{NAME}.Manager", f"{NAME}.Session", f"{NAME}.Seat"
    one = f"{MANAGER}/session/c1"
    create = [str(USER), "0", "login", "wayland", "user", "", "seat0", "1", "tty1", "", "false", "", "", "0"]
    return [
        (busctl(address, MANAGER, manager, "ListSeats"), 'a(so) 1 "seat0" "/org/freedesktop/login1/seat/seat0"'),
        (
            busctl(address, MANAGER, manager, "CreateSession", "uusssssussbssa(sv)", *create),
            f'sosuusub "c1" "{one}" "/run/user/{USER}" 1 {USER} "seat0" 1 false',
        ),
        (busctl(address, one, session, "TakeControl", "b", "false"), "rule P13 session-closing"),
        (busctl(address, MANAGER, manager, "Inhibit", "ssss", "sleep", "me", "why", "delay"), "u 2"),
        (busctl(address, MANAGER, manager, "CanPowerOff"), 's "yes"'),
        (busctl(address, MANAGER, manager, "Suspend", "b", "false"), ""),
        (
            ["busctl", f"--address={address}", "get-property", NAME, MANAGER, manager, "PreparingForSleep"],
            "b true",
        ),
        (
            ["busctl", f"--address={address}", "get-property", NAME, f"{MANAGER}/seat/seat0", seat, "CanGraphical"],
            "b true",
        ),
        (
            gdbus(
                address, MANAGER, f"{manager}.CreateSession",
                f"uint32 {USER}", "uint32 0", "login", "wayland", "user", "''", "seat0", "uint32 2", "tty2", "''", "false",
                "''", "''", "@a(sv) []",
            ),
            f"('c2', objectpath '{MANAGER}/session/c2', '/run/user/{USER}', uint32 3, uint32 {USER}, 'seat0', uint32 2, false)",
        ),
        (gdbus(address, MANAGER, f"{manager}.ListSeats"), "([('seat0', objectpath '/org/freedesktop/login1/seat/seat0')],)"),
        (gdbus(address, MANAGER, f"{manager}.Inhibit", "idle", "me", "why", "block"), "(uint32 4,)"),
        (gdbus(address, MANAGER, f"{manager}.CanReboot"), "('yes',)"),
        (gdbus(address, MANAGER, f"{PROPERTIES}.Get", manager, "NCurrentSessions"), "(<uint64 2>,)"),
        (
            dbus_send(address, MANAGER, f"{manager}.ListSeats"),
            "seat0       /org/freedesktop/login1/seat/seat0",
        ),
        (
            dbus_send(address, MANAGER, f"{manager}.Inhibit", "string:idle", "string:me", "string:why", "string:block"),
            "uint32 5",
        ),
        (dbus_send(address, MANAGER, f"{manager}.CanHalt"), "yes"),
        (
            dbus_send(address, MANAGER, f"{PROPERTIES}.Get", f"string:{manager}", "string:NCurrentInhibitors"),
            "variant       uint64 0",
        ),
        (
            [f"--peer={address}" if word.startswith("--bus=") else word for word in
             dbus_send(address, MANAGER, "org.freedesktop.DBus.Peer.GetMachineId")],
            "0123456789abcdef0123456789abcdef",
        ),
        (loginctl("list-seats"), "seat0 1 seats listed"),
        (loginctl("enable-linger", str(USER)), ""),
        (loginctl("show-user", str(USER), "--property=Linger"), "Linger=yes"),
        (loginctl("activate", "c9"), "rule P04 no-such-session"),
        ([*as_user, *busctl(address_of_user, MANAGER, manager, "CanPowerOff")], 's "challenge"'),
        ([*as_user, *busctl(address, MANAGER, manager, "CanPowerOff")], "Permission denied"),
        ([*as_user, *gdbus(address_of_user, MANAGER, f"{manager}.ListUsers")], "/org/freedesktop/login1/user/_1000"),
        ([*as_user, *dbus_send(address_of_user, MANAGER, f"{manager}.CanHalt")], "challenge"),
    ]


# A display manager and a compositor of each of two sessions in one process, over two connections. A client's `call` makes a
# call, and answers its values, or the name of its error; its `turn` takes what has come, and `waiting` has the signals' members.
def evening(one, two, server):
    """The lines that an evening of two sessions prints."""
    manager = f"{NAME}.Manager"
    session = f"{NAME}.Session"
    first = f"{MANAGER}/session/c1"
    second = f"{MANAGER}/session/c2"

    def create(client, vt):
        made = client.call(
            MANAGER, manager, "CreateSession", "uusssssussbssa(sv)",
            [USER, 0, "login", "wayland", "user", "", "seat0", vt, f"tty{vt}", "", False, "", "", []],
        )
        return f"create {made[0]} {made[1]} {made[5]} {made[6]}"

    yield create(one, 1)
    yield create(two, 2)
    yield f"control {one.call(first, session, 'TakeControl', 'b', [False])}"
    yield f"control {two.call(second, session, 'TakeControl', 'b', [False])}"
    yield f"take {one.call(first, session, 'TakeDevice', 'uu', [226, 0])}"
    yield f"take {two.call(second, session, 'TakeDevice', 'uu', [226, 0])}"
    signals(one, 0)
    signals(two, 0)
    server.say("vtkey 2\n")
    yield f"asked {signals(one, 1)}"
    yield f"acknowledge {one.call(first, session, 'PauseDeviceComplete', 'uu', [226, 0])}"
    yield f"switched {signals(two, 4)}"
    yield f"inhibit {one.call(MANAGER, manager, 'Inhibit', 'ssss', ['sleep', 'me', 'why', 'delay'])}"
    yield f"suspend {two.call(MANAGER, manager, 'Suspend', 'b', [False])}"
    yield f"prepare {signals(two, 1)}"
    yield f"close {one.call(*MACHINE, 'Close', 'u', [5])}"
    server.say("jobdone\n")
    yield f"property {one.call(first, PROPERTIES, 'Get', 'ss', [session, 'State'])}"
    yield f"denied {one.call(first, session, 'TakeDevice', 'uu', [13, 99])}"
    yield f"denied {two.call(first, session, 'TakeControl', 'b', [False])}"


EVENING = [
    "create c1 /org/freedesktop/login1/session/c1 seat0 1",
    "create c2 /org/freedesktop/login1/session/c2 seat0 2",
    "control []",
    "control []",
    "take [3, False]",
    "take [4, True]",
    "asked ['PauseDevice']",
    "acknowledge []",
    "switched ['PropertiesChanged', 'PropertiesChanged', 'PropertiesChanged', 'ResumeDevice']",
    "inhibit [5]",
    "suspend []",
    "prepare ['PrepareForSleep']",
    "close []",
    "property ['online']",
    "denied org.freedesktop.login1.NoSuchDevice",
    "denied org.freedesktop.login1.Controlled",
]


def signals(client, count):
    """The signals that came since, once so many are there, or too much time has passed; all that are there where count is 0."""
    for _ in range(1000):
        client.turn()
        if len(client.waiting) >= count:
            break
        time.sleep(0.005)
    came = list(client.waiting)
    client.waiting.clear()
    return came


def plain(value):
    """A value of dbus-python as Python's own."""
    for kind in (bool, int, str):
        if kind is bool and type(value).__name__ == "Boolean":
            return bool(value)
        if kind is not bool and isinstance(value, kind):
            return kind(value)
    return value


class ByDbusPython:
    def __init__(self, server):
        import dbus
        import dbus.lowlevel
        import dbus.mainloop.glib
        from gi.repository import GLib

        self.loop = GLib.MainContext.default()
        self.connection = dbus.bus.BusConnection(server.address(), mainloop=dbus.mainloop.glib.DBusGMainLoop())
        self.failure = dbus.DBusException
        self.signal = dbus.lowlevel.SignalMessage
        self.waiting = []
        self.connection.add_message_filter(self.keep)

    def keep(self, _connection, message):
        if isinstance(message, self.signal):
            self.waiting.append(str(message.get_member()))
        return 1  # not handled yet

    def call(self, path, interface, member, signature, values):
        try:
            answer = self.connection.call_blocking(NAME, path, interface, member, signature, values)
        except self.failure as error:
            return error.get_dbus_name()
        if answer is None:
            return []
        return [plain(value) for value in (answer if isinstance(answer, tuple) else (answer,))]

    def turn(self):
        self.call(MANAGER, "org.freedesktop.DBus.Peer", "Ping", "", [])
        while self.loop.iteration(False):
            pass


class ByGio:
    def __init__(self, server):
        import gi

        gi.require_version("Gio", "2.0")
        from gi.repository import Gio, GLib

        self.gio, self.glib = Gio, GLib
        flags = Gio.DBusConnectionFlags.AUTHENTICATION_CLIENT | Gio.DBusConnectionFlags.MESSAGE_BUS_CONNECTION
        self.connection = Gio.DBusConnection.new_for_address_sync(server.address(), flags, None, None)
        self.waiting = []
        self.connection.add_filter(self.keep)

    def keep(self, _connection, message, incoming):
        if incoming and message.get_message_type() == self.gio.DBusMessageType.SIGNAL:
            self.waiting.append(message.get_member())
        return message

    def call(self, path, interface, member, signature, values):
        body = self.glib.Variant(f"({signature})", tuple(values)) if signature else None
        try:
            answer = self.connection.call_sync(
                NAME, path, interface, member, body, None, self.gio.DBusCallFlags.NONE, -1, None
            )
        except self.glib.Error as error:
            return self.gio.DBusError.get_remote_error(error)
        return list(answer.unpack())

    def turn(self):
        self.call(MANAGER, "org.freedesktop.DBus.Peer", "Ping", "", [])


class ByJeepney:
    def __init__(self, server):
        import jeepney
        import jeepney.io.blocking

        self.jeepney = jeepney
        self.connection = jeepney.io.blocking.open_dbus_connection(server.address())
        self.waiting = []

    def call(self, path, interface, member, signature, values):
        address = self.jeepney.DBusAddress(path, bus_name=NAME, interface=interface)
        call = self.jeepney.new_method_call(address, member, signature or None, tuple(values))
        serial = next(self.connection.outgoing_serial)
        self.connection.send(call, serial=serial)
        while True:
            message = self.connection.receive()
            fields = message.header.fields
            if message.header.message_type == self.jeepney.MessageType.signal:
                self.waiting.append(fields[self.jeepney.HeaderFields.member])
            elif fields.get(self.jeepney.HeaderFields.reply_serial) == serial:
                break
        if message.header.message_type == self.jeepney.MessageType.error:
            return fields[self.jeepney.HeaderFields.error_name]
        return [value[1] if isinstance(value, tuple) and signature == "ss" else value for value in message.body]

    def turn(self):
        self.call(MANAGER, "org.freedesktop.DBus.Peer", "Ping", "", [])


LIBRARIES = (("dbus-python", ByDbusPython), ("PyGObject", ByGio), ("jeepney", ByJeepney))


def squeezed(text):
    return " ".join(text.split())


class Report:
    """Says what was as expected and what was not, and counts the latter."""

    def __init__(self):
        self.failed = 0

    def say(self, what, wrong):
        self.failed += bool(wrong)
        print(f"{what}: {'NOT as expected: ' + wrong if wrong else 'as expected'}")


def member_of(command):
    """What a command asks for: the word that ends with the name of a member, and of properties all that names one."""
    for place, word in enumerate(command[2:], 2):
        last = word.rpartition(".")[2]
        if last[:1].isupper() and last.isalpha() and last not in ("Manager", "Session", "Seat"):
            return " ".join([last, *command[place + 1:]]) if last == "Get" else last
    return " ".join(command[command.index("--no-pager") + 1:])


def run_commands(server, report):
    environment = {**os.environ, "DBUS_SYSTEM_BUS_ADDRESS": server.address()}
    for command, expected in commands(server.address(), server.address(USER)):
        name = next(word for word in command if word in ("busctl", "gdbus", "dbus-send", "loginctl"))
        if shutil.which(name) is None:
            print(f"{name}: skipped, it is not installed")
            continue
        run = subprocess.run(command, capture_output=True, text=True, timeout=60, env=environment)
        said = squeezed(run.stdout + run.stderr)
        good = squeezed(expected) in said if expected else not said
        report.say(f"{name} {member_of(command)}", "" if good else said)


def main():
    program = sys.argv[1]
    if os.getuid() != 0:
        sys.exit("real_clients: clients name their user in the handshake, so root has to run this")
    report = Report()
    server = Server(program)
    run_commands(server, report)
    report.say("the run", server.stop())
    for name, library in LIBRARIES:
        server = Server(program)
        try:
            one, two = library(server), library(server)
        except ImportError:
            print(f"{name}: skipped, it is not installed")
            server.stop()
            continue
        for line, expected in zip(evening(one, two, server), EVENING):
            report.say(f"{name} {line.split()[0]}", "" if line == expected else line)
        report.say(f"{name}, the run", server.stop())
    sys.exit(report.failed > 0)


main()
