"""Runs each command of an installed tree with a terminal as standard error, where a fault has its reason, and with a pipe.

What is printed, the exit status and the lines on standard error are those that docs/FORMATS.md, docs/GUIDE.md and README.md
say. Each run ends by itself or is ended, and connections are those of this machine with itself.
"""
import contextlib
import dataclasses
import os
import pty
import re
import select
import signal
import socket
import subprocess
import time

from .tree import TOP

PATIENCE = 30
URL = "opc.tcp://localhost:4840"
VERSION = "The version of this format: 1 for one application, 2 for a list of them."
NOBODY = "nothing listens there; is the server started, and is this its port?"
RULE_OF_URL = "URL has at most 4095 bytes; it stands there exactly where --reverse does not, or is left out where ADDR is a url itself, as opc.tcp://press:4840"


@dataclasses.dataclass
class Case:
    """Words, the exit status, what is printed, the fixed line, and what the second line at a terminal says, if there is one.

    What is printed and the second line are patterns.
    """
    words: list
    status: int
    printed: str = ""
    line: str = ""
    reason: str | None = None
    given: str = ""


class Run:
    """A run of the command, with a terminal or a pipe as standard error."""

    def __init__(self, command, words, place, is_terminal, given=""):
        self.told, self.given, self.end = b"", given, time.monotonic() + PATIENCE
        self.reader, writer = pty.openpty() if is_terminal else os.pipe()
        self.process = subprocess.Popen([command, *words], cwd=place, stdin=subprocess.PIPE, stdout=subprocess.PIPE, stderr=writer, text=True,
                                        start_new_session=True)
        os.close(writer)

    def read(self, until=None):
        """Reads standard error until it is closed, or has this text, or the time is over."""
        while time.monotonic() < self.end and not (until and until in self.told):
            if select.select([self.reader], [], [], 0.1)[0]:
                try:
                    piece = os.read(self.reader, 4096)
                except OSError:
                    return  # so a terminal says that its other end is closed
                if not piece:
                    return
                self.told += piece

    def ended(self):
        """The exit status, none where it had to be ended, and what was printed and told."""
        printed = ""
        try:
            printed, _ = self.process.communicate(self.given, timeout=max(self.end - time.monotonic(), 0))
            self.read()
        except subprocess.TimeoutExpired:
            with contextlib.suppress(ProcessLookupError):
                os.killpg(self.process.pid, signal.SIGKILL)
            self.process.communicate()
            self.process.returncode = None
        os.close(self.reader)
        return self.process.returncode, printed, self.told.decode().replace("\r\n", "\n")


def documented(page, shown):
    """What a document says that the command prints."""
    return (TOP / page).read_text(encoding="utf-8").split(f"$ ./uadisc {shown}\n")[1].split("```")[0].split("\n$ ")[0]


def alone(folder, usr):
    """The cases in which nothing is connected to."""
    refused = "at byte 0 of 4: the length of a String is -5; it is -1 for null, or not negative"
    cut = "at byte 0: the frame has 56 bytes, and 30 are there: the capture is cut"
    no_version = f"version is 9; allowed is 1 or 2. {VERSION}"
    stored = TOP / "crates" / "uadisc"
    examples = usr / "share/doc/uadisc/examples"
    value = "value LocalizedText 0302000000656e050000005072657373 --show"
    return [
        Case(["--version"], 0, r"uadisc [0-9.]+ \(logic \w+\)\n"),
        Case(["answer", "default"], 0, re.escape((stored / "stdout").read_text()), given=(stored / "stdin").read_text()),
        Case(["answer", folder / "nine.toml"], 1, "", "settings 4 version\n", re.escape(no_version)),
        Case(["answer", "default"], 1, "", "line 1\n", "counted from 1, this line of standard input is neither hex of whole bytes, .*", given="48454C4\n"),
        Case(value.split(), 0, re.escape(documented("README.md", value))),
        Case(["value", "String", "fbffffff"], 1, r"refused\n", reason=re.escape(refused)),
        Case(["value", "String", "fbffffff", "--json"], 1, r'\{"Type":"String","Size":4,"Refused":true\}\n', reason=re.escape(refused)),
        Case(["value", "String", "0"], 2, "", "words\n", "HEX is an even number of hex digits, with nothing between them"),
        Case(["show", examples / "capture.bin"], 0, re.escape(documented("README.md", "show examples/capture.bin"))),
        Case(["show", folder / "http.bin"], 1, r"0 bad 807E0000\n", reason="at byte 0: 807E0000 BadTcpMessageTypeInvalid: b'HTT' is no type of a frame"),
        Case(["show", folder / "cut.bin"], 1, r"0 rest 30\n", reason=re.escape(cut)),
        Case(["show", folder / "press.pcap"], 0, r"stream 0 2026-01-05T08:00:00\.000000000Z 192\.0\.2\.2:50000 > 192\.0\.2\.1:4840\n(0[<>] 2026-01-05T.*\n)+"),
        Case(["show", folder / "cut.pcap"], 1, r"file 0 cut 4\n"),
        Case(["serve", folder / "nine.toml", "127.0.0.1:0", "--connections", "1"], 1, "", "settings 4 version\n", re.escape(no_version)),
        Case(["serve", "default", "127.0.0.1:0", "--connections", "70000"], 2, "", "words\n", "N is at most 65535 without --at-once and --patience, .*"),
        Case(["ask", "find", "opc.tcp://a:1", "--profile", "urn:q"], 2, "", "words\n", r"--server is for `ask find`, --profile for `ask endpoints`; URL .*"),
        Case(["check", "default", "a:1"], 2, "", "words\n", re.escape(RULE_OF_URL)),
    ]


def connecting(closed, taken):
    """The cases of an address where nobody listens, and of one where somebody does who says nothing."""
    refused = re.escape(f"{closed}: Connection refused (os error 111): {NOBODY}")
    return [
        Case(["ask", "find", closed, URL], 3, "", "link\n", refused),
        Case(["check", "default", closed, URL], 3, "", "link\n", re.escape(closed) + r": .*Connection refused.*"),
        Case(["ask", "find", taken, URL, "--timeout", "1"], 3, "", "link\n", re.escape(taken) + r": connected, but nothing came for [01]\.\d s: is it an OPC UA server\?"),
        Case(["serve", "default", taken, "--connections", "1"], 3, "", "link\n",
             re.escape(f"{taken}: Address already in use (os error 98): another program listens there; end it, or take another port")),
    ]


def served(address):
    """The cases of a server by the settings `default`, which has three connections with them."""
    return [
        Case(["ask", "find", address, URL], 0, r'application "urn:a" type=0 name="Press"\n' + re.escape(f'  url "{URL}"\n')),
        Case(["check", "default", address, URL], 0),
    ]


def judge(note, case, is_terminal, came):
    """Notes whether a run came to what it has to."""
    status, printed, told = came
    reason = rf"  {case.reason}\n" if is_terminal and case.reason else ""
    good = status == case.status and re.fullmatch(case.printed, printed) and re.fullmatch(re.escape(case.line) + reason, told)
    good = good and "Traceback" not in told and "No such file" not in told
    words = " ".join(str(word) if isinstance(word, str) else word.name for word in case.words)
    note(f"installed, at a {'terminal' if is_terminal else 'pipe'}: {words}", good, came)


def tries_server(note, command, folder, is_terminal):
    """Serves three connections, asks, and compares an offer with its settings."""
    server = Run(command, ["serve", "default", "127.0.0.1:0", "--connections", "3"], folder, is_terminal)
    server.read(until=b"\n")
    found = re.match(rb"listening (127\.0\.0\.1:\d+)\r?\n", server.told)
    for case in served(found[1].decode()) if found else []:
        judge(note, case, is_terminal, Run(command, case.words, folder, is_terminal).ended())
    lines = "".join(rf"connection {number} closed read \d+ written \d+\n" for number in (1, 2, 3))
    line = server.told.decode().replace("\r\n", "\n") if found else "listening ADDR\n"
    judge(note, Case(["serve", "default", "--connections", "3"], 0, lines, line), is_terminal, server.ended())


def put_files(folder):
    """The files that the cases name."""
    folder.mkdir()
    (folder / "nine.toml").write_text("version = 9\n")
    (folder / "http.bin").write_bytes(b"HTTP/1.1 400 Bad Request\r\n")
    (folder / "cut.bin").write_bytes((TOP / "examples/capture.bin").read_bytes()[:30])
    (folder / "cut.pcap").write_bytes(bytes.fromhex("d4c3b2a1"))


def put_packets(command, folder):
    """A file of packets of a conversation."""
    script = TOP / "examples/discovery.txt"
    reply = subprocess.run([command, "answer", TOP / "examples/press.toml"], input=script.read_bytes(), capture_output=True, timeout=PATIENCE, check=False).stdout
    subprocess.run([TOP / "tools/to-pcap", script, folder / "press.pcap"], input=reply, timeout=PATIENCE, check=False)


def tries(usr, folder, note):
    """Runs each command of the tree at a terminal and at a pipe, in a new folder, and tells `note` of each what came."""
    command = usr / "bin/uadisc"
    called = re.findall(r"\$top/tools/([\w-]+)", command.read_text(encoding="utf-8"))
    note("the installed command has the scripts that it calls", called and all(os.access(usr / "lib/uadisc/tools" / name, os.X_OK) for name in called), called)
    put_files(folder)
    put_packets(command, folder)
    with socket.create_server(("127.0.0.1", 0)) as taken, socket.create_server(("127.0.0.1", 0)) as closed:
        taken_at, closed_at = (f"127.0.0.1:{listener.getsockname()[1]}" for listener in (taken, closed))
        closed.close()
        for is_terminal in (True, False):
            for case in alone(folder, usr) + connecting(closed_at, taken_at):
                judge(note, case, is_terminal, Run(command, case.words, folder, is_terminal, case.given).ended())
            tries_server(note, command, folder, is_terminal)
