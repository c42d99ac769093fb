"""Looks up who listens at an address of this machine, in /proc/net, and which process that is; and waits until a process listens."""
import errno
import os
import socket
import time

# What a socket's state is if it takes what comes from anybody. (UDP has two more in use: 01 is a socket with one peer)
LISTENS = {"udp": "07", "tcp": "0A"}
# A connection that has ended keeps its port for a minute.
ENDED = "06"


class NotThere(Exception):
    """Why nobody listens where somebody must, as a sentence."""


def sockets(link):
    """Returns the sockets of `udp` or `tcp`, each by its address, as four numbers and a port, its state and its inode; those of IPv6 as far as
    they have an address of IPv4 or all addresses."""
    found = []
    for table in (link, f"{link}6"):
        try:
            with open(f"/proc/net/{table}", encoding="ascii") as lines:
                rows = [line.split() for line in list(lines)[1:]]
        except FileNotFoundError:
            continue
        for words in rows:
            host, port = words[1].split(":")
            if host[:-8] in ("", "0" * 16 + "FFFF0000") or not host.strip("0"):
                found.append(((socket.inet_ntoa(bytes.fromhex(host[-8:])[::-1]), int(port, 16)), words[3], words[9]))
    return found


def holder(link, host, port):
    """Returns the address that takes what is sent to this one, with its socket's inode, or nothing."""
    found = {}
    for at, state, inode in sockets(link):
        if state == LISTENS[link]:
            found.setdefault(at, inode)
    at = next((it for it in ((host, port), ("0.0.0.0", port)) if it in found), None)
    if at is None and host == "0.0.0.0":
        at = next((it for it in found if it[1] == port), None)
    return (at, found[at]) if at else None


def process_of(inode):
    """Returns the number and the name of the process that has a socket, if it may be seen."""
    for number in filter(str.isdigit, os.listdir("/proc")):
        try:
            if any(os.readlink(f"/proc/{number}/fd/{it}") == f"socket:[{inode}]" for it in os.listdir(f"/proc/{number}/fd")):
                with open(f"/proc/{number}/comm", encoding="utf-8", errors="replace") as name:
                    return int(number), name.read().strip()
        except OSError:
            continue
    return None


def is_free(link, host, port):
    """Returns whether a principal may listen at an address of this machine, as far as others have it: it asks for that as the program does."""
    kind = socket.SOCK_STREAM if link == "tcp" else socket.SOCK_DGRAM
    with socket.socket(socket.AF_INET, kind) as it:
        if link == "tcp":
            it.setsockopt(socket.SOL_SOCKET, socket.SO_REUSEADDR, 1)
        try:
            it.bind((host, port))
        except OSError as error:
            return error.errno != errno.EADDRINUSE
    return True


def taken(link, host, port):
    """Returns who has a port, so that nobody else can listen there, as a sentence; nothing if nobody has it."""
    if is_free(link, host, port):
        return ""
    rows = [it for it in sockets(link) if it[0][1] == port and ("0.0.0.0" in (host, it[0][0]) or it[0][0] == host)]
    # (who listens, else a connection that hasn't ended: of those that have, several may have had the port)
    rows.sort(key=lambda it: (it[1] != LISTENS[link], it[1] == ENDED))
    at, state, inode = rows[0] if rows else ((host, port), None, None)
    process = process_of(inode)
    whose = f"process {process[0]} ({process[1]})" if process else "a process of another user, or of another name space,"
    what = "listens" if state == LISTENS[link] else "has a connection"
    if state == ENDED:
        whose, what = "a connection", "has ended and has it for a minute"
    return f"Port {port} of {link.upper()} is taken: {whose} {what} at {at[0]}:{at[1]} (/proc/net/{link})."


def bound(link, port, backlog=128, options=(), host="127.0.0.1"):
    """Returns a socket of this process at a port of the loopback, or of another host of this machine, which listens over TCP. Raises NotThere if
    somebody else has the port. The options are set before."""
    made = socket.socket(socket.AF_INET, socket.SOCK_STREAM if link == "tcp" else socket.SOCK_DGRAM)
    try:
        if link == "tcp":
            made.setsockopt(socket.SOL_SOCKET, socket.SO_REUSEADDR, 1)
        for option in options:
            made.setsockopt(*option)
        made.bind((host, port))
        if link == "tcp":
            made.listen(backlog)
        return made
    except OSError as error:
        made.close()
        raise NotThere(taken(link, host, port) or f"Port {port} of {link.upper()} can't be had: {error.strerror}.") from None


def is_below(number, above):
    """Returns whether a process is this one, or was started by it or by one below it."""
    while number > 1 and number != above:
        try:
            with open(f"/proc/{number}/stat", encoding="utf-8", errors="replace") as it:
                number = int(it.read().rpartition(")")[2].split()[1])
        except OSError:
            return False
    return number == above


def await_listener(link, port, process, seconds=120, host="127.0.0.1"):
    """Waits until a process that was started to listen at a port of the loopback does, or one that it has started. Raises NotThere if it ends before,
    or lasts so many seconds without. They only end a hang: if somebody else has the port, the process ends by itself."""
    end = time.monotonic() + seconds
    while True:
        status, late = process.poll(), time.monotonic() > end
        listens = holder(link, host, port)
        owner = process_of(listens[1]) if listens else None
        if owner and is_below(owner[0], process.pid):
            return
        if status is not None:
            raise NotThere(f"the process that is to listen at port {port} of {link.upper()} has ended, with status {status}. {taken(link, host, port)}".rstrip())
        if late:
            raise NotThere(f"nobody listens at port {port} of {link.upper()} after {seconds} seconds. {taken(link, host, port)}".rstrip())
        time.sleep(0.02)


def is_own(host):
    """Returns whether an address is one of this machine's, on which a process may listen."""
    with socket.socket(socket.AF_INET, socket.SOCK_DGRAM) as it:
        try:
            it.bind((host, 0))
        except OSError:
            return False
    return True


def least_free_port():
    """Returns the least port at which this user may listen."""
    if os.geteuid() == 0:
        return 1
    try:
        with open("/proc/sys/net/ipv4/ip_unprivileged_port_start", encoding="ascii") as it:
            return int(it.read())
    except (OSError, ValueError):
        return 1024
