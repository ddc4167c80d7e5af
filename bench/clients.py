#!/usr/bin/env python3
"""Sees that `btseed` and clients that many people use serve each other, many at once: libtorrent, whose Python module it needs, and
qBittorrent, where `qbittorrent-nox` is installed.

    /usr/bin/python3 bench/clients.py PROGRAM [MIB]

Over loopback, with a folder of three files, MIB in all (64), whose torrent `btseed make` writes:

- six clients of libtorrent fetch at once from one `seed --serve 6 --together`
- `fetch --together` takes the files from four clients that have them, each of which sends at most 1 MiB/s; and from one such
- qBittorrent fetches from a `seed --forever`, as its settings are, by which it begins encrypted, is closed, and comes again without
- `fetch --together` takes the files from that qBittorrent, and then from it and a client of libtorrent at once

Each has to end with all files whole. Told are the seconds of each.
"""

import json
import pathlib
import random
import shutil
import socket
import subprocess
import sys
import tempfile
import time
import urllib.parse
import urllib.request

import libtorrent

PATIENCE = 240

# What a qBittorrent of one's own is told: it finds no peers by itself, and obeys who asks from this machine.
SETTINGS = r"""[BitTorrent]
Session\Port={port}
Session\DHTEnabled=false
Session\LSDEnabled=false
Session\PeXEnabled=false
Session\QueueingSystemEnabled=false
Session\Interface=lo
Session\InterfaceName=lo

[LegalNotice]
Accepted=true

[Network]
PortForwardingEnabled=false

[Preferences]
WebUI\LocalHostAuth=false
WebUI\Address=127.0.0.1
WebUI\Port={door}
"""


def session(rate=0):
    """A client that finds no peers by itself."""
    return libtorrent.session({
        "listen_interfaces": "127.0.0.1:0",
        "enable_dht": False, "enable_lsd": False, "enable_upnp": False, "enable_natpmp": False,
        "allow_multiple_connections_per_ip": True,
        # else it begins encrypted, is closed, and comes again: a connection more
        "out_enc_policy": 2,
        "upload_rate_limit": rate,
        "alert_mask": 0,
    })


def added(client, torrent, folder, rate=0):
    """The torrent in a client, whose files lie in the folder's folder `s`."""
    words = libtorrent.add_torrent_params()
    words.ti, words.save_path = libtorrent.torrent_info(str(torrent)), str(folder)
    handle = client.add_torrent(words)
    if rate:
        handle.set_upload_limit(rate)
    return handle


def waited(what, is_so):
    """Waits until something is so, and says how many seconds that took."""
    begun = time.monotonic()
    while not is_so():
        if time.monotonic() - begun > PATIENCE:
            sys.exit(f"{what}: not within {PATIENCE} s")
        time.sleep(0.05)
    return time.monotonic() - begun


def is_same(one, other):
    return subprocess.run(["diff", "-r", one, other], check=False).returncode == 0


def leechers(program, room, torrent, files, count):
    """So many clients fetch at once from one seed."""
    seed = subprocess.Popen([program, "seed", torrent, files, "--serve", str(count), "--together"], stdout=subprocess.PIPE, text=True)
    port = int(seed.stdout.readline().split()[1])
    clients = [session() for _ in range(count)]
    handles = [added(client, torrent, room / f"leecher{number}") for number, client in enumerate(clients)]
    for handle in handles:
        handle.connect_peer(("127.0.0.1", port))
    seconds = waited("leechers", lambda: all(handle.status().is_seeding for handle in handles))
    del handles, clients
    told = seed.communicate(timeout=PATIENCE)[0].split("\n")[:-1]
    ends = sorted(line.split(" ", 2)[1] for line in told)
    if seed.returncode != 0 or ends != sorted(str(number + 1) for number in range(count)):
        sys.exit(f"leechers: status {seed.returncode}, {told}")
    for number in range(count):
        if not is_same(room / f"leecher{number}" / "s", files):
            sys.exit(f"leecher {number}: files differ")
    return seconds, told


def fetched(program, room, torrent, files, ports, name):
    """A fetch from all clients at once that listen at these ports."""
    peers = [f"127.0.0.1:{port}" for port in ports]
    here = room / name
    begun = time.monotonic()
    run = subprocess.run([program, "fetch", torrent, here, *peers, "--together"], capture_output=True, text=True, timeout=PATIENCE, check=False)
    seconds = time.monotonic() - begun
    if run.returncode != 0 or not is_same(here, files):
        sys.exit(f"{name}: status {run.returncode}\n{run.stdout}{run.stderr}")
    return seconds, run.stdout.split("\n")[:len(peers)]


def seeds(torrent, files, room, count, rate):
    """Clients that have all files, each of which sends so many bytes a second at most."""
    clients = []
    for number in range(count):
        folder = room / f"seed{number}-{rate}"
        folder.mkdir(exist_ok=True)
        if not (folder / "s").exists():
            (folder / "s").symlink_to(files)
        client = session()
        handle = added(client, torrent, folder, rate)
        waited("a seed's check", lambda: handle.status().is_seeding)
        clients.append(client)
    return clients


class QBittorrent:
    """A qBittorrent with one torrent, whose files lie in the folder's folder `s`."""

    def __init__(self, profile, torrent, folder):
        self.port, self.door = free_port(), free_port()
        settings = profile / "qBittorrent" / "config"
        settings.mkdir(parents=True)
        (settings / "qBittorrent.conf").write_text(SETTINGS.format(port=self.port, door=self.door))
        words = ["qbittorrent-nox", f"--profile={profile}"]
        quiet = subprocess.DEVNULL
        self.process = subprocess.Popen(words, stdin=quiet, stdout=quiet, stderr=quiet)
        waited("qBittorrent", self.is_there)
        parts = {"torrents": torrent.read_bytes(), "savepath": str(folder).encode()}
        self.ask("torrents/add", *form(parts))
        waited("qBittorrent's torrent", self.torrents)

    def ask(self, call, data=None, kind="application/x-www-form-urlencoded"):
        request = urllib.request.Request(f"http://127.0.0.1:{self.door}/api/v2/{call}", data, {"Content-Type": kind})
        with urllib.request.urlopen(request, timeout=PATIENCE) as answer:
            return answer.read().decode()

    def is_there(self):
        try:
            return self.ask("app/version")
        except OSError:
            return None

    def torrents(self):
        return json.loads(self.ask("torrents/info"))

    def fetch_from(self, port):
        words = {"hashes": self.torrents()[0]["hash"], "peers": f"127.0.0.1:{port}"}
        self.ask("torrents/addPeers", urllib.parse.urlencode(words).encode())

    def is_complete(self):
        """Whether it has all files, looked through, and serves them: so say `uploading`, and the words that end with UP."""
        return self.torrents()[0]["state"].endswith(("UP", "uploading"))

    def end(self):
        self.process.terminate()
        self.process.wait()


def form(parts):
    """Parts as a browser sends those of a form, and of which kind that is."""
    border = "part0123456789"
    body = b""
    for name, part in parts.items():
        file = f'; filename="{name}"' if name == "torrents" else ""
        body += f'--{border}\r\nContent-Disposition: form-data; name="{name}"{file}\r\n\r\n'.encode() + part + b"\r\n"
    return body + f"--{border}--\r\n".encode(), f"multipart/form-data; boundary={border}"


def free_port():
    with socket.create_server(("127.0.0.1", 0)) as server:
        return server.getsockname()[1]


def with_qbittorrent(program, room, torrent, files):
    """qBittorrent fetches from a seed, and is fetched from, alone and beside a client of libtorrent."""
    here = room / "qbittorrent"
    here.mkdir()
    other = QBittorrent(room / "profile", torrent, here)
    seed = subprocess.Popen([program, "seed", torrent, files, "--forever"], stdout=subprocess.PIPE, text=True)
    try:
        other.fetch_from(int(seed.stdout.readline().split()[1]))
        seconds = waited("qBittorrent's fetch", other.is_complete)
        if not is_same(here / "s", files):
            sys.exit("qBittorrent: files differ")
        print(f"qBittorrent from a seed: {seconds:.1f} s", flush=True)
        [client] = seeds(torrent, files, room, 1, 0)
        ports = [other.port, client.listen_port()]
        for count in (1, 2):
            seconds, told = fetched(program, room, torrent, files, ports[:count], f"with{count}")
            print(f"from qBittorrent{' and libtorrent' * (count - 1)}: {seconds:.1f} s; {', '.join(told)}", flush=True)
    finally:
        seed.kill()
        seed.wait()
        other.end()


def main():
    program, mib = sys.argv[1], int(sys.argv[2]) if len(sys.argv) > 2 else 64
    with tempfile.TemporaryDirectory() as room:
        room = pathlib.Path(room)
        files, torrent = room / "files", room / "t"
        files.mkdir()
        for name, length in (("a", mib * 3 << 18), ("b", (mib << 18) - 12345), ("c", 12345)):
            (files / name).write_bytes(random.randbytes(length))
        subprocess.run([program, "make", files, torrent, "--name", "s", "--piece-length", "65536"], check=True, capture_output=True)
        seconds, told = leechers(program, room, torrent, files, 6)
        print(f"six clients from one seed: {seconds:.1f} s; {', '.join(told)}", flush=True)
        for count in (1, 4):
            clients = seeds(torrent, files, room, count, 1 << 20)
            ports = [client.listen_port() for client in clients]
            seconds, told = fetched(program, room, torrent, files, ports, f"from{count}")
            print(f"from {count} of 1 MiB/s: {seconds:.1f} s; {', '.join(told)}", flush=True)
            del clients
        if shutil.which("qbittorrent-nox"):
            with_qbittorrent(program, room, torrent, files)


if __name__ == "__main__":
    main()
