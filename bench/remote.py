"""remote.py: times hits from a server, of gulmaat and of `ccache`, over Redis and HTTP (nginx) on this machine.

    python3 bench/remote.py [ROUNDS] [LIMIT]

Each call has a cache directory of its own, which is empty before it: a hit that comes from the server. With a LIMIT, as 100mbit, the loopback
device lets no more through (tc, as root). Where a tool isn't there, what needs it is left out. Times are those of the clock: what a server and a
helper do in them counts too. It prints the least and the median of each, and those of the compiler alone, and of a build of 40 sources in turn.
"""

import os
import shutil
import socket
import statistics
import subprocess
import sys
import tempfile
import time

TOP = os.path.dirname(os.path.dirname(os.path.realpath(__file__)))
WORDS = ["gcc", "-O2", "-c"]
SOURCES = 40
NGINX = """
daemon off; master_process off; pid {0}/pid; error_log {0}/errors;
events {{}}
http {{
    access_log off; client_body_temp_path {0}/parts; proxy_temp_path {0}/parts; fastcgi_temp_path {0}/parts; uwsgi_temp_path {0}/parts;
    scgi_temp_path {0}/parts;
    server {{
        listen 127.0.0.1:{1}; root {0}/kept; client_max_body_size 1g;
        location / {{ dav_methods PUT DELETE; create_full_put_path on; }}
    }}
}}
"""


def free_port():
    """A port on which nothing listens."""
    with socket.socket() as it:
        it.bind(("127.0.0.1", 0))
        return it.getsockname()[1]


def wait_for(port):
    """Waits until something listens there."""
    for _ in range(200):
        try:
            socket.create_connection(("127.0.0.1", port)).close()
            return
        except OSError:
            time.sleep(0.05)
    sys.exit(f"remote.py: nothing listens on port {port}")


def servers(work):
    """Starts the servers that are there, and gives them with their addresses."""
    found, started = {}, []
    if shutil.which("redis-server"):
        port = free_port()
        started.append(subprocess.Popen(["redis-server", "--port", str(port), "--save", "", "--dir", work], stdout=subprocess.DEVNULL))
        wait_for(port)
        found["Redis"] = f"redis://127.0.0.1:{port}"
    if shutil.which("nginx"):
        port = free_port()
        os.makedirs(f"{work}/kept")
        with open(f"{work}/nginx.conf", "w", encoding="utf-8") as out:
            out.write(NGINX.format(work, port))
        started.append(subprocess.Popen(["nginx", "-c", f"{work}/nginx.conf", "-e", f"{work}/errors"]))
        wait_for(port)
        found["HTTP"] = f"http://127.0.0.1:{port}"
    return found, started


def make_sources(work):
    """Sources that include some of the system's headers, with functions in them."""
    for number in range(SOURCES):
        with open(f"{work}/it-{number}.c", "w", encoding="utf-8") as out:
            out.write("#include <stdio.h>\n#include <stdlib.h>\n#include <string.h>\n#include <math.h>\n")
            for other in range(40):
                out.write(f"int f{other}(int a, char *b) {{ return printf(\"%d %s\", a * {number + other}, b) + (int)strlen(b) + abs(a); }}\n")
    time.sleep(0.2)


def call(tool, variables, work, number):
    """The seconds that one call takes."""
    words = [*tool, *WORDS, f"it-{number}.c", "-o", f"it-{number}.o"]
    begun = time.perf_counter()
    subprocess.run(words, env={**os.environ, **variables}, cwd=work, check=True)
    return time.perf_counter() - begun


def tools(work, name, address):
    """The commands that ask that server, each with its variables and the folder of what it keeps."""
    host = f"{subprocess.run([f'{TOP}/bin/built', 'gulmaat'], stdout=subprocess.PIPE, check=True, text=True).stdout.strip()}/gulmaat-host"
    kept = f"{work}/gulmaat-{name}"
    found = {"gulmaat": ([host], {"GULMAAT_DIR": kept, "GULMAAT_REMOTE": f"{address}/gulmaat" if name == "HTTP" else address}, kept)}
    if shutil.which("ccache"):
        kept = f"{work}/ccache-{name}"
        remote = f"{address}/ccache" if name == "HTTP" else address
        found["ccache"] = (["ccache"], {"CCACHE_DIR": kept, "CCACHE_REMOTE_STORAGE": remote}, kept)
    return found


def main():
    """Times all of it."""
    rounds = int(sys.argv[1]) if len(sys.argv) > 1 else 20
    with tempfile.TemporaryDirectory() as work:
        found, started = servers(work)
        make_sources(work)
        limit = ["tc", "qdisc", "add", "dev", "lo", "root", "tbf", "rate", sys.argv[2], "burst", "64k", "latency", "100ms"] if len(sys.argv) > 2 else []
        timers = {"the compiler alone": ([], {}, "")}
        for name, address in found.items():
            timers |= {f"{tool}, {name}": way for tool, way in tools(work, name, address).items()}
        for tool, variables, kept in timers.values():
            # One call, so that what is known of the compiler is there, then all of them, so that the server has them.
            for number in range(SOURCES if kept else 0):
                call(tool, variables, work, number)
        time.sleep(2)
        if limit:
            subprocess.run(limit, check=True)
        try:
            times, builds = {name: [] for name in timers}, {name: [] for name in timers}
            for turn in range(rounds):
                for name, (tool, variables, kept) in timers.items():
                    forget(kept)
                    times[name].append(call(tool, variables, work, turn % SOURCES))
            for _ in range(3):
                for name, (tool, variables, kept) in timers.items():
                    shutil.rmtree(kept, ignore_errors=True)
                    builds[name].append(sum(call(tool, variables, work, number) for number in range(SOURCES)))
        finally:
            if limit:
                subprocess.run(["tc", "qdisc", "del", "dev", "lo", "root"], check=True)
            for server in started:
                server.terminate()
                server.wait()
        for name, found in times.items():
            print(f"{name:24} {min(found) * 1000:7.1f} ms least, {statistics.median(found) * 1000:7.1f} ms median, "
                  f"{min(builds[name]) * 1000 / SOURCES:7.1f} ms a call of {SOURCES}")


def forget(kept):
    """Clears the cache, but for what is known of the compiler, which a machine finds out once."""
    for kind in os.listdir(kept) if kept else []:
        if kind in ("parts", "compilers", "searches", "statistics", "ccache.conf"):
            continue
        place = os.path.join(kept, kind)
        shutil.rmtree(place) if os.path.isdir(place) else os.remove(place)


main()
