#!/usr/bin/env python3
"""cargo.py HOST [ROUNDS]: builds a workspace by cargo with no cache, with sccache and with gulmaat, in turns, and prints how long each build
took: cold, warm after its target was removed, and warm in another folder; and how long a single hit takes. Times are medians by the clock,
and in brackets the processor's, of the build and all that it runs (sccache's server is started before and not counted). HOST is the host of
gulmaat. It needs cargo, sccache, and crates of Debian's packages (CARGO_CRATES names their folder).
"""
import os
import resource
import shutil
import statistics
import subprocess
import sys
import tempfile
import time

REGISTRY = os.environ.get("CARGO_CRATES", "/usr/share/cargo/registry")
MANIFEST = """[package]
name = "app"
version = "0.1.0"
edition = "2021"
[dependencies]
serde = { version = "1", features = ["derive"] }
regex = "1"
anyhow = "1"
clap = "4"
"""
CONFIG = f"""[source.crates-io]
replace-with = "debian"
[source.debian]
directory = "{REGISTRY}"
"""


def write(path, text):
    os.makedirs(os.path.dirname(path), exist_ok=True)
    with open(path, "w", encoding="utf-8") as file:
        file.write(text)


def make_workspace(folder):
    """A package over some crates of the registry, whose library and program are its own."""
    write(f"{folder}/Cargo.toml", MANIFEST)
    write(f"{folder}/.cargo/config.toml", CONFIG)
    write(f"{folder}/src/lib.rs", "pub fn twice(x: u32) -> u32 { x * 2 }\n")
    write(f"{folder}/src/main.rs", 'fn main() { println!("{} {}", app::twice(2), regex::Regex::new("a").unwrap().is_match("a")); }\n')
    subprocess.run(["cargo", "generate-lockfile", "--offline"], cwd=folder, check=True, stderr=subprocess.DEVNULL)


def timed(words, folder, env):
    """How long a command takes, by the clock and by the processor."""
    before, begun = resource.getrusage(resource.RUSAGE_CHILDREN), time.monotonic()
    subprocess.run(words, cwd=folder, env=env, check=True, stdout=subprocess.DEVNULL, stderr=subprocess.DEVNULL)
    clock, after = time.monotonic() - begun, resource.getrusage(resource.RUSAGE_CHILDREN)
    return clock, after.ru_utime + after.ru_stime - before.ru_utime - before.ru_stime


class Bench:
    """Builds with each of the caches, in folders of their own."""

    def __init__(self, host, work):
        self.work = work
        plain = {**os.environ, "CARGO_INCREMENTAL": "0"}
        self.envs = {
            "no cache": plain,
            "sccache": {**plain, "RUSTC_WRAPPER": "sccache", "SCCACHE_DIR": f"{work}/sccache", "SCCACHE_IDLE_TIMEOUT": "0"},
            "gulmaat": {**plain, "RUSTC_WRAPPER": host, "GULMAAT_DIR": f"{work}/gulmaat"},
        }
        self.times = {}
        for name in ("one", "two"):
            make_workspace(f"{work}/{name}")

    def build(self, kind, cache, folder):
        """Builds after the target was removed, and notes how long that took."""
        shutil.rmtree(f"{self.work}/{folder}/target", ignore_errors=True)
        took = timed(["cargo", "build", "--offline"], f"{self.work}/{folder}", self.envs[cache])
        self.times.setdefault((kind, cache), []).append(took)

    def forget(self):
        """Clears the caches."""
        subprocess.run(["sccache", "--stop-server"], env=self.envs["sccache"], check=False, stdout=subprocess.DEVNULL, stderr=subprocess.DEVNULL)
        for name in ("sccache", "gulmaat"):
            shutil.rmtree(f"{self.work}/{name}", ignore_errors=True)
        subprocess.run(["sccache", "--start-server"], env=self.envs["sccache"], check=True, stdout=subprocess.DEVNULL, stderr=subprocess.DEVNULL)

    def single(self, cache):
        """A single hit of a call that was kept: a crate of some size."""
        out = f"{self.work}/single-{cache.split()[0]}"
        os.makedirs(out, exist_ok=True)
        source = next(it for it in sorted(os.listdir(REGISTRY)) if it.startswith("regex-syntax-"))
        rustc = subprocess.run(["rustc", "--print", "sysroot"], capture_output=True, text=True, check=True).stdout.strip() + "/bin/rustc"
        words = [rustc, "--crate-name", "it", "--edition=2018", "src/lib.rs", "--error-format=json", "--json=artifacts", "--crate-type", "lib",
                 "--emit=dep-info,metadata,link", "--cfg", 'feature="default"', "--cap-lints", "allow", "--out-dir", out]
        wrapper = self.envs[cache].get("RUSTC_WRAPPER")
        command = [wrapper, *words] if wrapper else words
        if wrapper:
            timed(command, f"{REGISTRY}/{source}", self.envs[cache])
        self.times.setdefault(("a single call", cache), []).append(timed(command, f"{REGISTRY}/{source}", self.envs[cache]))

    def round(self):
        self.forget()
        for kind, folder in (("cold", "one"), ("warm", "one"), ("warm in another folder", "two")):
            for cache in self.envs:
                self.build(kind, cache, folder)
        for cache in self.envs:
            self.single(cache)

    def report(self):
        for kind in dict.fromkeys(kind for kind, _ in self.times):
            row = []
            for cache in self.envs:
                took = self.times[kind, cache]
                clock, processor = (statistics.median(times) for times in zip(*took))
                row.append(f"{cache} {clock:.3f} s ({processor:.3f})")
            print(f"{kind}: {', '.join(row)}")


def main():
    host, rounds = os.path.abspath(sys.argv[1]), int(sys.argv[2]) if len(sys.argv) > 2 else 3
    with tempfile.TemporaryDirectory() as work:
        bench = Bench(host, work)
        for _ in range(rounds):
            bench.round()
        bench.report()
        subprocess.run(["sccache", "--stop-server"], env=bench.envs["sccache"], check=False, stdout=subprocess.DEVNULL)


if __name__ == "__main__":
    main()
