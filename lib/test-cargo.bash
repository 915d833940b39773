# shellcheck shell=bash disable=SC2154
# Workspaces built by cargo: a part of bin/test-builds, whose host, work and functions it uses. Crates of the registry are those of Debian's
# packages (librust-serde-dev, librust-serde-derive-dev, librust-regex-dev, librust-clap-dev, librust-anyhow-dev).

# A workspace of two crates over some of the registry, in this folder.
make_workspace() {
    mkdir -p app/src lib/src .cargo
    printf '[workspace]\nmembers = ["app", "lib"]\nresolver = "2"\n' >Cargo.toml
    printf '[source.crates-io]\nreplace-with = "debian"\n[source.debian]\ndirectory = "%s"\n' "$registry" >.cargo/config.toml
    cat >app/Cargo.toml <<'END'
[package]
name = "app"
version = "0.1.0"
edition = "2021"
[dependencies]
lib = { path = "../lib" }
serde = { version = "1", features = ["derive"] }
regex = "1"
anyhow = "1"
END
    cat >app/src/main.rs <<'END'
#[derive(serde::Serialize, Debug)]
struct Row { number: u32 }
fn main() -> anyhow::Result<()> {
    let unused = 3;
    let found = regex::Regex::new("a+")?.is_match("caat");
    println!("{:?} {found} {} {:?}", Row { number: lib::twice(lib::GENERATED) }, lib::BUILT, lib::GREETING);
    Ok(())
}
END
    cat >lib/Cargo.toml <<'END'
[package]
name = "lib"
version = "0.1.0"
edition = "2021"
build = "build.rs"
[features]
more = []
[dependencies]
itoa = "1"
END
    cat >lib/build.rs <<'END'
fn main() {
    println!("cargo:rerun-if-changed=number");
    println!("cargo:rustc-env=BUILT={}", std::fs::read_to_string("number").unwrap().trim());
    let out = std::path::PathBuf::from(std::env::var("OUT_DIR").unwrap());
    std::fs::write(out.join("generated.rs"), format!("pub const GENERATED: u32 = {};", std::fs::read_to_string("number").unwrap())).unwrap();
}
END
    printf '7\n' >lib/number
    cat >lib/src/lib.rs <<'END'
mod inner;
include!(concat!(env!("OUT_DIR"), "/generated.rs"));
pub const BUILT: &str = env!("BUILT");
pub const GREETING: Option<&str> = option_env!("GREETING");
/// Doubles.
pub fn twice(x: u32) -> u32 { let warned = 1; inner::same(x) * 2 }
#[cfg(feature = "more")] pub fn more() {}
#[cfg(test)] mod tests { #[test] fn twice_is_double() { assert_eq!(super::twice(2), 4); } }
END
    printf 'pub fn same(x: u32) -> u32 { x }\n' >lib/src/inner.rs
}

# Another workspace: a larger tree, with options of its own for crates, and a procedural macro among its members.
make_other_workspace() {
    mkdir -p tool/src macros/src .cargo
    printf '[workspace]\nmembers = ["tool", "macros"]\nresolver = "2"\n[profile.dev]\nopt-level = 1\n[profile.dev.package."*"]\nopt-level = 2\n' >Cargo.toml
    printf '[source.crates-io]\nreplace-with = "debian"\n[source.debian]\ndirectory = "%s"\n' "$registry" >.cargo/config.toml
    printf '[package]\nname = "tool"\nversion = "1.2.3"\nedition = "2021"\n[dependencies]\nmacros = { path = "../macros" }\nclap = "4"\nanyhow = "1"\n' >tool/Cargo.toml
    printf '[package]\nname = "macros"\nversion = "0.1.0"\nedition = "2021"\n[lib]\nproc-macro = true\n' >macros/Cargo.toml
    printf 'use proc_macro::TokenStream;\n#[proc_macro]\npub fn seven(_: TokenStream) -> TokenStream { "7".parse().unwrap() }\n' >macros/src/lib.rs
    printf 'pub fn number() -> u32 { macros::seven!() }\npub const VERSION: &str = env!("CARGO_PKG_VERSION");\n' >tool/src/lib.rs
    printf 'fn main() { let m = clap::Command::new("tool").get_matches(); println!("{} {} {m:?}", tool::number(), tool::VERSION); }\n' >tool/src/main.rs
}

# All that a build made but what depends on the machine or the moment.
made_by_cargo() {
    find target -type f \( -name '*.rlib' -o -name '*.rmeta' -o -name '*.d' -o -name '*.so' -o -path 'target/debug/app' -o -path 'target/debug/tool' \) |
        sort | xargs sha256sum
}

# What cargo printed, without times, and in an order that doesn't depend on which job ended first.
printed_by_cargo() { grep -v 'Finished\|Blocking waiting' "$1" | sed 's/target(s) in .*//; s/; finished in .*//' | sort; }

# Builds by cargo without a cache and with one, from the same state: status, what is printed and what is made must be the same.
like_cargo() {
    local name=$1 status state=$work/cargo-state
    shift
    rm -rf "$state" && mkdir "$state"
    [ ! -d target ] || cp -a target "$state/before"
    cargo "$@" --offline >"$state/plain.out" 2>&1
    status=$?
    made_by_cargo >"$state/plain.sums"
    rm -rf target
    [ ! -d "$state/before" ] || cp -a "$state/before" target
    mark
    RUSTC_WRAPPER=$host cargo "$@" --offline >"$state/ours.out" 2>&1
    is "cargo $name: status" [ $? = $status ]
    made_by_cargo >"$state/ours.sums"
    is "cargo $name: files" cmp -s "$state/plain.sums" "$state/ours.sums"
    is "cargo $name: messages" cmp -s <(printed_by_cargo "$state/plain.out") <(printed_by_cargo "$state/ours.out")
}

# How many hits and compiles there were since the mark, as two numbers.
hits_of_cargo() {
    local k c d
    read -r k c d < <(counted)
    echo "$((k + d - kept - direct)) $((c - compiled))"
}

workspace_builds() {
    local project=$1 least=$2 hits compiles
    rm -rf target
    cargo generate-lockfile --offline >/dev/null 2>&1
    like_cargo "$project, cold" build
    rm -rf target
    like_cargo "$project, warm" build
    read -r hits compiles < <(hits_of_cargo)
    is "cargo $project, warm: $hits hits, $compiles compiles" [ "$hits" -ge "$least" -a "$compiles" = 0 ]
    rm -rf target
    like_cargo "$project, check" check
    rm -rf target
    like_cargo "$project, check again" check
    read -r hits compiles < <(hits_of_cargo)
    is "cargo $project, check again: $hits hits, $compiles compiles" [ "$hits" -ge "$least" -a "$compiles" = 0 ]
}

cargo_builds() {
    local registry=${CARGO_CRATES:-/usr/share/cargo/registry} dir=$work/cargo hits compiles
    local -x CARGO_INCREMENTAL=0
    command -v cargo >/dev/null || { echo "cargo isn't here: no build by it is tried"; return; }
    compgen -G "$registry/serde-1.*" >/dev/null || { echo "no crates of the registry are in $registry: no build by cargo is tried"; return; }
    "$host" --clear
    mkdir -p "$dir/one" "$dir/two" && cd "$dir/one" || return
    make_workspace
    workspace_builds workspace 8
    # From here on both build each change from the state before it.
    rm -rf target
    cargo build --offline >/dev/null 2>&1
    sleep 1.1
    printf 'pub fn same(x: u32) -> u32 { x + 0 }\n' >lib/src/inner.rs
    like_cargo "a changed source" build
    printf '8\n' >lib/number
    like_cargo "a build script's other output" build
    GREETING=morning like_cargo "a changed variable" build
    like_cargo "a changed feature" build --features lib/more
    like_cargo "tests" test
    like_cargo "documents" doc
    like_cargo "release" build --release
    ! cargo clippy --version >/dev/null 2>&1 || like_cargo "clippy" clippy
    # Interrupted, and built again.
    rm -rf target
    RUSTC_WRAPPER=$host timeout -s INT 1 cargo build --offline >/dev/null 2>&1
    like_cargo "interrupted before" build
    # In another folder each crate of the registry is a hit.
    cp -r app lib Cargo.toml Cargo.lock .cargo ../two && cd ../two || return
    like_cargo "in another folder" build
    read -r hits compiles < <(hits_of_cargo)
    is "cargo in another folder: $hits hits, $compiles compiles" [ "$hits" -ge 8 -a "$compiles" -le 2 ]
    # Two at once.
    rm -rf target ../one/target
    (cd ../one && RUSTC_WRAPPER=$host cargo build --offline >/dev/null 2>&1) &
    like_cargo "two at once" build
    wait
    mkdir -p "$dir/three" && cd "$dir/three" || return
    make_other_workspace
    workspace_builds "another workspace" 8
    cd "$work" || return
}
