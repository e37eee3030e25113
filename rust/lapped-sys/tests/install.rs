//! bin/install: examples built with nothing but what pkg-config says, statically and shared, and that
//! nothing is left when it is taken away.

mod common;
use common::*;
use std::collections::BTreeSet;
use std::fs;
use std::os::unix::fs::PermissionsExt;
use std::path::{Path, PathBuf};
use std::process::Command;

const PREFIX: &str = "/opt/lapped";

/// A folder of which nothing is there yet.
fn fresh(name: &str) -> PathBuf {
    let folder = program_path(name);
    if folder.exists() {
        fs::remove_dir_all(&folder).unwrap();
    }
    folder
}

/// bin/install with the library of the tests, and neither programs nor a tool.
fn install(words: &[&str]) -> Command {
    let mut command = Command::new(root().join("bin/install"));
    command.args(words).env_remove("DESTDIR").env("LAPPED_LIB_DIR", LIBRARY);
    command.env("LAPPED_BIN_DIR", "/nowhere").env("LAPPED_TOOL_DIR", "/nowhere");
    command
}

/// What pkg-config says of the library that is installed below a root.
fn pkg_config(destination: &Path, words: &[&str]) -> Vec<String> {
    let mut command = Command::new("pkg-config");
    command.args(words).arg("lapped").env("PKG_CONFIG_SYSROOT_DIR", destination);
    command.env("PKG_CONFIG_LIBDIR", destination.join("opt/lapped/lib/pkgconfig"));
    succeed(&mut command).split_whitespace().map(String::from).collect()
}

/// Every file, link and folder below a folder.
fn tree(folder: &Path) -> BTreeSet<String> {
    let mut found = BTreeSet::new();
    let mut folders = vec![folder.to_path_buf()];
    while let Some(next) = folders.pop() {
        for entry in fs::read_dir(next).unwrap() {
            let path = entry.unwrap().path();
            let name = path.strip_prefix(folder).unwrap().to_str().unwrap();
            found.insert(name.to_string());
            if path.is_dir() {
                folders.push(path);
            }
        }
    }
    found
}

/// The shared libraries that a program needs.
fn needed(program: &Path) -> String {
    succeed(Command::new("readelf").arg("-d").arg(program))
}

#[test]
fn an_example_builds_both_ways_with_pkg_config_alone() {
    let destination = fresh("both_ways");
    succeed(install(&[PREFIX]).env("DESTDIR", &destination));
    assert_eq!(pkg_config(&destination, &["--modversion"]), [env!("CARGO_PKG_VERSION")]);
    let text = fs::read_to_string(destination.join("opt/lapped/lib/pkgconfig/lapped.pc")).unwrap();
    assert!(text.starts_with("prefix=/opt/lapped\n"), "{text}");

    let file = root().join("examples/ring.planes");
    let expected = {
        let program = C99.build(&root().join("examples/quarter.c"), "not_installed");
        succeed(Command::new(program).arg(&file))
    };
    for (name, words, more) in [
        ("shared", &["--cflags", "--libs"][..], &[][..]),
        ("static", &["--cflags", "--libs", "--static"], &["-static"]),
    ] {
        let program = program_path(&format!("installed_{name}"));
        let mut compiler = C99.compiler(&root().join("examples/quarter.c"), &program);
        succeed(compiler.args(pkg_config(&destination, words)).args(more));
        assert_eq!(needed(&program).contains("[liblapped.so.0]"), name == "shared");

        let mut command = Command::new(program);
        if name == "shared" {
            command.env("LD_LIBRARY_PATH", destination.join("opt/lapped/lib"));
        }
        assert_eq!(succeed(command.arg(&file)), expected, "{name}");
    }
}

/// As is customary: a file with the whole version, and links with the soname and without a version.
#[test]
fn names_of_the_shared_library() {
    let prefix = fresh("names");
    succeed(&mut install(&[prefix.to_str().unwrap()]));
    let real = format!("liblapped.so.{}", env!("CARGO_PKG_VERSION"));
    let library = prefix.join("lib");
    assert_eq!(fs::read_link(library.join("liblapped.so")).unwrap(), Path::new("liblapped.so.0"));
    assert_eq!(fs::read_link(library.join("liblapped.so.0")).unwrap(), Path::new(&real));
    let dynamic = needed(&library.join(real));
    assert!(dynamic.contains("Library soname: [liblapped.so.0]"), "{dynamic}");
    assert!(!dynamic.contains("TEXTREL"), "{dynamic}");
}

/// Folders with the programs and the tool that were built, which the tests may be run without.
fn built(name: &str) -> [PathBuf; 2] {
    let folder = fresh(name);
    let programs = ["programs/samples", "tools/lapped", "tools/lapped-pages"].map(|program| {
        let path = folder.join(program);
        fs::create_dir_all(path.parent().unwrap()).unwrap();
        fs::write(&path, PAGES).unwrap();
        fs::set_permissions(&path, fs::Permissions::from_mode(0o755)).unwrap();
        path
    });
    [&programs[0], &programs[1]].map(|program| program.parent().unwrap().to_path_buf())
}

/// What lapped-pages does.
const PAGES: &str = "#!/bin/sh -e
mkdir -p \"$1/man/man1\" \"$1/completions\"
cd \"$1\"
touch man/man1/lapped.1 man/man1/lapped-info.1
touch completions/lapped.bash completions/_lapped completions/lapped.fish
";

#[test]
fn tool_with_its_pages_and_completions() {
    let (destination, [programs, tools]) = (fresh("tool"), built("built"));
    let mut command = install(&["--tool", PREFIX]);
    command.env("LAPPED_BIN_DIR", programs).env("LAPPED_TOOL_DIR", tools);
    succeed(command.env("DESTDIR", &destination));
    let found = tree(&destination);
    for name in [
        "bin/samples",
        "bin/lapped",
        "share/man/man1/lapped.1",
        "share/man/man1/lapped-info.1",
        "share/bash-completion/completions/lapped",
        "share/zsh/site-functions/_lapped",
        "share/fish/vendor_completions.d/lapped.fish",
    ] {
        assert!(found.contains(&format!("opt/lapped/{name}")), "{name} is not in {found:?}");
    }
    // A second time without the tool: what was there is still known.
    succeed(install(&[PREFIX]).env("DESTDIR", &destination));
    succeed(install(&["--uninstall", PREFIX]).env("DESTDIR", &destination));
    assert!(!destination.exists(), "{:?} is left", tree(&destination));
}

/// Only what install made is taken away.
#[test]
fn what_was_there_before_stays() {
    let destination = fresh("before");
    let own = destination.join("opt/lapped/lib");
    fs::create_dir_all(destination.join("opt/lapped/include")).unwrap();
    succeed(install(&[PREFIX]).env("DESTDIR", &destination));
    fs::write(own.join("another.a"), "").unwrap();
    succeed(install(&["--uninstall", PREFIX]).env("DESTDIR", &destination));
    let expected =
        ["opt", "opt/lapped", "opt/lapped/include", "opt/lapped/lib", "opt/lapped/lib/another.a"];
    assert_eq!(tree(&destination), expected.map(String::from).into());
    let again = output(install(&["--uninstall", PREFIX]).env("DESTDIR", &destination));
    assert_eq!(again.status.code(), Some(1), "nothing is installed");
}

#[test]
fn install_refuses_without_a_prefix_a_library_or_the_tool() {
    for words in [&[][..], &["--other", PREFIX], &[PREFIX, PREFIX], &["--uninstall"]] {
        assert_eq!(output(&mut install(words)).status.code(), Some(2), "{words:?}");
    }
    let destination = fresh("empty");
    let refuses = |command: &mut Command| {
        let output = output(command.env("DESTDIR", &destination));
        assert_eq!(output.status.code(), Some(1));
        assert_eq!(String::from_utf8_lossy(&output.stderr).lines().count(), 1);
        assert!(!destination.exists(), "nothing is installed");
    };
    refuses(install(&[PREFIX]).env("LAPPED_LIB_DIR", "/nowhere"));
    refuses(&mut install(&["--tool", PREFIX]));
}
