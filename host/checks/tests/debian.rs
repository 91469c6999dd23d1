//! The Debian packages: built in a copy of the sources where `DELKUTHI_LIB` names the archive, looked at by lintian, unpacked and used.

use checks::documents::text_of;
use checks::hosts::{done, found, say};
use checks::places::{Folder, archive_folder, root};
use checks::release::version;
use std::fs;
use std::path::{Path, PathBuf};
use std::process::Command;

/// The version that the packages are of: the first in debian/changelog.
fn packaged() -> String {
    let text = text_of(&root().join("debian/changelog"));
    text.split(['(', ')']).nth(1).expect("a version").to_string()
}

/// The names of the packages and of their files go with the version that they are of, which is that of the list of changes.
#[test]
fn the_names_of_the_packages() {
    let version = packaged();
    let interface = version.split_once('.').expect("three numbers").0;
    let control = text_of(&root().join("debian/control"));
    for line in [
        format!("Package: libdelkuthi{interface}"),
        "Package: libdelkuthi-dev".into(),
        "Package: python3-delkuthi".into(),
    ] {
        assert!(control.lines().any(|found| found == line), "{line}");
    }
    let symbols = text_of(&root().join(format!("debian/libdelkuthi{interface}.symbols")));
    assert!(symbols.contains(&format!("(symver)DELKUTHI_{interface} {interface}.0.0")), "{symbols}");
    let changes = text_of(&root().join("CHANGELOG.md"));
    assert_eq!(changes.lines().find_map(|line| line.strip_prefix("## ")), Some(version.as_str()));
}

/// The terms are the same in the packages.
#[test]
fn the_terms_of_the_packages() {
    let words = |text: String| text.split_whitespace().map(str::to_string).collect::<Vec<String>>();
    let terms = words(text_of(&root().join("LICENSE")).split_once("\n\n").expect("a heading").1.to_string());
    let given = words(
        text_of(&root().join("debian/copyright")).split_once("License: Delkuthi\n").expect("a licence").1.to_string(),
    );
    assert_eq!(given, terms);
}

/// A copy of the sources, as they stand, with the version that the packages are of.
fn copy(folder: &Folder) -> PathBuf {
    let place = folder.path().join("delkuthi");
    fs::create_dir(&place).expect("a folder");
    let listed =
        done(Command::new("git").args(["ls-files", "--cached", "--others", "--exclude-standard"]).current_dir(root()));
    for name in listed.lines().filter(|name| root().join(name).exists()) {
        let to = place.join(name);
        fs::create_dir_all(to.parent().expect("a folder")).expect("a folder");
        fs::copy(root().join(name), to).unwrap_or_else(|error| panic!("{name}: {error}"));
    }
    fs::write(place.join("VERSION"), packaged() + "\n").expect("a file");
    fs::write(place.join("python/delkuthi/VERSION"), packaged() + "\n").expect("a file");
    place
}

/// Why the packages cannot be built here, if they cannot.
fn lacking() -> Option<&'static str> {
    let tools =
        [("dpkg-buildpackage", "dpkg-dev"), ("dh", "debhelper"), ("dh_python3", "dh-python"), ("lintian", "lintian")];
    let missing = tools.into_iter().find(|(tool, _)| !found(tool)).map(|(_, package)| package);
    missing.or_else(|| (!root().join(".git").exists()).then_some("a git repository"))
}

/// What a package has, unpacked.
fn unpacked(folder: &Path, package: &str) -> PathBuf {
    let file = folder.join(format!("{package}_{}_amd64.deb", packaged()));
    let place = folder.join("root");
    done(Command::new("dpkg-deb").arg("-x").arg(file).arg(&place));
    place
}

#[test]
fn the_packages() {
    if let Some(missing) = lacking() {
        return say(&format!("no Debian packages were built: {missing} is not there"));
    }
    let folder = Folder::new();
    let sources = copy(&folder);
    let mut build = Command::new("dpkg-buildpackage");
    build.args(["-b", "-uc", "-us", "-d"]).current_dir(&sources).env("DELKUTHI_LIB", archive_folder());
    done(build.env_remove("MAKEFLAGS").env_remove("MAKELEVEL").env_remove("CFLAGS").env_remove("LDFLAGS"));
    let changes = folder.path().join(format!("delkuthi_{}_amd64.changes", packaged()));
    let mut lintian = Command::new("lintian");
    let said =
        done(lintian.args(["--profile", "debian", "--fail-on", "error,warning"]).arg(changes).env("LC_ALL", "C"));
    assert!(!said.lines().any(|line| line.starts_with("E: ")), "{said}");
    let interface = packaged().split_once('.').expect("three numbers").0.to_string();
    unpacked(folder.path(), &format!("libdelkuthi{interface}"));
    unpacked(folder.path(), "libdelkuthi-dev");
    let place = unpacked(folder.path(), "python3-delkuthi");
    let lib = place.join("usr/lib/x86_64-linux-gnu");
    let archive = |folder: &Path| fs::read(folder.join("libdelkuthi.a")).expect("an archive");
    assert!(archive(&lib) == archive(archive_folder()), "the archive is not the proved one");
    for file in [
        "usr/include/delkuthi.h",
        "usr/share/man/man1/delkuthi.1.gz",
        "usr/share/man/man3/delkuthi.3.gz",
        "usr/bin/delkuthi",
    ] {
        assert!(place.join(file).exists(), "{file}");
    }
    if packaged() != version() {
        return say(&format!(
            "the packages are of {} and the sources still of {}: the command was not run",
            packaged(),
            version()
        ));
    }
    let mut command = Command::new("/usr/bin/python3");
    command.arg(place.join("usr/bin/delkuthi")).current_dir(root().join("examples"));
    command
        .env("LD_LIBRARY_PATH", &lib)
        .env("PYTHONPATH", place.join("usr/lib/python3/dist-packages"))
        .env_remove("DELKUTHI_LIB");
    let output = command.output().expect("the command can be run");
    assert_eq!(
        (output.status.code(), String::from_utf8_lossy(&output.stdout).into_owned()),
        (Some(1), text_of(&root().join("examples/report.txt")))
    );
}
