//! The release as a buyer gets it: made twice in different folders, unpacked, checked, and used without the kit.

use checks::documents::text_of;
use checks::hosts::{Ran, c_compiler, done, ran, say};
use checks::places::{Folder, archive_folder, root};
use checks::release::{make_in, path_without, version};
use std::collections::{HashMap, HashSet};
use std::fs;
use std::path::{Path, PathBuf};
use std::process::Command;
use std::sync::OnceLock;

/// What the gate keeps of a run that passed.
const GATE: &str = "12 passed, 0 failed\n3 minutes on 2 processors\n";
/// What it keeps of a run on a slower machine, and of one that failed.
const SLOWER: &str = "13 passed, 0 failed\n44 minutes on 1 processors\n";
const FAILED: &str = "11 passed, 1 failed\n3 minutes on 2 processors\n";

/// The commit, in a line.
fn commit() -> String {
    done(Command::new("git").args(["rev-parse", "HEAD"]).current_dir(root()))
}

/// Clones the repository to this place, with what the gate said of its commit if it ran. Returns false if the sources are in no
/// repository.
fn cloned(clone: &Path, gate: Option<&str>) -> bool {
    if !root().join(".git").exists() {
        say("the sources are in no git repository: no release was made");
        return false;
    }
    done(Command::new("git").arg("clone").arg("--quiet").arg(root()).arg(clone));
    if let Some(text) = gate {
        fs::create_dir(clone.join("target")).expect("a folder");
        fs::write(clone.join("target/gate"), format!("{}{text}", commit())).expect("a file");
    }
    true
}

/// The tarball that a clone of the repository at this place gives, with what the gate said of its commit; none if the sources are in
/// no repository.
fn tarball(clone: &Path, gate: &str) -> Option<PathBuf> {
    cloned(clone, Some(gate)).then(|| {
        done(make_in(clone).arg("dist"));
        clone.join(format!("build/{}.tar.gz", release_name()))
    })
}

fn release_name() -> String {
    format!("delkuthi-{}-x86_64-linux", version())
}

/// The release, unpacked; none where the sources are in no repository.
fn release() -> Option<&'static Path> {
    static RELEASE: OnceLock<Option<PathBuf>> = OnceLock::new();
    let made = || {
        let folder = Path::new(env!("OUT_DIR")).join("release");
        let _ = fs::remove_dir_all(&folder);
        let packed = tarball(&folder.join("clone"), GATE)?;
        done(Command::new("tar").arg("-xzf").arg(packed).arg("-C").arg(&folder));
        Some(folder.join(release_name()))
    };
    RELEASE.get_or_init(made).as_deref()
}

/// Two releases of one commit are the same to the byte, also if one gate took longer. What the gate said is beside the tarball.
#[test]
fn two_releases_are_the_same_to_the_byte() {
    let (one, other) = (Folder::new(), Folder::new());
    let first = tarball(&one.path().join("a"), GATE);
    let second = tarball(&other.path().join("another-folder/below"), SLOWER);
    let (Some(first), Some(second)) = (first, second) else { return };
    assert!(fs::read(&first).expect("a tarball") == fs::read(&second).expect("a tarball"));
    for (packed, line, time) in
        [(first, "12 passed, 0 failed", "3 minutes on 2"), (second, "13 passed, 0 failed", "44 minutes on 1")]
    {
        let said = text_of(&packed.with_file_name(format!("{}.gate.txt", release_name())));
        let expected = format!("commit: {}gate, last line: {line}\ngate, time: {time} processors\n", commit());
        assert_eq!(said, expected);
        let manifest = text_of(&packed.with_file_name(release_name()).join("MANIFEST.md"));
        assert!(manifest.starts_with("The gate passed on this commit.\n"), "{manifest}");
    }
}

/// A gate that failed, that was not run, or that ran on another commit makes no release. By the option the release is made, and the first
/// line of its manifest says so.
#[test]
fn no_release_without_a_gate_that_passed() {
    let folder = Folder::new();
    let clone = folder.path().join("clone");
    if !cloned(&clone, Some(FAILED)) {
        return;
    }
    let refused = |said: &str| {
        let output = make_in(&clone).arg("dist").output().expect("make can be run");
        let text = String::from_utf8_lossy(&output.stderr).into_owned();
        assert!(!output.status.success() && text.contains(said) && text.contains("UNCHECKED=yes"), "{text}");
        assert!(!clone.join("build").join(format!("{}.tar.gz", release_name())).exists());
    };
    refused("11 passed, 1 failed");
    fs::write(clone.join("target/gate"), format!("{}\n{GATE}", "0".repeat(40))).expect("a file");
    refused("not run on this commit");
    fs::remove_file(clone.join("target/gate")).expect("a file");
    refused("not run on this commit");
    done(make_in(&clone).args(["dist", "UNCHECKED=yes"]));
    let manifest = text_of(&clone.join("build").join(release_name()).join("MANIFEST.md"));
    assert!(manifest.starts_with("**NOT CHECKED: "), "{manifest}");
}

/// The sources of the release are in no repository. The check of their text passes there, and their gate names what is missing.
#[test]
fn the_gate_of_the_release_needs_no_git() {
    let Some(release) = release() else { return };
    let without = Folder::new();
    let path = path_without("git", &without);
    // outside of this repository, as a buyer unpacks it
    let folder = Folder::new();
    done(Command::new("cp").arg("-r").arg(release.join("source")).arg(folder.path()));
    let sources = folder.path().join("source");
    let said = done(Command::new("python3").arg("release/text-check.py").current_dir(&sources).env("PATH", &path));
    assert!(said.ends_with("0 lines above\n"), "{said}");
    let mut gate = Command::new("bash");
    gate.arg(".ci/run").current_dir(&sources).env("PATH", path).env("DELKUTHI_LIB", folder.path());
    let output = gate.output().expect("bash can be run");
    let text = String::from_utf8_lossy(&output.stdout).into_owned();
    assert!(
        text.contains("libdelkuthi.a (DELKUTHI_LIB has to name") && text.ends_with("\n0 passed, 1 failed\n"),
        "{text}"
    );
    assert_eq!(output.status.code(), Some(2));
}

#[test]
fn the_checksums() {
    let Some(release) = release() else { return };
    let check = || Command::new("sha256sum").args(["--check", "--quiet", "SHA256SUMS"]).current_dir(release).output();
    assert_eq!(ran(check()), Ran::new(0, ""));
    let sums = text_of(&release.join("SHA256SUMS"));
    let wheel = format!("  python/delkuthi-{}-py3-none-linux_x86_64.whl", version());
    assert!(sums.lines().any(|line| line.ends_with(&wheel)), "{wheel}");
    for name in [
        "MANIFEST.md",
        "lib/libdelkuthi.a",
        "include/delkuthi.h",
        "portable/src/lib.rs",
        "kit/vectors.c",
        "kit/COVERAGE.md",
        "source/crates.txt",
        "LICENSE",
    ] {
        assert!(sums.lines().any(|line| line.ends_with(&format!("  {name}"))), "{name}");
    }
    let archive = |folder: &Path| fs::read(folder.join("libdelkuthi.a")).expect("an archive");
    assert!(archive(&release.join("lib")) == archive(archive_folder()));
}

/// The manifest says what the release is of, and names each function of the archive with the place that declares it.
#[test]
fn the_manifest() {
    let Some(release) = release() else { return };
    let text = text_of(&release.join("MANIFEST.md"));
    let commit = commit();
    let kit = "rattle logic=";
    assert!(
        text.contains(&format!("| version | {} |", version()))
            && text.contains(&format!("| commit | {} |", commit.trim()))
    );
    let identity = text.split(kit).nth(1).expect("the kit").split('`').next().expect("its end");
    assert_eq!(identity.len(), 64);
    assert!(!text.contains("12 passed") && !text.contains("3 minutes on"), "{text}");
    let functions: Vec<Vec<&str>> = text
        .lines()
        .filter(|line| line.starts_with("| `") && line.contains("crates/"))
        .map(|line| line.split(" | ").collect())
        .collect();
    let symbols = done(Command::new("nm").args(["-g", "--defined-only"]).arg(release.join("lib/libdelkuthi.a")));
    let calls = symbols.lines().filter_map(|line| line.split_once(" T delkuthi_"));
    for (_, call) in calls {
        assert!(functions.iter().any(|row| row[0] == format!("| `delkuthi_{call}`")), "{call}");
    }
    for row in functions {
        let (file, line) = row[2].rsplit_once(':').expect("a file and a line");
        let source = text_of(&release.join("source").join(file));
        let declared = source.lines().nth(line.parse::<usize>().expect("a number") - 1).expect("a line");
        // An instance of a generic function ends in a number of its own.
        let (name, after) = match row[0].trim_matches(['|', ' ', '`']).split_once("::<") {
            Some((name, _)) => (name, '<'),
            None => (row[0].trim_matches(['|', ' ', '`']), '('),
        };
        let name = name.rsplit("::").next().expect("a name");
        assert!(declared.contains(&format!("fn {name}{after}")), "{row:?}: {declared}");
    }
}

/// A list of parts in the form of SPDX, as its tags and values; a text of several lines is one value.
fn tags(text: &str) -> Vec<(String, String)> {
    let (mut found, mut lines) = (Vec::new(), text.lines());
    while let Some(line) = lines.next() {
        if line.is_empty() {
            continue;
        }
        let (tag, value) = line.split_once(": ").unwrap_or_else(|| panic!("neither a tag nor a value: {line}"));
        let mut value = value.to_string();
        while value.starts_with("<text>") && !value.ends_with("</text>") {
            value = format!("{value}\n{}", lines.next().expect("the end of a text"));
        }
        found.push((tag.to_string(), value));
    }
    found
}

/// The parts of the list that begin with a tag, each with its own tags up to the next part.
fn parts<'a>(tags: &'a [(String, String)], begin: &str) -> Vec<HashMap<&'a str, Vec<&'a str>>> {
    let begins = |tag: &str| ["FileName", "PackageName", "LicenseID"].contains(&tag);
    let whole = tags.chunk_by(|_, next| !begins(&next.0));
    let part = |part: &'a [(String, String)]| {
        let mut by_tag: HashMap<&str, Vec<&str>> = HashMap::new();
        part.iter().for_each(|(tag, value)| by_tag.entry(tag).or_default().push(value));
        by_tag
    };
    whole.filter(|part| part[0].0 == begin).map(part).collect()
}

/// Every file of the release is in the list, with the checksum of `SHA256SUMS`, a licence and a relation to the package; the sum over all
/// files is right; each identity stands once, and each relation names what is there.
#[test]
fn the_list_of_parts() {
    let Some(release) = release() else { return };
    let tags = tags(&text_of(&release.join("delkuthi.spdx")));
    let files = parts(&tags, "FileName");
    let sums: HashMap<String, String> = text_of(&release.join("SHA256SUMS"))
        .lines()
        .filter_map(|line| line.split_once("  ").map(|(sum, name)| (format!("./{name}"), format!("SHA256: {sum}"))))
        .filter(|(name, _)| name != "./delkuthi.spdx")
        .collect();
    let listed =
        files.iter().map(|file| (file["FileName"][0].to_string(), file["FileChecksum"][1].to_string())).collect();
    assert!(sums == listed, "the list of parts and SHA256SUMS differ");
    let mut first: Vec<&str> = files.iter().map(|file| file["FileChecksum"][0].trim_start_matches("SHA1: ")).collect();
    first.sort();
    let folder = Folder::new();
    let sum = done(Command::new("sha1sum").arg(folder.write("sums", first.concat().as_bytes())));
    let packages = parts(&tags, "PackageName");
    let code = packages[0]["PackageVerificationCode"][0].split(' ').next().expect("a sum");
    assert!(sum.starts_with(code), "{sum} {code}");
    for file in &files {
        let relation = format!("SPDXRef-Delkuthi CONTAINS {}", file["SPDXID"][0]);
        assert!(
            file["Relationship"] == [relation.as_str()] && file["LicenseConcluded"] == ["LicenseRef-Delkuthi"],
            "{file:?}"
        );
        assert!(
            ["LicenseInfoInFile", "FileCopyrightText", "FileType"].iter().all(|tag| file.contains_key(tag)),
            "{file:?}"
        );
    }
    for package in &packages {
        let needed = [
            "PackageDownloadLocation",
            "PackageLicenseConcluded",
            "PackageLicenseDeclared",
            "PackageCopyrightText",
            "SPDXID",
        ];
        assert!(needed.iter().all(|tag| package.contains_key(tag)), "{package:?}");
    }
    assert_eq!(parts(&tags, "LicenseID")[0]["LicenseID"], ["LicenseRef-Delkuthi"]);
    names_what_is_there(&tags);
}

/// Each identity of a list of parts stands once, and each relation is between two of them.
fn names_what_is_there(tags: &[(String, String)]) {
    let of =
        |name: &str| tags.iter().filter(|(tag, _)| tag == name).map(|(_, value)| value.as_str()).collect::<Vec<&str>>();
    let (each, once) = (of("SPDXID"), of("SPDXID").into_iter().collect::<HashSet<&str>>());
    assert_eq!(each.len(), once.len());
    for relation in of("Relationship") {
        let words: Vec<&str> = relation.split(' ').collect();
        assert!(words.len() == 3 && once.contains(words[0]) && once.contains(words[2]), "{relation}");
    }
    for tag in ["SPDXVersion", "DataLicense", "DocumentName", "DocumentNamespace", "Created"] {
        assert_eq!(of(tag).len(), 1, "{tag}");
    }
}

/// A folder with a tarball and the file of its checksum, as `make dist` leaves them.
fn to_sign() -> (Folder, String) {
    let (folder, name) = (Folder::new(), format!("delkuthi-{}.sha256", version()));
    folder.write("packed.tar.gz", b"a tarball");
    let sum = done(Command::new("sha256sum").arg("packed.tar.gz").current_dir(folder.path()));
    folder.write(&name, sum.as_bytes());
    (folder, name)
}

/// `make sign` with a key; the status and what it said.
fn sign(folder: &Folder, key: &Path) -> (bool, String) {
    let mut command = make_in(&root());
    command.arg("sign").arg(format!("BUILD={}", folder.path().display())).arg(format!("KEY={}", key.display()));
    let output = command.output().expect("make can be run");
    (output.status.success(), String::from_utf8_lossy(&output.stderr).into_owned())
}

/// The checksums are signed with a key for this test, the signature is good, and it is not for other checksums. What does not fit its
/// checksum is not signed.
#[test]
fn the_checksums_can_be_signed() {
    let (folder, name) = to_sign();
    let (key, public) = (folder.path().join("secret"), folder.path().join("public"));
    assert!(sign(&folder, Path::new("")).1.contains("make sign KEY=.."));
    if !checks::hosts::found("minisign") {
        return say("minisign is not installed: nothing was signed");
    }
    done(Command::new("minisign").args(["-G", "-W", "-f", "-s"]).arg(&key).arg("-p").arg(&public));
    let (signed, said) = sign(&folder, &key);
    assert!(signed, "{said}");
    let verified = |file: &str| {
        let mut minisign = Command::new("minisign");
        minisign.args(["-V", "-q", "-p"]).arg(&public).arg("-m").arg(folder.path().join(file));
        minisign.output().expect("minisign can be run").status.success()
    };
    assert!(verified(&name));
    fs::write(folder.path().join(&name), "0  packed.tar.gz\n").expect("a file");
    assert!(!verified(&name));
    let (signed, said) = sign(&folder, &key);
    assert!(!signed && said.contains("nothing is signed"), "{said}");
}

/// From the tarball alone and without the kit: the lines of its README, a host by pkg-config, the program.
#[test]
fn a_buyer_without_the_kit() {
    let Some(release) = release() else { return };
    let without = Folder::new();
    let path = path_without("rt", &without);
    let readme = text_of(&release.join("README.md"));
    let lines: Vec<&str> = readme.lines().filter_map(|line| line.strip_prefix("    ")).collect();
    let shell = |text: &str| done(Command::new("sh").arg("-ec").arg(text).current_dir(release).env("PATH", &path));
    let out = Folder::new();
    let here = lines.join("\n").replace("-o report", &format!("-o {}/report", out.path().display()));
    let here = here.replace("./report", &format!("{}/report", out.path().display()));
    let drive = text_of(&root().join("examples/report.txt"));
    assert_eq!(shell(&here), drive, "{here}");
    assert_eq!(shell("bin/delkuthi --version"), format!("delkuthi {}\n", version()));
    if !checks::hosts::found("pkg-config") {
        return say("pkg-config is not installed: the release's file for it was not used");
    }
    let flags = shell("PKG_CONFIG_PATH=lib/pkgconfig pkg-config --cflags --libs delkuthi");
    let build = format!(
        "cc share/doc/delkuthi/examples/report.c share/doc/delkuthi/examples/file.c {} -Wl,-rpath,$PWD/lib -o {}/report",
        flags.trim(),
        out.path().display()
    );
    shell(&build);
    let examples = "share/doc/delkuthi/examples";
    let report = shell(&format!("{}/report {examples}/table.bin {examples}/recording.bin", out.path().display()));
    assert_eq!(report, drive);
}

/// The kit of the tarball, compiled as its page says, passes on the archive of the tarball.
#[test]
fn the_qualification_kit_of_the_release() {
    let Some(release) = release() else { return };
    let readme = text_of(&release.join("kit/README.md"));
    let lines: Vec<&str> = readme.lines().filter_map(|line| line.strip_prefix("    ")).collect();
    let out = Folder::new();
    let program = out.path().join("kit").display().to_string();
    let shell = lines.join("\n").replace("-o kit", &format!("-o {program}")).replace("./kit", &program);
    let said = done(Command::new("sh").arg("-ec").arg(shell).current_dir(release.join("kit")));
    assert!(said.ends_with(" passed, 0 failed\n") && !said.starts_with('0'), "{said}");
}

/// The portable sources of the tarball build by themselves, and answer the calls that come with them as the proved archive did.
#[test]
fn the_portable_sources_of_the_release() {
    let Some(release) = release() else { return };
    let target = Folder::new();
    let mut cargo = Command::new(env!("CARGO"));
    cargo.args(["build", "--release", "--offline", "--quiet", "--locked"]).current_dir(release.join("portable"));
    let said = done(cargo.env("CARGO_TARGET_DIR", target.path()));
    assert_eq!(said, "");
    let archive = target.path().join("release/libdelkuthi.a");
    let (test, player) = (release.join("portable/test"), target.path().join("player"));
    let mut compiler = c_compiler();
    compiler
        .arg("-I")
        .arg(release.join("portable/include"))
        .arg(test.join("player.c"))
        .arg(archive)
        .arg("-o")
        .arg(&player);
    assert_eq!(done(&mut compiler), "");
    let answers = text_of(&test.join("answers"));
    assert_eq!(ran(Command::new(player).arg(test.join("script")).output()), Ran::new(0, &answers));
    assert!(answers.lines().count() > 1_000);
}
