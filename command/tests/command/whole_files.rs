//! `compose -o`: whole files or none.
use crate::running::{run, shell, shipped_one, Folder};
use std::os::unix::fs::{symlink, PermissionsExt};

const TABLE: &[u8] = b"policy 0\ntask period deadline lock frames\n0 10 4 0 2\n1 20 20 3 5\n";
const BAD: &[u8] = b"policy 0\ntask period deadline lock frames\n0 10 11 0 2\n";

fn sheet() -> Vec<u8> {
    std::fs::read(shipped_one("f")).unwrap()
}

#[test]
fn a_new_file_and_an_old_one() {
    let folder = Folder::new("new-and-old");
    folder.file("t", TABLE);
    for _ in 0..2 {
        assert_eq!(shell(&folder.0, "umask 027; \"$0\" compose t -o f.sheet").done(0), "");
        assert_eq!(std::fs::read(folder.0.join("f.sheet")).unwrap(), sheet());
        assert_eq!(folder.names(), ["f.sheet", "t"]);
    }
    assert_eq!(std::fs::metadata(folder.0.join("f.sheet")).unwrap().permissions().mode() & 0o777, 0o640);
    std::fs::set_permissions(folder.0.join("f.sheet"), std::fs::Permissions::from_mode(0o604)).unwrap();
    assert_eq!(shell(&folder.0, "\"$0\" compose -o f.sheet < t").done(0), "");
    assert_eq!(std::fs::metadata(folder.0.join("f.sheet")).unwrap().permissions().mode() & 0o777, 0o604);
}

#[test]
fn the_longest_name() {
    let folder = Folder::new("longest");
    folder.file("t", TABLE);
    let name = "n".repeat(255);
    for _ in 0..2 {
        assert_eq!(shell(&folder.0, &format!("\"$0\" compose t -o {name}")).done(0), "");
        assert_eq!(std::fs::read(folder.0.join(&name)).unwrap(), sheet());
        assert_eq!(folder.names(), [name.as_str(), "t"]);
    }
}

#[test]
fn a_failure_leaves_everything_as_it_was() {
    let folder = Folder::new("failures");
    folder.file("t", TABLE);
    folder.file("bad", BAD);
    folder.file("old", b"old");
    std::fs::create_dir(folder.0.join("d")).unwrap();
    symlink("nowhere", folder.0.join("l")).unwrap();
    symlink("t", folder.0.join("link-to-t")).unwrap();
    let before = folder.names();
    assert!(shell(&folder.0, "\"$0\" compose bad -o old").failed(2).starts_with("bad:3: refused 9 (task 0): "));
    for line in [
        "compose bad -o new",
        "compose t -o d",
        "compose t -o d/",
        "compose t -o no/f",
        "compose t -o l",
        "compose t -o t",
        "compose t -o link-to-t",
        "compose -o t < t",
        "compose - -o ./t < t",
        "compose -o link-to-t < t",
        "compose -o t < link-to-t",
        "compose /dev/stdin -o t < t",
        "compose t -o ''",
        "compose t -o /dev/stdout >&-",
    ] {
        let ran = shell(&folder.0, &format!("\"$0\" {line}"));
        ran.failed(if line.contains("bad") { 2 } else { 3 });
        assert_eq!(folder.names(), before, "{line}");
    }
    assert_eq!(std::fs::read(folder.0.join("old")).unwrap(), b"old");
    assert_eq!(std::fs::read(folder.0.join("t")).unwrap(), TABLE);
}

#[test]
fn links_are_followed_and_devices_written() {
    let folder = Folder::new("links");
    folder.file("t", TABLE);
    folder.file("f.sheet", b"old");
    symlink("f.sheet", folder.0.join("l")).unwrap();
    assert_eq!(shell(&folder.0, "\"$0\" compose t -o l").done(0), "");
    assert!(folder.0.join("l").is_symlink());
    assert_eq!(std::fs::read(folder.0.join("f.sheet")).unwrap(), sheet());
    assert_eq!(shell(&folder.0, "\"$0\" compose t -o /dev/null").done(0), "");
    assert!(shell(&folder.0, "\"$0\" compose t -o /dev/full").failed(3).contains("/dev/full: No space left"));
    assert_eq!(shell(&folder.0, "\"$0\" compose t -o -").out, sheet());
    assert_eq!(shell(&folder.0, "\"$0\" compose t -o f.sheet >&-").status, 0);
    // what an output holds already stays
    folder.file("log", b"kept\n");
    assert_eq!(shell(&folder.0, "\"$0\" compose t -o /dev/stdout >> log").done(0), "");
    assert_eq!(std::fs::read(folder.0.join("log")).unwrap(), [b"kept\n".as_slice(), &sheet()].concat());
    std::fs::remove_file(folder.0.join("log")).unwrap();
    assert_eq!(folder.names(), ["f.sheet", "l", "t"]);
}

#[test]
fn a_missing_target_name_is_usage() {
    assert!(run(&["compose", "-o"]).failed(3).contains("-o needs"));
}
