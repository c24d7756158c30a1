//! The run that document 01 prints, and what is said of files that are refused or
//! cannot be read.

use super::*;
use std::fs;
use std::os::unix::fs::symlink;
use std::path::PathBuf;

/// Document 01's files, with spaces where the files have tabs.
const RULES: &str = "rule accept 10.20.0.0/24 10.30.0.4/31 6 8443
rule accept 10.20.0.9 10.30.0.6 6 8443
rule deny 10.20.0.0/24 10.30.0.6 6 8443
";
const POLICY: &str = "ask accept 10.20.0.0/24 10.30.0.4/30 6 8443
but 10.20.0.0/24 10.30.0.6 6 8443
";

/// And what it prints.
const PRINTED: &str = "verdict wrong 2 0 1 10.20.0.9 10.30.0.6 6 8443
blocks 4
block 4 0 10.20.0.0 10.20.0.8 10.30.0.7 10.30.0.7 6 6 8443 8443
block 2 2 10.20.0.9 10.20.0.9 10.30.0.6 10.30.0.6 6 6 8443 8443
block 4 0 10.20.0.9 10.20.0.9 10.30.0.7 10.30.0.7 6 6 8443 8443
block 4 0 10.20.0.10 10.20.0.255 10.30.0.7 10.30.0.7 6 6 8443 8443
";

fn tabbed(text: &str) -> Vec<u8> {
    text.replace(' ', "\t").into_bytes()
}

/// The answer for two texts with spaces for tabs.
fn told(rules: &str, policy: &str) -> String {
    answer(&Some(tabbed(rules)), &Some(tabbed(policy)), 1_000).unwrap()
}

#[test]
fn the_run_that_the_paper_prints() {
    assert_eq!(told(RULES, POLICY), PRINTED);
}

#[test]
fn hand_made_runs() {
    let any = "0.0.0.0 255.255.255.255 0.0.0.0 255.255.255.255 0 255 0 65535";
    for (rules, policy, printed) in [
        ("", "", "verdict conforms\nblocks 0\n".to_string()),
        (
            "rule deny * * * *\n",
            "ask deny * * * *\n",
            "verdict conforms\nblocks 0\n".to_string(),
        ),
        (
            "rule deny * * * *\n",
            "",
            format!("verdict unasked 1 0 0 0.0.0.0 0.0.0.0 0 0\nblocks 1\nblock 3 1 {any}\n"),
        ),
        (
            "",
            "ask deny * * * *\n",
            format!("verdict unmet-deny 0 0 1 0.0.0.0 0.0.0.0 0 0\nblocks 1\nblock 5 0 {any}\n"),
        ),
        (
            "rule deny * * * *\n",
            "ask accept * * * *\nask deny * * * *\n",
            format!("verdict conflict 0 1 2 0.0.0.0 0.0.0.0 0 0\nblocks 1\nblock 1 0 {any}\n"),
        ),
    ] {
        assert_eq!(told(rules, policy), printed);
    }
}

#[test]
fn the_refusal_of_the_rules_goes_first() {
    assert_eq!(told("#", "#"), "refused rules.txt 2 1 0\n");
    assert_eq!(told("", "\nask\n"), "refused policy.txt 4 2 0\n");
    assert_eq!(
        told("rules\n", "but * * * *\n"),
        "refused rules.txt 3 1 1\n"
    );
    assert_eq!(told("", "but * * * *\n"), "refused policy.txt 11 1 0\n");
}

#[test]
fn what_cannot_be_read_goes_before_any_refusal() {
    let (fine, bad) = (Some(vec![]), Some(b"#".to_vec()));
    for (rules, policy, name) in [
        (&None, &fine, "rules.txt"),
        (&None, &bad, "rules.txt"),
        (&None, &None, "rules.txt"),
        (&fine, &None, "policy.txt"),
        (&bad, &None, "policy.txt"),
    ] {
        assert_eq!(answer(rules, policy, 0), Ok(format!("unreadable {name}\n")));
    }
}

/// Eight blocks with different bounds in every field cut each into 17 strips, the first
/// of which begins at 0.
#[test]
fn too_many_cells_are_told_and_not_tried() {
    let line = |place: u32| {
        let low = 1 + 4 * place;
        let high = low + 1;
        format!("rule accept 0.0.0.{low}-0.0.0.{high} 0.0.0.{low}-0.0.0.{high} {low}-{high} {low}-{high}\n")
    };
    let rules: String = (0..8).map(line).collect();
    let told = |most| answer(&Some(tabbed(&rules)), &Some(vec![]), most);
    let cells = 17 * 17 * 17 * 17;
    assert_eq!(told(cells - 1), Err(TooManyCells(cells)));
    assert!(told(cells)
        .unwrap()
        .starts_with("verdict unasked 1 0 0 0.0.0.1 "));
}

/// A folder of its own, removed at the end.
struct Folder(PathBuf);

impl Folder {
    fn new(name: &str) -> Folder {
        let folder = std::env::temp_dir().join(format!("oracle-run-{name}-{}", std::process::id()));
        fs::create_dir(&folder).unwrap();
        Folder(folder)
    }

    fn path(&self, place: usize) -> PathBuf {
        self.0.join(NAMES[place])
    }

    fn told(&self) -> String {
        run(&self.0).unwrap()
    }
}

impl Drop for Folder {
    fn drop(&mut self) {
        fs::remove_dir_all(&self.0).unwrap();
    }
}

#[test]
fn files_are_read_from_the_folder() {
    let folder = Folder::new("read");
    assert_eq!(folder.told(), "unreadable rules.txt\n");
    fs::write(folder.path(0), tabbed(RULES)).unwrap();
    assert_eq!(folder.told(), "unreadable policy.txt\n");
    fs::write(folder.path(1), tabbed(POLICY)).unwrap();
    assert_eq!(folder.told(), PRINTED);
    fs::write(folder.path(0), vec![b'\n'; 32_769]).unwrap();
    assert_eq!(folder.told(), "refused rules.txt 1 0 0\n");
    fs::write(folder.path(0), vec![b'\n'; 32_768]).unwrap();
    fs::write(folder.path(1), vec![b'#'; 1_000_000]).unwrap();
    assert_eq!(folder.told(), "refused policy.txt 1 0 0\n");
}

#[test]
fn a_directory_and_links_to_nothing_cannot_be_read() {
    let folder = Folder::new("links");
    fs::write(folder.path(0), "#").unwrap();
    fs::create_dir(folder.path(1)).unwrap();
    assert_eq!(folder.told(), "unreadable policy.txt\n");
    fs::remove_dir(folder.path(1)).unwrap();
    for target in ["nothing", NAMES[1], "/proc/self/mem"] {
        symlink(target, folder.path(1)).unwrap();
        assert_eq!(folder.told(), "unreadable policy.txt\n", "{target}");
        fs::remove_file(folder.path(1)).unwrap();
    }
    symlink(NAMES[0], folder.path(1)).unwrap();
    assert_eq!(folder.told(), "refused rules.txt 2 1 0\n");
}
