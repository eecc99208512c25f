//! Runs the example `audit` on repositories with damaged objects, and with a git that is killed. Needs git.
use std::fs;
use std::os::unix::fs::PermissionsExt;
use std::path::{Path, PathBuf};
use std::process::{Command, Stdio};

/// A repository of 20 blobs and a malformed commit, in a folder that is removed at the end.
struct Sample(PathBuf);

impl Drop for Sample {
    fn drop(&mut self) {
        let _ = fs::remove_dir_all(&self.0);
    }
}

impl Sample {
    /// Returns `None` without git.
    fn new(name: &str) -> Option<Sample> {
        Command::new("git").arg("version").output().ok()?;
        let folder = std::env::temp_dir().join(format!("cinguepo-{name}-{}", std::process::id()));
        fs::create_dir_all(&folder).unwrap();
        let sample = Sample(folder);
        sample.git(&["init", "-q", "."], "");
        for number in 0..20 {
            sample.write("blob", &format!("file {number}\n"));
        }
        sample.write("commit", "malformed");
        Some(sample)
    }

    fn git(&self, arguments: &[&str], input: &str) -> String {
        fs::write(self.0.join("input"), input).unwrap();
        let mut command = Command::new("git");
        let input = fs::File::open(self.0.join("input")).unwrap();
        let done = command.args(arguments).current_dir(&self.0).stdin(input);
        let done = done.output().unwrap();
        assert!(done.status.success(), "{arguments:?}");
        String::from_utf8(done.stdout).unwrap().trim().into()
    }

    fn write(&self, kind: &str, content: &str) -> String {
        let options = ["hash-object", "-w", "--literally", "-t", kind, "--stdin"];
        self.git(&options, content)
    }

    /// The lines that the example prints. Its status is 1.
    fn audit(&self, path: &Path) -> Vec<String> {
        let tests = std::env::current_exe().unwrap();
        let example = tests.parent().unwrap().with_file_name("examples/audit");
        let places = std::env::var("PATH").unwrap();
        let mut command = Command::new(example);
        let command = command.arg(&self.0).stderr(Stdio::null());
        let done = command.env("PATH", format!("{}:{places}", path.display()));
        let done = done.output().expect("`cargo test` builds the example");
        assert_eq!(done.status.code(), Some(1));
        let lines = String::from_utf8(done.stdout).unwrap();
        assert!(lines.contains(": malformed object\n"), "{lines}");
        lines.lines().map(String::from).collect()
    }
}

#[test]
fn reports_object_of_unknown_kind() {
    let Some(sample) = Sample::new("kind") else {
        return;
    };
    let bogus = sample.write("bogus", "x");
    let lines = sample.audit(Path::new("/nowhere"));
    assert!(lines.contains(&format!("{bogus}: unreadable: git ended")));
    let last = "21 of 22 objects read; faults: 2; failures of git: 1";
    assert_eq!(lines[2..], [last]);
}

#[test]
fn reports_damaged_object() {
    let Some(sample) = Sample::new("damage") else {
        return;
    };
    let oid = sample.write("blob", "file 7\n");
    let path = sample
        .0
        .join(".git/objects")
        .join(&oid[..2])
        .join(&oid[2..]);
    fs::remove_file(&path).unwrap();
    fs::write(&path, "other bytes").unwrap();
    let lines = sample.audit(Path::new("/nowhere"));
    assert!(lines.contains(&format!("{oid}: unreadable: {oid} missing")));
    assert!(lines[2].starts_with("20 of 21 objects read; faults: 2"));
}

/// The script passes five ids to git, each alone, and then is killed.
#[test]
fn starts_killed_git_again() {
    let Some(sample) = Sample::new("killed") else {
        return;
    };
    let found = Command::new("sh").args(["-c", "command -v git"]).output();
    let git = String::from_utf8(found.unwrap().stdout).unwrap();
    let git = git.trim();
    let script = format!(
        "#!/bin/sh\ncase \"$*\" in *--batch) ;; *) exec {git} \"$@\" ;; esac\nn=0\n\
         while [ $n -lt 5 ] && read -r id; do echo \"$id\" | {git} \"$@\"; n=$((n + 1)); done\nkill -9 $$\n"
    );
    let path = sample.0.join("bin");
    fs::create_dir(&path).unwrap();
    fs::write(path.join("git"), script).unwrap();
    fs::set_permissions(path.join("git"), fs::Permissions::from_mode(0o755)).unwrap();
    let lines = sample.audit(&path);
    // the last run is killed too, when its input ends
    assert_eq!(
        lines[1..],
        ["21 of 21 objects read; faults: 1; failures of git: 5"]
    );
}
