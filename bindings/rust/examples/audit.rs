//! Audits the objects of a repository: `cargo run --example audit -- REPOSITORY`. It needs `gixobj_c` alone.
//!
//! The status is 0 if git lists and reads all objects, and none has a fault. Otherwise it is 1.
use cinguepo::{HashKind, Kind, check, verify};
use std::error::Error;
use std::io::{self, BufRead, BufReader, Read, Write};
use std::process::{Child, Command, ExitCode, Stdio};

/// The name of an object's kind, and its content.
type Object = (String, Vec<u8>);

/// A run of git that reads objects.
struct Reader(Child);

impl Reader {
    fn start(folder: &str) -> io::Result<Reader> {
        let git = git(folder, &["--batch"])
            .stdin(Stdio::piped())
            .stdout(Stdio::piped())
            .spawn()?;
        Ok(Reader(git))
    }

    /// Reads an object. An error says that git ended, or did not print this object.
    fn read(&mut self, hex: &str) -> Result<Object, Box<dyn Error>> {
        let ids = self.0.stdin.as_mut().ok_or("no input of git")?;
        ids.write_all(format!("{hex}\n").as_bytes())?;
        // git prints nothing after the object, so nothing is left in the buffer
        let mut objects = BufReader::new(self.0.stdout.as_mut().ok_or("no output of git")?);
        let mut line = String::new();
        objects.read_line(&mut line)?;
        let parts: Vec<_> = line.split_whitespace().collect();
        let [found, kind, size] = parts[..] else {
            let problem = if line.is_empty() {
                "git ended"
            } else {
                line.trim()
            };
            return Err(problem.into());
        };
        let mut content = vec![0; size.parse()?];
        objects.read_exact(&mut content)?;
        objects.read_exact(&mut [0])?;
        if found == hex {
            Ok((kind.into(), content))
        } else {
            Err("another object".into())
        }
    }

    /// Ends git. Returns whether it succeeded.
    fn end(mut self) -> io::Result<bool> {
        drop(self.0.stdin.take());
        drop(self.0.stdout.take());
        Ok(self.0.wait()?.success())
    }
}

/// `git cat-file` of the objects themselves, and of no replacements.
fn git(folder: &str, options: &[&str]) -> Command {
    let mut command = Command::new("git");
    command.args(["-C", folder, "--no-replace-objects", "cat-file"]);
    command.args(options);
    command
}

/// Returns the ids of all objects in hex, and whether git printed no error. It opens no object for that, so it lists also
/// those that it can't read.
fn ids(folder: &str) -> Result<(Vec<String>, bool), Box<dyn Error>> {
    let options = ["--batch-all-objects", "--batch-check=%(objectname)"];
    let listed = git(folder, &options).output()?;
    let errors = String::from_utf8_lossy(&listed.stderr);
    eprint!("{errors}");
    let has_error = errors.lines().any(|line| line.starts_with("error:"));
    let found = String::from_utf8(listed.stdout)?;
    let found = found.lines().map(String::from).collect();
    Ok((found, listed.status.success() && !has_error))
}

/// Returns the faults of an object.
fn faults(hex: &str, kind: &str, content: &[u8]) -> Result<Vec<String>, Box<dyn Error>> {
    let hash = if hex.len() == 40 {
        HashKind::Sha1
    } else {
        HashKind::Sha256
    };
    let kind = match kind {
        "commit" => Kind::Commit,
        "tree" => Kind::Tree,
        "blob" => Kind::Blob,
        "tag" => Kind::Tag,
        other => return Ok(vec![format!("unknown kind {other}")]),
    };
    let id: Vec<u8> = (0..hex.len())
        .step_by(2)
        .map(|at| u8::from_str_radix(&hex[at..at + 2], 16))
        .collect::<Result<_, _>>()?;
    let mut found = Vec::new();
    if !verify(hash, kind, content, &id) {
        found.push("another id".into());
    }
    if let Err(error) = check(hash, kind, content) {
        found.push(error.to_string());
    }
    Ok(found)
}

/// Reads an object, in a second run of git if the first one fails: that may have been killed. Counts the failure.
fn read_object(
    folder: &str,
    reader: &mut Reader,
    hex: &str,
    failures: &mut u32,
) -> io::Result<Result<Object, Box<dyn Error>>> {
    let first = reader.read(hex);
    if first.is_ok() {
        return Ok(first);
    }
    *failures += 1;
    std::mem::replace(reader, Reader::start(folder)?).end()?;
    let second = reader.read(hex);
    if second.is_err() {
        std::mem::replace(reader, Reader::start(folder)?).end()?;
    }
    Ok(second)
}

fn main() -> Result<ExitCode, Box<dyn Error>> {
    let folder = std::env::args().nth(1).ok_or("usage: audit REPOSITORY")?;
    let (ids, is_listed) = ids(&folder)?;
    let (mut read, mut count, mut failures) = (0, 0, u32::from(!is_listed));
    let mut reader = Reader::start(&folder)?;
    for hex in &ids {
        let found = match read_object(&folder, &mut reader, hex, &mut failures)? {
            Ok((kind, content)) => {
                read += 1;
                faults(hex, &kind, &content)?
            }
            Err(error) => vec![format!("unreadable: {error}")],
        };
        for fault in &found {
            println!("{hex}: {fault}");
        }
        count += found.len();
    }
    failures += u32::from(!reader.end()?);
    let listed = ids.len();
    println!("{read} of {listed} objects read; faults: {count}; failures of git: {failures}");
    let is_sound = read == listed && count == 0 && failures == 0;
    Ok(ExitCode::from(u8::from(!is_sound)))
}
