//! The file that a command writes. A [`Destination`] is made from the arguments before any file is read, and says what may not be
//! written. The bytes then go into a new file beside it, which takes the name when it is whole.

use crate::input;
use crate::status::Failure;
use std::ffi::OsStr;
use std::fmt::Display;
use std::fs::{self, File, Metadata, OpenOptions, Permissions};
use std::io::{self, ErrorKind, Write};
use std::os::fd::AsFd;
use std::path::{Path, PathBuf};
use std::process;

/// The option that lets a result replace a file.
pub const FORCE: &str = "--force";

/// Where the result of a command goes.
pub struct Destination<'a> {
    /// The name in the arguments, for messages.
    name: &'a OsStr,
    /// The file itself: a link stays a link, and its file gets the bytes.
    path: PathBuf,
    /// The permissions of the file that is replaced; `None` where there is none, and then none that comes meanwhile is replaced.
    replaced: Option<Permissions>,
}

impl<'a> Destination<'a> {
    /// Tests whether a command that reads these inputs may write this result. Nothing is opened or made yet.
    pub fn new(name: &'a OsStr, inputs: &[&OsStr], force: bool) -> Result<Self, Failure> {
        if name == "-" {
            return Err(Failure::usage("a result needs a name, and - is none"));
        }
        match fs::metadata(name) {
            Ok(old) => Self::replacing(name, &old, inputs, force),
            Err(error) if error.kind() == ErrorKind::NotFound => Self::making(name),
            Err(error) => Err(unwritten(name, error)),
        }
    }

    /// A file that is there.
    fn replacing(
        name: &'a OsStr,
        old: &Metadata,
        inputs: &[&OsStr],
        force: bool,
    ) -> Result<Self, Failure> {
        // An input that has no metadata is not this file; reading it will say what is wrong with it.
        let mut inputs = inputs.iter().flat_map(|input| input::metadata(input));
        if inputs.any(|input| input::is_same(&input, old)) {
            let name = name.display();
            let message = format!("{name}: the result would replace a file that is read");
            return Err(Failure::usage(message));
        }
        let reason = if !old.is_file() {
            "not a regular file"
        } else if is_printed_to(old) {
            "what this command prints goes there"
        } else if old.permissions().readonly() {
            "it is read-only"
        } else if !force {
            "it is there already, and only --force replaces it"
        } else {
            return Ok(Self {
                name,
                path: fs::canonicalize(name).map_err(|error| unwritten(name, error))?,
                replaced: Some(old.permissions()),
            });
        };
        Err(unwritten(name, reason))
    }

    /// A name under which there is no file.
    fn making(name: &'a OsStr) -> Result<Self, Failure> {
        if fs::symlink_metadata(name).is_ok() {
            return Err(unwritten(name, "a symbolic link to no file"));
        }
        let path = Path::new(name);
        // `result/` and `result/.` name a folder, though `Path` gives them the last part `result`.
        let is_last = |part: &OsStr| name.as_encoded_bytes().ends_with(part.as_encoded_bytes());
        if !path.file_name().is_some_and(is_last) {
            return Err(unwritten(name, "it does not name a file"));
        }
        let folder = match path.parent() {
            Some(folder) if folder != "" => folder,
            _ => Path::new("."),
        };
        if let Err(error) = fs::metadata(folder) {
            let reason = format!("folder {}: {error}", folder.display());
            return Err(unwritten(name, reason));
        }
        Ok(Self {
            name,
            path: path.to_path_buf(),
            replaced: None,
        })
    }

    /// Gives the file these bytes. Where that fails, the file is as it was, and nothing stays beside it.
    pub fn write(self, bytes: &[u8]) -> Result<(), Failure> {
        self.put(bytes).map_err(|error| unwritten(self.name, error))
    }

    fn put(&self, bytes: &[u8]) -> io::Result<()> {
        let mut new = Beside::create(&self.path)?;
        new.file.write_all(bytes)?;
        if let Some(permissions) = &self.replaced {
            new.file.set_permissions(permissions.clone())?;
        }
        new.file.sync_all()?;
        match self.replaced {
            Some(_) => new.replace(&self.path),
            None => new.appear(&self.path),
        }
    }
}

fn unwritten(name: &OsStr, reason: impl Display) -> Failure {
    let name = name.display();
    Failure::new(format!("{name}: could not be written: {reason}"))
}

/// Whether standard output or standard error goes to a file, which then also has the name /dev/stdout or /dev/stderr. A result in
/// its place would take away what is printed.
fn is_printed_to(file: &Metadata) -> bool {
    let streams = [
        io::stdout().as_fd().try_clone_to_owned(),
        io::stderr().as_fd().try_clone_to_owned(),
    ];
    streams
        .into_iter()
        .flatten()
        .flat_map(|stream| File::from(stream).metadata())
        .any(|stream| input::is_same(&stream, file))
}

/// A new file in the folder of another, removed again unless it was renamed.
struct Beside {
    file: File,
    path: PathBuf,
    is_renamed: bool,
}

impl Beside {
    /// The name is this process's; a number is added while such a file is there already.
    fn create(other: &Path) -> io::Result<Self> {
        for number in 0_u32.. {
            let name = format!(".sgub-{}-{number}.part", process::id());
            let path = other.with_file_name(name);
            match create_new(&path) {
                Err(error) if error.kind() == ErrorKind::AlreadyExists => {}
                opened => {
                    return opened.map(|file| Self {
                        file,
                        path,
                        is_renamed: false,
                    });
                }
            }
        }
        Err(ErrorKind::AlreadyExists.into())
    }

    /// Takes the place of a file.
    fn replace(mut self, path: &Path) -> io::Result<()> {
        fs::rename(&self.path, path)?;
        self.is_renamed = true;
        Ok(())
    }

    /// Takes a name that no file has. Renaming would replace a file that came meanwhile, and making a hard link fails there. The
    /// name beside it goes when this is dropped.
    fn appear(self, path: &Path) -> io::Result<()> {
        match fs::hard_link(&self.path, path) {
            Err(error) if error.kind() != ErrorKind::AlreadyExists => self.claim(path),
            linked => linked,
        }
    }

    /// The same where the file system has no hard links: an empty file is made under the name, which also fails if there is one,
    /// and is then replaced. A failure of another cause than hard links comes again here.
    fn claim(self, path: &Path) -> io::Result<()> {
        create_new(path)?;
        self.replace(path).inspect_err(|_| {
            // The failure is reported; this one could add nothing.
            let _ = fs::remove_file(path);
        })
    }
}

impl Drop for Beside {
    fn drop(&mut self) {
        if !self.is_renamed {
            // What led here is reported, or the file has its other name; a failure could add nothing.
            let _ = fs::remove_file(&self.path);
        }
    }
}

fn create_new(path: &Path) -> io::Result<File> {
    OpenOptions::new().write(true).create_new(true).open(path)
}

#[cfg(test)]
mod tests {
    use super::*;
    use std::env;

    /// An empty folder for one test.
    fn folder(test: &str) -> PathBuf {
        let folder = env::temp_dir().join(format!("sgub-output-{}-{test}", process::id()));
        fs::create_dir(&folder).unwrap();
        folder
    }

    /// A whole file beside `result`, which is then given that name.
    fn publish(folder: &Path, how: fn(Beside, &Path) -> io::Result<()>) -> io::Result<()> {
        let path = folder.join("result");
        let mut new = Beside::create(&path)?;
        new.file.write_all(b"new")?;
        how(new, &path)
    }

    /// The names and bytes in the folder, which is then removed.
    fn left(folder: &Path) -> Vec<(String, Vec<u8>)> {
        let files = fs::read_dir(folder).unwrap().map(|entry| {
            let entry = entry.unwrap();
            let name = entry.file_name().into_string().unwrap();
            (name, fs::read(entry.path()).unwrap())
        });
        let files = files.collect();
        fs::remove_dir_all(folder).unwrap();
        files
    }

    /// With and without hard links, a new file gets the name, and a file that is there keeps it.
    #[test]
    fn a_new_file_replaces_none() {
        for (test, how) in [
            ("link", Beside::appear as fn(Beside, &Path) -> _),
            ("claim", Beside::claim),
        ] {
            let made = folder(test);
            publish(&made, how).unwrap();
            assert_eq!(left(&made), [("result".into(), b"new".into())]);
            let kept = folder(test);
            fs::write(kept.join("result"), b"old").unwrap();
            let error = publish(&kept, how).unwrap_err();
            assert_eq!(error.kind(), ErrorKind::AlreadyExists);
            assert_eq!(left(&kept), [("result".into(), b"old".into())]);
        }
    }

    #[test]
    fn a_file_that_cannot_be_renamed_leaves_no_claim() {
        let folder = folder("claimed");
        let error = publish(&folder, |new, path| {
            fs::remove_file(&new.path)?;
            new.claim(path)
        });
        assert_eq!(error.unwrap_err().kind(), ErrorKind::NotFound);
        assert_eq!(left(&folder), []);
    }
}
