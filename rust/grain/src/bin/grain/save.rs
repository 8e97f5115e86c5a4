//! Files that are written whole or not at all: in full beside their place, under a name of their own, and then moved into it.
use crate::status::Failure;
use std::ffi::OsStr;
use std::fs::{self, File, Metadata, OpenOptions};
use std::io::{self, Write};
use std::os::unix::fs::{fchown, MetadataExt};
use std::path::{Path, PathBuf};
use std::process;

/// The place of a file, whether one is there or not.
pub struct Place<'n> {
    name: &'n OsStr,
    /// Without links: one in its place would be moved away, and not the file that it leads to.
    path: PathBuf,
    /// The file that is replaced.
    replaced: Option<Metadata>,
}

/// Puts all of these files into their places, in this order, once each is written in full.
pub fn all(files: &[(&Place<'_>, &[u8])]) -> Result<(), Failure> {
    let written = files.iter().map(|(place, bytes)| Beside::new(place, bytes));
    let written = written.collect::<Result<Vec<_>, _>>()?;
    // Where one cannot be moved, those behind it are dropped, and so removed.
    written.into_iter().try_for_each(Beside::moved)
}

impl<'n> Place<'n> {
    pub fn of(name: &'n OsStr) -> Result<Place<'n>, Failure> {
        let found = match fs::canonicalize(name) {
            Ok(path) => replaceable(&path).map(|replaced| (path, Some(replaced))),
            Err(why) if why.kind() == io::ErrorKind::NotFound => free(Path::new(name)).map(|path| (path, None)),
            Err(why) => Err(why),
        };
        let (path, replaced) = found.map_err(|why| Failure::file(name, why))?;
        Ok(Place { name, path, replaced })
    }

    /// Whether a file that is there, by any name, has this place.
    pub fn holds(&self, name: &OsStr) -> bool {
        fs::canonicalize(name).is_ok_and(|path| path == self.path)
    }

    pub fn is(&self, other: &Place<'_>) -> bool {
        self.path == other.path
    }

    fn folder(&self) -> &Path {
        self.path.parent().unwrap_or(Path::new("/"))
    }
}

/// What is there is replaced only where it could be written too: a device would be lost, and a file may be guarded.
fn replaceable(path: &Path) -> io::Result<Metadata> {
    let found = fs::metadata(path)?;
    if found.is_dir() {
        return Err(io::ErrorKind::IsADirectory.into());
    }
    if !found.is_file() {
        return Err(io::Error::other("neither a file nor free for one"));
    }
    OpenOptions::new().write(true).open(path)?;
    Ok(found)
}

/// A place where nothing is: the last part of the name, in a folder that there is.
fn free(name: &Path) -> io::Result<PathBuf> {
    if fs::symlink_metadata(name).is_ok() {
        return Err(io::Error::other("a link that leads nowhere"));
    }
    let whole = name.as_os_str().as_encoded_bytes();
    let last = name.file_name().filter(|last| whole.ends_with(last.as_encoded_bytes()));
    let last = last.ok_or_else(|| io::Error::other("not the name of a file"))?;
    let folder = name.parent().filter(|folder| !folder.as_os_str().is_empty());
    Ok(fs::canonicalize(folder.unwrap_or(Path::new(".")))?.join(last))
}

/// A file that is written in full beside its place. Where it is not moved there, it is removed.
struct Beside<'p> {
    place: &'p Place<'p>,
    path: PathBuf,
    moved: bool,
}

impl<'p> Beside<'p> {
    fn new(place: &'p Place<'p>, bytes: &[u8]) -> Result<Beside<'p>, Failure> {
        let told = |why| Failure::file(place.name, why);
        let (path, file) = create(place.folder()).map_err(told)?;
        let beside = Beside { place, path, moved: false };
        fill(file, place.replaced.as_ref(), bytes).map_err(told)?;
        Ok(beside)
    }

    fn moved(mut self) -> Result<(), Failure> {
        fs::rename(&self.path, &self.place.path).map_err(|why| Failure::file(self.place.name, why))?;
        self.moved = true;
        // So that it lasts before the next one is moved. Not every file system can do this, and the file is whole either way.
        if let Ok(folder) = File::open(self.place.folder()) {
            let _ = folder.sync_all();
        }
        Ok(())
    }
}

impl Drop for Beside<'_> {
    fn drop(&mut self) {
        if !self.moved {
            let _ = fs::remove_file(&self.path);
        }
    }
}

/// So many names are tried. Only a run that was killed leaves one behind.
const NAMES: u32 = 1000;

/// A file by a name that no other has. The name is short, whatever the name of its place.
fn create(folder: &Path) -> io::Result<(PathBuf, File)> {
    let mut turn = 0;
    loop {
        let path = folder.join(format!(".grain-{}-{turn}.tmp", process::id()));
        match File::create_new(&path) {
            Err(why) if why.kind() == io::ErrorKind::AlreadyExists && turn < NAMES => turn += 1,
            created => return created.map(|file| (path, file)),
        }
    }
}

/// The bytes, on the disk and not on their way to it. Who may read them is settled before they are there.
fn fill(mut file: File, replaced: Option<&Metadata>, bytes: &[u8]) -> io::Result<()> {
    if let Some(replaced) = replaced {
        // Its owner may be given only by some; the mode by everyone.
        let _ = fchown(&file, Some(replaced.uid()), Some(replaced.gid()));
        file.set_permissions(replaced.permissions())?;
    }
    file.write_all(bytes)?;
    file.sync_all()
}
