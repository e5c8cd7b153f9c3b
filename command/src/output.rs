//! What is written: to standard output, or to a file, which appears whole or not at all.

use std::fs;
use std::fs::File;
use std::io;
use std::io::BufWriter;
use std::io::IsTerminal;
use std::io::Write;
use std::path::Path;
use std::path::PathBuf;
use std::process;

use crate::failure::Failure;
use crate::progress::Progress;

const BUFFER_BYTES: usize = 1 << 16;

/// A file, or standard output where none is named.
pub struct Output {
    path: Option<PathBuf>,
}

impl Output {
    pub fn new(path: Option<PathBuf>) -> Self {
        Self {
            path: path.filter(|path| path != Path::new("-")),
        }
    }

    fn name(&self) -> String {
        match &self.path {
            Some(path) => path.display().to_string(),
            None => "standard output".to_string(),
        }
    }

    pub fn is_file(&self) -> bool {
        self.path.is_some()
    }

    pub fn is_terminal(&self) -> bool {
        self.path.is_none() && io::stdout().is_terminal()
    }

    /// To be called once all has been judged. What goes to standard output may share a terminal with the progress line, so that ends first.
    pub fn write(
        &self,
        progress: Progress,
        content: impl FnOnce(&mut dyn Write) -> io::Result<()>,
    ) -> Result<(), Failure> {
        match &self.path {
            Some(path) => {
                progress.begin(format_args!("writing {}", self.name()), None);
                write_file(path, content)
            }
            None => {
                drop(progress);
                write_through(io::stdout().lock(), content)
            }
        }
        .map_err(Failure::of_file(self.name()))
    }
}

/// A few lines for whoever asked.
pub fn print(lines: &str) -> Result<(), Failure> {
    write_through(io::stdout().lock(), |out| out.write_all(lines.as_bytes()))
        .map_err(Failure::of_file("standard output"))
}

fn write_through(
    to: impl Write,
    content: impl FnOnce(&mut dyn Write) -> io::Result<()>,
) -> io::Result<()> {
    let mut out = BufWriter::with_capacity(BUFFER_BYTES, to);
    content(&mut out)?;
    out.flush()
}

/// A file that is there already is replaced, and a link followed; what is no plain file, like /dev/null, is written into, since replacing it would
/// take it away.
fn write_file(
    path: &Path,
    content: impl FnOnce(&mut dyn Write) -> io::Result<()>,
) -> io::Result<()> {
    let Ok(existing) = fs::metadata(path) else {
        return write_beside(path, None, content);
    };
    if !existing.is_file() {
        return write_through(File::options().write(true).open(path)?, content);
    }
    write_beside(
        &fs::canonicalize(path)?,
        Some(existing.permissions()),
        content,
    )
}

/// Writes a file beside, and gives it the name only when it is whole.
fn write_beside(
    path: &Path,
    permissions: Option<fs::Permissions>,
    content: impl FnOnce(&mut dyn Write) -> io::Result<()>,
) -> io::Result<()> {
    let (partial, file) = create_beside(path)?;
    let written = permissions
        .map_or(Ok(()), |permissions| file.set_permissions(permissions))
        .and_then(|()| write_through(&file, content))
        .and_then(|()| file.sync_all())
        .and_then(|()| fs::rename(&partial, path));
    if written.is_err() {
        // What stopped the writing is what the message is about.
        let _ = fs::remove_file(&partial);
    }
    written
}

/// A new file in the same folder. A run that was killed may have left one, and another process of the same number may come.
fn create_beside(path: &Path) -> io::Result<(PathBuf, File)> {
    let name = path.file_name().ok_or(io::ErrorKind::InvalidInput)?;
    let mut attempt = 0;
    loop {
        let mut partial = name.to_owned();
        partial.push(format!(".{}-{attempt}.partial", process::id()));
        let partial = path.with_file_name(partial);
        match File::create_new(&partial) {
            Err(error) if error.kind() == io::ErrorKind::AlreadyExists => attempt += 1,
            created => return Ok((partial, created?)),
        }
    }
}
