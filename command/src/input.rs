//! Files to read, and standard input under the name `-`. Memory goes by the bytes that are there, never by what they claim.

use std::fs::File;
use std::io;
use std::io::BufRead;
use std::io::BufReader;
use std::io::Read;
use std::path::Path;

use crate::claims;
use crate::failure::Failure;
use crate::progress::Progress;

const BUFFER_BYTES: usize = 1 << 16;

/// How a file is called in messages.
pub fn name_of(path: &Path) -> String {
    match path == Path::new("-") {
        true => "standard input".to_string(),
        false => path.display().to_string(),
    }
}

pub struct Opened {
    pub name: String,
    pub bytes: Box<dyn BufRead>,
    /// None where nothing tells it before the end, as with a pipe.
    pub length: Option<u64>,
}

pub fn standard_input() -> Opened {
    Opened {
        name: name_of(Path::new("-")),
        bytes: Box::new(BufReader::with_capacity(BUFFER_BYTES, io::stdin())),
        length: None,
    }
}

pub fn open(path: &Path) -> Result<Opened, Failure> {
    if path == Path::new("-") {
        return Ok(standard_input());
    }
    let name = name_of(path);
    let file = File::open(path).map_err(Failure::of_file(&name))?;
    let about = file.metadata().map_err(Failure::of_file(&name))?;
    Ok(Opened {
        name,
        bytes: Box::new(BufReader::with_capacity(BUFFER_BYTES, file)),
        length: about.is_file().then_some(about.len()),
    })
}

/// The bytes of a stream's file, refused by 2 if there are more than a reader takes.
pub fn read_stream(path: &Path, progress: &Progress) -> Result<Vec<u8>, Failure> {
    let opened = open(path)?;
    let judge_length = |bytes| claims::judge_length(bytes).map_err(|told| told.about(&opened.name));
    judge_length(opened.length.unwrap_or(0))?;
    progress.begin(format_args!("reading {}", opened.name), None);
    let mut stream = Vec::new();
    opened
        .bytes
        .take(claims::MOST_STREAM_BYTES + 1)
        .read_to_end(&mut stream)
        .map_err(Failure::of_file(&opened.name))?;
    judge_length(stream.len() as u64)?;
    Ok(stream)
}
