//! A folder with a log, its job, its table and its side file: makes and writes its files, and the listing that is expected for it.

use std::fs;
use std::io;
use std::path::Path;

use crate::chart::Chain;
use crate::listing::{self, Files};
use crate::pieces;
use crate::records::RECORD;
use crate::search::Job;

/// A log with its job, its table and its side file; a file may be missing.
pub struct Folder {
    pub job: Option<Vec<u8>>,
    pub table: Option<Vec<u8>>,
    pub scale: Option<Vec<u8>>,
    pub log: Option<Vec<u8>>,
}

impl Folder {
    pub fn new(job: &Job, chains: &[Chain], log: &[[u8; RECORD]]) -> Folder {
        Folder {
            job: Some(pieces::job(job)),
            table: Some(pieces::table(chains)),
            scale: Some(pieces::scale(chains)),
            log: Some(log.concat()),
        }
    }

    /// The bytes of its files; a missing one counts as empty.
    pub fn files(&self) -> Files<'_> {
        let [job, table, scale, log] =
            [&self.job, &self.table, &self.scale, &self.log].map(|file| file.as_deref().unwrap_or_default());
        Files { job, table, scale, log }
    }

    pub fn set_job_byte(&mut self, index: usize, value: u8) {
        if let Some(job) = &mut self.job {
            job[index] = value;
        }
    }

    pub fn listing(&self) -> io::Result<Vec<u8>> {
        let mut text = Vec::new();
        listing::list(&self.files(), None, &mut text)?;
        Ok(text)
    }

    /// Writes the files, and the listing as `expected`.
    pub fn write(&self, path: &Path) -> io::Result<()> {
        fs::create_dir_all(path)?;
        let names = ["job.dat", "chain.dat", "scale.dat", "lay.dat"];
        for (name, bytes) in names.into_iter().zip([&self.job, &self.table, &self.scale, &self.log]) {
            match bytes {
                Some(bytes) => fs::write(path.join(name), bytes)?,
                None => remove(&path.join(name))?,
            }
        }
        fs::write(path.join("expected"), self.listing()?)
    }
}

/// Removes a file that an earlier run may have left where one is to be missing.
fn remove(path: &Path) -> io::Result<()> {
    match fs::remove_file(path) {
        Err(error) if error.kind() != io::ErrorKind::NotFound => Err(error),
        _ => Ok(()),
    }
}
