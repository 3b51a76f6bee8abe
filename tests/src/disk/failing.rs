//! The files of the disk, with one call that fails.

use std::cell::Cell;
use std::fs::{Files, Metadata, OpenFile, OpenOptions};
use std::io::{self, ErrorKind, Read, Seek, SeekFrom, Write};
use std::path::PathBuf;

/// Counts calls down, and fails the first one after them with an error of its kind.
#[derive(Clone, Copy)]
pub struct Countdown<'a> {
    pub left: &'a Cell<u64>,
    pub kind: ErrorKind,
}

impl Countdown<'_> {
    fn spend(self) -> io::Result<()> {
        let left = self.left.get();
        self.left.set(left.wrapping_sub(1));
        if left == 0 {
            return Err(self.kind.into());
        }
        Ok(())
    }
}

/// Files whose calls count down, and so do the calls on their open files.
#[derive(Drop)]
pub struct Failing<'a, R: Files> {
    pub files: R,
    pub countdown: Countdown<'a>,
}

/// An open file of such files. It takes and gives at most three bytes at a time.
#[derive(Drop)]
pub struct FailingFile<'a, F: Drop> {
    file: F,
    countdown: Countdown<'a>,
}

impl<'a, R: Files> Files for Failing<'a, R> {
    type File = FailingFile<'a, R::File>;

    type Dir = R::Dir;

    fn open_file(&self, how: &OpenOptions, path: &str) -> io::Result<FailingFile<'a, R::File>> {
        self.countdown.spend()?;
        let countdown = self.countdown;
        let file = self.files.open_file(how, path)?;
        Ok(FailingFile { file, countdown })
    }

    fn open_dir(&self, path: &str) -> io::Result<R::Dir> {
        self.countdown.spend()?;
        self.files.open_dir(path)
    }

    fn metadata(&self, path: &str) -> io::Result<Metadata> {
        self.countdown.spend()?;
        self.files.metadata(path)
    }

    fn symlink_metadata(&self, path: &str) -> io::Result<Metadata> {
        self.countdown.spend()?;
        self.files.symlink_metadata(path)
    }

    fn copy(&self, from: &str, to: &str) -> io::Result<u64> {
        self.countdown.spend()?;
        self.files.copy(from, to)
    }

    fn rename(&self, from: &str, to: &str) -> io::Result<()> {
        self.countdown.spend()?;
        self.files.rename(from, to)
    }

    fn remove_file(&self, path: &str) -> io::Result<()> {
        self.countdown.spend()?;
        self.files.remove_file(path)
    }

    fn create_dir(&self, path: &str) -> io::Result<()> {
        self.countdown.spend()?;
        self.files.create_dir(path)
    }

    fn remove_dir(&self, path: &str) -> io::Result<()> {
        self.countdown.spend()?;
        self.files.remove_dir(path)
    }

    fn remove_dir_all<B: std::alloc::Allocator>(&self, alloc: B, path: &str) -> io::Result<()> {
        self.countdown.spend()?;
        self.files.remove_dir_all(alloc, path)
    }

    fn read_link<B: std::alloc::Allocator>(&self, alloc: B, path: &str) -> io::Result<PathBuf<B>> {
        self.countdown.spend()?;
        self.files.read_link(alloc, path)
    }
}

impl<F: Read + Drop> Read for FailingFile<'_, F> {
    fn read(&mut self, buf: &mut [u8]) -> io::Result<usize> {
        self.countdown.spend()?;
        let most = buf.len().min(3);
        self.file.read(&mut buf[..most])
    }
}

impl<F: Write + Drop> Write for FailingFile<'_, F> {
    fn write(&mut self, buf: &[u8]) -> io::Result<usize> {
        self.countdown.spend()?;
        let most = buf.len().min(3);
        self.file.write(&buf[..most])
    }

    fn flush(&mut self) -> io::Result<()> {
        self.file.flush()
    }
}

impl<F: Seek + Drop> Seek for FailingFile<'_, F> {
    fn seek(&mut self, to: SeekFrom) -> io::Result<u64> {
        self.countdown.spend()?;
        self.file.seek(to)
    }
}

impl<F: OpenFile + Drop> OpenFile for FailingFile<'_, F> {
    fn metadata(&self) -> io::Result<Metadata> {
        self.countdown.spend()?;
        self.file.metadata()
    }

    fn set_len(&self, size: u64) -> io::Result<()> {
        self.countdown.spend()?;
        self.file.set_len(size)
    }

    fn sync_all(&self) -> io::Result<()> {
        self.countdown.spend()?;
        self.file.sync_all()
    }

    fn sync_data(&self) -> io::Result<()> {
        self.countdown.spend()?;
        self.file.sync_data()
    }
}
