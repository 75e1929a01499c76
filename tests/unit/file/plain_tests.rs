//! A path of anything but a plain file is no source: it is refused at once, though the opening of a pipe would wait for a writer.

use crate::file::steps::{open, open_files};
use crate::fixtures::is_same;
use iiif_open_files::PathSource;
use iiif_source::{ReadFault, Source};
use std::alloc::Global;
use std::fs::File;
use std::io::{ErrorKind, PipeReader};
use std::os::fd::AsRawFd;
use std::os::unix::fs::symlink;
use std::rt::Files;
use std::sync::Wait;
use std::test::Fail;
use std::{fs, io};

/// The path of a pipe that nobody writes into.
fn path_of(alloc: Global, pipe: &PipeReader) -> Result<String, Fail> {
    Ok(format!(in alloc; "/proc/self/fd/{}", pipe.as_raw_fd())?)
}

/// A pipe that nobody writes into.
fn pipe<R: Files<File = File>>(rt: &R) -> Result<PipeReader, Fail> {
    let (reader, _writer) = io::pipe(rt)?;
    Ok(reader)
}

/// Whether what stands under a path is refused as what isn't a plain file.
fn is_refused<R>(rt: &R, path: &str) -> Result<bool, Fail>
where
    R: Files<File = File> + Wait + AllocGlobal,
{
    let files = open_files(rt.alloc(), 1)?;
    match open(rt, rt.alloc(), &files, path)? {
        Ok(_) => Ok(false),
        Err(error) => Ok(
            is_same(&error.kind(), &ErrorKind::InvalidInput) && is_same(&files.kept(rt), &0),
        ),
    }
}

#[test]
fn path_of_no_plain_file_is_refused(rt: HostRuntime) -> Result<(), Fail> {
    let pipe = pipe(&rt)?;
    let path = path_of(rt.alloc(), &pipe)?;
    for path in [path.as_str(), ".", "/dev/null", "/dev/zero"] {
        assert!(rt; is_refused(&rt, path)?, "{path}");
    }
    Ok(())
}

/// The fault of a read of a file whose name a pipe took once it was closed.
fn fault_of<R>(rt: &R, path: &str, beside: &str) -> Result<Option<ReadFault>, Fail>
where
    R: Files<File = File> + Wait + AllocGlobal,
{
    fs::write(rt, path, &[1, 2, 3])?;
    fs::write(rt, beside, &[4, 5, 6])?;
    let files = open_files(rt.alloc(), 1)?;
    let source = open(rt, rt.alloc(), &files, path)??;
    let _other: PathSource<R> = open(rt, rt.alloc(), &files, beside)??;
    let pipe = pipe(rt)?;
    fs::remove_file(rt, path)?;
    symlink(rt, path_of(rt.alloc(), &pipe)?.as_str(), path)?;
    let mut pair = [0; 2];
    if !is_same(&Source::<R>::len(&source), &3) {
        return Ok(None);
    }
    Ok(source.read_at(rt, 1, &mut pair).err())
}

#[test]
fn read_fails_where_a_pipe_has_taken_the_name_of_the_file(rt: HostRuntime) -> Result<(), Fail> {
    let fault = fault_of(&rt, "plain_replaced", "plain_beside")?;
    let failed = ReadFault {
        place: 1,
        cause: ReadFault::FAILED,
    };
    assert!(rt; is_same(&fault, &Some(failed)));
    fs::remove_file(&rt, "plain_replaced")?;
    Ok(fs::remove_file(&rt, "plain_beside")?)
}
