//! The inputs of a program: one that is there, and one of which a part comes late.

use std::io::{self, ErrorKind, PipeReader, PipeWriter, Write};
use std::os::fd::{AsRawFd, RawFd};
use std::process::{Child, Command, Output, Stdio};
use std::time::Duration;

pub enum Input<'a> {
    Whole(&'a [u8]),
    /// A pipe that does not block, and the bytes that are not in it as long as the program runs.
    Late(&'a [u8], &'a [u8]),
}

/// For so many pauses the late bytes are kept back. A program that waits for them gets them then, and so ends.
const PAUSES: usize = 1000;

const PAUSE: Duration = Duration::from_millis(20);

extern "C" {
    fn fcntl(descriptor: RawFd, command: i32, ...) -> i32;
}

const F_SETFL: i32 = 4;
const O_NONBLOCK: i32 = 0o4000;

fn pipe(blocks: bool) -> io::Result<(PipeReader, PipeWriter)> {
    let (reader, writer) = io::pipe()?;
    // The call reads and writes no memory of this program.
    if !blocks && unsafe { fcntl(reader.as_raw_fd(), F_SETFL, O_NONBLOCK) } == -1 {
        return Err(io::Error::last_os_error());
    }
    Ok((reader, writer))
}

/// A program need not read all of its input.
fn feed(writer: &mut PipeWriter, bytes: &[u8]) -> io::Result<()> {
    match writer.write_all(bytes) {
        Err(error) if error.kind() == ErrorKind::BrokenPipe => Ok(()),
        result => result,
    }
}

fn wait_for_end(child: &mut Child) -> io::Result<()> {
    for _ in 0..PAUSES {
        if child.try_wait()?.is_some() {
            break;
        }
        std::thread::sleep(PAUSE);
    }
    Ok(())
}

/// Starts the program on this input, and gives how it ended.
pub fn output(mut command: Command, input: Input) -> io::Result<Output> {
    let (reader, mut writer) = pipe(matches!(input, Input::Whole(_)))?;
    if let Input::Late(first, _) = input {
        writer.write_all(first)?;
    }
    let mut child = command.stdin(reader).stdout(Stdio::piped()).stderr(Stdio::piped()).spawn()?;
    // It holds the reading end, and would keep the pipe from breaking.
    drop(command);
    match input {
        Input::Whole(bytes) => feed(&mut writer, bytes)?,
        Input::Late(_, late) => {
            wait_for_end(&mut child)?;
            feed(&mut writer, late)?;
        }
    }
    drop(writer);
    child.wait_with_output()
}
