// Runs the program under test: its input by pipe or file, its output held whole, its end awaited; and with an input or an output that
// fails.
#![allow(dead_code)]
use ships::Random;
use std::fs::{remove_file, File, OpenOptions};
use std::io::{Read, Seek, SeekFrom, Write};
use std::os::unix::io::OwnedFd;
use std::os::unix::net::UnixStream;
use std::os::unix::process::ExitStatusExt;
use std::process::{Child, ChildStdin, Command, ExitStatus, Stdio};
use std::thread::{sleep, spawn, JoinHandle};
use std::time::{Duration, Instant};

const LONGEST: Duration = Duration::from_secs(100);

pub struct Ran {
    pub text: String,
    pub complaint: String,
    // None when it had to be stopped.
    pub status: Option<ExitStatus>,
}

impl Ran {
    // The output of a run that ended as it should.
    pub fn whole(self) -> Result<String, String> {
        match self.status {
            Some(status) if status.success() && self.complaint.is_empty() => Ok(self.text),
            Some(status) => Err(format!("the program ended with {} and said '{}'", status, self.complaint)),
            None => Err("the program did not end".to_string()),
        }
    }
    // No message, and no end by a fault; that the reader left may be the reason of its end.
    pub fn quiet(&self) -> Result<(), String> {
        match self.status.map(|status| status.signal()) {
            None => Err("the program did not end".to_string()),
            Some(Some(signal)) if signal != 13 => Err(format!("the program was ended by signal {}", signal)),
            _ if !self.complaint.is_empty() => Err(format!("the program said '{}'", self.complaint)),
            _ => Ok(()),
        }
    }
    // This text and this message, and no other end than after success.
    pub fn said(self, text: &str, complaint: &str) -> Result<(), String> {
        match self.status {
            Some(status) if status.success() && self.text == text && self.complaint == complaint => Ok(()),
            status => Err(format!("it ended with {:?}, printed '{}' and said '{}'", status, self.text, self.complaint)),
        }
    }
}

fn start(program: &[String], input: Stdio) -> Child {
    start_onto(program, input, Stdio::piped())
}

fn start_onto(program: &[String], input: Stdio, output: Stdio) -> Child {
    let mut command = Command::new(&program[0]);
    command.args(&program[1..]).stdin(input).stdout(output).stderr(Stdio::piped());
    command.spawn().expect("the program under test can be started")
}

fn reader<R: Read + Send + 'static>(mut from: R) -> JoinHandle<Vec<u8>> {
    spawn(move || {
        let mut bytes = Vec::new();
        from.read_to_end(&mut bytes).expect("output can be read");
        bytes
    })
}

fn await_end(child: &mut Child) -> Option<ExitStatus> {
    let begun = Instant::now();
    while begun.elapsed() < LONGEST {
        if let Some(status) = child.try_wait().expect("the program can be awaited") {
            return Some(status);
        }
        sleep(Duration::from_millis(2));
    }
    child.kill().expect("the program can be stopped");
    child.wait().expect("the program can be awaited");
    None
}

fn plain(bytes: Vec<u8>) -> String {
    String::from_utf8_lossy(&bytes).into_owned()
}

// What went elsewhere than into a pipe is not held.
fn collect(mut child: Child) -> Ran {
    let (text, complaint) = (child.stdout.take().map(reader), reader(child.stderr.take().unwrap()));
    let status = await_end(&mut child);
    let text = text.map_or(Vec::new(), |text| text.join().unwrap());
    Ran { text: plain(text), complaint: plain(complaint.join().unwrap()), status }
}

// Feeds by pipe, and hands the pipe back still open. A program that has read enough may be gone: that is no fault here.
fn feed(mut pipe: ChildStdin, bytes: Vec<u8>, mut odd: Option<Random>) -> JoinHandle<ChildStdin> {
    spawn(move || {
        let mut rest = &bytes[..];
        while !rest.is_empty() {
            let most = odd.as_mut().map_or(rest.len(), |random| random.from(1, 1_500) as usize);
            let (piece, after) = rest.split_at(most.min(rest.len()));
            if pipe.write_all(piece).is_err() {
                break;
            }
            // Now and then the program shall have read all there is and find half a block.
            if odd.as_mut().map_or(false, |random| random.one_in(50)) {
                sleep(Duration::from_millis(1));
            }
            rest = after;
        }
        pipe
    })
}

pub fn by_pipe(program: &[String], bytes: &[u8], odd: Option<Random>) -> Ran {
    let mut child = start(program, Stdio::piped());
    let feeder = feed(child.stdin.take().unwrap(), bytes.to_vec(), odd);
    let closer = spawn(move || drop(feeder.join().unwrap()));
    let ran = collect(child);
    closer.join().unwrap();
    ran
}

// The input never ends: only a program that stops by itself does.
pub fn by_open_pipe(program: &[String], bytes: &[u8]) -> Ran {
    let mut child = start(program, Stdio::piped());
    let feeder = feed(child.stdin.take().unwrap(), bytes.to_vec(), None);
    let ran = collect(child);
    drop(feeder.join().unwrap());
    ran
}

// From a file, whose place afterwards tells how far it was read.
pub fn by_file(program: &[String], bytes: &[u8]) -> (Ran, u64) {
    let path = std::env::temp_dir().join(format!("fleet-{}.blocks", std::process::id()));
    let mut file: File = OpenOptions::new().create(true).truncate(true).read(true).write(true).open(&path).expect("room for a file");
    remove_file(&path).expect("the file's name can go");
    file.write_all(bytes).expect("room for a file");
    file.seek(SeekFrom::Start(0)).unwrap();
    let ran = collect(start(program, Stdio::from(file.try_clone().unwrap())));
    (ran, file.seek(SeekFrom::Current(0)).unwrap())
}

// The reader of the output leaves after so many bytes.
pub fn with_reader_gone(program: &[String], bytes: &[u8], after: usize) -> Ran {
    let mut child = start(program, Stdio::piped());
    let feeder = feed(child.stdin.take().unwrap(), bytes.to_vec(), None);
    let closer = spawn(move || drop(feeder.join().unwrap()));
    let mut output = child.stdout.take().unwrap();
    output.read_exact(&mut vec![0; after]).expect("some output first");
    drop(output);
    let complaint = reader(child.stderr.take().unwrap());
    let status = await_end(&mut child);
    closer.join().unwrap();
    Ran { text: String::new(), complaint: plain(complaint.join().unwrap()), status }
}

// The input is a folder, which can be opened but not read.
pub fn from_folder(program: &[String]) -> Ran {
    collect(start(program, Stdio::from(File::open("/").expect("the root folder can be opened"))))
}

// The input fails after these bytes, so many as a socket holds: whoever reads on is told to come again, and doesn't wait.
pub fn from_failing(program: &[String], bytes: &[u8]) -> Ran {
    let (mut ours, theirs) = UnixStream::pair().expect("room for two sockets");
    theirs.set_nonblocking(true).expect("a socket needn't wait");
    ours.write_all(bytes).expect("room in a socket");
    let ran = collect(start(program, Stdio::from(OwnedFd::from(theirs))));
    drop(ours);
    ran
}

pub fn onto_full_disk(program: &[String], bytes: &[u8]) -> Ran {
    let full = OpenOptions::new().write(true).open("/dev/full").expect("/dev/full can be opened");
    let mut child = start_onto(program, Stdio::piped(), Stdio::from(full));
    let feeder = feed(child.stdin.take().unwrap(), bytes.to_vec(), None);
    let closer = spawn(move || drop(feeder.join().unwrap()));
    let ran = collect(child);
    closer.join().unwrap();
    ran
}
