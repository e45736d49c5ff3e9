//! The guard from Rust, over the archive's entries: `rustc main.rs -L DIRECTORY -l static=guard`.
//!
//!     let mut files = Files::new(|request| ask_the_host(request));    // gives the host's reply
//!     files.create("/a", 7)?;
//!     let handle = files.open("/a", READ | WRITE)?;
//!     files.write(handle, b"bytes")?;
//!     let (image, digest) = files.guard.save()?;                      // the digest stays where the host cannot write
//!     files.guard = Reader::fresh();                                  // a read-only guard, which loads such an image

use std::fmt;

pub const READ: u8 = 1;
pub const WRITE: u8 = 2;
const MEMORY: usize = 52864;
const ANSWER: usize = 9690;
const REQUEST: usize = 1037;
const IMAGE: usize = 44776;
const DIGEST: usize = 32;

#[repr(C)]
struct Outcome { kind: i32, number: u64, length: usize }
type In = *const u8;
type Out = *mut u8;
type Entry = unsafe extern "C" fn(Out, usize, In, usize, Out, usize, Out, usize) -> Outcome;

extern "C" {
    fn guard_entry_fresh(m: Out, n: usize) -> Outcome;
    fn guard_entry_call(m: Out, n: usize, call: In, c: usize, answer: Out, a: usize, ask: Out, r: usize) -> Outcome;
    fn guard_entry_reader_call(m: Out, n: usize, call: In, c: usize, to: Out, a: usize, ask: Out, r: usize) -> Outcome;
    fn guard_entry_reply(m: Out, n: usize, reply: In, c: usize, answer: Out, a: usize, ask: Out, r: usize) -> Outcome;
    fn guard_entry_save(m: Out, n: usize, image: Out, i: usize, digest: Out) -> Outcome;
    fn guard_entry_load(m: Out, n: usize, image: In, i: usize, digest: In, d: usize) -> Outcome;
}

/// Why nothing was done.
#[derive(Debug, Clone, PartialEq)]
pub enum Failure {
    /// The guard's number; nothing has changed. 28 may be the host's disk: the call is over.
    Refused(u64),
    /// The host's reply is wrong: the reason, and the request. From now on everything is refused 5.
    Stopped(u64, Vec<u8>),
}

impl fmt::Display for Failure {
    fn fmt(&self, f: &mut fmt::Formatter) -> fmt::Result {
        let (Failure::Refused(number) | Failure::Stopped(number, _)) = self;
        write!(f, "{} {number}", if let Failure::Refused(_) = self { "refused" } else { "stopped" })
    }
}
impl std::error::Error for Failure {}
type Or<T> = Result<T, Failure>;
type Given = (u64, Vec<u8>);
pub enum Step { Done(u64, Vec<u8>), Ask(Vec<u8>) }

/// One guard. What it is lent is borrowed for the entry alone, so nobody writes it meanwhile.
pub struct Guard { memory: Vec<u8>, answer: Vec<u8>, request: Vec<u8>, calls: Entry }

/// A read-only guard: it takes open to read, close, seek, read, readdir and stat. All else is refused 30.
pub struct Reader;
impl Reader { pub fn fresh() -> Guard { Guard::with(guard_entry_reader_call) } }

impl Guard {
    pub fn fresh() -> Guard { Guard::with(guard_entry_call) }
    fn with(calls: Entry) -> Guard {
        let (mut memory, answer, request) = (vec![0; MEMORY], vec![0; ANSWER], vec![0; REQUEST]);
        unsafe { guard_entry_fresh(memory.as_mut_ptr(), MEMORY) };
        Guard { memory, answer, request, calls }
    }

    fn enter(&mut self, entry: Entry, bytes: &[u8]) -> Or<Step> {
        let (m, a, r) = (self.memory.as_mut_ptr(), self.answer.as_mut_ptr(), self.request.as_mut_ptr());
        let o = unsafe { entry(m, MEMORY, bytes.as_ptr(), bytes.len(), a, ANSWER, r, REQUEST) };
        match o.kind {
            0 => Ok(Step::Done(o.number, self.answer[..o.length].to_vec())),
            1 => Ok(Step::Ask(self.request[..o.length].to_vec())),
            2 => Err(Failure::Refused(o.number)),
            _ => Err(Failure::Stopped(o.number, Vec::new())),
        }
    }

    pub fn call(&mut self, call: &[u8]) -> Or<Step> { self.enter(self.calls, call) }
    pub fn reply(&mut self, reply: &[u8]) -> Or<Step> { self.enter(guard_entry_reply, reply) }

    /// The image and its digest.
    pub fn save(&mut self) -> Or<(Vec<u8>, [u8; DIGEST])> {
        let (mut image, mut digest) = (vec![0; IMAGE], [0; DIGEST]);
        let m = self.memory.as_mut_ptr();
        let o = unsafe { guard_entry_save(m, MEMORY, image.as_mut_ptr(), IMAGE, digest.as_mut_ptr()) };
        image.truncate(o.length);
        if o.kind == 0 { Ok((image, digest)) } else { Err(Failure::Refused(o.number)) }
    }

    pub fn load(&mut self, image: &[u8], digest: &[u8]) -> Or<()> {
        let memory = self.memory.as_mut_ptr();
        let o = unsafe { guard_entry_load(memory, MEMORY, image.as_ptr(), image.len(), digest.as_ptr(), digest.len()) };
        if o.kind == 0 { Ok(()) } else { Err(Failure::Refused(o.number)) }
    }
}

/// The calls, through a guard, with `ask` for the host.
pub struct Files<A: FnMut(&[u8]) -> Vec<u8>> { pub guard: Guard, pub ask: A }

impl<A: FnMut(&[u8]) -> Vec<u8>> Files<A> {
    pub fn new(ask: A) -> Self { Files { guard: Guard::fresh(), ask } }

    /// A call with its requests: its number and bytes.
    pub fn call(&mut self, call: &[u8]) -> Or<Given> {
        let mut step = self.guard.call(call)?;
        loop {
            match step {
                Step::Done(number, bytes) => return Ok((number, bytes)),
                Step::Ask(request) => {
                    step = self.guard.reply(&(self.ask)(&request)).map_err(|failure| match failure {
                        Failure::Stopped(reason, _) => Failure::Stopped(reason, request),
                        other => other,
                    })?;
                }
            }
        }
    }

    fn by_path(&mut self, front: &[u8], path: &str) -> Or<Given> { self.call(&[front, path.as_bytes()].concat()) }
    fn by_handle(&mut self, kind: u8, handle: u32, rest: &[u8]) -> Or<Given> {
        self.call(&[&[kind], &handle.to_le_bytes()[..], rest].concat())
    }

    pub fn create(&mut self, path: &str, mode: u8) -> Or<u32> { Ok(self.by_path(&[1, mode], path)?.0 as u32) }
    pub fn mkdir(&mut self, path: &str, mode: u8) -> Or<u32> { Ok(self.by_path(&[2, mode], path)?.0 as u32) }
    pub fn open(&mut self, path: &str, rights: u8) -> Or<u32> { Ok(self.by_path(&[3, rights], path)?.0 as u32) }
    pub fn close(&mut self, handle: u32) -> Or<()> { self.by_handle(4, handle, &[]).map(|_| ()) }
    pub fn seek(&mut self, handle: u32, at: u64) -> Or<u64> { Ok(self.by_handle(5, handle, &at.to_le_bytes())?.0) }
    pub fn read(&mut self, handle: u32, n: u32) -> Or<Vec<u8>> { Ok(self.by_handle(6, handle, &n.to_le_bytes())?.1) }
    /// How many bytes: on a full disk fewer than were given.
    pub fn write(&mut self, handle: u32, bytes: &[u8]) -> Or<u64> { Ok(self.by_handle(7, handle, bytes)?.0) }
    pub fn truncate(&mut self, h: u32, size: u64) -> Or<()> { self.by_handle(8, h, &size.to_le_bytes()).map(|_| ()) }
    pub fn remove(&mut self, path: &str) -> Or<()> { self.by_path(&[9], path).map(|_| ()) }
    pub fn rmdir(&mut self, path: &str) -> Or<()> { self.by_path(&[10], path).map(|_| ()) }
    pub fn chmod(&mut self, path: &str, mode: u8) -> Or<()> { self.by_path(&[11, mode], path).map(|_| ()) }
    /// Entries of id (4), kind (1), length of the name (1), name.
    pub fn readdir(&mut self, path: &str) -> Or<Vec<u8>> { Ok(self.by_path(&[12], path)?.1) }
    /// Id (4), kind (1), mode (1), size (4).
    pub fn stat(&mut self, path: &str) -> Or<Vec<u8>> { Ok(self.by_path(&[13], path)?.1) }
    pub fn map(&mut self, n: u32) -> Or<u64> { Ok(self.call(&[&[14], &n.to_le_bytes()[..]].concat())?.0) }
    pub fn unmap(&mut self, at: u64) -> Or<()> { self.call(&[&[15], &at.to_le_bytes()[..]].concat()).map(|_| ()) }
    /// Nothing is replaced. A path of over 255 bytes has no byte for its length: the 0 in its place is refused 22.
    pub fn rename(&mut self, path: &str, new: &str) -> Or<()> {
        self.by_path(&[&[16, path.len().min(256) as u8], path.as_bytes()].concat(), new).map(|_| ())
    }
}
